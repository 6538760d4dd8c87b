//! The C functions of the archive, each behind a function on slices. A slice
//! is passed as its pointer and its length; the numbers of the answer are
//! `include/fuuqidhel.h`'s.

use crate::tables::Tables;

mod c {
    extern "C" {
        pub fn fuuqidhel_compile(
            plan: *const u8,
            plan_length: usize,
            kinds: *mut u8,
            kinds_length: usize,
            rows: *mut u16,
            rows_length: usize,
            arcs: *mut u16,
            arcs_length: usize,
            answer: *mut usize,
            answer_length: usize,
        ) -> bool;

        pub fn fuuqidhel_fire(
            kinds: *const u8,
            kinds_length: usize,
            rows: *const u16,
            rows_length: usize,
            arcs: *const u16,
            arcs_length: usize,
            places: usize,
            transitions: usize,
            arc_count: usize,
            marking: *mut u8,
            marking_length: usize,
            step: *const u8,
            step_length: usize,
            answer: *mut usize,
            answer_length: usize,
        ) -> bool;

        pub fn fuuqidhel_enabled(
            kinds: *const u8,
            kinds_length: usize,
            rows: *const u16,
            rows_length: usize,
            arcs: *const u16,
            arcs_length: usize,
            places: usize,
            transitions: usize,
            arc_count: usize,
            marking: *const u8,
            marking_length: usize,
            list: *mut u16,
            list_length: usize,
            answer: *mut usize,
            answer_length: usize,
        ) -> bool;

        pub fn fuuqidhel_replay(
            plan: *const u8,
            plan_length: usize,
            record: *const u8,
            record_length: usize,
            marking: *mut u8,
            marking_length: usize,
            answer: *mut usize,
            answer_length: usize,
        ) -> bool;
    }
}

/// Number, carried, places, transitions, arcs, entries, internals.
pub fn compile(plan: &[u8], kinds: &mut [u8], rows: &mut [u16], arcs: &mut [u16]) -> [usize; 7] {
    let mut answer = [0; 7];
    // SAFETY: each pointer goes with its own slice's length, the slices live
    // through the call, and those that are written overlap no other.
    let told = unsafe {
        c::fuuqidhel_compile(
            plan.as_ptr(),
            plan.len(),
            kinds.as_mut_ptr(),
            kinds.len(),
            rows.as_mut_ptr(),
            rows.len(),
            arcs.as_mut_ptr(),
            arcs.len(),
            answer.as_mut_ptr(),
            answer.len(),
        )
    };
    assert!(told, "the answer has room");
    answer
}

/// Number, carried.
pub fn fire(tables: Tables<'_>, step: &[u8], marking: &mut [u8]) -> [usize; 2] {
    let mut answer = [0; 2];
    // SAFETY: as in `compile`.
    let told = unsafe {
        c::fuuqidhel_fire(
            tables.kinds.as_ptr(),
            tables.kinds.len(),
            tables.rows.as_ptr(),
            tables.rows.len(),
            tables.arcs.as_ptr(),
            tables.arcs.len(),
            tables.counts.places,
            tables.counts.transitions,
            tables.counts.arcs,
            marking.as_mut_ptr(),
            marking.len(),
            step.as_ptr(),
            step.len(),
            answer.as_mut_ptr(),
            answer.len(),
        )
    };
    assert!(told, "the answer has room");
    answer
}

/// Number, carried, how many, 1 where stuck.
pub fn enabled(tables: Tables<'_>, marking: &[u8], list: &mut [u16]) -> [usize; 4] {
    let mut answer = [0; 4];
    // SAFETY: as in `compile`.
    let told = unsafe {
        c::fuuqidhel_enabled(
            tables.kinds.as_ptr(),
            tables.kinds.len(),
            tables.rows.as_ptr(),
            tables.rows.len(),
            tables.arcs.as_ptr(),
            tables.arcs.len(),
            tables.counts.places,
            tables.counts.transitions,
            tables.counts.arcs,
            marking.as_ptr(),
            marking.len(),
            list.as_mut_ptr(),
            list.len(),
            answer.as_mut_ptr(),
            answer.len(),
        )
    };
    assert!(told, "the answer has room");
    answer
}

/// Number, carried, accepted steps, 1 where finished.
pub fn replay(plan: &[u8], record: &[u8], marking: &mut [u8]) -> [usize; 4] {
    let mut answer = [0; 4];
    // SAFETY: as in `compile`.
    let told = unsafe {
        c::fuuqidhel_replay(
            plan.as_ptr(),
            plan.len(),
            record.as_ptr(),
            record.len(),
            marking.as_mut_ptr(),
            marking.len(),
            answer.as_mut_ptr(),
            answer.len(),
        )
    };
    assert!(told, "the answer has room");
    answer
}
