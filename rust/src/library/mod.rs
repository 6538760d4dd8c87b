//! The proved library: its calls on lent slices, and [`Net`]'s methods over
//! them. No call panics, whatever it is lent, and none allocates but `Net`'s.
//!
//! ```
//! use fuuqidhel::{library, Enabled, Net, Reason};
//!
//! // (a‖b);c
//! let plan = [2, 0, 15, 4, 0, 8, 1, 0, 1, 1, 1, 0, 1, 2, 1, 0, 1, 3];
//! let net = Net::compile(&plan)?;
//! let mut marking = net.entry_marking();
//! assert_eq!(net.enabled(&marking)?, Enabled::Many(vec![0, 1]));
//!
//! let c = [0x20, 0, 4, 0x21, 0, 1, 2];
//! let refused = net.fire(&c, &mut marking).unwrap_err();
//! assert_eq!((refused.reason, refused.number()), (Reason::InputEmpty, 32));
//!
//! let both = [0x20, 0, 8, 0x21, 0, 1, 0, 0x21, 0, 1, 1];
//! net.fire(&both, &mut marking)?;
//! net.fire(&c, &mut marking)?;
//! assert!(net.is_finished(&marking));
//! assert_eq!(net.enabled(&marking)?, Enabled::Finished);
//!
//! let run = library::replay(&plan, &[&both[..], &c].concat(), &mut marking)?;
//! assert_eq!((run.steps, run.finished), (2, true));
//! # Ok::<(), Box<dyn std::error::Error>>(())
//! ```

#[allow(unsafe_code)]
mod raw;

use crate::answer::{Enabled, Reason, Refused, Replayed, Stopped};
use crate::limit;
use crate::tables::{Counts, Made, Net, Tables, ROW};

/// Compiles a plan into the lent tables, six numbers in `rows` for each
/// transition. Nothing is written on refusal, nor past the net's part.
pub fn compile(
    plan: &[u8],
    kinds: &mut [u8],
    rows: &mut [u16],
    arcs: &mut [u16],
) -> Result<Made, Refused> {
    let [number, carried, places, transitions, arcs, entries, internals] =
        raw::compile(plan, kinds, rows, arcs);
    accepted(number, carried)?;
    Ok(Made { counts: Counts { places, transitions, arcs }, entries, internals })
}

/// Fires one step field at a marking. Nothing is written on refusal, nor past
/// the net's part.
pub fn fire(tables: Tables<'_>, step: &[u8], marking: &mut [u8]) -> Result<(), Refused> {
    let [number, carried] = raw::fire(tables, step, marking);
    accepted(number, carried)
}

/// Writes the numbers of the enabled transitions to the front of `list`,
/// rising. Nothing is written on refusal, nor behind the list.
pub fn enabled(tables: Tables<'_>, marking: &[u8], list: &mut [u16]) -> Result<Enabled, Refused> {
    let [number, carried, count, stuck] = raw::enabled(tables, marking, list);
    accepted(number, carried)?;
    debug_assert!(count == 0 || stuck == 0, "the library says stuck of a list of none");
    Ok(match count {
        0 if stuck == 1 => Enabled::Stuck,
        0 => Enabled::Finished,
        _ => Enabled::Many(count),
    })
}

/// Replays a record from a plan's entry marking. The marking afterwards is the
/// one after the accepted steps; what it held before does not matter, and it
/// stays as it was where the plan, the marking's length or the record's length
/// is refused.
pub fn replay(plan: &[u8], record: &[u8], marking: &mut [u8]) -> Result<Replayed, Stopped> {
    let [number, carried, steps, finished] = raw::replay(plan, record, marking);
    accepted(number, carried).map_err(|refused| Stopped { refused, steps })?;
    Ok(Replayed { steps, finished: finished == 1 })
}

/// The refusal of a number that is not 0.
fn accepted(number: usize, carried: usize) -> Result<(), Refused> {
    if number == 0 {
        return Ok(());
    }
    let reason = Reason::of(number).expect("the library gives numbers of the paper's table");
    Err(Refused { reason, carried })
}

/// Calls of the library on the net's own tables.
impl Net {
    /// Compiles a plan.
    pub fn compile(plan: &[u8]) -> Result<Net, Refused> {
        let mut kinds = vec![0; limit::PLACES];
        let mut rows = vec![0; limit::TRANSITIONS * ROW];
        let mut arcs = vec![0; limit::ARCS];
        let Made { counts, entries, internals } = compile(plan, &mut kinds, &mut rows, &mut arcs)?;
        kinds.truncate(counts.places);
        rows.truncate(counts.transitions * ROW);
        arcs.truncate(counts.arcs);
        Ok(Net { entries, internals, kinds, rows, arcs })
    }

    /// Fires one step field at a marking, which stays as it was on refusal.
    pub fn fire(&self, step: &[u8], marking: &mut [u8]) -> Result<(), Refused> {
        fire(self.tables(), step, marking)
    }

    /// The numbers of the enabled transitions, rising; where there are none,
    /// whether the net is stuck or the run is over.
    pub fn enabled(&self, marking: &[u8]) -> Result<Enabled<Vec<u16>>, Refused> {
        let mut list = vec![0; self.counts().transitions];
        Ok(match enabled(self.tables(), marking, &mut list)? {
            Enabled::Many(count) => {
                list.truncate(count);
                Enabled::Many(list)
            }
            Enabled::Stuck => Enabled::Stuck,
            Enabled::Finished => Enabled::Finished,
        })
    }
}
