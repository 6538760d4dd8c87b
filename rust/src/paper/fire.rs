//! Firing one step on lent tables, and the list of what is enabled.

use super::check::{self, Index};
use super::record::{Item, Step, ITEMS};
use crate::answer::{Enabled, Reason, Refused};
use crate::limit;
use crate::tables::{transition, Tables, EXIT};

/// Fires one step field: 30, 35, step form (carrying 0), 31, 32, 33, 36.
/// Nothing is written on refusal.
pub fn fire(tables: Tables<'_>, field: &[u8], marking: &mut [u8]) -> Result<(), Refused> {
    let index = check::net(&tables)?;
    check::marking(&tables.counts, marking)?;
    let mut step = Step::default();
    step.read(field, 0, true).map_err(Refused::plain)?;
    let mut named = Named::default();
    move_tokens(tables.rows, tables.arcs, &index, step.items(), &mut named, marking)
}

/// Writes the enabled transitions into `list`, rising: 30, 35, 14. Nothing is
/// written on refusal. The net is stuck where there are none and some exit
/// place is unmarked.
pub fn enabled(tables: Tables<'_>, marking: &[u8], list: &mut [u16]) -> Result<Enabled, Refused> {
    check::net(&tables)?;
    let marking = check::marking(&tables.counts, marking)?;
    let mut found = [0u16; limit::TRANSITIONS];
    let mut count = 0;
    for number in 0..tables.counts.transitions {
        let inputs = transition(tables.rows, tables.arcs, number).inputs;
        if inputs.iter().all(|place| marking[usize::from(*place)] == 1) {
            found[count] = number as u16;
            count += 1;
        }
    }
    let Some(room) = list.get_mut(..count) else {
        return Err(Refused::plain(Reason::TableTooShort));
    };
    room.copy_from_slice(&found[..count]);
    if count > 0 {
        return Ok(Enabled::Many(count));
    }
    // The marking has a byte for each place and none behind, so no more kinds
    // are looked at.
    let unmarked_exit = |(kind, token): (&u8, &u8)| *kind == EXIT && *token == 0;
    let stuck = tables.kinds.iter().zip(marking).any(unmarked_exit);
    Ok(if stuck { Enabled::Stuck } else { Enabled::Finished })
}

/// Room for the transitions that a step's items name.
#[derive(Clone, Debug)]
pub struct Named([u16; ITEMS]);

impl Default for Named {
    fn default() -> Named {
        Named([0; ITEMS])
    }
}

/// Moves the tokens of a step whose form is good, on tables that are a net:
/// 31 over all items, then 32, 33 and 36; the marking is as before on refusal.
pub fn move_tokens(
    rows: &[u16],
    arcs: &[u16],
    index: &Index,
    items: &[Item],
    named: &mut Named,
    marking: &mut [u8],
) -> Result<(), Refused> {
    let named = &mut named.0[..items.len()];
    for (position, (item, number)) in items.iter().zip(&mut *named).enumerate() {
        match index.find(rows, *item) {
            Some(found) => *number = found as u16,
            None => return Err(Refused::at(Reason::NoTransition, position)),
        }
    }
    let named = &*named;
    let inputs = |number: &u16| transition(rows, arcs, usize::from(*number)).inputs;
    let outputs = |number: &u16| transition(rows, arcs, usize::from(*number)).outputs;
    for (position, number) in named.iter().enumerate() {
        if inputs(number).iter().any(|place| marking[usize::from(*place)] == 0) {
            return Err(Refused::at(Reason::InputEmpty, position));
        }
    }
    // All inputs were marked, so an empty one has been taken by an earlier item.
    for (position, number) in named.iter().enumerate() {
        if let Err(taken) = shift(inputs(number), 1, marking) {
            set(taken, 1, marking);
            named[..position].iter().for_each(|number| set(inputs(number), 1, marking));
            return Err(Refused::at(Reason::InputShared, position));
        }
    }
    for (position, number) in named.iter().enumerate() {
        if let Err(put) = shift(outputs(number), 0, marking) {
            set(put, 0, marking);
            named[..position].iter().for_each(|number| set(outputs(number), 0, marking));
            named.iter().for_each(|number| set(inputs(number), 1, marking));
            return Err(Refused::plain(Reason::TwoTokens));
        }
    }
    Ok(())
}

/// Moves each place from `token` to the other number, or answers the places
/// that were moved before one that did not hold `token`.
#[inline]
fn shift<'a>(places: &'a [u16], token: u8, marking: &mut [u8]) -> Result<(), &'a [u16]> {
    for (spot, place) in places.iter().enumerate() {
        let holds = &mut marking[usize::from(*place)];
        if *holds != token {
            return Err(&places[..spot]);
        }
        *holds = 1 - token;
    }
    Ok(())
}

fn set(places: &[u16], token: u8, marking: &mut [u8]) {
    places.iter().for_each(|place| marking[usize::from(*place)] = token);
}
