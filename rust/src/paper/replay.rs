//! Replay of a record against a plan, by the net.

use super::check::Index;
use super::compile::net_of;
use super::fire::{move_tokens, Named};
use super::record::Step;
use crate::answer::{Reason, Refused, Replayed, Stopped};
use crate::limit;
use crate::tables::Net;

/// Replays a record: 1 to 13, 35 (short only) and 20 before anything is
/// written; then the entry marking and each step in turn. A refusal leaves the
/// marking after the accepted steps.
pub fn replay(plan: &[u8], record: &[u8], marking: &mut [u8]) -> Result<Replayed, Stopped> {
    match net_of(plan) {
        Ok(net) => replay_on(&net, record, marking),
        Err(refused) => Err(Stopped { refused, steps: 0 }),
    }
}

/// Replays a record on a plan's net: 35, 20 and what follows.
pub fn replay_on(net: &Net, record: &[u8], marking: &mut [u8]) -> Result<Replayed, Stopped> {
    let mut steps = 0;
    let stopped = |reason| Err(Stopped { refused: Refused::plain(reason), steps: 0 });
    let Some(marking) = marking.get_mut(..net.kinds.len()) else {
        return stopped(Reason::NoMarking);
    };
    if record.len() > limit::RECORD {
        return stopped(Reason::RecordTooLong);
    }
    let (entries, others) = marking.split_at_mut(net.entries);
    entries.fill(1);
    others.fill(0);
    let index = Index::of(&net.rows).expect("a net has no action pair twice");
    let mut step = Step::default();
    let mut named = Named::default();
    let mut at = 0;
    while at < record.len() {
        let fired = match step.read(record, at, false) {
            Ok(next) => {
                let items = step.items();
                move_tokens(&net.rows, &net.arcs, &index, items, &mut named, marking).map(|()| next)
            }
            Err(reason) => Err(Refused::at(reason, at)),
        };
        at = fired.map_err(|refused| Stopped { refused, steps })?;
        steps += 1;
    }
    Ok(Replayed { steps, finished: net.is_finished(marking) })
}
