//! The final places of each action's entry and exit, worked out from the whole
//! net down to the actions.

use super::image::Image;
use super::lengths::Lengths;
use super::plan::{Plan, ACTION, CHOICE, LOOP, PARALLEL, SEQUENCE};

/// Where an action's entry place and its exit place stand in the net.
#[derive(Clone, Copy, Debug)]
pub struct Spread {
    /// The places that a transition with this action consumes from.
    pub inputs: Image,
    /// The places that it produces into.
    pub outputs: Image,
}

/// Spreads each action of a plan, by the lengths of its parts.
pub fn spread(plan: &Plan, lengths: &[Lengths]) -> Vec<Spread> {
    let whole = lengths[0];
    let mut spreader = Spreader { plan, lengths, of: Vec::with_capacity(plan.actions) };
    let exits = Image::at(whole.entries + whole.internals);
    spreader.part(0, Image::at(0), exits, whole.entries);
    spreader.of
}

struct Spreader<'a> {
    plan: &'a Plan,
    lengths: &'a [Lengths],
    of: Vec<Spread>,
}

impl Spreader<'_> {
    /// `entry` and `exit` are the images of the part's entries and exits;
    /// `internal` is the number of its first internal place.
    fn part(&mut self, number: usize, entry: Image, exit: Image, internal: u32) {
        let tag = self.plan.nodes[number].tag;
        if tag == ACTION {
            self.of.push(Spread { inputs: entry, outputs: exit });
            return;
        }
        let e = number + 1;
        let f = self.behind(e);
        let left = self.lengths[e];
        let right = || self.lengths[f];
        match tag {
            SEQUENCE => {
                let right = right();
                let inner = internal + left.internals;
                let middle = Image::at(inner + right.internals);
                self.part(e, entry, middle.within(1, left.exits, right.entries), internal);
                self.part(f, middle.within(left.exits, right.entries, 1), exit, inner);
            }
            CHOICE => {
                let right = right();
                let entries = entry.within(1, left.entries, right.entries);
                let exits = exit.within(1, left.exits, right.exits);
                self.part(e, entries, exits, internal);
                let entries = entry.within(left.entries, right.entries, 1);
                let exits = exit.within(left.exits, right.exits, 1);
                self.part(f, entries, exits, internal + left.internals);
            }
            PARALLEL => {
                self.part(e, entry, exit, internal);
                let entries = entry.behind(left.entries);
                let exits = exit.behind(left.exits);
                self.part(f, entries, exits, internal + left.internals);
            }
            LOOP => {
                let g = self.behind(f);
                let (body, last) = (right(), self.lengths[g]);
                let inner = internal + left.internals;
                let outer = inner + body.internals;
                let middle = Image::at(outer + last.internals);
                let (x, y, m, n) = (left.exits, body.exits, body.entries, last.entries);
                self.part(e, entry, middle.within(1, x, y * m * n), internal);
                self.part(f, middle.within(x * y, m, n), middle.within(x, y, m * n), inner);
                self.part(g, middle.within(x * y * m, n, 1), exit, outer);
            }
            _ => self.part(e, entry, exit, internal),
        }
    }

    fn behind(&self, number: usize) -> usize {
        usize::from(self.plan.nodes[number].next)
    }
}
