//! The transitions of a plan in the paper's order, before their places.

use super::plan::{Parting, Plan, ACTION, SCOPE};
use crate::limit;
use crate::tables::NONE;

/// A transition without its places.
#[derive(Clone, Copy, Debug, PartialEq, Eq)]
pub struct Listed {
    /// The label; 0 is silent.
    pub label: u8,
    /// The first action.
    pub first: u16,
    /// The second action, or 65,535 for none.
    pub second: u16,
}

/// A scope whose part is being listed.
#[derive(Clone, Copy, Default)]
struct Open {
    name: u8,
    /// The number of the node behind the scope.
    end: usize,
    /// Where the list of its part starts.
    start: usize,
}

/// Lists a plan's transitions, or none where there are over 1,024.
pub fn list(plan: &Plan) -> Option<Vec<Listed>> {
    let mut listing = Listing { plan, list: Vec::with_capacity(plan.actions), joined: 0 };
    let mut open = [Open::default(); limit::DEPTH];
    let (mut depth, mut action) = (0, 0);
    for (number, node) in plan.nodes.iter().enumerate() {
        while depth > 0 && open[depth - 1].end == number {
            depth -= 1;
            listing.close(open[depth])?;
        }
        match node.tag {
            ACTION => {
                listing.list.push(Listed { label: node.byte, first: action, second: NONE });
                action += 1;
            }
            SCOPE => {
                let (end, start) = (usize::from(node.next), listing.list.len());
                open[depth] = Open { name: node.byte, end, start };
                depth += 1;
            }
            _ => {}
        }
    }
    while depth > 0 {
        depth -= 1;
        listing.close(open[depth])?;
    }
    (listing.list.len() <= limit::TRANSITIONS).then_some(listing.list)
}

struct Listing<'a> {
    plan: &'a Plan,
    list: Vec<Listed>,
    joined: usize,
}

impl Listing<'_> {
    /// Takes away what a scope names, keeps the rest in order, and adds the
    /// joined ones. None once more are joined than a net may have: a joined
    /// one is silent, so no scope takes it away.
    fn close(&mut self, scope: Open) -> Option<()> {
        let mut own = [0u16; limit::ACTIONS];
        let mut conjugate = [0u16; limit::ACTIONS];
        let (mut owns, mut conjugates, mut kept) = (0, 0, scope.start);
        for spot in scope.start..self.list.len() {
            let listed = self.list[spot];
            if listed.label == scope.name {
                own[owns] = listed.first;
                owns += 1;
            } else if listed.label == scope.name + 128 {
                conjugate[conjugates] = listed.first;
                conjugates += 1;
            } else {
                self.list[kept] = listed;
                kept += 1;
            }
        }
        self.list.truncate(kept);
        if conjugates == 0 {
            return Some(());
        }
        let mut apart = [false; limit::ACTIONS];
        for t in &own[..owns] {
            part(&self.plan.partings, usize::from(*t), &mut apart);
            for u in &conjugate[..conjugates] {
                if apart[usize::from(*u)] {
                    self.joined += 1;
                    if self.joined > limit::TRANSITIONS {
                        return None;
                    }
                    self.list.push(Listed { label: 0, first: *t, second: *u });
                }
            }
        }
        Some(())
    }
}

/// Writes, for each other action, whether it parts from `t` at a parallel: of
/// the fields at which neighbours between the two part, the one with the least
/// depth is the lowest field that holds both.
fn part(partings: &[Parting], t: usize, apart: &mut [bool; limit::ACTIONS]) {
    let mut lowest = Parting { depth: u8::MAX, parallel: false };
    for (spot, parting) in partings.iter().enumerate().skip(t) {
        if parting.depth < lowest.depth {
            lowest = *parting;
        }
        apart[spot + 1] = lowest.parallel;
    }
    lowest = Parting { depth: u8::MAX, parallel: false };
    for (spot, parting) in partings[..t].iter().enumerate().rev() {
        if parting.depth < lowest.depth {
            lowest = *parting;
        }
        apart[spot] = lowest.parallel;
    }
}
