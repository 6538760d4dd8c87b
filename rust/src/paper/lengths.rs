//! How many entry, internal and exit places each part of a plan has.

use super::plan::{Plan, ACTION, CHOICE, LOOP, PARALLEL, SEQUENCE};
use crate::limit;

/// One above the limit: whatever is more is told as this. Sums and products of
/// such counts stay right below it, since no part has an empty list of entries
/// or exits.
const CUT: u32 = limit::PLACES as u32 + 1;

/// The lengths of a part's three lists.
#[derive(Clone, Copy, Debug, Default, PartialEq, Eq)]
pub struct Lengths {
    /// Entry places.
    pub entries: u32,
    /// Internal places.
    pub internals: u32,
    /// Exit places.
    pub exits: u32,
}

impl Lengths {
    /// All places.
    pub fn places(&self) -> usize {
        (self.entries + self.internals + self.exits) as usize
    }
}

/// The lengths of every part, by the numbers of the plan's nodes.
pub fn lengths(plan: &Plan) -> Vec<Lengths> {
    let mut all = vec![Lengths::default(); plan.nodes.len()];
    // An operand's number is above its field's, so each is known in time.
    for (number, node) in plan.nodes.iter().enumerate().rev() {
        if node.tag == ACTION {
            all[number] = Lengths { entries: 1, internals: 0, exits: 1 };
            continue;
        }
        let e = all[number + 1];
        let second = usize::from(plan.nodes[number + 1].next);
        let f = all.get(second).copied().unwrap_or_default();
        let part = match node.tag {
            SEQUENCE => Lengths {
                entries: e.entries,
                internals: e.internals + f.internals + e.exits * f.entries,
                exits: f.exits,
            },
            CHOICE => Lengths {
                entries: e.entries * f.entries,
                internals: e.internals + f.internals,
                exits: e.exits * f.exits,
            },
            PARALLEL => Lengths {
                entries: e.entries + f.entries,
                internals: e.internals + f.internals,
                exits: e.exits + f.exits,
            },
            LOOP => {
                let g = all[usize::from(plan.nodes[second].next)];
                let middle = CUT.min(e.exits * f.exits) * CUT.min(f.entries * g.entries);
                Lengths {
                    entries: e.entries,
                    internals: e.internals + f.internals + g.internals + middle,
                    exits: g.exits,
                }
            }
            _ => e,
        };
        all[number] = Lengths {
            entries: part.entries.min(CUT),
            internals: part.internals.min(CUT),
            exits: part.exits.min(CUT),
        };
    }
    all
}
