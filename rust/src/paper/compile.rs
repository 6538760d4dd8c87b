//! The compiler: from a plan's bytes to the three tables of its net.

use super::image::Image;
use super::lengths::{lengths, Lengths};
use super::listing::{list, Listed};
use super::plan::Plan;
use super::spread::{spread, Spread};
use crate::answer::{Reason, Refused};
use crate::limit;
use crate::tables::{Counts, Made, Net, ENTRY, EXIT, INTERNAL, NONE, ROW};

/// Compiles a plan into the lent tables: refusals 1 to 14, and nothing is
/// written on refusal. `rows` holds six numbers for each transition.
pub fn compile(
    plan: &[u8],
    kinds: &mut [u8],
    rows: &mut [u16],
    arcs: &mut [u16],
) -> Result<Made, Refused> {
    let draft = Draft::of(plan)?;
    let Counts { places, transitions, arcs: arc_count } = draft.counts;
    let room =
        (kinds.get_mut(..places), rows.get_mut(..transitions * ROW), arcs.get_mut(..arc_count));
    let (Some(kinds), Some(rows), Some(arcs)) = room else {
        return Err(Refused::plain(Reason::TableTooShort));
    };
    draft.write(kinds, rows, arcs);
    Ok(draft.made())
}

/// The net of a plan: refusals 1 to 13.
pub fn net_of(plan: &[u8]) -> Result<Net, Refused> {
    let draft = Draft::of(plan)?;
    let Made { counts, entries, internals } = draft.made();
    let mut net = Net {
        entries,
        internals,
        kinds: vec![0; counts.places],
        rows: vec![0; counts.transitions * ROW],
        arcs: vec![0; counts.arcs],
    };
    draft.write(&mut net.kinds, &mut net.rows, &mut net.arcs);
    Ok(net)
}

/// All of a net but its tables.
struct Draft {
    whole: Lengths,
    transitions: Vec<Listed>,
    /// By action.
    spread: Vec<Spread>,
    counts: Counts,
}

impl Draft {
    fn of(plan: &[u8]) -> Result<Draft, Refused> {
        let plan = Plan::accept(plan)?;
        let lengths = lengths(&plan);
        let whole = lengths[0];
        if whole.places() > limit::PLACES {
            return Err(Refused::plain(Reason::TooManyPlaces));
        }
        let Some(transitions) = list(&plan) else {
            return Err(Refused::plain(Reason::TooManyTransitions));
        };
        let spread = spread(&plan, &lengths);
        let arcs = arc_count(&transitions, &spread);
        if arcs > limit::ARCS {
            return Err(Refused::plain(Reason::TooManyArcs));
        }
        let counts = Counts { places: whole.places(), transitions: transitions.len(), arcs };
        Ok(Draft { whole, transitions, spread, counts })
    }

    fn made(&self) -> Made {
        Made {
            counts: self.counts,
            entries: self.whole.entries as usize,
            internals: self.whole.internals as usize,
        }
    }

    /// Writes the tables, which have room for just the net.
    fn write(&self, kinds: &mut [u8], rows: &mut [u16], arcs: &mut [u16]) {
        let exits = self.made().entries + self.made().internals;
        kinds[..exits].fill(INTERNAL);
        kinds[..self.made().entries].fill(ENTRY);
        kinds[exits..].fill(EXIT);
        let mut merge = Merge::default();
        let mut at = 0;
        for (listed, row) in self.transitions.iter().zip(rows.chunks_exact_mut(ROW)) {
            let t = &self.spread[usize::from(listed.first)];
            let (inputs, outputs);
            if listed.second == NONE {
                inputs = t.inputs.write(&mut arcs[at..]);
                outputs = t.outputs.write(&mut arcs[at + inputs..]);
            } else {
                let u = &self.spread[usize::from(listed.second)];
                inputs = merge.write(&t.inputs, &u.inputs, &mut arcs[at..]);
                outputs = merge.write(&t.outputs, &u.outputs, &mut arcs[at + inputs..]);
            }
            row[0] = u16::from(listed.label);
            row[1] = listed.first;
            row[2] = listed.second;
            row[3] = at as u16;
            row[4] = inputs as u16;
            row[5] = outputs as u16;
            at += inputs + outputs;
        }
    }
}

/// How many arcs the transitions have. The two actions of a joined one part at
/// a parallel, so they have no place in common.
fn arc_count(transitions: &[Listed], spread: &[Spread]) -> usize {
    let mut around = [0; limit::ACTIONS];
    for (arcs, of) in around.iter_mut().zip(spread) {
        *arcs = of.inputs.count() + of.outputs.count();
    }
    let mut arcs = 0;
    for listed in transitions {
        arcs += around[usize::from(listed.first)];
        if listed.second != NONE {
            arcs += around[usize::from(listed.second)];
        }
    }
    arcs
}

/// Room for two lists of places that are merged.
#[derive(Default)]
struct Merge {
    left: Vec<u16>,
    right: Vec<u16>,
}

impl Merge {
    /// Writes the places of both images to the front of `places`, rising.
    fn write(&mut self, t: &Image, u: &Image, places: &mut [u16]) -> usize {
        let (low, high) = if t.first() < u.first() { (t, u) } else { (u, t) };
        let m = low.write(places);
        let n = high.write(&mut places[m..]);
        let places = &mut places[..m + n];
        if places[m - 1] < places[m] {
            return m + n;
        }
        self.left.clear();
        self.left.extend_from_slice(&places[..m]);
        self.right.clear();
        self.right.extend_from_slice(&places[m..]);
        let (mut i, mut j) = (0, 0);
        for place in places {
            if j == n || (i < m && self.left[i] < self.right[j]) {
                *place = self.left[i];
                i += 1;
            } else {
                *place = self.right[j];
                j += 1;
            }
        }
        m + n
    }
}
