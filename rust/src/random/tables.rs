//! Generated tables, most of which no plan gives, and damage to tables.

use super::Random;
use crate::tables::{Counts, Net, ENTRY, EXIT, INTERNAL, NONE, ROW};

/// Tables of a few places and transitions with any inputs and outputs. They
/// are a net unless two transitions have the same action pair.
pub fn any_net(random: &mut Random) -> Net {
    let places = random.between(2, 6);
    let entries = random.between(1, places - 1);
    let internals = random.below(places - entries);
    let mut kinds = vec![EXIT; places];
    kinds[..entries + internals].fill(INTERNAL);
    kinds[..entries].fill(ENTRY);
    let mut net = Net { entries, internals, kinds, rows: vec![], arcs: vec![] };
    for _ in 0..random.below(6) {
        let start = net.arcs.len();
        some(random, places, &mut net.arcs);
        let middle = net.arcs.len();
        some(random, places, &mut net.arcs);
        net.rows.extend([
            [0, 1, 127, 129, 255][random.below(5)],
            random.below(4) as u16,
            [NONE, 0, 1, 255][random.below(4)],
            start as u16,
            (middle - start) as u16,
            (net.arcs.len() - middle) as u16,
        ]);
    }
    net
}

/// Adds a rising list of at least one place.
fn some(random: &mut Random, places: usize, arcs: &mut Vec<u16>) {
    let bits = loop {
        let bits = random.below(1 << places) & random.below(1 << places);
        if bits != 0 {
            break bits;
        }
    };
    arcs.extend((0..places as u16).filter(|place| bits >> place & 1 == 1));
}

/// Damages tables or counts in one spot.
pub fn spoil(random: &mut Random, net: &mut Net, counts: &mut Counts) {
    let count = match random.below(3) {
        0 => &mut counts.places,
        1 => &mut counts.transitions,
        _ => &mut counts.arcs,
    };
    match random.below(12) {
        0 => *count = count.wrapping_sub(1),
        1 => *count += 1,
        2 => *count = [1_025, 2_049, 16_385, 65_536, usize::MAX][random.below(5)],
        3 => {
            net.kinds.pop();
        }
        4 => {
            net.rows.pop();
        }
        5 => {
            net.arcs.pop();
        }
        6 | 7 => {
            let spot = random.below(net.kinds.len());
            net.kinds[spot] = random.below(5) as u8;
        }
        8 | 9 if !net.rows.is_empty() => {
            let row = random.below(net.rows.len() / ROW) * ROW;
            let spot = row + random.below(ROW);
            net.rows[spot] = match random.below(4) {
                0 => net.rows[spot].wrapping_add(1),
                1 => net.rows[spot].wrapping_sub(1),
                2 => net.rows[random.below(net.rows.len())],
                _ => [0, 128, 255, 256, NONE][random.below(5)],
            };
        }
        _ if !net.arcs.is_empty() => {
            let spot = random.below(net.arcs.len());
            net.arcs[spot] = match random.below(3) {
                0 => net.arcs[spot].wrapping_add(1),
                1 => net.arcs[spot].wrapping_sub(1),
                _ => net.kinds.len() as u16,
            };
        }
        _ => *count += 1,
    }
}
