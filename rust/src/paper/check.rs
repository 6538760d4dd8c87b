//! Check 30, that lent tables are a net; check 35, that a marking is one; and
//! the transitions by action.

use std::cmp::Ordering;

use super::record::Item;
use crate::answer::{Reason, Refused};
use crate::limit;
use crate::tables::{Counts, Tables, ENTRY, EXIT, NONE, ROW};

/// Check 30: the index of the transitions if the tables are a net.
pub fn net(tables: &Tables<'_>) -> Result<Index, Refused> {
    index(tables).ok_or(Refused::plain(Reason::NoNet))
}

/// Check 35: the net's part of a marking if it is long enough and has no byte
/// above 1.
pub fn marking<'a>(counts: &Counts, marking: &'a [u8]) -> Result<&'a [u8], Refused> {
    match marking.get(..counts.places) {
        Some(part) if part.iter().fold(0, |all, byte| all | byte) <= 1 => Ok(part),
        _ => Err(Refused::plain(Reason::NoMarking)),
    }
}

fn index(tables: &Tables<'_>) -> Option<Index> {
    let Counts { places, transitions, arcs } = tables.counts;
    if places > limit::PLACES || transitions > limit::TRANSITIONS || arcs > limit::ARCS {
        return None;
    }
    let kinds = tables.kinds.get(..places)?;
    let rows = tables.rows.get(..transitions * ROW)?;
    let arcs = tables.arcs.get(..arcs)?;
    if !in_order(kinds) {
        return None;
    }
    let mut next = 0;
    for row in rows.chunks_exact(ROW) {
        let [label, first, second] = [row[0], row[1], row[2]];
        if label == 128 || label > 255 || first > 255 || (second > 255 && second != NONE) {
            return None;
        }
        if usize::from(row[3]) != next {
            return None;
        }
        let middle = next + usize::from(row[4]);
        let end = middle + usize::from(row[5]);
        if !rises(arcs.get(next..middle)?, places) || !rises(arcs.get(middle..end)?, places) {
            return None;
        }
        next = end;
    }
    if next != arcs.len() {
        return None;
    }
    Index::of(rows)
}

/// Whether the kinds are 1s, then 2s, then 3s, with a 1 and a 3.
fn in_order(kinds: &[u8]) -> bool {
    let (Some(first), Some(last)) = (kinds.first(), kinds.last()) else {
        return false;
    };
    let later = &kinds[1..];
    *first == ENTRY
        && *last == EXIT
        && kinds.iter().zip(later).fold(true, |so_far, (one, next)| so_far & (one <= next))
}

/// Whether a list is not empty, strictly rises and stays below `places`.
#[inline]
fn rises(list: &[u16], places: usize) -> bool {
    match list {
        [] => false,
        [only] => usize::from(*only) < places,
        [first, second] => first < second && usize::from(*second) < places,
        [.., last] => {
            let rising =
                list.iter().zip(&list[1..]).fold(true, |so_far, (one, next)| so_far & (one < next));
            rising && usize::from(*last) < places
        }
    }
}

/// The transitions by first action: at most one with that action alone, and
/// those that join it with another.
#[derive(Clone, Debug)]
pub struct Index {
    alone: [u16; limit::ACTIONS],
    /// The first joined one and how many, where those of every first action
    /// stand together by rising second action, as in a plan's net.
    joined: [(u16, u16); limit::ACTIONS],
    /// Else all joined ones in order: first action, second action, number.
    scattered: Vec<(u16, u16, u16)>,
}

impl Index {
    /// The index of rows whose actions are in range, or none where two
    /// transitions have the same action pair.
    pub fn of(rows: &[u16]) -> Option<Index> {
        let mut index = Index {
            alone: [NONE; limit::ACTIONS],
            joined: [(0, 0); limit::ACTIONS],
            scattered: Vec::new(),
        };
        let mut together = true;
        let mut before = 0;
        for (number, row) in (0..).zip(rows.chunks_exact(ROW)) {
            let first = usize::from(row[1]);
            if row[2] == NONE {
                if index.alone[first] != NONE {
                    return None;
                }
                index.alone[first] = number;
            } else {
                let (start, count) = &mut index.joined[first];
                if *count == 0 {
                    *start = number;
                } else {
                    together &= *start + *count == number && before < row[2];
                }
                *count += 1;
                before = row[2];
            }
        }
        if !together {
            let rows = (0..).zip(rows.chunks_exact(ROW));
            let joined = rows.filter(|(_, row)| row[2] != NONE);
            index.scattered = joined.map(|(number, row)| (row[1], row[2], number)).collect();
            index.scattered.sort_unstable();
            let same = |pair: &[(u16, u16, u16)]| (pair[0].0, pair[0].1) == (pair[1].0, pair[1].1);
            if index.scattered.windows(2).any(same) {
                return None;
            }
        }
        Some(index)
    }

    /// The transition of these rows that an item names.
    #[inline]
    pub fn find(&self, rows: &[u16], item: Item) -> Option<usize> {
        let first = usize::from(item.first);
        let Some(second) = item.second else {
            let number = self.alone[first];
            return (number != NONE).then_some(usize::from(number));
        };
        let (first, second) = (u16::from(item.first), u16::from(second));
        if self.scattered.is_empty() {
            let (start, count) = self.joined[usize::from(first)];
            let (mut low, mut high) = (usize::from(start), usize::from(start + count));
            while low < high {
                let middle = (low + high) / 2;
                match rows[middle * ROW + 2].cmp(&second) {
                    Ordering::Less => low = middle + 1,
                    Ordering::Equal => return Some(middle),
                    Ordering::Greater => high = middle,
                }
            }
            return None;
        }
        let key = |entry: &(u16, u16, u16)| (entry.0, entry.1);
        let spot = self.scattered.binary_search_by_key(&(first, second), key).ok()?;
        Some(usize::from(self.scattered[spot].2))
    }
}
