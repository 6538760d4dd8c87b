//! The box construction with its lists spelt out, and firing with counted
//! tokens: slow and plain, to hold the fast ones against.

use std::collections::{BTreeMap, BTreeSet};

use fuuqidhel::paper::expr::Expr;
use fuuqidhel::paper::record::Item;
use fuuqidhel::{Net, Reason, Refused};

#[derive(Clone, Debug, PartialEq, Eq)]
pub struct Moved {
    pub label: u16,
    pub first: u16,
    pub second: u16,
    pub inputs: BTreeSet<usize>,
    pub outputs: BTreeSet<usize>,
}

#[derive(Clone, Debug, Default)]
pub struct Plain {
    pub entries: Vec<usize>,
    pub internals: Vec<usize>,
    pub exits: Vec<usize>,
    pub transitions: Vec<Moved>,
}

/// Products made at one operator: new place by its parts.
#[derive(Default)]
struct Products {
    by_entry: BTreeMap<usize, BTreeSet<usize>>,
    by_exit: BTreeMap<usize, BTreeSet<usize>>,
}

impl Products {
    fn add(&mut self, place: usize, entry_parts: &[usize], exit_parts: &[usize]) {
        for part in entry_parts {
            self.by_entry.entry(*part).or_default().insert(place);
        }
        for part in exit_parts {
            self.by_exit.entry(*part).or_default().insert(place);
        }
    }

    fn apply(&self, transitions: &mut [Moved]) {
        let put = |set: &BTreeSet<usize>, by: &BTreeMap<usize, BTreeSet<usize>>| {
            set.iter()
                .flat_map(|place| by.get(place).cloned().unwrap_or(BTreeSet::from([*place])))
                .collect()
        };
        for moved in transitions {
            moved.inputs = put(&moved.inputs, &self.by_entry);
            moved.outputs = put(&moved.outputs, &self.by_exit);
        }
    }
}

#[derive(Default)]
struct Maker {
    places: usize,
    actions: usize,
    /// Action ranges of the two sides of every parallel.
    sides: Vec<[std::ops::Range<usize>; 2]>,
}

impl Maker {
    fn fresh(&mut self) -> usize {
        self.places += 1;
        self.places - 1
    }

    fn parted(&self, t: usize, u: usize) -> bool {
        self.sides.iter().any(|[left, right]| {
            (left.contains(&t) && right.contains(&u)) || (left.contains(&u) && right.contains(&t))
        })
    }

    fn make(&mut self, expr: &Expr) -> Plain {
        let mut products = Products::default();
        match expr {
            Expr::Action(label) => {
                let (entry, exit) = (self.fresh(), self.fresh());
                self.actions += 1;
                let moved = Moved {
                    label: u16::from(*label),
                    first: (self.actions - 1) as u16,
                    second: 65_535,
                    inputs: BTreeSet::from([entry]),
                    outputs: BTreeSet::from([exit]),
                };
                Plain {
                    entries: vec![entry],
                    internals: vec![],
                    exits: vec![exit],
                    transitions: vec![moved],
                }
            }
            Expr::Parallel(e, f) => {
                let start = self.actions;
                let e = self.make(e);
                let middle = self.actions;
                let f = self.make(f);
                self.sides.push([start..middle, middle..self.actions]);
                Plain {
                    entries: [e.entries, f.entries].concat(),
                    internals: [e.internals, f.internals].concat(),
                    exits: [e.exits, f.exits].concat(),
                    transitions: [e.transitions, f.transitions].concat(),
                }
            }
            Expr::Sequence(e, f) => {
                let (e, f) = (self.make(e), self.make(f));
                let mut internals = [e.internals, f.internals].concat();
                for x in &e.exits {
                    for n in &f.entries {
                        let place = self.fresh();
                        products.add(place, &[*n], &[*x]);
                        internals.push(place);
                    }
                }
                let mut transitions = [e.transitions, f.transitions].concat();
                products.apply(&mut transitions);
                Plain { entries: e.entries, internals, exits: f.exits, transitions }
            }
            Expr::Choice(e, f) => {
                let (e, f) = (self.make(e), self.make(f));
                let (mut entries, mut exits) = (vec![], vec![]);
                for m in &e.entries {
                    for n in &f.entries {
                        let place = self.fresh();
                        products.add(place, &[*m, *n], &[]);
                        entries.push(place);
                    }
                }
                for x in &e.exits {
                    for y in &f.exits {
                        let place = self.fresh();
                        products.add(place, &[], &[*x, *y]);
                        exits.push(place);
                    }
                }
                let mut transitions = [e.transitions, f.transitions].concat();
                products.apply(&mut transitions);
                Plain {
                    entries,
                    internals: [e.internals, f.internals].concat(),
                    exits,
                    transitions,
                }
            }
            Expr::Loop(e, f, g) => {
                let (e, f, g) = (self.make(e), self.make(f), self.make(g));
                let mut internals = [e.internals, f.internals, g.internals].concat();
                for x in &e.exits {
                    for y in &f.exits {
                        for m in &f.entries {
                            for n in &g.entries {
                                let place = self.fresh();
                                products.add(place, &[*m, *n], &[*x, *y]);
                                internals.push(place);
                            }
                        }
                    }
                }
                let mut transitions = [e.transitions, f.transitions, g.transitions].concat();
                products.apply(&mut transitions);
                Plain { entries: e.entries, internals, exits: g.exits, transitions }
            }
            Expr::Scope(name, e) => {
                let mut e = self.make(e);
                let (own, conjugate) = (u16::from(*name), u16::from(*name) + 128);
                let all = std::mem::take(&mut e.transitions);
                e.transitions = all
                    .iter()
                    .filter(|t| t.label != own && t.label != conjugate)
                    .cloned()
                    .collect();
                for t in all.iter().filter(|t| t.label == own) {
                    for u in all.iter().filter(|u| u.label == conjugate) {
                        if !self.parted(usize::from(t.first), usize::from(u.first)) {
                            continue;
                        }
                        e.transitions.push(Moved {
                            label: 0,
                            first: t.first,
                            second: u.first,
                            inputs: t.inputs.union(&u.inputs).copied().collect(),
                            outputs: t.outputs.union(&u.outputs).copied().collect(),
                        });
                    }
                }
                e
            }
        }
    }
}

/// The box of an expression with final place numbers.
pub fn plain(expr: &Expr) -> Plain {
    let mut plain = Maker::default().make(expr);
    let mut number = BTreeMap::new();
    for place in plain.entries.iter().chain(&plain.internals).chain(&plain.exits) {
        let next = number.len();
        assert!(number.insert(*place, next).is_none());
    }
    let put = |set: &BTreeSet<usize>| set.iter().map(|place| number[place]).collect();
    for moved in &mut plain.transitions {
        moved.inputs = put(&moved.inputs);
        moved.outputs = put(&moved.outputs);
    }
    for list in [&mut plain.entries, &mut plain.internals, &mut plain.exits] {
        list.iter_mut().for_each(|place| *place = number[place]);
    }
    plain
}

/// The tables of a box with its lists spelt out, with the arcs' number.
pub fn tables(plain: &Plain) -> Net {
    let mut net = Net {
        entries: plain.entries.len(),
        internals: plain.internals.len(),
        kinds: vec![],
        rows: vec![],
        arcs: vec![],
    };
    net.kinds.extend(plain.entries.iter().map(|_| 1));
    net.kinds.extend(plain.internals.iter().map(|_| 2));
    net.kinds.extend(plain.exits.iter().map(|_| 3));
    for moved in &plain.transitions {
        let start = net.arcs.len() as u16;
        net.arcs.extend(moved.inputs.iter().map(|place| *place as u16));
        net.arcs.extend(moved.outputs.iter().map(|place| *place as u16));
        net.rows.extend([moved.label, moved.first, moved.second, start]);
        net.rows.extend([moved.inputs.len() as u16, moved.outputs.len() as u16]);
    }
    net
}

/// The transitions of tables, spelt out.
pub fn moved(net: &Net) -> Vec<Moved> {
    let set = |places: &[u16]| places.iter().map(|place| usize::from(*place)).collect();
    net.transitions()
        .map(|t| Moved {
            label: t.label,
            first: t.first,
            second: t.second,
            inputs: set(t.inputs),
            outputs: set(t.outputs),
        })
        .collect()
}

/// Fires items with counted tokens.
pub fn fire(transitions: &[Moved], items: &[Item], tokens: &[u8]) -> Result<Vec<u8>, Refused> {
    let mut named = vec![];
    for (position, item) in items.iter().enumerate() {
        let second = item.second.map_or(65_535, u16::from);
        let found = transitions
            .iter()
            .find(|moved| moved.first == u16::from(item.first) && moved.second == second);
        named.push(found.ok_or(Refused::at(Reason::NoTransition, position))?);
    }
    for (position, moved) in named.iter().enumerate() {
        if moved.inputs.iter().any(|place| tokens[*place] == 0) {
            return Err(Refused::at(Reason::InputEmpty, position));
        }
    }
    for (position, moved) in named.iter().enumerate() {
        let earlier = &named[..position];
        if earlier.iter().any(|other| !other.inputs.is_disjoint(&moved.inputs)) {
            return Err(Refused::at(Reason::InputShared, position));
        }
    }
    let mut after = tokens.to_vec();
    for moved in &named {
        moved.inputs.iter().for_each(|place| after[*place] -= 1);
    }
    for moved in &named {
        moved.outputs.iter().for_each(|place| after[*place] += 1);
    }
    if after.iter().any(|token| *token > 1) {
        return Err(Refused::plain(Reason::TwoTokens));
    }
    Ok(after)
}
