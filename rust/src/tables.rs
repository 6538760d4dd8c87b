//! The three tables of a net, lent or owned, and the paper's text of a net.

use std::fmt;

/// Stands for "no second action" in the rows.
pub const NONE: u16 = 65_535;
/// Kind of an entry place.
pub const ENTRY: u8 = 1;
/// Kind of an internal place.
pub const INTERNAL: u8 = 2;
/// Kind of an exit place.
pub const EXIT: u8 = 3;
/// How many numbers a transition has in the rows: label, first action, second
/// action, start in the arcs, input count, output count.
pub const ROW: usize = 6;

/// How many places, transitions and arcs a net has.
#[derive(Clone, Copy, Debug, Default, PartialEq, Eq, Hash)]
pub struct Counts {
    /// Places.
    pub places: usize,
    /// Transitions.
    pub transitions: usize,
    /// Arcs.
    pub arcs: usize,
}

/// What compiling a plan answers.
#[derive(Clone, Copy, Debug, Default, PartialEq, Eq, Hash)]
pub struct Made {
    /// The counts that later calls are handed.
    pub counts: Counts,
    /// How many places are entry places.
    pub entries: usize,
    /// How many places are internal.
    pub internals: usize,
}

/// Three lent tables and the counts that go with them. What lies past the
/// counts is neither looked at nor written.
#[derive(Clone, Copy, Debug)]
pub struct Tables<'a> {
    /// A byte for each place: 1 entry, 2 internal, 3 exit.
    pub kinds: &'a [u8],
    /// Six numbers for each transition.
    pub rows: &'a [u16],
    /// Place numbers, inputs then outputs, transition after transition.
    pub arcs: &'a [u16],
    /// How much of each table is the net's.
    pub counts: Counts,
}

/// One transition of a net.
#[derive(Clone, Copy, Debug, PartialEq, Eq)]
pub struct Transition<'a> {
    /// The label; 0 is silent.
    pub label: u16,
    /// The first action.
    pub first: u16,
    /// The second action, or 65,535 for none.
    pub second: u16,
    /// The input places, rising.
    pub inputs: &'a [u16],
    /// The output places, rising.
    pub outputs: &'a [u16],
}

/// Transition `number` of tables that are a net.
#[inline]
pub fn transition<'a>(rows: &[u16], arcs: &'a [u16], number: usize) -> Transition<'a> {
    let row = &rows[number * ROW..number * ROW + ROW];
    let start = usize::from(row[3]);
    let middle = start + usize::from(row[4]);
    let end = middle + usize::from(row[5]);
    Transition {
        label: row[0],
        first: row[1],
        second: row[2],
        inputs: &arcs[start..middle],
        outputs: &arcs[middle..end],
    }
}

/// A net, as its three tables.
#[derive(Clone, Debug, PartialEq, Eq)]
pub struct Net {
    /// How many entry places; they come first.
    pub entries: usize,
    /// How many internal places; the exit places come last.
    pub internals: usize,
    /// A byte for each place.
    pub kinds: Vec<u8>,
    /// Six numbers for each transition.
    pub rows: Vec<u16>,
    /// Place numbers.
    pub arcs: Vec<u16>,
}

impl Net {
    /// The net's counts.
    pub fn counts(&self) -> Counts {
        Counts {
            places: self.kinds.len(),
            transitions: self.rows.len() / ROW,
            arcs: self.arcs.len(),
        }
    }

    /// The tables, to lend.
    pub fn tables(&self) -> Tables<'_> {
        Tables { kinds: &self.kinds, rows: &self.rows, arcs: &self.arcs, counts: self.counts() }
    }

    /// Transition number `number`.
    pub fn transition(&self, number: usize) -> Transition<'_> {
        transition(&self.rows, &self.arcs, number)
    }

    /// All transitions in order.
    pub fn transitions(&self) -> impl Iterator<Item = Transition<'_>> {
        (0..self.rows.len() / ROW).map(|number| self.transition(number))
    }

    /// The marking that a run starts from: a token at each entry place.
    pub fn entry_marking(&self) -> Vec<u8> {
        let mut marking = vec![0; self.kinds.len()];
        marking[..self.entries].fill(1);
        marking
    }

    /// Whether a marking has a token at each exit place.
    pub fn is_finished(&self, marking: &[u8]) -> bool {
        marking[self.entries + self.internals..self.kinds.len()].iter().all(|token| *token == 1)
    }
}

/// The listing program's text: a line of counts and a line for each transition.
impl fmt::Display for Net {
    fn fmt(&self, f: &mut fmt::Formatter<'_>) -> fmt::Result {
        let Counts { places, transitions, arcs } = self.counts();
        let exits = places - self.entries - self.internals;
        writeln!(f, "net {} {} {exits} {transitions} {arcs}", self.entries, self.internals)?;
        for (number, transition) in self.transitions().enumerate() {
            write!(f, "t {number} {} {} ", transition.label, transition.first)?;
            match transition.second {
                NONE => write!(f, "- :")?,
                second => write!(f, "{second} :")?,
            }
            transition.inputs.iter().try_for_each(|place| write!(f, " {place}"))?;
            write!(f, " >")?;
            transition.outputs.iter().try_for_each(|place| write!(f, " {place}"))?;
            writeln!(f)?;
        }
        Ok(())
    }
}
