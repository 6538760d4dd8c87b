//! Plans: the fields of a plan's bytes in one flat table, and refusals 1 to 10.

use crate::answer::{Reason, Refused};
use crate::limit;

/// Tag of an action.
pub const ACTION: u8 = 1;
/// Tag of a sequence.
pub const SEQUENCE: u8 = 2;
/// Tag of a choice.
pub const CHOICE: u8 = 3;
/// Tag of a parallel.
pub const PARALLEL: u8 = 4;
/// Tag of a loop.
pub const LOOP: u8 = 5;
/// Tag of a scope.
pub const SCOPE: u8 = 6;

/// A field of a plan.
#[derive(Clone, Copy, Debug, PartialEq, Eq)]
pub struct Node {
    /// The field's tag.
    pub tag: u8,
    /// An action's label, a scope's name, else 0.
    pub byte: u8,
    /// Where the field stands in the plan.
    pub offset: u16,
    /// The number of the first node behind the field. A field's first operand
    /// is the node after it, and an operand's `next` is the operand after it.
    pub next: u16,
}

/// Where two neighbouring actions part: the lowest field that holds both.
#[derive(Clone, Copy, Debug, Default, PartialEq, Eq)]
pub struct Parting {
    /// That field's depth.
    pub depth: u8,
    /// Whether it is a parallel.
    pub parallel: bool,
}

/// A plan that was read.
#[derive(Clone, Debug)]
pub struct Plan {
    /// The fields, in the order of the bytes.
    pub nodes: Vec<Node>,
    /// Where each action parts from the one after it.
    pub partings: Vec<Parting>,
    /// How many actions there are.
    pub actions: usize,
}

impl Plan {
    /// Reads a plan: refusals 1 to 9.
    pub fn read(bytes: &[u8]) -> Result<Plan, Refused> {
        if bytes.len() > limit::PLAN {
            return Err(Refused::plain(Reason::PlanTooLong));
        }
        let plan = Plan {
            nodes: Vec::with_capacity(bytes.len() / 3 + 1),
            // An action after the first comes with an operator's header.
            partings: Vec::with_capacity(bytes.len() / 7 + 1),
            actions: 0,
        };
        let mut reader = Reader { bytes, plan };
        let next = reader.field(0, bytes.len(), 1)?;
        closed(next, bytes.len())?;
        Ok(reader.plan)
    }

    /// Reads a plan and asks its loops: refusals 1 to 10.
    pub fn accept(bytes: &[u8]) -> Result<Plan, Refused> {
        let plan = Plan::read(bytes)?;
        match plan.faulty_loop() {
            Some(offset) => Err(Refused::at(Reason::BodyNotExclusive, offset)),
            None => Ok(plan),
        }
    }

    /// The offset of the first loop whose body is not exclusive.
    fn faulty_loop(&self) -> Option<usize> {
        if !self.nodes.iter().any(|node| node.tag == LOOP) {
            return None;
        }
        // An operand's number is above its field's, so each is known in time.
        let mut exclusive = vec![true; self.nodes.len()];
        let mut faulty = None;
        for (number, node) in self.nodes.iter().enumerate().rev() {
            let first = number + 1;
            match node.tag {
                PARALLEL => exclusive[number] = false,
                SCOPE => exclusive[number] = exclusive[first],
                CHOICE => {
                    let second = usize::from(self.nodes[first].next);
                    exclusive[number] = exclusive[first] && exclusive[second];
                }
                LOOP if !exclusive[usize::from(self.nodes[first].next)] => {
                    faulty = Some(usize::from(node.offset));
                }
                _ => {}
            }
        }
        faulty
    }
}

struct Reader<'a> {
    bytes: &'a [u8],
    plan: Plan,
}

impl Reader<'_> {
    /// Reads the field at `at` of the part that ends at `end`, and answers the
    /// offset behind it.
    fn field(&mut self, at: usize, end: usize, depth: u8) -> Result<usize, Refused> {
        let refused = |reason| Err(Refused::at(reason, at));
        let Some(left) = self.bytes.get(at..end).filter(|left| !left.is_empty()) else {
            return refused(Reason::OperandDue);
        };
        if usize::from(depth) > limit::DEPTH {
            return refused(Reason::TooDeep);
        }
        let [tag, high, low, rest @ ..] = left else {
            return refused(Reason::FieldCut);
        };
        if !(ACTION..=SCOPE).contains(tag) {
            return refused(Reason::UnknownTag);
        }
        let length = usize::from(u16::from_be_bytes([*high, *low]));
        let Some(body) = rest.get(..length) else {
            return refused(Reason::FieldCut);
        };
        let here = self.plan.nodes.len();
        let mut node = Node { tag: *tag, byte: 0, offset: at as u16, next: here as u16 + 1 };
        let (start, close) = (at + 3, at + 3 + length);
        match *tag {
            ACTION => {
                let [label] = body else {
                    return refused(Reason::WrongBody);
                };
                node.byte = *label;
                self.action(*label).map_err(|reason| Refused::at(reason, at))?;
                self.plan.nodes.push(node);
            }
            SCOPE => {
                let [name, ..] = body else {
                    return refused(Reason::WrongBody);
                };
                if !(1..=127).contains(name) {
                    return refused(Reason::WrongLabel);
                }
                node.byte = *name;
                self.plan.nodes.push(node);
                self.operands(here, 1, start + 1, close, depth)?;
            }
            LOOP => {
                self.plan.nodes.push(node);
                self.operands(here, 3, start, close, depth)?;
            }
            _ => {
                self.plan.nodes.push(node);
                self.operands(here, 2, start, close, depth)?;
            }
        }
        Ok(close)
    }

    fn action(&mut self, label: u8) -> Result<(), Reason> {
        if label == 128 {
            return Err(Reason::WrongLabel);
        }
        if self.plan.actions == limit::ACTIONS {
            return Err(Reason::TooManyActions);
        }
        self.plan.actions += 1;
        Ok(())
    }

    /// Reads `count` operands of the field `here` from `start` on: they fill
    /// the body, which ends at `close`.
    fn operands(
        &mut self,
        here: usize,
        count: usize,
        start: usize,
        close: usize,
        depth: u8,
    ) -> Result<(), Refused> {
        let mut next = self.field(start, close, depth + 1)?;
        for _ in 1..count {
            let parallel = self.plan.nodes[here].tag == PARALLEL;
            self.plan.partings.push(Parting { depth, parallel });
            next = self.field(next, close, depth + 1)?;
        }
        self.plan.nodes[here].next = self.plan.nodes.len() as u16;
        closed(next, close)
    }
}

/// Refusal 9 where bytes stand behind the last operand.
fn closed(next: usize, end: usize) -> Result<(), Refused> {
    if next < end {
        return Err(Refused::at(Reason::BytesAfter, next));
    }
    Ok(())
}
