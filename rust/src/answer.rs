//! What the calls answer, and why they refuse.

use std::error::Error;
use std::fmt;

/// Why a call refuses: the paper's table, each with its number.
#[derive(Clone, Copy, Debug, PartialEq, Eq, PartialOrd, Ord, Hash)]
#[repr(u8)]
pub enum Reason {
    /// The plan has over 4,096 bytes.
    PlanTooLong = 1,
    /// A field has under 3 bytes, or a length beyond the enclosing body.
    FieldCut = 2,
    /// A field's tag is unknown.
    UnknownTag = 3,
    /// An action's body is not 1 byte, or a scope's body is empty.
    WrongBody = 4,
    /// A field stands at depth 33.
    TooDeep = 5,
    /// The label is 128, or the scope byte is outside 1 to 127.
    WrongLabel = 6,
    /// The plan has a 257th action.
    TooManyActions = 7,
    /// An operand is due and no byte is left.
    OperandDue = 8,
    /// Bytes stand after the last operand or after the plan.
    BytesAfter = 9,
    /// A loop's body is not exclusive.
    BodyNotExclusive = 10,
    /// The net would have over 2,048 places.
    TooManyPlaces = 11,
    /// The net would have over 1,024 transitions.
    TooManyTransitions = 12,
    /// The net would have over 16,384 arcs.
    TooManyArcs = 13,
    /// A lent table is too short for what is written.
    TableTooShort = 14,
    /// The record has over 16,384 bytes.
    RecordTooLong = 20,
    /// A field of the record is cut.
    RecordFieldCut = 21,
    /// A field of the record has a wrong tag.
    WrongTag = 22,
    /// A body has a wrong length, or a step has no items.
    WrongLength = 23,
    /// The first actions of a step do not rise.
    NotRising = 24,
    /// The lent tables are no net.
    NoNet = 30,
    /// An item names no transition.
    NoTransition = 31,
    /// An input place of an item is empty.
    InputEmpty = 32,
    /// An item shares an input place with an earlier one.
    InputShared = 33,
    /// The marking is too short, or has a byte above 1.
    NoMarking = 35,
    /// A place would hold two tokens.
    TwoTokens = 36,
}

impl Reason {
    /// All reasons, by number.
    pub const ALL: [Reason; 25] = [
        Reason::PlanTooLong,
        Reason::FieldCut,
        Reason::UnknownTag,
        Reason::WrongBody,
        Reason::TooDeep,
        Reason::WrongLabel,
        Reason::TooManyActions,
        Reason::OperandDue,
        Reason::BytesAfter,
        Reason::BodyNotExclusive,
        Reason::TooManyPlaces,
        Reason::TooManyTransitions,
        Reason::TooManyArcs,
        Reason::TableTooShort,
        Reason::RecordTooLong,
        Reason::RecordFieldCut,
        Reason::WrongTag,
        Reason::WrongLength,
        Reason::NotRising,
        Reason::NoNet,
        Reason::NoTransition,
        Reason::InputEmpty,
        Reason::InputShared,
        Reason::NoMarking,
        Reason::TwoTokens,
    ];

    /// The number in the paper's table.
    pub const fn number(self) -> u8 {
        self as u8
    }

    /// The reason with this number, if there is one.
    pub fn of(number: usize) -> Option<Reason> {
        Reason::ALL.into_iter().find(|reason| usize::from(reason.number()) == number)
    }

    const fn text(self) -> &'static str {
        match self {
            Reason::PlanTooLong => "plan over 4,096 bytes",
            Reason::FieldCut => "field cut, or longer than what encloses it",
            Reason::UnknownTag => "unknown tag",
            Reason::WrongBody => "action body not 1 byte, or scope body empty",
            Reason::TooDeep => "field at depth 33",
            Reason::WrongLabel => "label 128, or scope byte outside 1 to 127",
            Reason::TooManyActions => "257th action",
            Reason::OperandDue => "operand due, no byte left",
            Reason::BytesAfter => "bytes after the last operand or the plan",
            Reason::BodyNotExclusive => "loop body not exclusive",
            Reason::TooManyPlaces => "too many places in the net",
            Reason::TooManyTransitions => "too many transitions in the net",
            Reason::TooManyArcs => "too many arcs in the net",
            Reason::TableTooShort => "lent table too short",
            Reason::RecordTooLong => "record over 16,384 bytes",
            Reason::RecordFieldCut => "record field cut",
            Reason::WrongTag => "wrong tag in the record",
            Reason::WrongLength => "wrong body length in the record, or empty step",
            Reason::NotRising => "first actions not rising",
            Reason::NoNet => "tables are no net",
            Reason::NoTransition => "item names no transition",
            Reason::InputEmpty => "input place empty",
            Reason::InputShared => "input place shared with an earlier item",
            Reason::NoMarking => "marking too short, or a byte above 1",
            Reason::TwoTokens => "a place would hold two",
        }
    }
}

/// A refusal: why, and what the answer carries.
#[derive(Clone, Copy, Debug, PartialEq, Eq, PartialOrd, Ord, Hash)]
pub struct Refused {
    /// Why the call refuses.
    pub reason: Reason,
    /// The offset or the position that the paper names, else 0.
    pub carried: usize,
}

impl Refused {
    /// The refusal that carries `carried`.
    pub const fn at(reason: Reason, carried: usize) -> Refused {
        Refused { reason, carried }
    }

    /// The refusal that carries 0.
    pub const fn plain(reason: Reason) -> Refused {
        Refused { reason, carried: 0 }
    }

    /// The number in the paper's table.
    pub const fn number(self) -> u8 {
        self.reason.number()
    }
}

impl fmt::Display for Refused {
    fn fmt(&self, f: &mut fmt::Formatter<'_>) -> fmt::Result {
        write!(f, "refused {} at {}: {}", self.number(), self.carried, self.reason.text())
    }
}

impl Error for Refused {}

/// A replay that was refused, with the number of steps accepted before.
#[derive(Clone, Copy, Debug, PartialEq, Eq, Hash)]
pub struct Stopped {
    /// Why, and what the answer carries.
    pub refused: Refused,
    /// The accepted steps; the marking is the one after them.
    pub steps: usize,
}

impl fmt::Display for Stopped {
    fn fmt(&self, f: &mut fmt::Formatter<'_>) -> fmt::Result {
        write!(f, "{} (after {} steps)", self.refused, self.steps)
    }
}

impl Error for Stopped {
    fn source(&self) -> Option<&(dyn Error + 'static)> {
        Some(&self.refused)
    }
}

/// An accepted record.
#[derive(Clone, Copy, Debug, PartialEq, Eq, Hash)]
pub struct Replayed {
    /// The accepted steps.
    pub steps: usize,
    /// Whether all exit places are marked.
    pub finished: bool,
}

/// What the enabled list answers. `T` tells the enabled transitions: how many
/// are written where a list is lent, their numbers where [`Net`](crate::Net)
/// makes one.
#[derive(Clone, Copy, Debug, PartialEq, Eq, Hash)]
pub enum Enabled<T = usize> {
    /// One or more transitions are enabled.
    Many(T),
    /// None is enabled, and some exit place is unmarked: the run cannot go on.
    Stuck,
    /// None is enabled, and every exit place is marked: the run is over.
    Finished,
}

impl Enabled {
    /// How many transitions are enabled. 0 does not say that the net is stuck:
    /// the run may be over.
    pub const fn count(self) -> usize {
        match self {
            Enabled::Many(count) => count,
            Enabled::Stuck | Enabled::Finished => 0,
        }
    }
}
