//! Records: steps and their items, read and written.

use crate::answer::Reason;

/// Tag of a step.
pub const STEP: u8 = 0x20;
/// Tag of an item with one action.
pub const ONE: u8 = 0x21;
/// Tag of an item with two actions.
pub const TWO: u8 = 0x22;

/// Most items of a step: first actions strictly rise.
pub const ITEMS: usize = 256;

/// One item of a step.
#[derive(Clone, Copy, Debug, Default, PartialEq, Eq, PartialOrd, Ord, Hash)]
pub struct Item {
    /// The first action.
    pub first: u8,
    /// The second action of an item with two, the a side being the first.
    pub second: Option<u8>,
}

impl Item {
    /// An item with one action.
    pub const fn one(action: u8) -> Item {
        Item { first: action, second: None }
    }

    /// An item with two actions.
    pub const fn two(first: u8, second: u8) -> Item {
        Item { first, second: Some(second) }
    }
}

/// The items of the step read last.
#[derive(Clone, Debug)]
pub struct Step {
    items: [Item; ITEMS],
    count: usize,
}

impl Default for Step {
    fn default() -> Step {
        Step { items: [Item::default(); ITEMS], count: 0 }
    }
}

impl Step {
    /// The items.
    pub fn items(&self) -> &[Item] {
        &self.items[..self.count]
    }

    /// Reads the step field at `at` and answers the offset behind it, or 21,
    /// 22, 23 or 24. With `alone`, bytes behind the field are 23.
    pub fn read(&mut self, record: &[u8], at: usize, alone: bool) -> Result<usize, Reason> {
        self.count = 0;
        let (tag, mut body, behind) = field(&record[at..])?;
        if tag != STEP {
            return Err(Reason::WrongTag);
        }
        if body.is_empty() || (alone && !behind.is_empty()) {
            return Err(Reason::WrongLength);
        }
        while !body.is_empty() {
            body = self.item(body)?;
        }
        Ok(record.len() - behind.len())
    }

    /// Reads the item at the front of what is left of a step's body, and
    /// answers what is left behind it.
    #[inline]
    fn item<'a>(&mut self, left: &'a [u8]) -> Result<&'a [u8], Reason> {
        let (tag, body, behind) = field(left)?;
        let item = match (tag, body) {
            (ONE, [action]) => Item::one(*action),
            (TWO, [first, second]) => Item::two(*first, *second),
            (ONE | TWO, _) => return Err(Reason::WrongLength),
            _ => return Err(Reason::WrongTag),
        };
        if self.count > 0 && item.first <= self.items[self.count - 1].first {
            return Err(Reason::NotRising);
        }
        self.items[self.count] = item;
        self.count += 1;
        Ok(behind)
    }
}

/// The tag and the body of the field at the front of `bytes`, and what stands
/// behind it; or 21.
#[inline]
fn field(bytes: &[u8]) -> Result<(u8, &[u8], &[u8]), Reason> {
    let [tag, high, low, rest @ ..] = bytes else {
        return Err(Reason::RecordFieldCut);
    };
    let length = usize::from(u16::from_be_bytes([*high, *low]));
    let (body, behind) = rest.split_at_checked(length).ok_or(Reason::RecordFieldCut)?;
    Ok((*tag, body, behind))
}

/// Adds a step field with these items to `record`, in the order given.
pub fn write(items: &[Item], record: &mut Vec<u8>) {
    let at = record.len();
    record.extend([STEP, 0, 0]);
    for item in items {
        match item.second {
            None => record.extend([ONE, 0, 1, item.first]),
            Some(second) => record.extend([TWO, 0, 2, item.first, second]),
        }
    }
    let length = (record.len() - at - 3) as u16;
    record[at + 1..at + 3].copy_from_slice(&length.to_be_bytes());
}

/// The record of these steps.
pub fn written(steps: &[&[Item]]) -> Vec<u8> {
    let mut record = Vec::new();
    steps.iter().for_each(|items| write(items, &mut record));
    record
}
