//! A small fixed generator, and generators of plans, records, tables and
//! damage.

mod plans;
mod records;
mod tables;

pub use plans::{deep, near_limit, plan, wide, Operator, Shape};
pub use records::{record, step};
pub use tables::{any_net, spoil};

/// The generator splitmix64.
#[derive(Clone, Debug)]
pub struct Random(u64);

impl Random {
    /// The generator with this seed.
    pub fn new(seed: u64) -> Random {
        Random(seed)
    }

    /// The next number.
    pub fn number(&mut self) -> u64 {
        self.0 = self.0.wrapping_add(0x9E37_79B9_7F4A_7C15);
        let mut z = self.0;
        z = (z ^ (z >> 30)).wrapping_mul(0xBF58_476D_1CE4_E5B9);
        z = (z ^ (z >> 27)).wrapping_mul(0x94D0_49BB_1331_11EB);
        z ^ (z >> 31)
    }

    /// A number below `n`; `n` is not 0.
    pub fn below(&mut self, n: usize) -> usize {
        (self.number() % n as u64) as usize
    }

    /// A number from `low` to `high`, both possible.
    pub fn between(&mut self, low: usize, high: usize) -> usize {
        low + self.below(high - low + 1)
    }

    /// True `n` times out of `of`.
    pub fn chance(&mut self, n: usize, of: usize) -> bool {
        self.below(of) < n
    }
}

/// Damages bytes: some changed, cut or added.
pub fn damage(random: &mut Random, bytes: &mut Vec<u8>) {
    for _ in 0..random.between(1, 3) {
        let spot = random.below(bytes.len() + 1);
        match random.below(5) {
            0 | 1 if spot < bytes.len() => {
                bytes[spot] = match random.below(4) {
                    0 => random.number() as u8,
                    1 => bytes[spot].wrapping_add(1),
                    2 => bytes[spot].wrapping_sub(1),
                    _ => [0, 1, 6, 7, 0x20, 0x21, 0x22, 128][random.below(8)],
                }
            }
            2 => bytes.truncate(spot),
            3 if spot < bytes.len() => {
                bytes.remove(spot);
            }
            _ => bytes.insert(spot, random.below(7) as u8),
        }
    }
}
