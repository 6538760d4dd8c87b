//! The paper's rules, written from the paper alone and with none of the
//! library's code: what the library is held against.
//!
//! A plan is read from bytes ([`plan`]), compiled to its net ([`compile`]),
//! fired step by step on lent tables ([`fire`]) and replayed against a record
//! ([`replay`]). A second replay ([`calculus`]) follows the rules that use no
//! net; [`class`] follows the same rules with no normal form at all.

pub mod calculus;
pub mod check;
pub mod class;
pub mod compile;
pub mod expr;
pub mod fire;
pub mod image;
pub mod lengths;
pub mod listing;
pub mod plan;
pub mod record;
pub mod replay;
pub mod spread;

pub use compile::{compile, net_of};
pub use fire::{enabled, fire};
pub use replay::replay;
