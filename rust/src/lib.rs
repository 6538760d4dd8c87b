//! Plans, their nets, steps and run records.
//!
//! With the feature `library` this crate calls the proved library:
//! [`library::compile`], [`library::fire`], [`library::enabled`] and
//! [`library::replay`] on lent slices, and [`Net`] with its own tables.
//! Without it, only [`paper`] is there: the same calls, written a second time
//! from the paper alone, against which the library is tested and timed.
//!
//! A refusal is an `Err` with the paper's reason and what it carries
//! ([`Refused`]); a refused replay tells the accepted steps too ([`Stopped`]).

#![deny(unsafe_code)]
#![deny(missing_docs)]

pub mod answer;
#[cfg(feature = "library")]
pub mod library;
pub mod limit;
pub mod paper;
pub mod random;
pub mod tables;

pub use answer::{Enabled, Reason, Refused, Replayed, Stopped};
pub use tables::{Counts, Made, Net, Tables, Transition};
