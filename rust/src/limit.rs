//! The limits of the paper.

/// Most bytes of a plan.
pub const PLAN: usize = 4_096;
/// Greatest depth of a field; the outermost has depth 1.
pub const DEPTH: usize = 32;
/// Most actions of a plan.
pub const ACTIONS: usize = 256;
/// Most places of a net.
pub const PLACES: usize = 2_048;
/// Most transitions of a net.
pub const TRANSITIONS: usize = 1_024;
/// Most arcs of a net.
pub const ARCS: usize = 16_384;
/// Most bytes of a record.
pub const RECORD: usize = 16_384;
