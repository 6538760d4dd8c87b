//! The four calls on one input, on both sides.

use std::hint::black_box;

#[cfg(feature = "library")]
use fuuqidhel::library;
use fuuqidhel::{limit, paper};

use crate::inputs::Input;

/// So many turns of one side.
pub type Turns<'a> = Box<dyn FnMut(usize) + 'a>;

/// One call on one input.
pub struct Case<'a> {
    pub call: &'static str,
    pub bytes: usize,
    pub items: usize,
    pub library: Option<Turns<'a>>,
    pub paper: Turns<'a>,
}

/// Both sides of a call, which is written once: `$side` is the module whose
/// functions it calls.
macro_rules! sides {
    ($feature:literal, $side:ident => $body:expr) => {{
        let paper: Turns<'_> = {
            use paper as $side;
            Box::new($body)
        };
        #[cfg(feature = $feature)]
        let library: Option<Turns<'_>> = {
            use library as $side;
            Some(Box::new($body))
        };
        #[cfg(not(feature = $feature))]
        let library: Option<Turns<'_>> = None;
        (library, paper)
    }};
}

pub fn cases(input: &Input) -> Vec<Case<'_>> {
    vec![compile(input), replay(input), fire(input), enabled(input)]
}

fn compile(input: &Input) -> Case<'_> {
    let (library, paper) = sides!("library", side => {
        let mut kinds = vec![0; limit::PLACES];
        let mut rows = vec![0; limit::TRANSITIONS * 6];
        let mut arcs = vec![0; limit::ARCS];
        move |turns| {
            for _ in 0..turns {
                let made = side::compile(black_box(&input.plan), &mut kinds, &mut rows, &mut arcs);
                assert!(black_box(made).is_ok());
            }
        }
    });
    Case { call: "compile", bytes: input.plan.len(), items: input.actions, library, paper }
}

fn replay(input: &Input) -> Case<'_> {
    let (library, paper) = sides!("library", side => {
        let mut marking = vec![0; limit::PLACES];
        move |turns| {
            for _ in 0..turns {
                let run = side::replay(&input.plan, black_box(&input.record), &mut marking);
                assert!(black_box(run).is_ok());
            }
        }
    });
    let bytes = input.plan.len() + input.record.len();
    Case { call: "replay", bytes, items: input.record_items, library, paper }
}

fn fire(input: &Input) -> Case<'_> {
    let start = input.net.entry_marking();
    let bytes = table_bytes(input) + input.step.len();
    let (library, paper) = sides!("library", side => {
        let start = start.clone();
        let mut marking = start.clone();
        move |turns| {
            for _ in 0..turns {
                marking.copy_from_slice(&start);
                let fired = side::fire(black_box(input.net.tables()), &input.step, &mut marking);
                assert!(black_box(fired).is_ok());
            }
        }
    });
    Case { call: "fire", bytes, items: input.step_items, library, paper }
}

fn enabled(input: &Input) -> Case<'_> {
    let start = input.net.entry_marking();
    let (library, paper) = sides!("library", side => {
        let start = start.clone();
        let mut list = vec![0; limit::TRANSITIONS];
        move |turns| {
            for _ in 0..turns {
                let listed = side::enabled(black_box(input.net.tables()), &start, &mut list);
                assert!(black_box(listed).is_ok());
            }
        }
    });
    let items = input.net.counts().transitions;
    Case { call: "enabled", bytes: table_bytes(input), items, library, paper }
}

/// Bytes of the three tables and the marking.
fn table_bytes(input: &Input) -> usize {
    2 * input.net.kinds.len() + 2 * (input.net.rows.len() + input.net.arcs.len())
}
