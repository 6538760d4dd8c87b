//! Samples of the two sides, taken by turns.

use std::fs;
use std::thread;
use std::time::Instant;

use crate::cases::{Case, Turns};

/// How long a sample is, and how many there are.
pub struct Settings {
    pub milliseconds: usize,
    pub samples: usize,
}

impl Settings {
    /// Nanoseconds of one call, a number for each sample: library and paper.
    pub fn time(&self, case: &mut Case<'_>) -> (Option<Vec<f64>>, Vec<f64>) {
        let paper_turns = self.turns(&mut case.paper);
        let library_turns = case.library.as_mut().map(|side| self.turns(side));
        let (mut library, mut paper) = (Vec::new(), Vec::new());
        for _ in 0..self.samples {
            if let (Some(side), Some(turns)) = (&mut case.library, library_turns) {
                library.push(sample(side, turns));
            }
            paper.push(sample(&mut case.paper, paper_turns));
        }
        (case.library.is_some().then_some(library), paper)
    }

    /// How many turns take about a sample's time.
    fn turns(&self, side: &mut Turns<'_>) -> usize {
        let aim = self.milliseconds as f64 * 1e6;
        let mut turns = 1;
        loop {
            let time = sample(side, turns) * turns as f64;
            if time * 4.0 > aim {
                return ((turns as f64 * aim / time) as usize).max(1);
            }
            turns *= 4;
        }
    }
}

fn sample(side: &mut Turns<'_>, turns: usize) -> f64 {
    let (ran, start) = (time_on_core(), Instant::now());
    side(turns);
    let time = match (ran, time_on_core()) {
        (Some(before), Some(after)) => after - before,
        _ => start.elapsed().as_nanos() as u64,
    };
    time as f64 / turns as f64
}

/// Nanoseconds that this thread has had a core, where the system tells: other
/// work beside it then counts little. Yielding brings the number up to date.
fn time_on_core() -> Option<u64> {
    thread::yield_now();
    let line = fs::read_to_string("/proc/thread-self/schedstat").ok()?;
    line.split_whitespace().next()?.parse().ok()
}

/// The values below which a quarter, a half and three quarters lie.
pub fn quartiles(values: &[f64]) -> [f64; 3] {
    let mut sorted = values.to_vec();
    sorted.sort_by(f64::total_cmp);
    [1, 2, 3].map(|quarter| sorted[(sorted.len() - 1) * quarter / 4])
}
