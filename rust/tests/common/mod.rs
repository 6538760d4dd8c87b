//! Short names for expressions, and a summary of answers.
#![allow(dead_code)]

pub mod plain;

use std::collections::BTreeMap;

use fuuqidhel::paper::expr::Expr;
use fuuqidhel::random::wide;
use fuuqidhel::{Reason, Refused, Replayed, Stopped};

pub fn act(label: u8) -> Expr {
    Expr::Action(label)
}

pub fn seq(e: Expr, f: Expr) -> Expr {
    Expr::sequence(e, f)
}

pub fn alt(e: Expr, f: Expr) -> Expr {
    Expr::choice(e, f)
}

pub fn par(e: Expr, f: Expr) -> Expr {
    Expr::parallel(e, f)
}

pub fn wide_par(label: u8, count: usize) -> Expr {
    wide(Expr::parallel, label, count)
}

/// `m` actions a beside `n` actions a', scoped.
pub fn pairs(m: usize, n: usize) -> Expr {
    Expr::scope(1, par(wide_par(1, m), wide_par(129, n)))
}

/// Number and carried value of a refusal.
pub fn number<T>(result: Result<T, Refused>) -> Option<(u8, usize)> {
    result.err().map(|refused| (refused.number(), refused.carried))
}

/// Number, carried value and steps of a refused replay.
pub fn stopped(result: Result<Replayed, Stopped>) -> Option<(u8, usize, usize)> {
    let stopped = result.err()?;
    Some((stopped.refused.number(), stopped.refused.carried, stopped.steps))
}

/// How often each answer came.
#[derive(Default)]
pub struct Summary(BTreeMap<String, usize>);

impl Summary {
    pub fn note(&mut self, heading: impl Into<String>) {
        *self.0.entry(heading.into()).or_insert(0) += 1;
    }

    pub fn refusal(&mut self, refused: Refused) {
        self.note(format!("refused {:02}", refused.number()));
    }

    pub fn answer<T>(&mut self, answer: &Result<T, Refused>, heading: &str) {
        match answer {
            Ok(_) => self.note(heading),
            Err(refused) => self.refusal(*refused),
        }
    }

    pub fn replay(&mut self, answer: &Result<Replayed, Stopped>) {
        match answer {
            Ok(Replayed { finished: true, .. }) => self.note("finished"),
            Ok(_) => self.note("unfinished"),
            Err(stopped) => self.refusal(stopped.refused),
        }
    }

    pub fn count(&self, heading: &str) -> usize {
        self.0.get(heading).copied().unwrap_or(0)
    }

    pub fn print(&self, title: &str) {
        println!("{title}");
        self.0.iter().for_each(|(heading, count)| println!("  {heading}: {count}"));
    }
}

/// How often each call gave each answer.
#[derive(Default)]
pub struct Table(BTreeMap<String, BTreeMap<&'static str, usize>>);

impl Table {
    const CALLS: [&'static str; 4] = ["compile", "replay", "fire", "enabled"];

    pub fn note(&mut self, call: &'static str, answer: Result<&str, Refused>) {
        let heading = match answer {
            Ok(heading) => heading.to_string(),
            Err(refused) => refusal(refused.reason),
        };
        *self.0.entry(heading).or_default().entry(call).or_insert(0) += 1;
    }

    pub fn has(&self, heading: &str) -> bool {
        self.0.contains_key(heading)
    }

    pub fn has_refusal(&self, reason: Reason) -> bool {
        self.has(&refusal(reason))
    }

    pub fn inputs(&self) -> usize {
        self.0.values().flat_map(|calls| calls.values()).sum()
    }

    pub fn print(&self) {
        let line = |heading: &str, cells: [String; 4]| {
            let [a, b, c, d] = cells;
            println!("{heading:<12} {a:>8} {b:>8} {c:>8} {d:>8}");
        };
        println!("library and paper agree on {} inputs:", self.inputs());
        line("answer", Self::CALLS.map(String::from));
        for (heading, calls) in &self.0 {
            let cell = |call| calls.get(call).map_or(String::from("-"), usize::to_string);
            line(heading, Self::CALLS.map(cell));
        }
    }
}

fn refusal(reason: Reason) -> String {
    format!("refused {:02}", reason.number())
}
