//! Replay by the calculus rules with no normal form: the state is the set of
//! all dynamic expressions that ≡ makes one. For small plans.

use std::collections::HashSet;

use super::calculus::{lone, split, unjoined, Derived};
use super::expr::Expr;
use super::record::{Item, Step};

/// A dynamic expression, read along its expression.
#[derive(Clone, Debug, PartialEq, Eq, Hash)]
pub enum Dynamic {
    /// The overbar stands here.
    Over,
    /// The underbar stands here.
    Under,
    /// The operand of this number is dynamic, the others are not.
    One(usize, Box<Dynamic>),
    /// Both sides of a parallel are dynamic.
    Both(Box<Dynamic>, Box<Dynamic>),
}

use Dynamic::{Over, Under};

fn one(operand: usize, inner: Dynamic) -> Dynamic {
    Dynamic::One(operand, Box::new(inner))
}

fn both(left: Dynamic, right: Dynamic) -> Dynamic {
    Dynamic::Both(Box::new(left), Box::new(right))
}

/// The groups of dynamic expressions that ≡ makes one at this operator.
fn groups(expr: &Expr) -> Vec<Vec<Dynamic>> {
    match expr {
        Expr::Action(_) => vec![],
        Expr::Sequence(..) => vec![
            vec![Over, one(0, Over)],
            vec![one(0, Under), one(1, Over)],
            vec![one(1, Under), Under],
        ],
        Expr::Choice(..) => {
            vec![vec![Over, one(0, Over), one(1, Over)], vec![one(0, Under), one(1, Under), Under]]
        }
        Expr::Parallel(..) => vec![vec![Over, both(Over, Over)], vec![both(Under, Under), Under]],
        Expr::Loop(..) => vec![
            vec![Over, one(0, Over)],
            vec![one(0, Under), one(1, Under), one(1, Over), one(2, Over)],
            vec![one(2, Under), Under],
        ],
        Expr::Scope(..) => vec![vec![Over, one(0, Over)], vec![one(0, Under), Under]],
    }
}

fn operand(expr: &Expr, number: usize) -> &Expr {
    match (expr, number) {
        (Expr::Scope(_, e), _) => e,
        (Expr::Sequence(e, _) | Expr::Choice(e, _) | Expr::Parallel(e, _), 0) => e,
        (Expr::Sequence(_, f) | Expr::Choice(_, f) | Expr::Parallel(_, f), _) => f,
        (Expr::Loop(e, _, _), 0) => e,
        (Expr::Loop(_, f, _), 1) => f,
        (Expr::Loop(_, _, g), _) => g,
        (Expr::Action(_), _) => expr,
    }
}

/// What one use of ≡, here or further in, makes of a dynamic expression.
fn neighbours(expr: &Expr, dynamic: &Dynamic) -> Vec<Dynamic> {
    let mut found: Vec<Dynamic> = groups(expr)
        .into_iter()
        .filter(|group| group.contains(dynamic))
        .flatten()
        .filter(|other| other != dynamic)
        .collect();
    match dynamic {
        Dynamic::One(number, inner) => {
            let inside = neighbours(operand(expr, *number), inner);
            found.extend(inside.into_iter().map(|inner| one(*number, inner)));
        }
        Dynamic::Both(left, right) => {
            let inside = neighbours(operand(expr, 0), left);
            found.extend(inside.into_iter().map(|left| both(left, (**right).clone())));
            let inside = neighbours(operand(expr, 1), right);
            found.extend(inside.into_iter().map(|right| both((**left).clone(), right)));
        }
        Over | Under => {}
    }
    found
}

/// All dynamic expressions that are ≡ to this one, or none where there are
/// more than `most`.
pub fn class(expr: &Expr, dynamic: Dynamic, most: usize) -> Option<HashSet<Dynamic>> {
    let mut all = HashSet::from([dynamic.clone()]);
    let mut open = vec![dynamic];
    while let Some(dynamic) = open.pop() {
        for other in neighbours(expr, &dynamic) {
            if all.insert(other.clone()) {
                open.push(other);
            }
        }
        if all.len() > most {
            return None;
        }
    }
    Some(all)
}

/// The dynamic expression after a step, by the step rules alone.
fn derive(
    expr: &Expr,
    from: usize,
    labels: &[u8],
    dynamic: &Dynamic,
    items: &[Item],
) -> Option<Dynamic> {
    if items.is_empty() {
        return Some(dynamic.clone());
    }
    match (expr, dynamic) {
        (Expr::Action(_), Over) => lone(items, from).then_some(Under),
        (Expr::Scope(name, e), Dynamic::One(_, inner)) => unjoined(*name, labels, items)
            .iter()
            .find_map(|below| derive(e, from, labels, inner, below))
            .map(|inner| one(0, inner)),
        (Expr::Parallel(e, f), Dynamic::Both(left, right)) => {
            let middle = from + e.actions();
            let (for_left, for_right) = split(items, middle)?;
            let left = derive(e, from, labels, left, &for_left)?;
            let right = derive(f, middle, labels, right, &for_right)?;
            Some(both(left, right))
        }
        (_, Dynamic::One(number, inner)) => {
            let before: usize = (0..*number).map(|k| operand(expr, k).actions()).sum();
            let e = operand(expr, *number);
            derive(e, from + before, labels, inner, items).map(|inner| one(*number, inner))
        }
        _ => None,
    }
}

/// Replays a record; none where a state has more than `most` expressions.
pub fn replay(expr: &Expr, record: &[u8], most: usize) -> Option<Derived> {
    let labels = expr.labels();
    let mut state = class(expr, Over, most)?;
    let mut steps = 0;
    let mut step = Step::default();
    let mut at = 0;
    while at < record.len() {
        let Ok(next) = step.read(record, at, false) else {
            break;
        };
        let after = state.iter().find_map(|one| derive(expr, 0, &labels, one, step.items()));
        let Some(after) = after else {
            break;
        };
        state = class(expr, after, most)?;
        steps += 1;
        at = next;
    }
    Some(Derived { steps, finished: state.contains(&Under) })
}
