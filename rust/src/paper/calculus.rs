//! Replay by the calculus rules, with no net.
//!
//! A state is a dynamic expression up to ≡, kept in a normal form: bars stand
//! as far out as they can, and what ≡ makes one state has one form. Steps are
//! derived by the rules; a parallel joins the steps of its sides, a scope
//! joins pairs, and a lone a or a+128 blocks under it.

use super::expr::Expr;
use super::record::{Item, Step};

/// A dynamic expression in normal form, read along its expression.
#[derive(Clone, Debug, PartialEq, Eq, Hash)]
pub enum State {
    /// Started: the overbar over the whole part.
    Started,
    /// Finished: the underbar under the whole part.
    Finished,
    /// Between the first operand and what follows: in E;F a finished E and a
    /// started F, in a loop the one state of finished first, finished body,
    /// started body and started last.
    Between,
    /// Inside the operand of this number, neither started nor finished there.
    Inside(usize, Box<State>),
    /// A parallel with the states of both sides, not both started and not
    /// both finished.
    Both(Box<State>, Box<State>),
}

/// What the replay by the rules answers.
#[derive(Clone, Copy, Debug, PartialEq, Eq)]
pub struct Derived {
    /// How many leading steps are derived.
    pub steps: usize,
    /// Whether the state after them is finished.
    pub finished: bool,
}

/// Replays a record by the rules; it stops at the first step that has a bad
/// form or is not derived.
pub fn replay(expr: &Expr, record: &[u8]) -> Derived {
    let labels = expr.labels();
    let mut state = State::Started;
    let mut steps = 0;
    let mut step = Step::default();
    let mut at = 0;
    while at < record.len() {
        let Ok(next) = step.read(record, at, false) else {
            break;
        };
        let Some(after) = derive(expr, 0, &labels, &state, step.items()) else {
            break;
        };
        state = after;
        steps += 1;
        at = next;
    }
    Derived { steps, finished: state == State::Finished }
}

/// The state after a step with exactly these items, if the rules derive one.
/// `from` is the number of the part's first action. No items is idling.
pub fn derive(
    expr: &Expr,
    from: usize,
    labels: &[u8],
    state: &State,
    items: &[Item],
) -> Option<State> {
    if items.is_empty() {
        return Some(state.clone());
    }
    match expr {
        Expr::Action(_) => {
            (*state == State::Started && lone(items, from)).then_some(State::Finished)
        }
        Expr::Parallel(e, f) => {
            let (left, right) = match state {
                State::Both(left, right) => ((**left).clone(), (**right).clone()),
                other => (other.clone(), other.clone()),
            };
            let middle = from + e.actions();
            let (for_left, for_right) = split(items, middle)?;
            let left = derive(e, from, labels, &left, &for_left)?;
            let right = derive(f, middle, labels, &right, &for_right)?;
            Some(match (left, right) {
                (State::Started, State::Started) => State::Started,
                (State::Finished, State::Finished) => State::Finished,
                (left, right) => State::Both(Box::new(left), Box::new(right)),
            })
        }
        Expr::Scope(name, e) => {
            let inner = match state {
                State::Inside(_, inner) => (**inner).clone(),
                other => other.clone(),
            };
            let after = unjoined(*name, labels, items)
                .iter()
                .find_map(|below| derive(e, from, labels, &inner, below))?;
            Some(wrapped(0, after))
        }
        Expr::Sequence(e, f) => {
            let middle = from + e.actions();
            match state {
                State::Started => first(derive(e, from, labels, &State::Started, items)?),
                State::Inside(0, inner) => first(derive(e, from, labels, inner, items)?),
                State::Between => second(derive(f, middle, labels, &State::Started, items)?),
                State::Inside(_, inner) => second(derive(f, middle, labels, inner, items)?),
                _ => None,
            }
        }
        Expr::Choice(e, f) => {
            let middle = from + e.actions();
            let left = |inner: &State| {
                derive(e, from, labels, inner, items).map(|after| wrapped(0, after))
            };
            let right = |inner: &State| {
                derive(f, middle, labels, inner, items).map(|after| wrapped(1, after))
            };
            match state {
                State::Started => left(state).or_else(|| right(state)),
                State::Inside(0, inner) => left(inner),
                State::Inside(_, inner) => right(inner),
                _ => None,
            }
        }
        Expr::Loop(e, f, g) => {
            let middle = from + e.actions();
            let behind = middle + f.actions();
            let body = |inner: &State| match derive(f, middle, labels, inner, items)? {
                State::Finished => Some(State::Between),
                after => Some(State::Inside(1, Box::new(after))),
            };
            let last = |inner: &State| {
                derive(g, behind, labels, inner, items).map(|after| wrapped(2, after))
            };
            match state {
                State::Started => first(derive(e, from, labels, &State::Started, items)?),
                State::Inside(0, inner) => first(derive(e, from, labels, inner, items)?),
                State::Between => body(&State::Started).or_else(|| last(&State::Started)),
                State::Inside(1, inner) => body(inner),
                State::Inside(_, inner) => last(inner),
                _ => None,
            }
        }
    }
}

/// The first operand of a sequence or loop after a step.
fn first(after: State) -> Option<State> {
    Some(match after {
        State::Finished => State::Between,
        after => State::Inside(0, Box::new(after)),
    })
}

/// The second operand of a sequence after a step.
fn second(after: State) -> Option<State> {
    Some(wrapped(1, after))
}

/// An operand that passes its finish on.
fn wrapped(operand: usize, after: State) -> State {
    match after {
        State::Finished => State::Finished,
        after => State::Inside(operand, Box::new(after)),
    }
}

/// Whether the items are one item with the action `action` alone.
pub(crate) fn lone(items: &[Item], action: usize) -> bool {
    matches!(items, [Item { first, second: None }] if usize::from(*first) == action)
}

/// The items of the left side (actions below `middle`) and of the right side;
/// none where a joined item has one action on each side, since a parallel
/// joins no items.
pub(crate) fn split(items: &[Item], middle: usize) -> Option<(Vec<Item>, Vec<Item>)> {
    let (mut left, mut right) = (Vec::new(), Vec::new());
    for item in items {
        let on_left = usize::from(item.first) < middle;
        if let Some(second) = item.second {
            if (usize::from(second) < middle) != on_left {
                return None;
            }
        }
        if on_left {
            left.push(*item);
        } else {
            right.push(*item);
        }
    }
    Some((left, right))
}

/// The steps below scope `name` that come out above it as `items`: each pair
/// with the labels a and a+128 was joined either here or further in. None
/// where a lone a or a+128 would have to pass.
pub(crate) fn unjoined(name: u8, labels: &[u8], items: &[Item]) -> Vec<Vec<Item>> {
    let label = |action: u8| labels.get(usize::from(action)).copied();
    let mut below = vec![Vec::new()];
    for item in items {
        match item.second {
            None => {
                let own = label(item.first);
                if own == Some(name) || own == Some(name + 128) {
                    return Vec::new();
                }
                below.iter_mut().for_each(|step| step.push(*item));
            }
            Some(second) => {
                let mut apart = Vec::new();
                if label(item.first) == Some(name) && label(second) == Some(name + 128) {
                    apart = below.clone();
                    for step in &mut apart {
                        step.push(Item { first: item.first, second: None });
                        step.push(Item { first: second, second: None });
                    }
                }
                below.iter_mut().for_each(|step| step.push(*item));
                below.extend(apart);
            }
        }
    }
    below
}
