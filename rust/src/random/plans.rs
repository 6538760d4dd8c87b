//! Generated plans.

use super::Random;
use crate::limit;
use crate::paper::expr::Expr;

/// What generated plans look like.
#[derive(Clone, Copy, Debug)]
pub struct Shape {
    /// How many actions.
    pub actions: usize,
    /// Greatest depth.
    pub depth: usize,
    /// Names used for labels and scopes: 1 to this.
    pub names: u8,
    /// One loop in so many gets any body, maybe no exclusive one; 0 for none.
    pub faulty: usize,
}

/// A plan of this shape.
pub fn plan(random: &mut Random, shape: Shape) -> Expr {
    any(random, shape, shape.actions, shape.depth, None)
}

/// Whether `actions` actions fit into a tree of this depth.
fn fits(actions: usize, depth: usize) -> bool {
    depth > 0 && (depth > 20 || actions <= 1 << (depth - 1))
}

fn name(random: &mut Random, shape: Shape) -> u8 {
    random.between(1, usize::from(shape.names)) as u8
}

fn action(random: &mut Random, shape: Shape, favoured: Option<u8>) -> Expr {
    Expr::Action(match favoured {
        Some(label) if random.chance(3, 4) => label,
        _ if random.chance(1, 16) => 0,
        _ => name(random, shape) + if random.chance(1, 2) { 128 } else { 0 },
    })
}

/// Splits `actions` in two parts that fit below `depth`.
fn halves(random: &mut Random, actions: usize, depth: usize) -> (usize, usize) {
    for _ in 0..8 {
        let left = random.between(1, actions - 1);
        if fits(left, depth - 1) && fits(actions - left, depth - 1) {
            return (left, actions - left);
        }
    }
    (actions / 2, actions - actions / 2)
}

fn any(
    random: &mut Random,
    shape: Shape,
    actions: usize,
    depth: usize,
    favoured: Option<u8>,
) -> Expr {
    if fits(actions, depth.saturating_sub(1)) && random.chance(1, if actions == 1 { 12 } else { 5 })
    {
        return scoped(random, shape, actions, depth, favoured);
    }
    if actions == 1 {
        return action(random, shape, favoured);
    }
    if actions > 2 && random.chance(1, 4) {
        return repeated(random, shape, actions, depth, favoured);
    }
    let (left, right) = halves(random, actions, depth);
    let e = any(random, shape, left, depth - 1, favoured);
    let f = any(random, shape, right, depth - 1, favoured);
    match random.below(5) {
        0 | 1 => Expr::parallel(e, f),
        2 => Expr::choice(e, f),
        _ => Expr::sequence(e, f),
    }
}

/// A scope, often over a parallel whose sides lean to conjugate labels.
fn scoped(
    random: &mut Random,
    shape: Shape,
    actions: usize,
    depth: usize,
    favoured: Option<u8>,
) -> Expr {
    let name = name(random, shape);
    if actions > 1 && fits(actions, depth - 2) && random.chance(3, 4) {
        let (left, right) = halves(random, actions, depth - 1);
        let e = any(random, shape, left, depth - 2, Some(name));
        let f = any(random, shape, right, depth - 2, Some(name + 128));
        return Expr::scope(
            name,
            if random.chance(1, 2) { Expr::parallel(e, f) } else { Expr::parallel(f, e) },
        );
    }
    Expr::scope(name, any(random, shape, actions, depth - 1, favoured))
}

fn repeated(
    random: &mut Random,
    shape: Shape,
    actions: usize,
    depth: usize,
    favoured: Option<u8>,
) -> Expr {
    let (mut first, mut body) = (1, 1);
    for _ in 0..actions - 3 {
        match random.below(4) {
            0 => first += 1,
            1 | 2 => body += 1,
            _ => {}
        }
    }
    let mut last = actions - first - body;
    if ![first, body, last].iter().all(|n| fits(*n, depth - 1)) {
        (first, body) = (actions / 3, actions / 3);
        last = actions - first - body;
    }
    if !fits(last, depth - 1) {
        let f = any(random, shape, actions - 1, depth - 1, favoured);
        return Expr::sequence(action(random, shape, favoured), f);
    }
    let e = any(random, shape, first, depth - 1, favoured);
    let f = if shape.faulty > 0 && random.chance(1, shape.faulty) {
        any(random, shape, body, depth - 1, favoured)
    } else {
        exclusive(random, shape, body, depth - 1, favoured)
    };
    let g = any(random, shape, last, depth - 1, favoured);
    Expr::repeat(e, f, g)
}

/// An exclusive expression.
fn exclusive(
    random: &mut Random,
    shape: Shape,
    actions: usize,
    depth: usize,
    favoured: Option<u8>,
) -> Expr {
    if fits(actions, depth.saturating_sub(1)) && random.chance(1, 6) {
        let inner = exclusive(random, shape, actions, depth - 1, favoured);
        return Expr::scope(name(random, shape), inner);
    }
    if actions == 1 {
        return action(random, shape, favoured);
    }
    if actions > 2 && random.chance(1, 4) {
        return repeated(random, shape, actions, depth, favoured);
    }
    let (left, right) = halves(random, actions, depth);
    if random.chance(1, 3) {
        let e = exclusive(random, shape, left, depth - 1, favoured);
        let f = exclusive(random, shape, right, depth - 1, favoured);
        return Expr::choice(e, f);
    }
    let e = any(random, shape, left, depth - 1, favoured);
    let f = any(random, shape, right, depth - 1, favoured);
    Expr::sequence(e, f)
}

/// One of the operators with two operands, by its constructor.
pub type Operator = fn(Expr, Expr) -> Expr;

/// `count` actions with this label under one operator, as a balanced tree.
pub fn wide(operator: Operator, label: u8, count: usize) -> Expr {
    if count == 1 {
        return Expr::Action(label);
    }
    let left = wide(operator, label, count / 2);
    operator(left, wide(operator, label, count - count / 2))
}

/// A plan of exactly this depth, with at most `depth` actions.
pub fn deep(random: &mut Random, depth: usize) -> Expr {
    let mut expr = Expr::Action(random.between(1, 3) as u8);
    for _ in 1..depth {
        let other = Expr::Action(random.between(129, 131) as u8);
        expr = match random.below(5) {
            0 => Expr::sequence(expr, other),
            1 => Expr::sequence(other, expr),
            2 => Expr::parallel(other, expr),
            3 => Expr::choice(expr, other),
            _ => Expr::scope(random.between(1, 3) as u8, expr),
        };
    }
    expr
}

/// A plan near one of the limits, on either side of it.
pub fn near_limit(random: &mut Random) -> Expr {
    let close = |random: &mut Random, n: usize| random.between(n - 3, n + 3);
    match random.below(8) {
        0 => {
            let (m, n) = (close(random, 32), close(random, 32));
            Expr::choice(wide(Expr::parallel, 1, m), wide(Expr::parallel, 2, n))
        }
        1 => {
            let (m, n) = (close(random, 32), close(random, 32));
            let inner = Expr::parallel(wide(Expr::parallel, 1, m), wide(Expr::parallel, 129, n));
            Expr::scope(1, inner)
        }
        2 => {
            let (m, n) = (random.between(9, 17), random.between(9, 17));
            let inner = Expr::parallel(wide(Expr::parallel, 1, m), wide(Expr::parallel, 129, n));
            let other = wide(Expr::parallel, 2, random.between(20, 34));
            Expr::choice(Expr::scope(1, inner), other)
        }
        3 => {
            let (m, n) = (close(random, 45), close(random, 45));
            Expr::sequence(wide(Expr::parallel, 1, m), wide(Expr::parallel, 2, n))
        }
        4 => {
            let depth = random.between(limit::DEPTH - 1, limit::DEPTH + 1);
            deep(random, depth)
        }
        5 => {
            let actions = random.between(limit::ACTIONS - 2, limit::ACTIONS + 2);
            let operator = [Expr::sequence as Operator, Expr::choice, Expr::parallel];
            wide(operator[random.below(3)], 1, actions)
        }
        6 => {
            let (m, n) = (random.between(9, 11), random.between(9, 11));
            let body = Expr::sequence(wide(Expr::parallel, 1, 4), wide(Expr::parallel, 2, 4));
            let ends = (wide(Expr::parallel, 3, m), wide(Expr::parallel, 4, n));
            Expr::repeat(ends.0, body, ends.1)
        }
        _ => {
            let mut expr = wide(Expr::sequence, 1, limit::ACTIONS - 16);
            // The scopes bring the bytes near the plan's limit.
            let mut bytes = 7 * expr.actions() - 3;
            let target = random.between(limit::PLAN - 400, limit::PLAN + 400);
            while bytes < target {
                bytes += 4 * scope_some(&mut expr, (target - bytes).div_ceil(4));
            }
            expr
        }
    }
}

/// Puts at most `most` actions of an expression under one scope more.
fn scope_some(expr: &mut Expr, most: usize) -> usize {
    match expr {
        _ if most == 0 => 0,
        Expr::Action(label) => {
            *expr = Expr::scope(9, Expr::Action(*label));
            1
        }
        Expr::Sequence(e, f) | Expr::Choice(e, f) | Expr::Parallel(e, f) => {
            let done = scope_some(e, most);
            done + scope_some(f, most - done)
        }
        Expr::Loop(e, f, g) => {
            let done = scope_some(e, most);
            let done = done + scope_some(f, most - done);
            done + scope_some(g, most - done)
        }
        Expr::Scope(_, e) => scope_some(e, most),
    }
}
