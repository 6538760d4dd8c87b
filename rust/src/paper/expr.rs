//! Expressions as trees, for the calculus, and their plan bytes.

use super::plan::{Plan, ACTION, CHOICE, LOOP, PARALLEL, SCOPE, SEQUENCE};

/// An expression: what a plan's bytes say.
#[derive(Clone, Debug, PartialEq, Eq, Hash)]
pub enum Expr {
    /// An action with its label.
    Action(u8),
    /// E;F
    Sequence(Box<Expr>, Box<Expr>),
    /// E□F
    Choice(Box<Expr>, Box<Expr>),
    /// E‖F
    Parallel(Box<Expr>, Box<Expr>),
    /// ⟨E⊗F⊗G⟩: first, body, last.
    Loop(Box<Expr>, Box<Expr>, Box<Expr>),
    /// E sc a
    Scope(u8, Box<Expr>),
}

impl Expr {
    /// The sequence of `e` and `f`.
    pub fn sequence(e: Expr, f: Expr) -> Expr {
        Expr::Sequence(Box::new(e), Box::new(f))
    }

    /// The choice of `e` and `f`.
    pub fn choice(e: Expr, f: Expr) -> Expr {
        Expr::Choice(Box::new(e), Box::new(f))
    }

    /// The parallel of `e` and `f`.
    pub fn parallel(e: Expr, f: Expr) -> Expr {
        Expr::Parallel(Box::new(e), Box::new(f))
    }

    /// The loop with first `e`, body `f` and last `g`.
    pub fn repeat(e: Expr, f: Expr, g: Expr) -> Expr {
        Expr::Loop(Box::new(e), Box::new(f), Box::new(g))
    }

    /// `e` under scope `name`.
    pub fn scope(name: u8, e: Expr) -> Expr {
        Expr::Scope(name, Box::new(e))
    }

    /// The expression of a plan.
    pub fn of(plan: &Plan) -> Expr {
        Expr::at(plan, 0)
    }

    fn at(plan: &Plan, number: usize) -> Expr {
        let node = plan.nodes[number];
        let behind = |operand: usize| usize::from(plan.nodes[operand].next);
        let first = || Expr::at(plan, number + 1);
        let second = || Expr::at(plan, behind(number + 1));
        match node.tag {
            ACTION => Expr::Action(node.byte),
            SEQUENCE => Expr::sequence(first(), second()),
            CHOICE => Expr::choice(first(), second()),
            PARALLEL => Expr::parallel(first(), second()),
            LOOP => Expr::repeat(first(), second(), Expr::at(plan, behind(behind(number + 1)))),
            _ => Expr::scope(node.byte, first()),
        }
    }

    /// How many actions stand in the expression.
    pub fn actions(&self) -> usize {
        match self {
            Expr::Action(_) => 1,
            Expr::Sequence(e, f) | Expr::Choice(e, f) | Expr::Parallel(e, f) => {
                e.actions() + f.actions()
            }
            Expr::Loop(e, f, g) => e.actions() + f.actions() + g.actions(),
            Expr::Scope(_, e) => e.actions(),
        }
    }

    /// The labels of the actions, as they stand in the bytes.
    pub fn labels(&self) -> Vec<u8> {
        fn collect(expr: &Expr, labels: &mut Vec<u8>) {
            match expr {
                Expr::Action(label) => labels.push(*label),
                Expr::Sequence(e, f) | Expr::Choice(e, f) | Expr::Parallel(e, f) => {
                    collect(e, labels);
                    collect(f, labels);
                }
                Expr::Loop(e, f, g) => {
                    collect(e, labels);
                    collect(f, labels);
                    collect(g, labels);
                }
                Expr::Scope(_, e) => collect(e, labels),
            }
        }
        let mut labels = Vec::new();
        collect(self, &mut labels);
        labels
    }

    /// The plan bytes of the expression.
    ///
    /// # Panics
    ///
    /// If a body has more than 65,535 bytes; no plan within the limits has one.
    pub fn encode(&self) -> Vec<u8> {
        let mut bytes = Vec::new();
        self.write(&mut bytes);
        bytes
    }

    fn write(&self, bytes: &mut Vec<u8>) {
        let at = bytes.len();
        let tag = match self {
            Expr::Action(_) => ACTION,
            Expr::Sequence(..) => SEQUENCE,
            Expr::Choice(..) => CHOICE,
            Expr::Parallel(..) => PARALLEL,
            Expr::Loop(..) => LOOP,
            Expr::Scope(..) => SCOPE,
        };
        bytes.extend([tag, 0, 0]);
        match self {
            Expr::Action(label) => bytes.push(*label),
            Expr::Sequence(e, f) | Expr::Choice(e, f) | Expr::Parallel(e, f) => {
                e.write(bytes);
                f.write(bytes);
            }
            Expr::Loop(e, f, g) => {
                e.write(bytes);
                f.write(bytes);
                g.write(bytes);
            }
            Expr::Scope(name, e) => {
                bytes.push(*name);
                e.write(bytes);
            }
        }
        let length = u16::try_from(bytes.len() - at - 3).expect("a body of at most 65,535 bytes");
        bytes[at + 1..at + 3].copy_from_slice(&length.to_be_bytes());
    }
}
