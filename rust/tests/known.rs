//! The paper's known nets, and those of its cases that stand at the limits.

mod common;

use common::{act, alt, number, pairs, par, seq, stopped, wide_par};
use fuuqidhel::paper::expr::Expr;
use fuuqidhel::paper::plan::Plan;
use fuuqidhel::paper::record::{written, Item};
use fuuqidhel::paper::{compile, net_of, replay};
use fuuqidhel::random::{deep, wide, Random};
use fuuqidhel::{Counts, Refused, Replayed};

/// The places and the arcs of each transition, as text.
fn shown(expr: &Expr) -> String {
    let net = net_of(&expr.encode()).unwrap();
    let exits = net.kinds.len() - net.entries - net.internals;
    let mut text = format!("{} {} {exits}", net.entries, net.internals);
    for transition in net.transitions() {
        text += &format!(" {}:{:?}>{:?}", transition.label, transition.inputs, transition.outputs);
    }
    text
}

fn compiled(expr: &Expr) -> Result<Counts, Refused> {
    let made = compile(&expr.encode(), &mut [0; 2_048], &mut [0; 6_144], &mut [0; 16_384]);
    made.map(|made| made.counts)
}

#[test]
fn known_nets() {
    assert_eq!(shown(&seq(par(act(1), act(2)), act(3))), "2 2 1 1:[0]>[2] 2:[1]>[3] 3:[2, 3]>[4]");
    let choice = alt(par(act(1), act(2)), act(3));
    assert_eq!(shown(&choice), "2 0 2 1:[0]>[2] 2:[1]>[3] 3:[0, 1]>[2, 3]");
    assert_eq!(shown(&Expr::repeat(act(1), act(2), act(3))), "1 1 1 1:[0]>[1] 2:[1]>[1] 3:[1]>[2]");
    let body = seq(par(act(1), act(2)), act(5));
    assert_eq!(
        shown(&Expr::repeat(act(3), body, act(4))),
        "1 4 1 3:[0]>[3, 4] 1:[3]>[1] 2:[4]>[2] 5:[1, 2]>[3, 4] 4:[3, 4]>[5]"
    );
    assert_eq!(shown(&Expr::scope(1, par(act(1), act(129)))), "2 0 2 0:[0, 1]>[2, 3]");
    assert_eq!(shown(&Expr::scope(1, seq(act(1), act(129)))), "1 1 1");
    let blocked = Expr::scope(1, act(1));
    assert_eq!(shown(&blocked), "1 0 1");
    let mut marking = [7; 3];
    let unfinished = Replayed { steps: 0, finished: false };
    assert_eq!(replay(&blocked.encode(), &[], &mut marking), Ok(unfinished));
    assert_eq!(marking, [1, 0, 7]);
    let faulty = Expr::repeat(act(3), par(act(1), act(2)), act(4));
    assert_eq!(number(Plan::accept(&faulty.encode())), Some((10, 0)));
    assert_eq!(number(Plan::read(&[2, 0, 0])), Some((8, 3)));
    assert_eq!(number(Plan::read(&[])), Some((8, 0)));
    assert_eq!(number(Plan::read(&[1, 0, 1, 128])), Some((6, 0)));

    let plan = seq(par(act(1), act(2)), act(3)).encode();
    let listed = [2, 0, 15, 4, 0, 8, 1, 0, 1, 1, 1, 0, 1, 2, 1, 0, 1, 3];
    assert_eq!(plan, listed);
    let mut marking = [9; 6];
    let good = written(&[&[Item::one(0), Item::one(1)], &[Item::one(2)]]);
    assert_eq!(replay(&plan, &good, &mut marking), Ok(Replayed { steps: 2, finished: true }));
    assert_eq!(marking, [0, 0, 0, 0, 1, 9]);
    let early = written(&[&[Item::one(2)]]);
    assert_eq!(stopped(replay(&plan, &early, &mut marking)), Some((32, 0, 0)));
    assert_eq!(marking, [1, 1, 0, 0, 0, 9]);
}

#[test]
fn text() {
    let plan = [2, 0, 15, 4, 0, 8, 1, 0, 1, 1, 1, 0, 1, 2, 1, 0, 1, 3];
    let lines = "net 2 2 1 3 7\nt 0 1 0 - : 0 > 2\nt 1 2 1 - : 1 > 3\nt 2 3 2 - : 2 3 > 4\n";
    assert_eq!(net_of(&plan).unwrap().to_string(), lines);
    let joined = "net 2 0 2 1 4\nt 0 0 0 1 : 0 1 > 2 3\n";
    assert_eq!(net_of(&pairs(1, 1).encode()).unwrap().to_string(), joined);
}

#[test]
fn at_the_limits() {
    let counts = |places, transitions, arcs| Ok(Counts { places, transitions, arcs });
    let choice = |m, n| alt(wide_par(1, m), wide_par(2, n));
    assert_eq!(compiled(&choice(32, 32)), counts(2_048, 64, 4_096));
    assert_eq!(number(compiled(&choice(33, 32))), Some((11, 0)));
    assert_eq!(number(compiled(&choice(32, 33))), Some((11, 0)));
    assert_eq!(compiled(&pairs(32, 32)), counts(128, 1_024, 4_096));
    assert_eq!(number(compiled(&pairs(33, 33))), Some((12, 0)));
    assert_eq!(number(compiled(&alt(pairs(16, 16), wide_par(2, 32)))), Some((13, 0)));
    let mut random = Random::new(1);
    for _ in 0..200 {
        assert!(Plan::read(&deep(&mut random, 32).encode()).is_ok());
        let refused = number(Plan::read(&deep(&mut random, 33).encode()));
        assert_eq!(refused.map(|refused| refused.0), Some(5));
    }
    let mut scopes = act(1);
    (1..32).for_each(|_| scopes = Expr::scope(2, scopes.clone()));
    assert!(compiled(&scopes).is_ok());
    assert_eq!(number(compiled(&Expr::scope(2, scopes))), Some((5, 128)));
    assert_eq!(compiled(&wide(Expr::sequence, 1, 256)), counts(257, 256, 512));
    let many = wide(Expr::sequence, 1, 257).encode();
    assert_eq!(number(Plan::read(&many)), Some((7, many.len() - 4)));

    // Inner parts may pass 12's and 13's limits.
    let b = par(pairs(32, 32), wide_par(2, 100));
    assert_eq!(number(compiled(&b)), Some((12, 0)));
    assert_eq!(compiled(&Expr::scope(2, b)), counts(328, 1_024, 4_096));
    let inner = alt(wide(Expr::choice, 1, 100), wide_par(2, 100));
    assert_eq!(number(compiled(&inner)), Some((13, 0)));
    assert_eq!(compiled(&Expr::scope(1, inner)), counts(200, 100, 200));
}
