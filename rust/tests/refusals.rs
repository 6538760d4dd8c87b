//! Cases for each refusal number, with what is carried and what is written.

mod common;

use common::{act, alt, number, par, seq, stopped};
use fuuqidhel::paper::expr::Expr;
use fuuqidhel::paper::plan::Plan;
use fuuqidhel::paper::record::{written, Item};
use fuuqidhel::paper::{compile, enabled, fire, net_of, replay};
use fuuqidhel::random::wide;
use fuuqidhel::{Counts, Enabled, Made, Net, Tables};

/// `(a‖b);c`
fn plan() -> Vec<u8> {
    seq(par(act(1), act(2)), act(3)).encode()
}

fn net() -> Net {
    net_of(&plan()).unwrap()
}

#[test]
fn reading() {
    let read = |bytes: &[u8]| number(Plan::read(bytes));
    assert_eq!(read(&[9; 4_097]), Some((1, 0)));
    assert_eq!(read(&[9; 4_096]), Some((3, 0)));
    assert_eq!(read(&[4, 0, 4, 1, 0, 1, 1]), Some((8, 7)));
    assert_eq!(read(&[1, 0]), Some((2, 0)));
    assert_eq!(read(&[1, 0, 2, 1]), Some((2, 0)));
    assert_eq!(read(&[4, 0, 8, 1, 0, 1, 1, 1, 0, 2, 1, 1]), Some((2, 7)));
    assert_eq!(read(&[7, 0, 9]), Some((3, 0)));
    assert_eq!(read(&[1, 0, 2, 1, 1]), Some((4, 0)));
    assert_eq!(read(&[1, 0, 0]), Some((4, 0)));
    assert_eq!(read(&[6, 0, 0]), Some((4, 0)));
    assert_eq!(read(&[6, 0, 1, 0]), Some((6, 0)));
    assert_eq!(read(&[6, 0, 1, 128]), Some((6, 0)));
    assert_eq!(read(&[6, 0, 1, 127]), Some((8, 4)));
    assert_eq!(read(&[1, 0, 1, 1, 0]), Some((9, 4)));
    assert_eq!(read(&[6, 0, 6, 1, 1, 0, 1, 1, 1, 0]), Some((9, 8)));
    let deep = |rest: &[u8]| {
        let mut bytes = rest.to_vec();
        for _ in 0..32 {
            let length = (bytes.len() + 1) as u16;
            let mut outer = vec![6, (length >> 8) as u8, length as u8, 1];
            outer.extend(&bytes);
            bytes = outer;
        }
        read(&bytes)
    };
    assert_eq!(deep(&[]), Some((8, 128)));
    assert_eq!(deep(&[1]), Some((5, 128)));
    let mut many = wide(Expr::parallel, 1, 257).encode();
    let at = many.len() - 4;
    many[at + 3] = 128;
    assert_eq!(read(&many), Some((6, at)));
}

#[test]
fn loop_bodies() {
    let accept = |expr: Expr| number(Plan::accept(&expr.encode()));
    let faulty = |e, f| Expr::repeat(e, f, act(1));
    let inner = faulty(act(1), par(act(1), act(1)));
    assert_eq!(accept(seq(act(1), inner.clone())), Some((10, 7)));
    let outer = faulty(inner.clone(), alt(act(1), par(act(1), act(1))));
    assert_eq!(accept(outer), Some((10, 0)));
    assert_eq!(accept(faulty(inner, act(1))), Some((10, 3)));
    assert_eq!(accept(faulty(act(1), Expr::scope(2, par(act(1), act(1))))), Some((10, 0)));
    assert_eq!(accept(faulty(act(1), seq(par(act(1), act(1)), act(1)))), None);
}

#[test]
fn short_tables() {
    for (places, rows, arcs) in [(4, 18, 7), (5, 17, 7), (5, 18, 6), (5, 18, 7), (6, 20, 8)] {
        let (mut k, mut r, mut a) = (vec![9; places], vec![9; rows], vec![9; arcs]);
        let answer = compile(&plan(), &mut k, &mut r, &mut a);
        if places < 5 || rows < 18 || arcs < 7 {
            assert_eq!(number(answer), Some((14, 0)));
            assert!(k.iter().all(|n| *n == 9) && r.iter().chain(&a).all(|n| *n == 9));
        } else {
            let counts = Counts { places: 5, transitions: 3, arcs: 7 };
            assert_eq!(answer, Ok(Made { counts, entries: 2, internals: 2 }));
            assert_eq!(k[..5], [1, 1, 2, 2, 3]);
            assert_eq!(r[..18], [1, 0, 65535, 0, 1, 1, 2, 1, 65535, 2, 1, 1, 3, 2, 65535, 4, 2, 1]);
            assert_eq!(a[..7], [0, 2, 1, 3, 2, 3, 4]);
            assert!(k[5..].iter().all(|n| *n == 9));
            assert!(r[18..].iter().chain(&a[7..]).all(|n| *n == 9));
        }
    }
}

/// The step's offset in replay, 0 in firing.
#[test]
fn record_form() {
    let net = net();
    let forms: [(&[u8], u8); 14] = [
        (&[0x20], 21),
        (&[0x23, 0, 9], 21),
        (&[0x20, 0, 5, 0x21, 0, 1, 1], 21),
        (&[0x23, 0, 0], 22),
        (&[0x20, 0, 0], 23),
        (&[0x20, 0, 1, 0x21], 21),
        (&[0x20, 0, 3, 0x23, 0, 1], 21),
        (&[0x20, 0, 3, 0x23, 0, 0], 22),
        (&[0x20, 0, 3, 0x21, 0, 0], 23),
        (&[0x20, 0, 4, 0x22, 0, 1, 1], 23),
        (&[0x20, 0, 5, 0x21, 0, 2, 1, 1], 23),
        (&[0x20, 0, 8, 0x21, 0, 1, 1, 0x21, 0, 1, 1], 24),
        (&[0x20, 0, 9, 0x21, 0, 1, 1, 0x22, 0, 2, 0, 1], 24),
        (&[0x20, 0, 8, 0x21, 0, 1, 9, 0x23, 0, 1, 1], 22),
    ];
    for (form, expected) in forms {
        let mut record = written(&[&[Item::one(0)]]);
        record.extend(form);
        let mut marking = [0; 5];
        let answer = replay(&plan(), &record, &mut marking);
        assert_eq!(stopped(answer), Some((expected, 7, 1)), "{form:?}");
        assert_eq!(marking, [0, 1, 1, 0, 0]);
        assert_eq!(number(fire(net.tables(), form, &mut marking)), Some((expected, 0)));
        assert_eq!(marking, [0, 1, 1, 0, 0]);
    }
    let mut behind = written(&[&[Item::one(9)]]);
    behind.push(0);
    assert_eq!(number(fire(net.tables(), &behind, &mut [1, 1, 0, 0, 0])), Some((23, 0)));
    let mut marking = [5; 5];
    assert_eq!(stopped(replay(&plan(), &[0; 16_385], &mut marking)), Some((20, 0, 0)));
    assert_eq!(stopped(replay(&plan(), &[0; 16_385], &mut marking[..4])), Some((35, 0, 0)));
    assert_eq!(marking, [5; 5]);
    assert_eq!(stopped(replay(&plan(), &[0; 16_384], &mut marking)), Some((22, 0, 0)));
}

#[test]
fn firing() {
    let net = net();
    let refused = |items: &[Item], marking: &mut [u8]| {
        number(fire(net.tables(), &written(&[items]), marking))
    };
    let [a, b, c] = [0, 1, 2].map(Item::one);
    let mut marking = [1, 1, 0, 0, 0, 8];
    assert_eq!(refused(&[c, Item::one(3)], &mut marking), Some((31, 1)));
    assert_eq!(refused(&[Item::two(0, 1)], &mut marking), Some((31, 0)));
    assert_eq!(refused(&[b, c], &mut marking), Some((32, 1)));
    assert_eq!(number(fire(net.tables(), &[], &mut marking[..4])), Some((35, 0)));
    assert_eq!(number(fire(net.tables(), &[], &mut [1, 1, 0, 0, 2])), Some((35, 0)));
    assert_eq!(refused(&[a], &mut marking), None);
    assert_eq!(marking, [0, 1, 1, 0, 0, 8]);
    let full = &mut [1, 1, 1, 1, 0];
    assert_eq!(refused(&[a, b], full), Some((36, 0)));
    assert_eq!(full, &[1, 1, 1, 1, 0]);
    assert_eq!(refused(&[a, b, c], full), None);
    assert_eq!(full, &[0, 0, 1, 1, 1]);
    let either = net_of(&alt(par(act(1), act(2)), act(3)).encode()).unwrap();
    let full = &mut [1, 1, 0, 0];
    let refused = |items: &[Item], marking: &mut [u8]| {
        number(fire(either.tables(), &written(&[items]), marking))
    };
    assert_eq!(refused(&[a, b, c], full), Some((33, 2)));
    assert_eq!(refused(&[b, c], full), Some((33, 1)));
    assert_eq!(full, &[1, 1, 0, 0]);
}

#[test]
fn enabled_list() {
    let net = net();
    let list = &mut [9; 4];
    assert_eq!(enabled(net.tables(), &[1, 1, 1, 1, 0], list), Ok(Enabled::Many(3)));
    assert_eq!(list, &[0, 1, 2, 9]);
    let list = &mut [9; 4];
    assert_eq!(number(enabled(net.tables(), &[1, 1, 1, 1, 0], &mut list[..2])), Some((14, 0)));
    assert_eq!(enabled(net.tables(), &[0, 0, 1, 0, 0, 9], &mut []), Ok(Enabled::Stuck));
    assert_eq!(enabled(net.tables(), &[0, 0, 1, 0, 1, 9], &mut []), Ok(Enabled::Finished));
    assert_eq!(number(enabled(net.tables(), &[0, 0, 1, 0], &mut [])), Some((35, 0)));
    assert_eq!(number(enabled(net.tables(), &[0, 0, 0, 0, 2], &mut [])), Some((35, 0)));
    assert_eq!(list, &[9; 4]);
    assert_eq!(
        [Enabled::Many(3), Enabled::Stuck, Enabled::Finished].map(Enabled::count),
        [3, 0, 0]
    );
}

/// Nothing is enabled: stuck with an exit unmarked, else the run is over.
#[test]
fn stuck_or_over() {
    // Of a‖b both exits are reached; of (a sc a)‖b only that of b.
    for (left, expected) in [
        (act(1), [Enabled::Many(1), Enabled::Finished]),
        (Expr::scope(1, act(1)), [Enabled::Stuck, Enabled::Stuck]),
    ] {
        let plan = par(left, act(2)).encode();
        let net = net_of(&plan).unwrap();
        assert_eq!(net.kinds, [1, 1, 3, 3]);
        let (mut marking, mut list) = ([0; 4], [0; 2]);
        let [a, b] = [0, 1].map(Item::one);
        assert!(replay(&plan, &written(&[&[b]]), &mut marking).is_ok());
        assert_eq!(marking, [1, 0, 0, 1]);
        assert_eq!(enabled(net.tables(), &marking, &mut list), Ok(expected[0]));
        let run = replay(&plan, &written(&[&[b], &[a]]), &mut marking);
        assert_eq!(run.is_ok_and(|run| run.finished), expected[1] == Enabled::Finished);
        assert_eq!(enabled(net.tables(), &marking, &mut list), Ok(expected[1]));
    }
    // Tables that no plan gives: 0→1 and 2→1, from an exit. Behind them lie
    // an exit and a byte of the marking, which are not looked at.
    let rows = [1, 0, 65_535, 0, 1, 1, 2, 1, 65_535, 2, 1, 1];
    let counts = Counts { places: 4, transitions: 2, arcs: 4 };
    let made = Tables { kinds: &[1, 3, 3, 3, 3], rows: &rows, arcs: &[0, 1, 2, 1], counts };
    let listed = |marking: [u8; 5]| enabled(made, &marking, &mut [0; 2]);
    assert_eq!(listed([0, 0, 0, 0, 0]), Ok(Enabled::Stuck));
    assert_eq!(listed([0, 1, 0, 1, 1]), Ok(Enabled::Stuck));
    assert_eq!(listed([0, 1, 1, 1, 0]), Ok(Enabled::Many(1)));
    assert_eq!(listed([1, 1, 1, 1, 0]), Ok(Enabled::Many(2)));
    let one = Counts { transitions: 1, arcs: 2, ..counts };
    let listed = |marking: [u8; 5]| enabled(Tables { counts: one, ..made }, &marking, &mut []);
    assert_eq!(listed([0, 1, 1, 0, 1]), Ok(Enabled::Stuck));
    assert_eq!(listed([0, 0, 1, 1, 1]), Ok(Enabled::Stuck));
    assert_eq!(listed([0, 1, 1, 1, 0]), Ok(Enabled::Finished));
    assert_eq!(number(listed([1, 1, 1, 1, 0])), Some((14, 0)));
}

#[test]
fn no_net() {
    type Change = fn(&mut Net, &mut Counts);
    let changes: [Change; 28] = [
        |_, c| c.places = 2_049,
        |_, c| c.transitions = 1_025,
        |_, c| c.arcs = 16_385,
        |_, c| c.places = usize::MAX,
        |_, c| c.transitions = usize::MAX,
        |_, c| c.places += 1,
        |_, c| c.transitions += 1,
        |_, c| c.arcs += 1,
        |_, c| c.places = 4,
        |_, c| c.transitions = 2,
        |_, c| c.arcs = 6,
        |_, c| *c = Counts { arcs: 1, transitions: 0, places: 5 },
        |n, _| n.kinds[0] = 0,
        |n, _| n.kinds[0] = 2,
        |n, _| n.kinds[4] = 2,
        |n, _| n.kinds[4] = 4,
        |n, _| n.kinds[1] = 3,
        |n, _| n.arcs[6] = 5,
        |n, _| n.arcs[5] = 2,
        |n, _| n.rows[4] = 0,
        |n, _| n.rows[5] = 0,
        |n, _| n.rows[9] = 1,
        |n, _| n.rows[9] = 3,
        |n, _| n.rows[0] = 128,
        |n, _| n.rows[0] = 256,
        |n, _| n.rows[1] = 65_535,
        |n, _| n.rows[2] = 256,
        |n, _| n.rows[7] = 0,
    ];
    for (spot, change) in changes.iter().enumerate() {
        let (mut net, mut counts) = (net(), net().counts());
        change(&mut net, &mut counts);
        let bad = Tables { counts, ..net.tables() };
        assert_eq!(number(fire(bad, &[], &mut [])), Some((30, 0)), "change {spot}");
        assert_eq!(number(enabled(bad, &[], &mut [])), Some((30, 0)), "change {spot}");
    }
    let nothing = Counts { places: 5, transitions: 0, arcs: 0 };
    let net = net();
    let bare = Tables { rows: &[], arcs: &[], counts: nothing, ..net.tables() };
    assert_eq!(enabled(bare, &[1, 1, 1, 1, 0], &mut []), Ok(Enabled::Stuck));
    assert_eq!(enabled(bare, &[1; 5], &mut []), Ok(Enabled::Finished));
}
