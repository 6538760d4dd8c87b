//! The stored output of the program `cases`, worked out a second time.

mod common;

use common::{act, alt, pairs, par, seq, wide_par};
use fuuqidhel::paper::expr::Expr;
use fuuqidhel::paper::record::{written, Item};
use fuuqidhel::paper::{compile, enabled, fire, net_of, replay};
use fuuqidhel::random::wide;
use fuuqidhel::{Enabled, Net, Refused};

/// The lines, each a title and an answer.
#[derive(Default)]
struct Lines(String);

impl Lines {
    fn add(&mut self, title: &str, answer: Result<String, String>) {
        let answer = answer.unwrap_or_else(|refused| refused);
        self.0 += &format!("{title}: {answer}\n");
    }

    fn compiled(&mut self, title: &str, plan: &[u8]) {
        self.compiled_into(title, plan, [2_048, 6_144, 16_384]);
    }

    fn compiled_into(&mut self, title: &str, plan: &[u8], [kinds, rows, arcs]: [usize; 3]) {
        let made = compile(plan, &mut vec![0; kinds], &mut vec![0; rows], &mut vec![0; arcs]);
        let line = made.map(|made| {
            let exits = made.counts.places - made.entries - made.internals;
            let (transitions, arcs) = (made.counts.transitions, made.counts.arcs);
            format!("net {} {} {exits} {transitions} {arcs}", made.entries, made.internals)
        });
        self.add(title, line.map_err(refused));
    }

    fn replayed(&mut self, title: &str, plan: &[u8], record: &[u8], places: usize) {
        let answer = replay(plan, record, &mut vec![0; places]);
        let word = |finished| if finished { "finished" } else { "unfinished" };
        let line = answer.map(|run| format!("{} {}", word(run.finished), run.steps));
        let stopped = |s: fuuqidhel::Stopped| format!("{} after {}", refused(s.refused), s.steps);
        self.add(title, line.map_err(stopped));
    }

    fn fired(&mut self, title: &str, net: &Net, marking: &[u8], step: &[u8]) {
        let answer = fire(net.tables(), step, &mut marking.to_vec());
        self.add(title, answer.map(|()| String::from("fired")).map_err(refused));
    }

    fn listed(&mut self, title: &str, net: &Net, marking: &[u8], room: usize) {
        let answer = enabled(net.tables(), marking, &mut vec![0; room]);
        let line = answer.map(|enabled| match enabled {
            Enabled::Many(many) => format!("enabled {many}"),
            Enabled::Stuck => String::from("stuck"),
            Enabled::Finished => String::from("enabled 0"),
        });
        self.add(title, line.map_err(refused));
    }
}

fn refused(refused: Refused) -> String {
    format!("refused {} at {}", refused.number(), refused.carried)
}

fn limits(lines: &mut Lines) {
    let nested = |n| (0..n).fold(act(1), |e, _| Expr::scope(2, e));
    let many = par(pairs(32, 32), wide_par(2, 100));
    let arcs = alt(wide(Expr::choice, 1, 100), wide_par(2, 100));
    let cases = [
        ("32 beside 32", alt(wide_par(1, 32), wide_par(2, 32))),
        ("33 beside 32", alt(wide_par(1, 33), wide_par(2, 32))),
        ("32 joined with 32", pairs(32, 32)),
        ("33 joined with 33", pairs(33, 33)),
        ("16 joined with 16, in choice with 32", alt(pairs(16, 16), wide_par(2, 32))),
        ("depth 32", nested(31)),
        ("depth 33", nested(32)),
        ("256 actions", wide(Expr::sequence, 1, 256)),
        ("257 actions", wide(Expr::sequence, 1, 257)),
        ("1,124 transitions", many.clone()),
        ("1,124 transitions, 100 under a scope", Expr::scope(2, many)),
        ("20,200 arcs", arcs.clone()),
        ("20,200 arcs, 20,000 under a scope", Expr::scope(1, arcs)),
    ];
    for (title, expr) in cases {
        lines.compiled(title, &expr.encode());
        if title == "32 joined with 32" {
            let net = net_of(&expr.encode()).unwrap();
            lines.listed("32 joined with 32, all marked", &net, &[1; 128], 1_024);
        }
    }
    // 112·(120 + 8) + 120·(1 + 8) + 8·(120 + 1) arcs, and
    // 134·(97 + 10) + 97·(1 + 10) + 10·(97 + 1).
    let arcs =
        |m, n, k| alt(wide(Expr::choice, 1, m), seq(wide_par(2, n), wide_par(3, k))).encode();
    lines.compiled("16,384 arcs", &arcs(112, 120, 8));
    let over = arcs(134, 97, 10);
    lines.compiled_into("16,385 arcs, room for all", &over, [1_077, 1_446, 16_385]);
    lines.compiled_into("16,385 arcs, room for none", &over, [0; 3]);
    let repeated = |label| Expr::repeat(act(label), act(label), act(label));
    let plan = Expr::scope(1, par(repeated(1), repeated(129))).encode();
    let (first, body, last) = ([Item::two(0, 3)], [Item::two(1, 4)], [Item::two(2, 5)]);
    let mut steps: Vec<&[Item]> = vec![&body; 2_048];
    steps[0] = &first;
    steps[2_047] = &last;
    lines.replayed("record of 16,384 bytes", &plan, &written(&steps), 6);
}

fn reading(lines: &mut Lines) {
    let action = act(1).encode();
    lines.compiled("1", &[9; 4_097]);
    lines.compiled("1, 5,000 bytes", &[9; 5_000]);
    lines.replayed("20", &action, &[0; 16_385], 2);
    lines.replayed("20, 20,000 bytes", &action, &[0; 20_000], 2);
    lines.compiled("8, operand due", &[4, 0, 4, 1, 0, 1, 1]);
    lines.compiled("2, header cut", &[1, 0]);
    lines.compiled("2, length", &[4, 0, 8, 1, 0, 1, 1, 1, 0, 2, 1, 1]);
    lines.compiled("3", &[7, 0, 9]);
    lines.compiled("4, action", &[1, 0, 2, 1, 1]);
    lines.compiled("4, scope", &[6, 0, 0]);
    lines.compiled("6, label", &[1, 0, 1, 128]);
    lines.compiled("6, scope byte", &[6, 0, 5, 128, 1, 0, 1, 1]);
    lines.compiled("9, after the last operand", &[6, 0, 6, 1, 1, 0, 1, 1, 9]);
    lines.compiled("9, after the plan", &[1, 0, 1, 1, 9]);
    let faulty = Expr::repeat(act(3), par(act(1), act(2)), act(4));
    lines.compiled("10", &seq(act(1), faulty).encode());
}

fn records(lines: &mut Lines, plan: &[u8]) {
    let [a, b, c] = [0, 1, 2].map(Item::one);
    let mut after = |title: &str, rest: &[u8]| {
        lines.replayed(title, plan, &[&written(&[&[a]]), rest].concat(), 5);
    };
    after("21", &[0x20, 0, 5, 0x21, 0, 1, 1]);
    after("22, step", &[0x23, 0, 0]);
    after("22, item", &[0x20, 0, 4, 0x23, 0, 1, 1]);
    after("23, empty step", &[0x20, 0, 0]);
    after("23, item", &[0x20, 0, 4, 0x22, 0, 1, 1]);
    after("24", &written(&[&[b, b]]));
    after("31", &written(&[&[b, Item::one(9)]]));
    after("32", &written(&[&[c]]));
    lines.replayed("35, replay", plan, &[], 4);
    let choice = alt(par(act(1), act(2)), act(3)).encode();
    lines.replayed("33", &choice, &written(&[&[b, c]]), 4);
}

#[test]
fn stored_output() {
    let plan = seq(par(act(1), act(2)), act(3)).encode();
    let net = net_of(&plan).unwrap();
    let [a, b, c] = [0, 1, 2].map(Item::one);
    let mut lines = Lines::default();
    limits(&mut lines);
    reading(&mut lines);
    lines.compiled_into("room", &plan, [5, 18, 7]);
    lines.compiled_into("14, kinds", &plan, [4, 18, 7]);
    lines.compiled_into("14, rows", &plan, [5, 17, 7]);
    lines.compiled_into("14, arcs", &plan, [5, 18, 6]);
    lines.replayed("no step", &plan, &[], 5);
    lines.replayed("one step", &plan, &written(&[&[a]]), 5);
    lines.replayed("all steps", &plan, &written(&[&[a, b], &[c]]), 5);
    records(&mut lines, &plan);
    let both = written(&[&[a, b]]);
    let mut bad = net.clone();
    bad.kinds = vec![1, 1, 2, 3, 2];
    lines.fired("fire", &net, &[1, 1, 0, 0, 0], &both);
    lines.fired("30", &bad, &[1, 1, 0, 0, 0], &both);
    lines.fired("35, marking short", &net, &[1, 1, 0, 0], &both);
    lines.fired("35, byte above 1", &net, &[1, 1, 0, 0, 2], &both);
    lines.fired("36", &net, &[1, 1, 1, 0, 0], &both);
    lines.listed("list", &net, &[1, 1, 0, 0, 0], 3);
    lines.listed("list of none", &net, &[0, 0, 0, 0, 1], 0);
    lines.listed("14, list", &net, &[1, 1, 0, 0, 0], 1);
    assert_eq!(lines.0, include_str!("../../crates/cases/stdout"));
}
