//! The proved library against the paper's rules, written a second time: the
//! same answers, and the same bytes in whatever was lent.
#![cfg(feature = "library")]

mod common;

use common::Table;
use fuuqidhel::paper::calculus;
use fuuqidhel::paper::expr::Expr;
use fuuqidhel::paper::plan::Plan;
use fuuqidhel::paper::record::{written, Item};
use fuuqidhel::paper::replay::replay_on;
use fuuqidhel::random::{self, Random, Shape};
use fuuqidhel::{library, limit, paper, Counts, Enabled, Made, Net, Reason, Stopped, Tables};

/// What lies past a net's part, to be found again.
const PAST: u8 = 7;

#[test]
fn library_and_paper_agree() {
    let mut random = Random::new(20_261_115);
    let mut table = Table::default();
    compiling(&mut random, &mut table, 80_000);
    replaying(&mut random, &mut table, 60_000);
    firing(&mut random, &mut table, 60_000);
    listing(&mut random, &mut table, 40_000);
    table.print();
    let reasons = Reason::ALL.into_iter();
    let missing: Vec<Reason> = reasons.filter(|one| !table.has_refusal(*one)).collect();
    assert_eq!(missing, []);
    for answer in ["made", "finished", "unfinished", "fired", "enabled", "stuck", "over"] {
        assert!(table.has(answer), "no input is answered {answer:?}");
    }
    assert!(table.inputs() >= 200_000);
}

/// Expressions of all sizes: mostly small, some near the limits.
fn plan(random: &mut Random) -> Vec<u8> {
    let names = random.between(1, 3) as u8;
    let (actions, depth) = match random.below(200) {
        0 => return random::near_limit(random).encode(),
        1..=9 => (random.between(40, 256), 20),
        10..=39 => (random.between(9, 40), 14),
        _ => (random.between(1, 8), 10),
    };
    random::plan(random, Shape { actions, depth, names, faulty: 12 }).encode()
}

fn compiling(random: &mut Random, table: &mut Table, inputs: usize) {
    for _ in 0..inputs {
        let mut plan = plan(random);
        if random.chance(2, 5) {
            random::damage(random, &mut plan);
        }
        let needed = paper::net_of(&plan).map_or(Counts::default(), |net| net.counts());
        let mut length = |needed: usize| match random.below(20) {
            0 => needed.saturating_sub(1),
            1 => needed + 3,
            _ => needed,
        };
        let kinds = vec![PAST; length(needed.places)];
        let rows = vec![u16::from(PAST); length(6 * needed.transitions)];
        let arcs = vec![u16::from(PAST); length(needed.arcs)];
        let (mut k, mut r, mut a) = (kinds.clone(), rows.clone(), arcs.clone());
        let (mut l, mut s, mut b) = (kinds.clone(), rows.clone(), arcs.clone());
        let answer = library::compile(&plan, &mut k, &mut r, &mut a);
        assert_eq!(answer, paper::compile(&plan, &mut l, &mut s, &mut b), "{plan:?}");
        assert_eq!((&k, &r, &a), (&l, &s, &b), "{plan:?}");
        if answer.is_err() {
            assert_eq!((k, r, a), (kinds, rows, arcs), "{plan:?}");
        }
        table.note("compile", answer.map(|Made { .. }| "made"));
    }
}

fn replaying(random: &mut Random, table: &mut Table, inputs: usize) {
    for round in 0..inputs {
        let mut plan = plan(random);
        if random.chance(1, 10) {
            random::damage(random, &mut plan);
        }
        let net = paper::net_of(&plan);
        let mut record = match &net {
            Ok(net) => {
                let steps = random.below(if round % 50 == 0 { 400 } else { 30 });
                random::record(random, net, steps, 24)
            }
            Err(_) => vec![],
        };
        if random.chance(1, 12) {
            random::damage(random, &mut record);
        }
        if random.chance(1, 100) {
            record.resize(random.between(limit::RECORD, limit::RECORD + 1), PAST);
        }
        let places = net.as_ref().map_or(4, |net| net.kinds.len());
        let length = match random.below(30) {
            0 => places - 1,
            1..=9 => places + 5,
            _ => places,
        };
        let marking = vec![PAST; length];
        let (mut ours, mut theirs) = (marking.clone(), marking.clone());
        let answer = library::replay(&plan, &record, &mut theirs);
        assert_eq!(answer, paper::replay(&plan, &record, &mut ours), "{plan:?} {record:?}");
        assert_eq!(theirs, ours, "{plan:?} {record:?}");
        if let Ok(net) = &net {
            if length >= places && record.len() <= limit::RECORD {
                let expr = Expr::of(&Plan::read(&plan).unwrap());
                let rules = calculus::replay(&expr, &record);
                let steps = answer.map_or_else(|stopped| stopped.steps, |run| run.steps);
                let finished = net.is_finished(&theirs);
                assert_eq!((steps, finished), (rules.steps, rules.finished), "{plan:?}");
            }
        }
        let refused = |stopped: Stopped| stopped.refused;
        let heading = |finished| if finished { "finished" } else { "unfinished" };
        table.note("replay", answer.map(|run| heading(run.finished)).map_err(refused));
    }
}

/// A net of a plan with the marking after some steps, or any net; at times
/// with any marking.
fn net_and_marking(random: &mut Random) -> (Net, Vec<u8>) {
    let (net, mut marking) = if random.chance(1, 3) {
        let net = random::any_net(random);
        let marking = net.entry_marking();
        (net, marking)
    } else {
        net_after_steps(random)
    };
    if random.chance(1, 3) {
        marking.iter_mut().for_each(|token| *token = u8::from(random.chance(3, 4)));
    }
    (net, marking)
}

fn net_after_steps(random: &mut Random) -> (Net, Vec<u8>) {
    loop {
        if let Ok(net) = paper::net_of(&plan(random)) {
            let steps = random.below(6);
            let record = random::record(random, &net, steps, 0);
            let mut marking = net.entry_marking();
            replay_on(&net, &record, &mut marking).expect("steps that fire");
            return (net, marking);
        }
    }
}

/// Tables that are mostly a net, in lent tables that may be longer, and a
/// marking that is mostly one.
fn lent(random: &mut Random, net: &mut Net, marking: &mut Vec<u8>) -> Counts {
    let mut counts = net.counts();
    if random.chance(1, 8) {
        random::spoil(random, net, &mut counts);
    } else if random.chance(1, 3) {
        net.kinds.extend([PAST; 3]);
        net.rows.extend([u16::from(PAST); 7]);
        net.arcs.extend([u16::from(PAST); 2]);
    }
    match random.below(24) {
        0 => {
            marking.pop();
        }
        1 => {
            let spot = random.below(marking.len());
            marking[spot] = random.between(2, 255) as u8;
        }
        2..=9 => marking.extend([PAST; 5]),
        _ => {}
    }
    counts
}

fn firing(random: &mut Random, table: &mut Table, inputs: usize) {
    for _ in 0..inputs {
        let (mut net, mut marking) = net_and_marking(random);
        let mut step = random::step(random, &net, &marking);
        if random.chance(1, 5) {
            random::damage(random, &mut step);
        }
        if random.chance(1, 60) {
            // All 256 items that a step can have.
            step = written(&[&(0..=255).map(Item::one).collect::<Vec<_>>()]);
        }
        let counts = lent(random, &mut net, &mut marking);
        let tables = Tables { counts, ..net.tables() };
        let (mut ours, mut theirs) = (marking.clone(), marking.clone());
        let answer = library::fire(tables, &step, &mut theirs);
        assert_eq!(answer, paper::fire(tables, &step, &mut ours), "{net:?} {marking:?} {step:?}");
        assert_eq!(theirs, ours, "{net:?} {marking:?} {step:?}");
        if answer.is_err() {
            assert_eq!(theirs, marking);
        }
        table.note("fire", answer.map(|()| "fired"));
    }
}

fn listing(random: &mut Random, table: &mut Table, inputs: usize) {
    for _ in 0..inputs {
        let (mut net, mut marking) = net_and_marking(random);
        let counts = lent(random, &mut net, &mut marking);
        let tables = Tables { counts, ..net.tables() };
        let room = match random.below(8) {
            0 => random.below(3),
            _ => net.rows.len() / 6 + random.below(2),
        };
        let (mut ours, mut theirs) = (vec![777; room], vec![777; room]);
        let answer = library::enabled(tables, &marking, &mut theirs);
        assert_eq!(answer, paper::enabled(tables, &marking, &mut ours), "{net:?} {marking:?}");
        assert_eq!(theirs, ours, "{net:?} {marking:?}");
        let heading = |enabled| match enabled {
            Enabled::Many(_) => "enabled",
            Enabled::Stuck => "stuck",
            // "finished" is the row of replay's answers.
            Enabled::Finished => "over",
        };
        table.note("enabled", answer.map(heading));
    }
}
