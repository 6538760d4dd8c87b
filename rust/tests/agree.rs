//! The net against the rules, and the fast net against the one with its lists
//! spelt out.

mod common;

use std::collections::{BTreeMap, HashSet};

use common::{number, plain, Summary};
use fuuqidhel::paper::calculus::{self, State};
use fuuqidhel::paper::expr::Expr;
use fuuqidhel::paper::plan::Plan;
use fuuqidhel::paper::record::{written, Item, Step};
use fuuqidhel::paper::{class, enabled, fire, net_of, replay};
use fuuqidhel::random::{self, Random, Shape};
use fuuqidhel::{Enabled, Refused, Replayed, Stopped};

/// Replay on the plain net with counted tokens, and the marking.
fn plainly(net: &plain::Plain, record: &[u8]) -> (Result<Replayed, Stopped>, Vec<u8>) {
    let places = net.entries.len() + net.internals.len() + net.exits.len();
    let mut tokens = vec![0; places];
    net.entries.iter().for_each(|place| tokens[*place] = 1);
    let (mut at, mut steps) = (0, 0);
    let mut step = Step::default();
    while at < record.len() {
        let fired = match step.read(record, at, false) {
            Ok(next) => {
                at = next;
                plain::fire(&net.transitions, step.items(), &tokens)
            }
            Err(reason) => Err(Refused::at(reason, at)),
        };
        match fired {
            Ok(after) => tokens = after,
            Err(refused) => return (Err(Stopped { refused, steps }), tokens),
        }
        steps += 1;
    }
    let finished = net.exits.iter().all(|place| tokens[*place] == 1);
    (Ok(Replayed { steps, finished }), tokens)
}

fn accepted(answer: &Result<Replayed, Stopped>) -> usize {
    match answer {
        Ok(replayed) => replayed.steps,
        Err(stopped) => stopped.steps,
    }
}

#[test]
fn net_and_rules_agree() {
    let mut random = Random::new(20_240_501);
    let mut summary = Summary::default();
    let (mut by_class, mut derived_steps, mut joined) = (0, 0, 0);
    for round in 0..60_000 {
        let actions = random.between(1, if round % 16 == 0 { 24 } else { 8 });
        let names = random.between(1, 3) as u8;
        let expr = random::plan(&mut random, Shape { actions, depth: 12, names, faulty: 0 });
        assert_eq!(expr.actions(), actions);
        let bytes = expr.encode();
        assert_eq!(Expr::of(&Plan::accept(&bytes).unwrap()), expr);
        let net = match net_of(&bytes) {
            Ok(net) => net,
            Err(refused) => {
                summary.refusal(refused);
                continue;
            }
        };
        let plain = plain::plain(&expr);
        assert_eq!(plain::tables(&plain), net, "{expr:?}");
        let steps = random.between(0, 3 * actions);
        let mut record = random::record(&mut random, &net, steps, 24);
        if random.chance(1, 12) {
            random::damage(&mut random, &mut record);
        }
        let places = net.kinds.len();
        let mut marking = vec![random.number() as u8 | 2; places + 3];
        let past = marking[places..].to_vec();
        let answer = replay(&bytes, &record, &mut marking);
        assert_eq!(marking[places..], past);
        assert_eq!((answer, marking[..places].to_vec()), plainly(&plain, &record), "{expr:?}");
        let rules = calculus::replay(&expr, &record);
        let finished = net.is_finished(&marking);
        assert_eq!(
            (accepted(&answer), finished),
            (rules.steps, rules.finished),
            "{expr:?} {record:?}"
        );
        if finished {
            assert!(marking[..net.entries + net.internals].iter().all(|token| *token == 0));
        }
        // Once all exits are marked in a marking that is reached, nothing is
        // enabled.
        let mut list = vec![0; net.counts().transitions];
        let listed = enabled(net.tables(), &marking, &mut list);
        assert_eq!(listed == Ok(Enabled::Finished), finished, "{expr:?} {record:?}");
        if actions <= 6 {
            if let Some(other) = class::replay(&expr, &record, 400) {
                assert_eq!(other, rules, "{expr:?} {record:?}");
                by_class += 1;
            }
        }
        derived_steps += rules.steps;
        joined += net.transitions().filter(|transition| transition.second != 65_535).count();
        summary.replay(&answer);
    }
    summary.print("net and rules, 60000 plans with a record each:");
    println!("  {derived_steps} steps derived, {joined} joined transitions");
    println!("  {by_class} also by whole classes");
}

/// All steps over a plan's actions, tried from every state within reach.
#[test]
fn net_and_rules_agree_on_all_steps() {
    let mut random = Random::new(77);
    let (mut tried, mut fired) = (0, 0);
    for _ in 0..1_500 {
        let actions = random.between(2, 5);
        let names = random.between(1, 2) as u8;
        let expr = random::plan(&mut random, Shape { actions, depth: 8, names, faulty: 0 });
        let net = net_of(&expr.encode()).unwrap();
        let labels = expr.labels();
        let steps = all_steps(actions);
        let mut open = vec![(State::Started, net.entry_marking())];
        let mut seen: BTreeMap<Vec<u8>, State> = BTreeMap::new();
        while let Some((state, marking)) = open.pop() {
            if let Some(known) = seen.get(&marking) {
                assert_eq!(known, &state, "{expr:?}");
                continue;
            }
            seen.insert(marking.clone(), state.clone());
            for items in &steps {
                let after = calculus::derive(&expr, 0, &labels, &state, items);
                let mut moved = marking.clone();
                let answer = fire(net.tables(), &written(&[items]), &mut moved);
                assert_eq!(after.is_some(), answer.is_ok(), "{expr:?} {state:?} {items:?}");
                tried += 1;
                if let Some(after) = after {
                    fired += 1;
                    open.push((after, moved));
                }
            }
        }
        let states: HashSet<_> = seen.values().collect();
        assert_eq!(states.len(), seen.len(), "{expr:?}");
    }
    println!("all steps in reach of 1500 plans: {tried} tried, {fired} fire");
}

/// Every choice, for each action, of "absent, alone, or first of a pair with
/// some other"; those with a pair have at most two items.
fn all_steps(actions: usize) -> Vec<Vec<Item>> {
    let options = actions + 1;
    let mut steps = Vec::new();
    for code in 1..options.pow(actions as u32) {
        let (mut code, mut items) = (code, Vec::new());
        for first in 0..actions {
            let other = |option| ((first + option - 1) % actions) as u8;
            match code % options {
                0 => {}
                1 => items.push(Item::one(first as u8)),
                option => items.push(Item::two(first as u8, other(option))),
            }
            code /= options;
        }
        if items.len() <= 2 || items.iter().all(|item| item.second.is_none()) {
            steps.push(items);
        }
    }
    steps
}

#[test]
fn damaged_plans() {
    let mut random = Random::new(5);
    let mut summary = Summary::default();
    for _ in 0..60_000 {
        let actions = random.between(1, 12);
        let shape = Shape { actions, depth: 10, names: 3, faulty: 4 };
        let mut bytes = random::plan(&mut random, shape).encode();
        if random.chance(4, 5) {
            random::damage(&mut random, &mut bytes);
        }
        match Plan::accept(&bytes) {
            Ok(plan) => {
                assert_eq!(Expr::of(&plan).encode(), bytes);
                summary.note("accepted");
            }
            Err(refused) => {
                assert!(refused.carried <= bytes.len());
                let mut marking = [3; 4];
                let answer = replay(&bytes, &[], &mut marking);
                assert_eq!(answer, Err(Stopped { refused, steps: 0 }));
                assert_eq!(marking, [3; 4]);
                summary.refusal(refused);
            }
        }
    }
    summary.print("60000 plans, most damaged:");
}

#[test]
fn near_the_limits() {
    let mut random = Random::new(11);
    let mut summary = Summary::default();
    for _ in 0..600 {
        let expr = if random.chance(1, 4) {
            let actions = random.between(100, 256);
            random::plan(&mut random, Shape { actions, depth: 24, names: 5, faulty: 0 })
        } else {
            random::near_limit(&mut random)
        };
        let bytes = expr.encode();
        let net = match net_of(&bytes) {
            Ok(net) => net,
            Err(refused) => {
                summary.refusal(refused);
                continue;
            }
        };
        if net.kinds.len() < 1_000 || random.chance(1, 8) {
            assert_eq!(plain::tables(&plain::plain(&expr)), net);
        }
        assert!(fuuqidhel::paper::check::net(&net.tables()).is_ok());
        let record = random::record(&mut random, &net, 60, 40);
        let mut marking = vec![0; net.kinds.len()];
        let answer = replay(&bytes, &record, &mut marking);
        let rules = calculus::replay(&expr, &record);
        let finished = net.is_finished(&marking);
        assert_eq!((accepted(&answer), finished), (rules.steps, rules.finished), "{expr:?}");
        summary.replay(&answer);
    }
    summary.print("600 plans near the limits or large:");
}

/// Firing on tables that no plan gives, against counted tokens.
#[test]
fn other_tables() {
    let mut random = Random::new(3);
    let (mut summary, mut lists) = (Summary::default(), Summary::default());
    for _ in 0..40_000 {
        let net = random::any_net(&mut random);
        let transitions = plain::moved(&net);
        let places = net.kinds.len();
        let marking: Vec<u8> = (0..places).map(|_| u8::from(random.chance(3, 4))).collect();
        let field = random::step(&mut random, &net, &marking);
        let mut step = Step::default();
        let form = step.read(&field, 0, true).map_err(Refused::plain);
        let pairs: HashSet<_> = transitions.iter().map(|t| (t.first, t.second)).collect();
        let no_net = pairs.len() < transitions.len();
        let mut after = marking.clone();
        let answer = fire(net.tables(), &field, &mut after);
        let expected = form.and_then(|_| plain::fire(&transitions, step.items(), &marking));
        match expected {
            _ if no_net => assert_eq!(number(answer), Some((30, 0))),
            Ok(tokens) => assert_eq!((answer, &after), (Ok(()), &tokens)),
            Err(refused) => assert_eq!((answer, &after), (Err(refused), &marking)),
        }
        let mut list = [777; 6];
        let listed = enabled(net.tables(), &marking, &mut list);
        if no_net {
            assert_eq!(number(listed), Some((30, 0)));
        } else {
            let ready: Vec<u16> = (0..transitions.len())
                .filter(|t| transitions[*t].inputs.iter().all(|place| marking[*place] == 1))
                .map(|t| t as u16)
                .collect();
            let count = ready.len();
            let (expected, heading) = match (count, net.is_finished(&marking)) {
                (0, false) => (Enabled::Stuck, "stuck"),
                (0, true) => (Enabled::Finished, "over"),
                (_, false) => (Enabled::Many(count), "enabled"),
                (_, true) => (Enabled::Many(count), "enabled, all exits marked"),
            };
            assert_eq!(listed, Ok(expected));
            lists.note(heading);
            assert_eq!(list[..count], ready);
            assert!(list[count..].iter().all(|n| *n == 777));
        }
        summary.answer(&answer, "fired");
    }
    summary.print("40000 steps on other tables:");
    lists.print("and what is enabled there:");
    for heading in ["stuck", "over", "enabled", "enabled, all exits marked"] {
        assert!(lists.count(heading) > 0, "none is {heading}");
    }
}
