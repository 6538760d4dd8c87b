//! What is timed: small, middle, and one input at each limit.

use fuuqidhel::paper::expr::Expr;
use fuuqidhel::paper::net_of;
use fuuqidhel::paper::record::{self, Item};
use fuuqidhel::random::{wide, Random};
use fuuqidhel::tables::NONE;
use fuuqidhel::{limit, Net};

/// A plan with its net, a record that replays, and one step that fires first.
pub struct Input {
    pub name: &'static str,
    pub actions: usize,
    pub plan: Vec<u8>,
    pub net: Net,
    pub record: Vec<u8>,
    pub record_items: usize,
    pub step: Vec<u8>,
    pub step_items: usize,
}

/// The label of the actions that leave a loop: a walk keeps off them.
const LEAVE: u8 = 100;

pub fn inputs() -> Vec<Input> {
    let wide_par = |label, count| wide(Expr::parallel, label, count);
    let pairs = |m, n| Expr::scope(1, Expr::parallel(wide_par(1, m), wide_par(129, n)));
    let rounds = |body: Expr| Expr::repeat(Expr::Action(3), body, Expr::Action(LEAVE));
    let both = Expr::parallel(Expr::Action(1), Expr::Action(2));
    let long = Expr::sequence(wide_par(1, limit::ACTIONS - 3), Expr::Action(2));
    vec![
        input("small", rounds(Expr::sequence(both, Expr::Action(5))), 20),
        input("middle", middle(), 2_000),
        input("places", Expr::choice(wide_par(1, 32), wide_par(2, 32)), 10_000),
        input("transitions", pairs(32, 32), 10_000),
        input("arcs", Expr::choice(pairs(11, 11), wide_par(2, 31)), 10_000),
        input("actions", rounds(long), 10_000),
    ]
}

/// Four workers side by side, each a loop of 15 actions with a choice and a
/// scope; the first two meet in every round.
fn middle() -> Expr {
    let act = Expr::Action;
    let seq = Expr::sequence;
    let worker = |meet: u8| {
        let first = Expr::parallel(act(10), act(11));
        let either = Expr::choice(act(12), seq(act(13), act(14)));
        let left = seq(act(7), act(15));
        let right = seq(act(135), act(16));
        let joined = Expr::scope(7, Expr::parallel(left, right));
        let last = seq(act(meet), seq(act(17), act(18)));
        let body = seq(first, seq(either, seq(joined, last)));
        Expr::repeat(act(19), body, seq(act(LEAVE), act(20)))
    };
    let pair = Expr::scope(6, Expr::parallel(worker(6), worker(134)));
    Expr::parallel(pair, Expr::parallel(worker(21), worker(22)))
}

/// A record of at most `items` items and 16,384 bytes by a walk that leaves
/// loops only where nothing else fires.
fn input(name: &'static str, expr: Expr, items: usize) -> Input {
    let plan = expr.encode();
    let net = net_of(&plan).expect("a plan within the limits");
    let mut random = Random::new(60);
    let mut marking = net.entry_marking();
    let mut input = Input {
        name,
        actions: expr.actions(),
        plan,
        net,
        record: vec![],
        record_items: 0,
        step: vec![],
        step_items: 0,
    };
    while input.record_items < items {
        let mut step = walk(&mut random, &input.net, &mut marking);
        step.truncate(items - input.record_items);
        let mut bytes = Vec::new();
        record::write(&step, &mut bytes);
        if step.is_empty() || input.record.len() + bytes.len() > limit::RECORD {
            break;
        }
        input.record.extend(&bytes);
        input.record_items += step.len();
        if input.step.is_empty() {
            (input.step, input.step_items) = (bytes, step.len());
        }
    }
    input
}

/// A step with all that fires together, chosen at random where there is a
/// choice, and its marking.
fn walk(random: &mut Random, net: &Net, marking: &mut [u8]) -> Vec<Item> {
    let is_ready = |number: &usize, marking: &[u8]| {
        net.transition(*number).inputs.iter().all(|place| marking[usize::from(*place)] == 1)
    };
    let mut ready: Vec<usize> =
        (0..net.counts().transitions).filter(|number| is_ready(number, marking)).collect();
    if ready.iter().any(|number| net.transition(*number).label != u16::from(LEAVE)) {
        ready.retain(|number| net.transition(*number).label != u16::from(LEAVE));
    }
    let (mut items, mut chosen) = (Vec::new(), Vec::new());
    while !ready.is_empty() {
        let number = ready.swap_remove(random.below(ready.len()));
        if is_ready(&number, marking) {
            let transition = net.transition(number);
            transition.inputs.iter().for_each(|place| marking[usize::from(*place)] = 0);
            let second = (transition.second != NONE).then_some(transition.second as u8);
            items.push(Item { first: transition.first as u8, second });
            chosen.push(number);
        }
    }
    for number in chosen {
        net.transition(number).outputs.iter().for_each(|place| marking[usize::from(*place)] = 1);
    }
    items.sort();
    items
}
