//! Generated records.

use super::Random;
use crate::paper::record::{self, Item};
use crate::tables::{Net, NONE};

/// A record of at most `steps` steps found by walking the net; one step in
/// `wrong` is not such a step (0 for none), and few steps follow it.
pub fn record(random: &mut Random, net: &Net, steps: usize, wrong: usize) -> Vec<u8> {
    let mut bytes = Vec::new();
    let mut marking = vec![0u8; net.kinds.len()];
    marking[..net.entries].fill(1);
    let eager = random.between(1, 4);
    for _ in 0..steps {
        if wrong > 0 && random.chance(1, wrong) {
            record::write(&odd(random, net, &marking), &mut bytes);
            if random.chance(3, 4) {
                break;
            }
            continue;
        }
        let items = walk(random, net, &mut marking, eager);
        if items.is_empty() {
            break;
        }
        record::write(&items, &mut bytes);
    }
    bytes
}

/// One step field at a marking: mostly one that fires, else an odd one.
pub fn step(random: &mut Random, net: &Net, marking: &[u8]) -> Vec<u8> {
    let eager = random.between(1, 4);
    let mut items = match random.below(3) {
        0 => odd(random, net, marking),
        _ => walk(random, net, &mut marking.to_vec(), eager),
    };
    if items.is_empty() && random.chance(3, 4) {
        items = odd(random, net, marking);
    }
    let mut bytes = Vec::new();
    record::write(&items, &mut bytes);
    bytes
}

fn item(net: &Net, number: usize) -> Item {
    let transition = net.transition(number);
    let second = transition.second;
    Item { first: transition.first as u8, second: (second != NONE).then_some(second as u8) }
}

/// A step that fires, and the marking after it; no items where none does.
fn walk(random: &mut Random, net: &Net, marking: &mut [u8], eager: usize) -> Vec<Item> {
    let mut left = marking.to_vec();
    let mut chosen: Vec<usize> = Vec::new();
    let mut ready: Vec<usize> = (0..net.counts().transitions).collect();
    ready.retain(|number| {
        net.transition(*number).inputs.iter().all(|place| marking[usize::from(*place)] == 1)
    });
    while !ready.is_empty() {
        let number = ready.swap_remove(random.below(ready.len()));
        let inputs = net.transition(number).inputs;
        if !inputs.iter().all(|place| left[usize::from(*place)] == 1) {
            continue;
        }
        inputs.iter().for_each(|place| left[usize::from(*place)] = 0);
        chosen.push(number);
        if random.chance(1, eager + 1) {
            break;
        }
    }
    for number in &chosen {
        let outputs = net.transition(*number).outputs;
        outputs.iter().for_each(|place| left[usize::from(*place)] = 1);
    }
    marking.copy_from_slice(&left);
    let mut items: Vec<Item> = chosen.iter().map(|number| item(net, *number)).collect();
    items.sort();
    items
}

/// A step that mostly does not fire.
fn odd(random: &mut Random, net: &Net, marking: &[u8]) -> Vec<Item> {
    let transitions = net.counts().transitions;
    let mut items = match random.below(3) {
        0 => walk(random, net, &mut marking.to_vec(), 3),
        _ => Vec::new(),
    };
    for _ in 0..random.between(1, 3) {
        items.push(if transitions > 0 && random.chance(3, 4) {
            item(net, random.below(transitions))
        } else {
            let actions = transitions + 2;
            Item {
                first: random.below(actions) as u8,
                second: random.chance(1, 2).then_some(random.below(actions) as u8),
            }
        });
    }
    if random.chance(9, 10) {
        items.sort();
        items.dedup_by_key(|item| item.first);
    }
    items
}
