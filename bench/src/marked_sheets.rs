//! Entries that make all ends of a tree exact, none, or some. All are fractions, so that the sheets differ in nothing
//! but what rounding meets.

use crate::ratios::rising;
use reference::cases::trees::count_events;
use reference::describe::{fractions, Entry, Node};
use reference::random::Random;

/// The marks that a sheet gives the nodes.
#[derive(Clone, Copy, PartialEq, Eq, Debug)]
pub enum Marks {
    All,
    None,
    Mixed,
}

pub fn marked_entries(random: &mut Random, nodes: &[Node], marks: Marks) -> Vec<Entry> {
    match marks {
        Marks::All => exact_entries(random, nodes),
        Marks::None => inexact_entries(random, nodes),
        Marks::Mixed => mixed_entries(random, nodes),
    }
}

/// The probabilities 0 and 1.
#[derive(Clone, Copy, PartialEq, Eq)]
enum Bit {
    Zero,
    One,
}

/// The input that leaves a gate to its other inputs.
fn neutral(gate: &Node) -> Bit {
    match gate {
        Node::Or(_) => Bit::Zero,
        _ => Bit::One,
    }
}

/// The input that decides a gate alone.
fn deciding(gate: &Node) -> Bit {
    match neutral(gate) {
        Bit::Zero => Bit::One,
        Bit::One => Bit::Zero,
    }
}

fn certain(bit: Bit) -> Entry {
    fractions(1, [bit as u32; 4])
}

/// What is neutral to the gate over each event.
fn neutral_to_events(nodes: &[Node]) -> Vec<Bit> {
    let mut bits = vec![Bit::One; count_events(nodes)];
    for gate in nodes {
        for &input in gate.inputs() {
            bits.get_mut(input as usize).into_iter().for_each(|bit| *bit = neutral(gate));
        }
    }
    bits
}

/// Numerators at four rising distances from what is neutral.
fn away_from(neutral: Bit, denominator: u32, distances: [u32; 4]) -> Entry {
    let [a, b, c, d] = distances;
    let numerators = match neutral {
        Bit::Zero => distances,
        Bit::One => [d, c, b, a].map(|distance| denominator - distance),
    };
    fractions(denominator, numerators)
}

/// What a node must come to: 0 or 1 exactly, or any number.
#[derive(Clone, Copy, PartialEq, Eq)]
enum Goal {
    Decided(Bit),
    Free,
}

/// A gate over more than so many events is decided, unless all its inputs are.
fn decided_above(nodes: &[Node], most_free: usize) -> Vec<Goal> {
    let beneath = events_beneath(nodes);
    let is_free = |node: usize| beneath[node] <= most_free;
    let goal = |(node, gate): (usize, &Node)| match gate.inputs().iter().any(|&input| is_free(input as usize)) {
        true if !is_free(node) => Goal::Decided(deciding(gate)),
        _ => Goal::Free,
    };
    nodes.iter().enumerate().map(goal).collect()
}

/// From the root down: the inputs of a gate that is decided.
fn carry_down(random: &mut Random, nodes: &[Node], goals: &mut [Goal]) {
    for (node, gate) in nodes.iter().enumerate().rev() {
        if let Goal::Decided(bit) = goals[node] {
            let inputs = deciders(random, nodes, gate, bit);
            inputs.into_iter().for_each(|input| goals[input as usize] = Goal::Decided(bit));
        }
    }
}

/// One input that decides its gate, best one that an input of its own can decide; all where none can alone.
fn deciders(random: &mut Random, nodes: &[Node], gate: &Node, bit: Bit) -> Vec<u16> {
    let all = gate.inputs();
    if *gate == Node::Event || bit == neutral(gate) {
        return all.to_vec();
    }
    let is_best = |input: &u16| match &nodes[*input as usize] {
        Node::Event => true,
        gate => deciding(gate) == bit,
    };
    let best: Vec<u16> = all.iter().copied().filter(is_best).collect();
    vec![*random.pick(if best.is_empty() { all } else { &best })]
}

fn events_beneath(nodes: &[Node]) -> Vec<usize> {
    let mut beneath: Vec<usize> = Vec::new();
    for node in nodes {
        let events = node.inputs().iter().map(|&input| beneath[input as usize]).sum();
        beneath.push(if *node == Node::Event { 1 } else { events });
    }
    beneath
}

/// Nine decimal digits make a unit: the product of so many numbers of one digit is whole.
const MOST_DIGITS: usize = 9;

/// Numbers of one decimal digit, where there are not too many for their product.
fn exact_entries(random: &mut Random, nodes: &[Node]) -> Vec<Entry> {
    let mut goals = decided_above(nodes, MOST_DIGITS);
    carry_down(random, nodes, &mut goals);
    let entry = |goal: &Goal| match goal {
        Goal::Decided(bit) => certain(*bit),
        Goal::Free => fractions(10, [random.between(1, 9) as u32; 4]),
    };
    goals[..count_events(nodes)].iter().map(entry).collect()
}

/// The greatest prime that a denominator can be.
const PRIME: u32 = 999_983;

/// Numerators so near what is neutral that, times 1,000 levels, they are no multiple of the prime: no cut is whole.
fn inexact_entries(random: &mut Random, nodes: &[Node]) -> Vec<Entry> {
    let entry = |neutral: Bit| away_from(neutral, PRIME, rising(random, 1, PRIME / 1_000));
    neutral_to_events(nodes).into_iter().map(entry).collect()
}

/// Over more events than this hardly a product is whole that none of them decides.
const MOST_MIXED: usize = 16;
/// Every second gate over no more events than this is left to one of its inputs: the other is neutral.
const MOST_LEFT: usize = 4;
/// Cuts are whole units at every level, at one in 3, 7 or 9, and hardly at any.
const DENOMINATORS: [u32; 10] =
    [1_000_000, 1_000_000, 300_000, 300_000, 600_000, 750_000, 700_000, 900_000, PRIME, PRIME];
/// Times so many twentieths a number of units is whole if it is a multiple of 2, 4 or 5.
const TWENTIETHS: [u32; 6] = [10, 10, 5, 15, 4, 16];

/// Of two free events the first moves with the level, and the second is a number of twentieths.
fn mixed_entries(random: &mut Random, nodes: &[Node]) -> Vec<Entry> {
    let mut goals = decided_above(nodes, MOST_MIXED);
    leave_to_one(random, nodes, &mut goals);
    carry_down(random, nodes, &mut goals);
    let entry = |(event, neutral): (usize, Bit)| match goals[event] {
        Goal::Decided(bit) => certain(bit),
        Goal::Free if event.is_multiple_of(2) => moving_entry(random, neutral),
        Goal::Free => fractions(20, [*random.pick(&TWENTIETHS); 4]),
    };
    neutral_to_events(nodes).into_iter().enumerate().map(entry).collect()
}

fn leave_to_one(random: &mut Random, nodes: &[Node], goals: &mut [Goal]) {
    for (gate, events) in nodes.iter().zip(events_beneath(nodes)) {
        if *gate != Node::Event && events <= MOST_LEFT && random.percent(50) {
            goals[*random.pick(gate.inputs()) as usize] = Goal::Decided(neutral(gate));
        }
    }
}

/// Both ends move by an odd number of parts, so that not all levels are even.
fn moving_entry(random: &mut Random, neutral: Bit) -> Entry {
    let denominator = *random.pick(&DENOMINATORS);
    let [[a, b], [c, d]] = [0, denominator / 20].map(|least| {
        let near = least + random.between(1, denominator as usize / 50) as u32;
        [near, near + 2 * random.below(denominator as usize / 100) as u32 + 1]
    });
    away_from(neutral, denominator, [a, b, c, d])
}
