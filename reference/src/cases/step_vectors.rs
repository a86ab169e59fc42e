//! Products of a gate's step among the stored calls: whole, just below and just above a whole number of units, and
//! at both ends of their range.

use super::valid::Pair;
use super::vector_list::List;
use crate::describe::{same, Node};
use crate::end::U;

/// Two numbers whose product a step rounds.
const FACTORS: [[u32; 2]; 16] = [
    [U, U],
    [U - 1, U],
    [U - 1, U - 1],
    [31_623, 31_623],
    [31_622, 31_622],
    [25_000, 40_000],
    [24_999, 40_000],
    [3, 333_333_334],
    [3, 333_333_333],
    [2, 500_000_001],
    [2, 500_000_000],
    [1, U],
    [1, U - 1],
    [1, 1],
    [0, U],
    [0, 0],
];

/// A gate over each two numbers, all under one gate.
fn pair_of(gate: fn(Vec<u16>) -> Node, seen: fn(u32) -> u32) -> Pair {
    let count = FACTORS.len() as u16;
    let mut nodes = vec![Node::Event; 2 * FACTORS.len()];
    nodes.extend((0..count).map(|index| gate(vec![2 * index, 2 * index + 1])));
    nodes.push(gate((2 * count..3 * count).collect()));
    let entries = FACTORS.iter().flatten().map(|&units| same(seen(units))).collect();
    Pair { number: 7, nodes, scores: vec![], entries }
}

impl List {
    /// An OR goes by what is missing to 1, so that its steps have the same products.
    pub(super) fn step_limits(&mut self) {
        for pair in [pair_of(Node::And, |units| units), pair_of(Node::Or, |units| U - units)] {
            self.holding_pair(&pair);
            self.question(1, 2, pair.nodes.len());
        }
    }
}
