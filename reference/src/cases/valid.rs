//! Inputs that the printer answers: every shape of tree with every style of sheet.

use super::case::{input_case, Case, Outcome};
use super::sheets::{any_entries, any_four, any_opinions, any_scores, lively_entries};
use super::trees::{chain, comb, count_events, most_events, one_gate, random_tree, Shape};
use crate::describe::{same, sheet_bytes, tree_bytes, Entry, Node};
use crate::end::U;
use crate::opinion_sheet::MOST_EXPERTS;
use crate::random::Random;

/// A tree and a sheet that go together.
#[derive(Clone, Debug)]
pub struct Pair {
    pub number: u16,
    pub nodes: Vec<Node>,
    pub scores: Vec<u8>,
    pub entries: Vec<Entry>,
}

impl Pair {
    pub fn tree(&self) -> Vec<u8> {
        tree_bytes(self.number, &self.nodes)
    }

    pub fn sheet(&self) -> Vec<u8> {
        sheet_bytes(self.number, &self.scores, &self.entries)
    }

    pub fn answered(&self, n: usize) -> Case {
        input_case(n as u16, &self.tree(), &self.sheet(), Outcome::Answered)
    }
}

/// Shapes and styles are of different number, so that their turns meet in every combination.
pub const SHAPES: u64 = 7;
const STYLES: u64 = 8;

pub fn valid_case(random: &mut Random, index: u64) -> Case {
    let nodes = shaped_tree(random, index % SHAPES);
    let pair = styled_pair(random, nodes, index % STYLES);
    let n = *random.pick(&[1, 2, 3, 4, 7, 10, 16]);
    pair.answered(n)
}

pub fn shaped_tree(random: &mut Random, shape: u64) -> Vec<Node> {
    match shape {
        0 => vec![Node::Event],
        1 => {
            let nodes = random.between(2, 60);
            chain(random, nodes)
        }
        2 => {
            let events = random.between(2, 40);
            comb(random, events)
        }
        3 => {
            let events = random.between(1, 16);
            one_gate(random, events)
        }
        4 => {
            let nodes = random.between(18, 150);
            most_events(random, nodes)
        }
        5 => small_tree(random, 12),
        _ => {
            let shape = Shape { nodes: random.between(2, 120), event_share: random.between(20, 90), widest: 16 };
            random_tree(random, shape)
        }
    }
}

/// At least two nodes.
pub fn small_tree(random: &mut Random, most_nodes: usize) -> Vec<Node> {
    let nodes = random.between(2, most_nodes);
    let shape = Shape { nodes, event_share: random.between(40, 80), widest: random.between(2, 5) };
    random_tree(random, shape)
}

fn styled_pair(random: &mut Random, nodes: Vec<Node>, style: u64) -> Pair {
    let events = count_events(&nodes);
    let experts = match style {
        0..=2 => random.below(MOST_EXPERTS + 1),
        3 => MOST_EXPERTS,
        _ => random.between(1, MOST_EXPERTS),
    };
    let entries = match style {
        0 => vec![same(0); events],
        1 => vec![same(U); events],
        2 => (0..events).map(|_| any_four(random)).collect(),
        3 | 4 => (0..events).map(|_| any_opinions(random, experts)).collect(),
        5 | 6 => lively_entries(random, experts, &nodes),
        _ => any_entries(random, experts, events),
    };
    Pair { number: any_number(random), nodes, scores: any_scores(random, experts), entries }
}

pub fn any_number(random: &mut Random) -> u16 {
    *random.pick(&[0, 1, 7, 255, 256, 1_024, 40_000, 65_535])
}

/// A pair with entries of both kinds and at least one expert.
pub fn any_pair(random: &mut Random, nodes: Vec<Node>) -> Pair {
    styled_pair(random, nodes, STYLES - 1)
}

/// The same with entries that keep the root from 0 and U.
pub fn lively_pair(random: &mut Random, nodes: Vec<Node>) -> Pair {
    styled_pair(random, nodes, STYLES - 2)
}
