//! Trees for minimal cut sets: few and many events, few and many sets, gates of one input.

use super::tree_damage::TREE_DAMAGES;
use super::trees::{chain, comb, most_events, random_tree, Shape};
use super::valid::{any_number, small_tree};
use crate::cut_sets::{count_sets, MOST_EVENTS};
use crate::describe::{tree_bytes, Node};
use crate::monitor::State;
use crate::random::Random;
use crate::tree_file::MOST_INPUTS;

pub type GateOf = fn(Vec<u16>) -> Node;

fn push(nodes: &mut Vec<Node>, node: Node) -> u16 {
    nodes.push(node);
    nodes.len() as u16 - 1
}

/// One gate over these nodes, or levels of such gates where it would have more inputs than a gate may.
pub fn join(nodes: &mut Vec<Node>, gate: GateOf, mut inputs: Vec<u16>) -> u16 {
    while inputs.len() > 1 {
        inputs = inputs.chunks(MOST_INPUTS).map(|part| push(nodes, gate(part.to_vec()))).collect();
    }
    inputs[0]
}

/// An upper gate over lower gates of so many events each.
pub fn two_levels(upper: GateOf, lower: GateOf, widths: &[usize]) -> Vec<Node> {
    let mut nodes = Vec::new();
    let mut inputs = Vec::new();
    for &width in widths {
        let events = (0..width).map(|_| push(&mut nodes, Node::Event)).collect();
        inputs.push(join(&mut nodes, lower, events));
    }
    join(&mut nodes, upper, inputs);
    nodes
}

/// The number of sets is the product of the widths.
pub fn and_of_ors(widths: &[usize]) -> Vec<Node> {
    two_levels(Node::And, Node::Or, widths)
}

/// 64 events, of which one set fails the root, and each event outside it alone does.
pub fn with_set(set: u64) -> Vec<Node> {
    let mut nodes = vec![Node::Event; MOST_EVENTS];
    let (inside, mut inputs): (Vec<u16>, Vec<u16>) = (0..MOST_EVENTS as u16).partition(|event| set >> event & 1 == 1);
    inputs.push(join(&mut nodes, Node::And, inside));
    join(&mut nodes, Node::Or, inputs);
    nodes
}

/// The tree under so many gates of one input.
pub fn under_gates(random: &mut Random, mut nodes: Vec<Node>, gates: usize) -> Vec<Node> {
    for _ in 0..gates {
        let root = nodes.len() as u16 - 1;
        nodes.push(if random.percent(50) { Node::And(vec![root]) } else { Node::Or(vec![root]) });
    }
    nodes
}

/// Gates of one input above, beneath and between the gates over few events.
pub fn stretched(random: &mut Random, nodes: usize) -> Vec<Node> {
    let shape = Shape { nodes, event_share: random.between(1, 3), widest: random.between(2, 5) };
    random_tree(random, shape)
}

/// Widths in a range, of so many events in all; the last may be less.
fn widths(random: &mut Random, events: usize, least: usize, most: usize) -> Vec<usize> {
    let mut widths = Vec::new();
    let mut left = events;
    while left > 0 {
        let width = random.between(least, most).min(left);
        widths.push(width);
        left -= width;
    }
    widths
}

pub fn set_tree(random: &mut Random) -> Vec<Node> {
    match random.below(8) {
        0 => small_tree(random, 12),
        1 => {
            let nodes = random.between(1, 900);
            chain(random, nodes)
        }
        2 => {
            let nodes = random.between(100, 1_000);
            stretched(random, nodes)
        }
        3 => {
            let events = random.between(2, MOST_EVENTS + 1);
            comb(random, events)
        }
        4 => {
            let (events, most) = (random.between(2, MOST_EVENTS + 1), random.between(2, 16));
            let widths = widths(random, events, 1, most);
            if random.percent(50) {
                and_of_ors(&widths)
            } else {
                two_levels(Node::Or, Node::And, &widths)
            }
        }
        // From a hundred sets to some billions.
        5 => {
            let events = if random.percent(50) { MOST_EVENTS } else { random.between(15, MOST_EVENTS) };
            and_of_ors(&widths(random, events, 2, 5))
        }
        6 => {
            let nodes = random.between(2, 72);
            most_events(random, nodes)
        }
        _ => {
            let (nodes, event_share) = (random.between(2, 120), random.between(20, 90));
            random_tree(random, Shape { nodes, event_share, widest: 16 })
        }
    }
}

/// A tree file for the text of cut sets.
pub fn tree_case(random: &mut Random, index: u64) -> Vec<u8> {
    if index % 4 == 3 {
        return random.pick(&TREE_DAMAGES)(random).tree;
    }
    let nodes = set_tree(random);
    tree_bytes(any_number(random), &nodes)
}

/// The number of minimal cut sets of a tree, or nothing where it has too many events.
pub fn set_count(nodes: &[Node]) -> Option<u64> {
    let tree = tree_bytes(0, nodes);
    count_sets(State { tree_length: tree.len(), sheet_length: 0 }, &tree).ok()
}
