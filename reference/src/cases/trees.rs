//! Trees in the order of an acceptable file: every node but the last is linked once, by a later one.

use crate::describe::Node;
use crate::random::Random;

#[derive(Clone, Copy, Debug)]
pub struct Shape {
    pub nodes: usize,
    /// Percent of nodes that are events, where the shape leaves a choice.
    pub event_share: usize,
    /// Inputs of a gate at most; above 1 unless a chain is wanted.
    pub widest: usize,
}

pub fn random_tree(random: &mut Random, shape: Shape) -> Vec<Node> {
    let mut nodes = Vec::new();
    let mut unlinked: Vec<u16> = Vec::new();
    for node in 0..shape.nodes {
        // The gates still to come can join no more unlinked nodes than this into one.
        let reach = 1 + (shape.widest - 1) * (shape.nodes - node - 1);
        let room = unlinked.len() < reach;
        if unlinked.is_empty() || (room && random.percent(shape.event_share)) {
            nodes.push(Node::Event);
        } else {
            let least = (unlinked.len() + 1).saturating_sub(reach).max(1);
            let most = shape.widest.min(unlinked.len());
            let inputs = (0..random.between(least, most)).map(|_| take_any(random, &mut unlinked)).collect();
            nodes.push(gate(random, inputs));
        }
        unlinked.push(node as u16);
    }
    nodes
}

pub fn gate(random: &mut Random, inputs: Vec<u16>) -> Node {
    if random.percent(50) {
        Node::And(inputs)
    } else {
        Node::Or(inputs)
    }
}

fn take_any(random: &mut Random, nodes: &mut Vec<u16>) -> u16 {
    let chosen = random.below(nodes.len());
    nodes.swap_remove(chosen)
}

/// One event under gates of one input.
pub fn chain(random: &mut Random, nodes: usize) -> Vec<Node> {
    random_tree(random, Shape { nodes, event_share: 0, widest: 1 })
}

/// Gates of two inputs, each with one event and all that is before it: the deepest tree of its size.
pub fn comb(random: &mut Random, events: usize) -> Vec<Node> {
    let mut nodes = vec![Node::Event];
    for _ in 1..events {
        let before = nodes.len() as u16 - 1;
        nodes.push(Node::Event);
        let inputs = if random.percent(50) { vec![before, before + 1] } else { vec![before + 1, before] };
        nodes.push(gate(random, inputs));
    }
    nodes
}

/// All events first and then the fewest gates; 1,024 nodes make 960 events.
pub fn most_events(random: &mut Random, nodes: usize) -> Vec<Node> {
    random_tree(random, Shape { nodes, event_share: 100, widest: 16 })
}

/// One gate over this many events.
pub fn one_gate(random: &mut Random, events: usize) -> Vec<Node> {
    let mut nodes = vec![Node::Event; events];
    nodes.push(gate(random, (0..events as u16).collect()));
    nodes
}

pub fn count_events(nodes: &[Node]) -> usize {
    nodes.iter().filter(|node| **node == Node::Event).count()
}
