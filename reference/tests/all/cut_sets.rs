//! Definition 7 of source 004 by brute force, the sum over all cut sets, beside the unrounded bottom-up reckoning.

use crate::exact::{bottom_up, fraction};
use crate::whole::Whole;
use reference::cases::trees::{count_events, random_tree, Shape};
use reference::describe::Node;
use reference::random::Random;

/// Whether each node fails when the events of the set failed.
pub fn failing(nodes: &[Node], set: u64) -> Vec<bool> {
    let mut fails: Vec<bool> = Vec::new();
    let mut event = 0;
    for node in nodes {
        let verdict = match node {
            Node::Event => {
                event += 1;
                set >> (event - 1) & 1 == 1
            }
            Node::And(inputs) => inputs.iter().all(|&input| fails[input as usize]),
            Node::Or(inputs) => inputs.iter().any(|&input| fails[input as usize]),
        };
        fails.push(verdict);
    }
    fails
}

/// The set of events at or beneath each node.
pub fn beneath(nodes: &[Node]) -> Vec<u64> {
    let mut sets: Vec<u64> = Vec::new();
    let mut event = 0;
    for node in nodes {
        let set = match node {
            Node::Event => {
                event += 1;
                1 << (event - 1)
            }
            gate => gate.inputs().iter().fold(0, |set, &input| set | sets[input as usize]),
        };
        sets.push(set);
    }
    sets
}

/// The unreliability of a node: numerator and denominator.
fn unreliability(nodes: &[Node], node: usize, probabilities: &[(u128, u128)]) -> (u128, u128) {
    let events = beneath(nodes)[node];
    let mut sum = 0;
    for set in 0..1u64 << probabilities.len() {
        if set & !events != 0 || !failing(nodes, set)[node] {
            continue;
        }
        sum += (0..probabilities.len())
            .filter(|event| events >> event & 1 == 1)
            .map(|event| {
                let (numerator, denominator) = probabilities[event];
                if set >> event & 1 == 1 {
                    numerator
                } else {
                    denominator - numerator
                }
            })
            .product::<u128>();
    }
    let denominator =
        (0..probabilities.len()).filter(|event| events >> event & 1 == 1).map(|event| probabilities[event].1).product();
    (sum, denominator)
}

#[test]
fn sum_over_cut_sets_is_bottom_up() {
    let mut trees = 0;
    for index in 0..400 {
        let random = &mut Random::for_case(41, index);
        let shape = Shape { nodes: random.between(1, 14), event_share: random.between(30, 80), widest: 5 };
        let nodes = random_tree(random, shape);
        if count_events(&nodes) > 8 {
            continue;
        }
        trees += 1;
        let probabilities: Vec<(u128, u128)> = (0..count_events(&nodes))
            .map(|_| {
                let denominator = random.between(1, 20);
                (random.between(0, denominator) as u128, denominator as u128)
            })
            .collect();
        let fractions: Vec<_> = probabilities.iter().map(|&(n, d)| fraction(n, d)).collect();
        for (node, exact) in bottom_up(&nodes, &fractions).iter().enumerate() {
            let (numerator, denominator) = unreliability(&nodes, node, &probabilities);
            let left = exact.numerator.times(&Whole::new(denominator));
            let right = exact.denominator.times(&Whole::new(numerator));
            assert_eq!(left, right, "node {node} of {nodes:?}");
        }
    }
    assert!(trees > 200);
}

/// Source 004, example 4.
#[test]
fn road_trip() {
    let nodes = [Node::Event, Node::Event, Node::Event, Node::Or(vec![1, 2]), Node::And(vec![0, 3])];
    assert_eq!(unreliability(&nodes, 4, &[(8, 10), (1, 10), (4, 10)]), (368, 1_000));
}
