//! The minimal cut sets of the held tree, by CR 1 of document 02: a set of events under which the root fails, and under
//! no set strictly inside it does. No event is beneath two inputs of a gate, so the sets of a gate are built from those
//! of its inputs: the unions of one from each for AND, all of them for OR.

use crate::monitor::{held_tree, State};
use crate::refusal::{refuse_if, Refusal};
use crate::tree_file::{Gate, Node, Tree};

/// A set is a number with bit i set for event i.
pub const MOST_EVENTS: usize = u64::BITS as usize;

/// How many there are: refusals 21, 23 and 26.
pub fn count_sets(state: State, tree_store: &[u8]) -> Result<u64, Refusal> {
    Ok(count(&judge_small(state, tree_store)?) as u64)
}

/// Writes each once to the front of the slice, in no promised order: refusals 21, 23, 26 and 27.
pub fn list_sets(state: State, tree_store: &[u8], sets: &mut [u64]) -> (State, Result<u64, Refusal>) {
    (state, write_sets(state, tree_store, sets))
}

fn write_sets(state: State, tree_store: &[u8], sets: &mut [u64]) -> Result<u64, Refusal> {
    let tree = judge_small(state, tree_store)?;
    refuse_if((sets.len() as u128) < count(&tree), 27, 0)?;
    let found = sets_of_root(&tree);
    sets[..found.len()].copy_from_slice(&found);
    Ok(found.len() as u64)
}

/// The held tree, where it has no more events than a number has bits.
fn judge_small(state: State, tree_store: &[u8]) -> Result<Tree<'_>, Refusal> {
    refuse_if(state.tree_length == 0, 21, 0)?;
    let tree = held_tree(state, tree_store)?;
    refuse_if(tree.events > MOST_EVENTS, 26, 0)?;
    Ok(tree)
}

/// Sums and products over the inputs; below 2 to the number of events.
fn count(tree: &Tree) -> u128 {
    let mut counts: Vec<u128> = Vec::new();
    for node in 0..tree.nodes {
        let count = match tree.node(node) {
            Node::Event(_) => 1,
            Node::Gate(Gate::And, links) => links.map(|link| counts[tree.link(link)]).product(),
            Node::Gate(Gate::Or, links) => links.map(|link| counts[tree.link(link)]).sum(),
        };
        counts.push(count);
    }
    counts[tree.nodes - 1]
}

/// The sets of each node, taken by the one gate that links it; no node has more than the root.
fn sets_of_root(tree: &Tree) -> Vec<u64> {
    let mut lists: Vec<Vec<u64>> = Vec::new();
    for node in 0..tree.nodes {
        let sets = match tree.node(node) {
            Node::Event(event) => vec![1 << event],
            Node::Gate(gate, links) => {
                let mut inputs = links.map(|link| std::mem::take(&mut lists[tree.link(link)])).collect::<Vec<_>>();
                let first = inputs.remove(0);
                inputs.iter().fold(first, |sets, input| joined(gate, sets, input))
            }
        };
        lists.push(sets);
    }
    lists.remove(tree.nodes - 1)
}

fn joined(gate: Gate, mut sets: Vec<u64>, input: &[u64]) -> Vec<u64> {
    match gate {
        Gate::And => {
            let mut unions = Vec::with_capacity(sets.len() * input.len());
            sets.iter().for_each(|set| unions.extend(input.iter().map(|other| set | other)));
            unions
        }
        Gate::Or => {
            sets.extend(input);
            sets
        }
    }
}
