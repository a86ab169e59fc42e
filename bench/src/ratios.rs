//! Questions through the C library beside the same questions to the peer: trees of several sizes, with each kind of
//! entry.

use crate::capi::ONE;
use crate::timing::{self, Bench, Contestant, Cost};
use reference::cases::sheets::any_opinions;
use reference::cases::trees::{count_events, gate, most_events};
use reference::cases::valid::Pair;
use reference::describe::{fractions, Entry, Node};
use reference::opinion_sheet::LARGEST_DENOMINATOR;
use reference::random::Random;

const EXPERTS: usize = 16;
pub const TREE_NUMBER: u16 = 1;

#[derive(Clone, Copy, Debug)]
pub enum Entries {
    Numbers,
    /// About one expert in four is silent.
    Opinions,
    /// One after the other.
    Both,
    Fractions,
}

/// The trees timed: gates of two inputs over as many events, or the fewest gates over the most events.
#[derive(Clone, Copy, Debug)]
pub enum Shape {
    Paired,
    MostEvents,
}

/// The shape of a tree, its number of nodes, and the entries of the sheet.
#[derive(Clone, Copy, Debug)]
pub struct Size {
    pub shape: Shape,
    pub nodes: usize,
    pub entries: Entries,
}

/// The number of events of each size, and the cost of a question.
pub fn costs(sizes: &[Size], contestants: &[Contestant]) -> Vec<(usize, Cost)> {
    let pairs: Vec<Pair> = sizes.iter().map(|&size| pair(size)).collect();
    let benches = pairs.iter().map(|pair| Bench::new(pair, contestants, |_| ())).collect();
    pairs.iter().map(|pair| pair.entries.len()).zip(timing::costs(benches)).collect()
}

pub fn pair(size: Size) -> Pair {
    let random = &mut Random::for_case(size.nodes as u64, 0);
    let nodes = match size.shape {
        Shape::Paired => paired_tree(size.nodes, |inputs| gate(random, inputs)),
        Shape::MostEvents => most_events(random, size.nodes),
    };
    let scores = (0..EXPERTS).map(|_| random.between(1, 100) as u8).collect();
    let entries = (0..count_events(&nodes)).map(|event| entry(random, size.entries, event)).collect();
    Pair { number: TREE_NUMBER, nodes, scores, entries }
}

/// Events first, then gates of two inputs over them in pairs; a gate of one input where a node is left to place.
pub fn paired_tree(count: usize, mut gate: impl FnMut(Vec<u16>) -> Node) -> Vec<Node> {
    let events = count.div_ceil(2);
    let mut nodes = vec![Node::Event; events];
    let mut next = 0;
    while nodes.len() < 2 * events - 1 {
        nodes.push(gate(vec![next, next + 1]));
        next += 2;
    }
    while nodes.len() < count {
        let last = nodes.len() as u16 - 1;
        nodes.push(gate(vec![last]));
    }
    nodes
}

fn entry(random: &mut Random, entries: Entries, event: usize) -> Entry {
    match entries {
        Entries::Numbers => any_numbers(random),
        Entries::Both if event.is_multiple_of(2) => any_numbers(random),
        Entries::Opinions | Entries::Both => any_opinions(random, EXPERTS),
        Entries::Fractions => {
            let denominator = random.between(1, LARGEST_DENOMINATOR as usize) as u32;
            fractions(denominator, rising(random, 0, denominator))
        }
    }
}

fn any_numbers(random: &mut Random) -> Entry {
    Entry::Four(rising(random, 1, ONE - 1))
}

pub fn rising(random: &mut Random, least: u32, most: u32) -> [u32; 4] {
    let mut four = [0; 4].map(|_: u32| random.between(least as usize, most as usize) as u32);
    four.sort();
    four
}
