//! One fault in a tree file, with the refusal that it must get.

use super::case::Outcome;
use super::trees::{count_events, one_gate, random_tree, Shape};
use super::valid::{any_pair, Pair};
use crate::bytes::{read_16, write_16};
use crate::describe::Node;
use crate::random::Random;
use crate::tree_file::*;

/// The damaged tree stands with the sheet of the pair.
pub struct DamagedTree {
    pub pair: Pair,
    pub tree: Vec<u8>,
    pub outcome: Outcome,
}

type Damage = fn(&mut Random) -> DamagedTree;

pub const TREE_DAMAGES: [Damage; 31] = [
    |random| shorter(random, HEADER, 1),
    letter,
    version,
    |random| node_count(random, 0),
    |random| node_count(random, 1_025),
    any_large_count,
    cut,
    longer,
    count_beside_length,
    unknown_kind,
    event_number,
    event_with_inputs,
    events_swapped,
    event_as_gate,
    gate_as_event,
    gate_first_link,
    gate_empty,
    gate_wider,
    gate_of_seventeen,
    root_past_links,
    gate_sum_past_16_bits,
    links_left_over,
    |random| link_above(random, 0),
    |random| link_above(random, 1),
    link_nowhere,
    link_repeated,
    link_repeated_later_above,
    |random| last_record(random, 3, 6),
    |random| first_record(random, 200, 6),
    second_fault_later,
    single_gate,
];

/// A tree with at least one gate of two inputs, so with two events.
fn base(random: &mut Random) -> (Pair, Vec<u8>) {
    loop {
        let shape = Shape { nodes: random.between(3, 40), event_share: random.between(40, 80), widest: 16 };
        let nodes = random_tree(random, shape);
        if count_events(&nodes) >= 2 {
            let pair = any_pair(random, nodes);
            let tree = pair.tree();
            return (pair, tree);
        }
    }
}

fn damaged(pair: Pair, tree: Vec<u8>, number: u32, place: usize) -> DamagedTree {
    DamagedTree { pair, tree, outcome: Outcome::Refused(number, place) }
}

/// The nodes for which the test holds; each caller knows that there is one.
fn any_node(random: &mut Random, pair: &Pair, test: impl Fn(&Node) -> bool) -> usize {
    let nodes: Vec<usize> = (0..pair.nodes.len()).filter(|&node| test(&pair.nodes[node])).collect();
    *random.pick(&nodes)
}

fn is_event(node: &Node) -> bool {
    *node == Node::Event
}

fn is_gate(node: &Node) -> bool {
    *node != Node::Event
}

/// Another value than the one that stands there.
fn other_16(random: &mut Random, value: u16) -> u16 {
    let choices = [value.wrapping_add(1), value.wrapping_sub(1), value ^ 0x0100, value ^ 0x8000, !value];
    *random.pick(&choices)
}

fn shorter(random: &mut Random, below: usize, number: u32) -> DamagedTree {
    let (pair, mut tree) = base(random);
    tree.truncate(random.below(below));
    let length = tree.len();
    damaged(pair, tree, number, length)
}

fn letter(random: &mut Random) -> DamagedTree {
    let (pair, mut tree) = base(random);
    tree[random.below(3)] ^= random.between(1, 255) as u8;
    damaged(pair, tree, 2, 0)
}

fn version(random: &mut Random) -> DamagedTree {
    let (pair, mut tree) = base(random);
    write_16(&mut tree, VERSION_PLACE, *random.pick(&[0, 2, 256, 257, 65_535]));
    damaged(pair, tree, 3, VERSION_PLACE)
}

fn node_count(random: &mut Random, nodes: u16) -> DamagedTree {
    let (pair, mut tree) = base(random);
    write_16(&mut tree, NODES_PLACE, nodes);
    damaged(pair, tree, 4, NODES_PLACE)
}

fn any_large_count(random: &mut Random) -> DamagedTree {
    let nodes = random.between(1_025, 65_535) as u16;
    node_count(random, nodes)
}

/// The header stays.
fn cut(random: &mut Random) -> DamagedTree {
    let (pair, mut tree) = base(random);
    tree.truncate(random.between(HEADER, tree.len() - 1));
    let length = tree.len();
    damaged(pair, tree, 5, length)
}

fn longer(random: &mut Random) -> DamagedTree {
    let (pair, mut tree) = base(random);
    tree.resize(tree.len() + random.between(1, 20), 0);
    let length = tree.len();
    damaged(pair, tree, 5, length)
}

fn count_beside_length(random: &mut Random) -> DamagedTree {
    let (pair, mut tree) = base(random);
    let nodes = read_16(&tree, NODES_PLACE);
    write_16(&mut tree, NODES_PLACE, if random.percent(50) { nodes - 1 } else { nodes + 1 });
    let length = tree.len();
    damaged(pair, tree, 5, length)
}

fn unknown_kind(random: &mut Random) -> DamagedTree {
    let (pair, mut tree) = base(random);
    let place = record_place(random.below(pair.nodes.len()));
    tree[place] = random.between(3, 255) as u8;
    damaged(pair, tree, 6, place)
}

/// The kind byte of the last record.
fn last_record(random: &mut Random, kind: u8, number: u32) -> DamagedTree {
    let (pair, mut tree) = base(random);
    let place = record_place(pair.nodes.len() - 1);
    tree[place] = kind;
    damaged(pair, tree, number, place)
}

/// The kind byte of the first record, with a wrong b beside it: the kind is judged first.
fn first_record(random: &mut Random, kind: u8, number: u32) -> DamagedTree {
    let (pair, mut tree) = base(random);
    tree[HEADER] = kind;
    write_16(&mut tree, HEADER + 3, 17);
    damaged(pair, tree, number, HEADER)
}

fn event_number(random: &mut Random) -> DamagedTree {
    let (pair, mut tree) = base(random);
    let place = record_place(any_node(random, &pair, is_event));
    let wrong = other_16(random, read_16(&tree, place + 1));
    write_16(&mut tree, place + 1, wrong);
    damaged(pair, tree, 7, place)
}

fn event_with_inputs(random: &mut Random) -> DamagedTree {
    let (pair, mut tree) = base(random);
    let place = record_place(any_node(random, &pair, is_event));
    write_16(&mut tree, place + 3, *random.pick(&[1, 2, 16, 256, 65_535]));
    damaged(pair, tree, 7, place)
}

fn events_swapped(random: &mut Random) -> DamagedTree {
    let (pair, mut tree) = base(random);
    let events: Vec<usize> = (0..pair.nodes.len()).filter(|&node| is_event(&pair.nodes[node])).collect();
    let first = random.below(events.len() - 1);
    let second = random.between(first + 1, events.len() - 1);
    write_16(&mut tree, record_place(events[first]) + 1, second as u16);
    write_16(&mut tree, record_place(events[second]) + 1, first as u16);
    damaged(pair, tree, 7, record_place(events[first]))
}

/// Its b is 0, which no gate has.
fn event_as_gate(random: &mut Random) -> DamagedTree {
    let (pair, mut tree) = base(random);
    let place = record_place(any_node(random, &pair, is_event));
    tree[place] = *random.pick(&[AND, OR]);
    damaged(pair, tree, 7, place)
}

/// Its b is above 0, which no event has.
fn gate_as_event(random: &mut Random) -> DamagedTree {
    let (pair, mut tree) = base(random);
    let place = record_place(any_node(random, &pair, is_gate));
    tree[place] = EVENT;
    damaged(pair, tree, 7, place)
}

fn gate_first_link(random: &mut Random) -> DamagedTree {
    let (pair, mut tree) = base(random);
    let place = record_place(any_node(random, &pair, is_gate));
    let wrong = other_16(random, read_16(&tree, place + 1));
    write_16(&mut tree, place + 1, wrong);
    damaged(pair, tree, 7, place)
}

fn gate_empty(random: &mut Random) -> DamagedTree {
    let (pair, mut tree) = base(random);
    let place = record_place(any_node(random, &pair, is_gate));
    write_16(&mut tree, place + 3, 0);
    damaged(pair, tree, 7, place)
}

/// One more input than there are links for: seen at the next gate's a, or at the gate itself where it is the root
/// or has sixteen already.
fn gate_wider(random: &mut Random) -> DamagedTree {
    let (pair, mut tree) = base(random);
    let gate = any_node(random, &pair, is_gate);
    let inputs = pair.nodes[gate].inputs().len();
    write_16(&mut tree, record_place(gate) + 3, inputs as u16 + 1);
    let next = (gate + 1..pair.nodes.len()).find(|&node| is_gate(&pair.nodes[node]));
    let at = if inputs == MOST_INPUTS { gate } else { next.unwrap_or(gate) };
    damaged(pair, tree, 7, record_place(at))
}

/// All links are there, so the number of inputs alone is at fault.
fn gate_of_seventeen(random: &mut Random) -> DamagedTree {
    let nodes = one_gate(random, 17);
    let pair = any_pair(random, nodes);
    let tree = pair.tree();
    damaged(pair, tree, 7, record_place(17))
}

fn root_past_links(random: &mut Random) -> DamagedTree {
    let (pair, mut tree) = base(random);
    let root = pair.nodes.len() - 1;
    write_16(&mut tree, record_place(root) + 3, pair.nodes[root].inputs().len() as u16 + 1);
    damaged(pair, tree, 7, record_place(root))
}

/// a + b is 0 or little above it in 16 bits.
fn gate_sum_past_16_bits(random: &mut Random) -> DamagedTree {
    let (pair, mut tree) = base(random);
    let place = record_place(any_node(random, &pair, is_gate));
    write_16(&mut tree, place + 1, 65_535);
    write_16(&mut tree, place + 3, random.between(1, 16) as u16);
    damaged(pair, tree, 7, place)
}

/// The root takes one input less; where it has one alone, it is empty itself.
fn links_left_over(random: &mut Random) -> DamagedTree {
    let (pair, mut tree) = base(random);
    let nodes = pair.nodes.len();
    let inputs = pair.nodes[nodes - 1].inputs().len();
    write_16(&mut tree, record_place(nodes - 1) + 3, inputs as u16 - 1);
    let place = if inputs == 1 { record_place(nodes - 1) } else { HEADER + RECORD * nodes };
    damaged(pair, tree, 7, place)
}

/// Any link of the tree, with its gate.
fn any_link(random: &mut Random, pair: &Pair) -> (usize, usize) {
    let mut links = Vec::new();
    for (gate, node) in pair.nodes.iter().enumerate() {
        for _ in node.inputs() {
            links.push((links.len(), gate));
        }
    }
    *random.pick(&links)
}

fn link_above(random: &mut Random, above: u16) -> DamagedTree {
    let (pair, mut tree) = base(random);
    let (link, gate) = any_link(random, &pair);
    let place = link_place(pair.nodes.len(), link);
    write_16(&mut tree, place, gate as u16 + above);
    damaged(pair, tree, 8, place)
}

fn link_nowhere(random: &mut Random) -> DamagedTree {
    let (pair, mut tree) = base(random);
    let (link, _) = any_link(random, &pair);
    let place = link_place(pair.nodes.len(), link);
    write_16(&mut tree, place, *random.pick(&[pair.nodes.len() as u16, 1_024, 32_768, 65_535]));
    damaged(pair, tree, 8, place)
}

/// The earlier node is below the later gate, since it is below its own.
fn link_repeated(random: &mut Random) -> DamagedTree {
    let (pair, mut tree) = base(random);
    let nodes = pair.nodes.len();
    let later = random.between(1, nodes - 2);
    let earlier = random.below(later);
    let input = read_16(&tree, link_place(nodes, earlier));
    write_16(&mut tree, link_place(nodes, later), input);
    damaged(pair, tree, 9, link_place(nodes, later))
}

/// A link repeated and a later one not below its gate: 9 at the first, as links are judged one by one.
fn link_repeated_later_above(random: &mut Random) -> DamagedTree {
    let DamagedTree { pair, mut tree, outcome } = link_repeated(random);
    let last = tree.len() - LINK;
    if outcome != Outcome::Refused(9, last) {
        write_16(&mut tree, last, pair.nodes.len() as u16 - 1);
    }
    DamagedTree { pair, tree, outcome }
}

/// A wrong record and, behind it, a wrong link.
fn second_fault_later(random: &mut Random) -> DamagedTree {
    let DamagedTree { pair, mut tree, outcome } = event_number(random);
    write_16(&mut tree, link_place(pair.nodes.len(), 0), 65_535);
    DamagedTree { pair, tree, outcome }
}

/// A file of one node has no link for a gate.
fn single_gate(random: &mut Random) -> DamagedTree {
    let pair = any_pair(random, vec![Node::Event]);
    let mut tree = pair.tree();
    tree[HEADER] = *random.pick(&[AND, OR]);
    write_16(&mut tree, HEADER + 3, random.between(1, 16) as u16);
    damaged(pair, tree, 7, HEADER)
}
