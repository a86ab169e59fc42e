//! Inputs at each limit of document 01 and one past it.

use super::case::{input_case, Case, Outcome};
use super::sheets::{any_four, any_opinions, any_units};
use super::trees::{chain, comb, count_events, most_events, one_gate};
use super::valid::{any_number, any_pair, lively_pair, Pair};
use crate::bytes::write_16;
use crate::describe::{same, sheet_bytes, tree_bytes, Entry, Node};
use crate::end::U;
use crate::opinion_sheet;
use crate::random::Random;
use crate::tree_file;

type Maker = fn(&mut Random) -> Case;

pub const LIMITS: [Maker; 34] = [
    |random| largest(random, most_events, 3),
    |random| largest(random, chain, 3),
    |random| largest(random, |random, nodes| comb(random, nodes / 2), 3),
    |random| any_pair(random, vec![Node::Event]).answered(1_000),
    |random| refused_level(random, 1_001),
    |random| refused_level(random, 0),
    |random| refused_level(random, 65_535),
    |random| all_same(random, 0),
    |random| all_same(random, U),
    |random| all_same(random, 1),
    |random| all_same(random, U - 1),
    all_opinions,
    too_many_nodes,
    too_many_nodes_full_length,
    |random| gate_of(random, 16),
    |random| gate_of(random, 17),
    |random| link_at(random, 0),
    |random| link_at(random, 1),
    |random| short_tree(random, 8),
    |random| short_tree(random, 9),
    |random| short_sheet(random, 25),
    |random| short_sheet(random, 26),
    |random| lone_sheet(random, 961),
    |random| lone_sheet(random, 1_024),
    too_many_events,
    |random| experts(random, 16),
    |random| experts(random, 17),
    |random| score(random, 100),
    |random| score(random, 101),
    |random| top_number(random, U),
    |random| top_number(random, U + 1),
    |random| tree_field(random, 7_176),
    |random| sheet_field(random, 17_435),
    |random| largest(random, most_events, 1_000),
];

pub fn limit_case(random: &mut Random, index: u64) -> Case {
    LIMITS[(index % LIMITS.len() as u64) as usize](random)
}

fn largest(random: &mut Random, shape: fn(&mut Random, usize) -> Vec<Node>, n: usize) -> Case {
    let nodes = shape(random, tree_file::MOST_NODES);
    lively_pair(random, nodes).answered(n)
}

fn refused_level(random: &mut Random, n: u16) -> Case {
    let pair = one_event(random);
    input_case(n, &pair.tree(), &pair.sheet(), Outcome::Refused(13, 0))
}

fn one_event(random: &mut Random) -> Pair {
    any_pair(random, vec![Node::Event])
}

fn all_same(random: &mut Random, units: u32) -> Case {
    let nodes = most_events(random, tree_file::MOST_NODES);
    let entries = vec![same(units); count_events(&nodes)];
    Pair { number: any_number(random), nodes, scores: vec![], entries }.answered(2)
}

/// Sixteen experts of score 100: the largest weighted sums.
fn all_opinions(random: &mut Random) -> Case {
    let nodes = most_events(random, tree_file::MOST_NODES);
    let entries = (0..count_events(&nodes)).map(|_| any_opinions(random, 16)).collect();
    Pair { number: any_number(random), nodes, scores: vec![100; 16], entries }.answered(3)
}

fn too_many_nodes(random: &mut Random) -> Case {
    let pair = one_event(random);
    let mut tree = pair.tree();
    write_16(&mut tree, tree_file::NODES_PLACE, 1_025);
    input_case(2, &tree, &pair.sheet(), Outcome::Refused(4, tree_file::NODES_PLACE))
}

/// Its true length is more than the printer takes.
fn too_many_nodes_full_length(random: &mut Random) -> Case {
    let nodes = chain(random, 1_025);
    let pair = any_pair(random, nodes);
    input_case(2, &pair.tree(), &pair.sheet(), Outcome::Input)
}

fn gate_of(random: &mut Random, inputs: usize) -> Case {
    let nodes = one_gate(random, inputs);
    let pair = any_pair(random, nodes);
    let fault = Outcome::Refused(7, tree_file::record_place(inputs));
    let outcome = if inputs > tree_file::MOST_INPUTS { fault } else { Outcome::Answered };
    input_case(4, &pair.tree(), &pair.sheet(), outcome)
}

/// A chain whose last link is this far below its gate.
fn link_at(random: &mut Random, below: u16) -> Case {
    let length = random.between(2, 20);
    let nodes = chain(random, length);
    let pair = any_pair(random, nodes);
    let mut tree = pair.tree();
    let last = tree_file::link_place(length, length - 2);
    write_16(&mut tree, last, length as u16 - 1 - below);
    let outcome = if below == 0 { Outcome::Refused(8, last) } else { Outcome::Answered };
    input_case(2, &tree, &pair.sheet(), outcome)
}

fn short_tree(random: &mut Random, length: usize) -> Case {
    let pair = one_event(random);
    let number = if length < tree_file::HEADER { 1 } else { 5 };
    input_case(2, &pair.tree()[..length], &pair.sheet(), Outcome::Refused(number, length))
}

fn short_sheet(random: &mut Random, length: usize) -> Case {
    let pair = one_event(random);
    let number = if length < opinion_sheet::HEADER { 1 } else { 5 };
    input_case(2, &pair.tree(), &pair.sheet()[..length], Outcome::Refused(number, length))
}

/// Accepted by itself, but no tree has so many events.
fn lone_sheet(random: &mut Random, events: usize) -> Case {
    let number = any_number(random);
    let nodes = most_events(random, tree_file::MOST_NODES);
    let entries: Vec<Entry> = (0..events).map(|_| any_four(random)).collect();
    input_case(2, &tree_bytes(number, &nodes), &sheet_bytes(number, &[], &entries), Outcome::Refused(24, 0))
}

fn too_many_events(random: &mut Random) -> Case {
    let pair = one_event(random);
    let mut sheet = pair.sheet();
    write_16(&mut sheet, opinion_sheet::EVENTS_PLACE, 1_025);
    input_case(2, &pair.tree(), &sheet, Outcome::Refused(4, opinion_sheet::EVENTS_PLACE))
}

fn experts(random: &mut Random, experts: u8) -> Case {
    let entries = vec![any_opinions(random, 16)];
    let pair = Pair { number: any_number(random), nodes: vec![Node::Event], scores: vec![100; 16], entries };
    let mut sheet = pair.sheet();
    sheet[opinion_sheet::EXPERTS_PLACE] = experts;
    let fault = Outcome::Refused(4, opinion_sheet::EXPERTS_PLACE);
    input_case(5, &pair.tree(), &sheet, if experts > 16 { fault } else { Outcome::Answered })
}

fn score(random: &mut Random, score: u8) -> Case {
    let expert = random.below(16);
    let mut scores = vec![1; 16];
    scores[expert] = score;
    let entries = vec![any_opinions(random, 16)];
    let pair = Pair { number: any_number(random), nodes: vec![Node::Event], scores, entries };
    let fault = Outcome::Refused(7, opinion_sheet::SCORES_PLACE + expert);
    input_case(5, &pair.tree(), &pair.sheet(), if score > 100 { fault } else { Outcome::Answered })
}

fn top_number(random: &mut Random, d: u32) -> Case {
    let entries = vec![Entry::Four([any_units(random) / 2, U / 2, U - 1, d])];
    let pair = Pair { number: any_number(random), nodes: vec![Node::Event], scores: vec![], entries };
    let fault = Outcome::Refused(10, opinion_sheet::HEADER);
    input_case(7, &pair.tree(), &pair.sheet(), if d > U { fault } else { Outcome::Answered })
}

/// A tree of this many bytes, all there.
fn tree_field(random: &mut Random, length: usize) -> Case {
    let pair = one_event(random);
    let mut tree = pair.tree();
    tree.resize(length, 0);
    input_case(2, &tree, &pair.sheet(), Outcome::Input)
}

fn sheet_field(random: &mut Random, length: usize) -> Case {
    let pair = one_event(random);
    let mut sheet = pair.sheet();
    sheet.resize(length, 0);
    input_case(2, &pair.tree(), &sheet, Outcome::Input)
}
