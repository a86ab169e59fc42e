//! Pairs to be mirrored, as inputs of the mirror of files: limits of the input and of both files, faults, answered
//! pairs, and blind changes.

use super::case::{Case, Outcome};
use super::changed::changed_input;
use super::damaged::damaged_case;
use super::fraction_damage::small_fault;
use super::fraction_entries::{fractions_alone, fractions_beside, lively_fractions};
use super::fraction_limits::{fraction_limit, FRACTION_LIMITS};
use super::fractions::changed_fractions;
use super::limits::{limit_case, LIMITS};
use super::sheets::any_opinions;
use super::silence::quiet_pair;
use super::trees::{chain, comb, count_events, most_events};
use super::valid::{any_number, any_pair, lively_pair, shaped_tree, Pair, SHAPES};
use crate::bytes::{read_16, write_16};
use crate::describe::{fractions, same, Entry, Node};
use crate::end::U;
use crate::levels::{pair_input, LEVELS_FIELD, PAIR_HEADER};
use crate::opinion_sheet::{self, BEST_SCORE, LARGEST_DENOMINATOR, MOST_EVENTS, MOST_EXPERTS, NUMBER_PLACE};
use crate::random::Random;
use crate::tree_file::{self, MOST_INPUTS, MOST_NODES};

/// Cases of a turn: one limit of the papers' files, and as many of the others as `mirror_case` says.
const TURN: u64 = 8;

/// The limits of both files and of their fraction entries, which are judged before anything is mirrored.
const FILE_LIMITS: usize = LIMITS.len() + FRACTION_LIMITS.len();

/// So many cases have every limit and every fault.
pub const MIRROR_CASES: u64 = TURN * FILE_LIMITS as u64;

/// Each part of a turn keeps a count of its own, so that it goes through its whole list.
pub fn mirror_case(random: &mut Random, index: u64) -> Vec<u8> {
    let turn = index / TURN;
    match index % TURN {
        0 => mirror_limit(random, turn).bytes,
        1 => file_limit(random, turn).bytes,
        part @ 2..=3 => damaged_pair(random, 2 * turn + part - 2).bytes,
        4 => fraction_fault(random, turn).bytes,
        part @ 5..=6 => mirrored_pair(random, 2 * turn + part - 5).bytes,
        _ => changed_pair(random),
    }
}

type Maker = fn(&mut Random) -> Case;

pub const MIRROR_LIMITS: [Maker; 55] = [
    |_| Case { bytes: vec![], outcome: Outcome::Input },
    |_| Case { bytes: vec![0; PAIR_HEADER - 1], outcome: Outcome::Input },
    |_| Case { bytes: vec![0; PAIR_HEADER], outcome: Outcome::Refused(1, 0) },
    |random| altered(random, |bytes| bytes.truncate(PAIR_HEADER)),
    |random| altered(random, |bytes| bytes.truncate(bytes.len() - 1)),
    |random| altered(random, |bytes| bytes.push(0)),
    |random| length_off(random, 0, 1),
    |random| length_off(random, 0, u16::MAX),
    |random| length_off(random, 2, 1),
    |random| length_off(random, 2, u16::MAX),
    sum_past_16_bits,
    |random| tree_of_length(random, tree_file::file_length(MOST_NODES)),
    |random| tree_of_length(random, tree_file::file_length(MOST_NODES) + 1),
    |random| sheet_of_length(random, opinion_sheet::file_length(MOST_EVENTS)),
    |random| sheet_of_length(random, opinion_sheet::file_length(MOST_EVENTS) + 1),
    |random| other_number(random, 1),
    |random| other_number(random, 256),
    |random| other_events(random, 1),
    |random| other_events(random, 3),
    |random| one_event(random, &[], same(0)),
    |random| one_event(random, &[], same(U)),
    |random| one_event(random, &[], Entry::Four([0, 0, U, U])),
    |random| one_event(random, &[], Entry::Four([0, 1, U - 1, U])),
    |random| one_event(random, &[], Entry::Four([1, 2, 3, 4])),
    |random| one_event(random, &[BEST_SCORE; MOST_EXPERTS], same(U)),
    |random| one_event(random, &[], fractions(1, [0; 4])),
    |random| one_event(random, &[], fractions(1, [1; 4])),
    |random| one_event(random, &[], fractions(1, [0, 0, 1, 1])),
    |random| one_event(random, &[], fractions(2, [0, 1, 1, 2])),
    |random| one_event(random, &[], fractions(LARGEST_DENOMINATOR - 1, [0, 1, 999_998, 999_999])),
    |random| one_event(random, &[], fractions(LARGEST_DENOMINATOR, [0, 1, 999_999, 1_000_000])),
    |random| one_event(random, &[], fractions(LARGEST_DENOMINATOR, [0xff, 0x100, 0xffff, 0x1_0000])),
    |random| one_event(random, &[1], Entry::Opinions(vec![1])),
    |random| one_event(random, &[BEST_SCORE], Entry::Opinions(vec![7])),
    |random| one_event(random, &[2, 1], Entry::Opinions(vec![2, 0])),
    |random| one_event(random, &[2, 1], Entry::Opinions(vec![0, 2])),
    |random| all_say(random, 1),
    |random| all_say(random, 2),
    |random| all_say(random, 3),
    |random| all_say(random, 4),
    |random| all_say(random, 5),
    |random| all_say(random, 6),
    |random| all_say(random, 7),
    |random| one_event(random, &[BEST_SCORE; MOST_EXPERTS], Entry::Opinions(vec![1])),
    |random| one_event(random, &[BEST_SCORE; MOST_EXPERTS], Entry::Opinions((0..16).map(|code| code % 8).collect())),
    |random| gate_of(random, Node::And, 1),
    |random| gate_of(random, Node::Or, 1),
    |random| gate_of(random, Node::And, MOST_INPUTS),
    |random| gate_of(random, Node::Or, MOST_INPUTS),
    |random| largest(random, most_events, |random, nodes| lively_fractions(random, nodes, 0)),
    |random| largest(random, most_events, fractions_beside),
    |random| largest(random, most_events, best_experts),
    |random| largest(random, most_events, quiet_pair),
    |random| largest(random, chain, fractions_beside),
    |random| largest(random, |random, nodes| comb(random, nodes / 2), fractions_beside),
];

pub fn mirror_limit(random: &mut Random, index: u64) -> Case {
    MIRROR_LIMITS[(index % MIRROR_LIMITS.len() as u64) as usize](random)
}

fn pair_case(tree: &[u8], sheet: &[u8], outcome: Outcome) -> Case {
    Case { bytes: pair_input(tree, sheet), outcome }
}

fn answered(pair: &Pair) -> Case {
    pair_case(&pair.tree(), &pair.sheet(), Outcome::Answered)
}

/// Two events and a gate, with entries of any kind.
fn small_pair(random: &mut Random) -> Pair {
    let nodes = vec![Node::Event, Node::Event, Node::Or(vec![1, 0])];
    fractions_beside(random, nodes)
}

/// An input that is none any more.
fn altered(random: &mut Random, alter: impl FnOnce(&mut Vec<u8>)) -> Case {
    let mut bytes = answered(&small_pair(random)).bytes;
    alter(&mut bytes);
    Case { bytes, outcome: Outcome::Input }
}

/// A length field with so much added to it.
fn length_off(random: &mut Random, place: usize, added: u16) -> Case {
    altered(random, |bytes| {
        let length = read_16(bytes, place);
        write_16(bytes, place, length.wrapping_add(added));
    })
}

/// Lengths whose sum is right in 16 bits alone.
fn sum_past_16_bits(random: &mut Random) -> Case {
    altered(random, |bytes| {
        let files = (bytes.len() - PAIR_HEADER) as u16;
        write_16(bytes, 0, u16::MAX);
        write_16(bytes, 2, files + 1);
    })
}

/// A tree of this many bytes, all there: too long for its nodes, or for any.
fn tree_of_length(random: &mut Random, length: usize) -> Case {
    let pair = small_pair(random);
    let mut tree = pair.tree();
    tree.resize(length, 0);
    let in_range = length <= tree_file::file_length(MOST_NODES);
    pair_case(&tree, &pair.sheet(), if in_range { Outcome::Refused(5, length) } else { Outcome::Input })
}

fn sheet_of_length(random: &mut Random, length: usize) -> Case {
    let pair = small_pair(random);
    let mut sheet = pair.sheet();
    sheet.resize(length, 0);
    let in_range = length <= opinion_sheet::file_length(MOST_EVENTS);
    pair_case(&pair.tree(), &sheet, if in_range { Outcome::Refused(5, length) } else { Outcome::Input })
}

/// The sheet is for another tree.
fn other_number(random: &mut Random, bits: u16) -> Case {
    let pair = small_pair(random);
    let mut sheet = pair.sheet();
    write_16(&mut sheet, NUMBER_PLACE, pair.number ^ bits);
    pair_case(&pair.tree(), &sheet, Outcome::Refused(24, 0))
}

/// The tree has two events, and the sheet so many entries.
fn other_events(random: &mut Random, entries: usize) -> Case {
    let mut pair = small_pair(random);
    pair.entries.resize(entries, same(3));
    pair_case(&pair.tree(), &pair.sheet(), Outcome::Refused(24, 0))
}

fn one_event(random: &mut Random, scores: &[u8], entry: Entry) -> Case {
    let number = any_number(random);
    answered(&Pair { number, nodes: vec![Node::Event], scores: scores.to_vec(), entries: vec![entry] })
}

/// Sixteen experts of the best score say the same: the largest sums, over 160,000.
fn all_say(random: &mut Random, term: u8) -> Case {
    one_event(random, &[BEST_SCORE; MOST_EXPERTS], Entry::Opinions(vec![term; MOST_EXPERTS]))
}

fn gate_of(random: &mut Random, gate: fn(Vec<u16>) -> Node, inputs: usize) -> Case {
    let nodes = [vec![Node::Event; inputs], vec![gate((0..inputs as u16).rev().collect())]].concat();
    answered(&fractions_beside(random, nodes))
}

/// Opinions alone, of sixteen experts of the best score.
fn best_experts(random: &mut Random, nodes: Vec<Node>) -> Pair {
    let entries = (0..count_events(&nodes)).map(|_| any_opinions(random, MOST_EXPERTS)).collect();
    Pair { number: any_number(random), nodes, scores: vec![BEST_SCORE; MOST_EXPERTS], entries }
}

fn largest(
    random: &mut Random,
    shape: fn(&mut Random, usize) -> Vec<Node>,
    style: fn(&mut Random, Vec<Node>) -> Pair,
) -> Case {
    let nodes = shape(random, MOST_NODES);
    answered(&style(random, nodes))
}

/// A case of the level printer without its level; where that alone is at fault, a pair that is mirrored stands in.
fn without_level(random: &mut Random, case: Case, index: u64) -> Case {
    match case.outcome {
        Outcome::Refused(13, _) => mirrored_pair(random, index),
        outcome => Case { bytes: case.bytes.get(LEVELS_FIELD..).unwrap_or(&[]).to_vec(), outcome },
    }
}

pub fn file_limit(random: &mut Random, index: u64) -> Case {
    let turn = index % FILE_LIMITS as u64;
    let case = match turn.checked_sub(LIMITS.len() as u64) {
        None => limit_case(random, turn),
        Some(turn) => fraction_limit(random, turn),
    };
    without_level(random, case, index)
}

pub fn damaged_pair(random: &mut Random, index: u64) -> Case {
    let case = damaged_case(random, index);
    without_level(random, case, index)
}

pub fn fraction_fault(random: &mut Random, index: u64) -> Case {
    let case = small_fault(random, index);
    without_level(random, case, index)
}

/// Shapes and styles are of different number, so that their turns meet in every combination.
const STYLES: u64 = 5;

/// Every shape of tree with every style of sheet.
pub fn any_mirror_pair(random: &mut Random, index: u64) -> Pair {
    let nodes = shaped_tree(random, index % SHAPES);
    match index % STYLES {
        0 => fractions_beside(random, nodes),
        1 => lively_pair(random, nodes),
        2 => quiet_pair(random, nodes),
        3 => fractions_alone(random, nodes),
        _ => any_pair(random, nodes),
    }
}

pub fn mirrored_pair(random: &mut Random, index: u64) -> Case {
    answered(&any_mirror_pair(random, index))
}

/// Blind changes of either file; what comes of them is left to the judge.
pub fn changed_pair(random: &mut Random) -> Vec<u8> {
    let input = if random.percent(50) { changed_input(random) } else { changed_fractions(random) };
    input.get(LEVELS_FIELD..).unwrap_or(&[]).to_vec()
}
