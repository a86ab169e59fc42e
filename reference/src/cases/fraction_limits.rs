//! Inputs at each limit of a fraction entry and one past it.

use super::case::{input_case, Case, Outcome};
use super::fraction_damage::fill_to_most;
use super::fraction_entries::{fractions_alone, lively_fractions};
use super::trees::{count_events, most_events};
use super::valid::{any_number, Pair};
use crate::describe::{fractions, Entry, Node};
use crate::opinion_sheet::{self, LARGEST_DENOMINATOR, OPINIONS};
use crate::random::Random;
use crate::tree_file;

type Maker = fn(&mut Random) -> Case;

pub const FRACTION_LIMITS: [Maker; 32] = [
    |random| taken(random, 1, [0, 0, 1, 1]),
    |random| refused(random, 0, [0; 4], 0),
    |random| taken(random, LARGEST_DENOMINATOR, [0, 1, 999_999, 1_000_000]),
    |random| refused(random, LARGEST_DENOMINATOR + 1, [0, 1, 999_999, 1_000_000], 0),
    |random| taken(random, 1_250, [1, 3, 3, 1_250]),
    |random| refused(random, 1_250, [1, 3, 3, 1_251], 0),
    |random| refused(random, 1_250, [1, 3, 3, 6], 1),
    |random| refused(random, 1_250, [4, 3, 3, 6], 0),
    |random| refused(random, 1_250, [1, 4, 3, 6], 0),
    |random| refused(random, 1_250, [1, 3, 7, 6], 0),
    largest,
    |random| unknown_kind(random, 3),
    lone_sheet,
    |random| taken(random, 1_250, [3; 4]),
    |random| taken(random, 3, [1; 4]),
    |random| taken(random, 6, [1, 2, 4, 5]),
    |random| taken(random, LARGEST_DENOMINATOR, [1; 4]),
    |random| taken(random, 999_983, [1, 1, 999_982, 999_983]),
    |random| taken(random, 0x01_0000, [0x00_0100, 0x00_0101, 0x00_ff00, 0x01_0000]),
    |random| taken(random, 1, [0; 4]),
    |random| refused(random, 1, [1, 1, 1, 2], 0),
    |random| refused(random, 0, [0, 0, 0, 1], 0),
    |random| refused(random, 0xff_ffff, [0xff_ffff; 4], 0),
    |random| refused(random, 0x10_0000, [0; 4], 0),
    |random| refused(random, LARGEST_DENOMINATOR, [0, 0, 0, 0x10_0000], 0),
    |random| refused(random, LARGEST_DENOMINATOR, [0; 4], 128),
    |random| refused(random, LARGEST_DENOMINATOR, [0; 4], 255),
    |random| unknown_kind(random, 255),
    as_opinions,
    |random| all_same(random, LARGEST_DENOMINATOR, 0),
    |random| all_same(random, LARGEST_DENOMINATOR, LARGEST_DENOMINATOR),
    thousand_levels,
];

pub fn fraction_limit(random: &mut Random, index: u64) -> Case {
    FRACTION_LIMITS[(index % FRACTION_LIMITS.len() as u64) as usize](random)
}

fn one_entry(random: &mut Random, entry: Entry) -> Pair {
    Pair { number: any_number(random), nodes: vec![Node::Event], scores: vec![], entries: vec![entry] }
}

fn taken(random: &mut Random, denominator: u32, numerators: [u32; 4]) -> Case {
    one_entry(random, fractions(denominator, numerators)).answered(6)
}

fn refused(random: &mut Random, denominator: u32, numerators: [u32; 4], last: u8) -> Case {
    let pair = one_entry(random, Entry::Fractions { denominator, numerators, last });
    input_case(6, &pair.tree(), &pair.sheet(), Outcome::Refused(28, opinion_sheet::HEADER))
}

/// Of another kind the same bytes are no fractions, good or bad.
fn unknown_kind(random: &mut Random, kind: u8) -> Case {
    let last = random.below(2) as u8;
    let pair = one_entry(random, Entry::Fractions { denominator: 1_250, numerators: [1, 3, 3, 6], last });
    let mut sheet = pair.sheet();
    sheet[opinion_sheet::HEADER] = kind;
    input_case(6, &pair.tree(), &sheet, Outcome::Refused(6, opinion_sheet::HEADER))
}

/// 1,250 is 226 and 4 as bytes: the first is no term.
fn as_opinions(random: &mut Random) -> Case {
    let pair = one_entry(random, fractions(1_250, [1, 3, 3, 6]));
    let mut sheet = pair.sheet();
    sheet[opinion_sheet::HEADER] = OPINIONS;
    input_case(6, &pair.tree(), &sheet, Outcome::Refused(11, opinion_sheet::HEADER + 1))
}

/// 960 fraction entries.
fn largest(random: &mut Random) -> Case {
    let nodes = most_events(random, tree_file::MOST_NODES);
    lively_fractions(random, nodes, 0).answered(3)
}

/// Accepted by itself, but no tree has so many events.
fn lone_sheet(random: &mut Random) -> Case {
    let nodes = most_events(random, tree_file::MOST_NODES);
    let mut pair = fractions_alone(random, nodes);
    fill_to_most(random, &mut pair);
    input_case(2, &pair.tree(), &pair.sheet(), Outcome::Refused(24, 0))
}

fn all_same(random: &mut Random, denominator: u32, numerator: u32) -> Case {
    let nodes = most_events(random, tree_file::MOST_NODES);
    let entries = vec![fractions(denominator, [numerator; 4]); count_events(&nodes)];
    Pair { number: any_number(random), nodes, scores: vec![], entries }.answered(2)
}

/// The largest products of a cut.
fn thousand_levels(random: &mut Random) -> Case {
    one_entry(random, fractions(LARGEST_DENOMINATOR, [1, 499_999, 999_999, 1_000_000])).answered(1_000)
}
