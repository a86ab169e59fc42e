//! Fraction entries of an acceptable sheet, and pairs that have them alone or beside entries of the other kinds.

use super::sheets::{any_entry, any_scores, lively_entries};
use super::valid::{any_number, any_pair, Pair};
use crate::describe::{fractions, Entry, Node};
use crate::end::U;
use crate::opinion_sheet::LARGEST_DENOMINATOR;
use crate::random::Random;

/// Denominators of few fractions, of exact ones, at the limits and at the edges of their bytes stand beside any others.
pub fn any_denominator(random: &mut Random) -> u32 {
    match random.below(8) {
        0 => 1,
        1 => LARGEST_DENOMINATOR,
        2 => *random.pick(&[255, 256, 257, 1_250, 65_535, 65_536, 65_537, 999_983, 999_999]),
        3 => 10u32.pow(random.below(7) as u32),
        4 => random.between(2, 9) as u32,
        5 => random.between(10, 5_000) as u32,
        _ => random.between(1, LARGEST_DENOMINATOR as usize) as u32,
    }
}

fn any_numerator(random: &mut Random, denominator: u32) -> u32 {
    match random.below(6) {
        0 => 0,
        1 => denominator,
        2 => denominator.min(random.below(10) as u32),
        3 => denominator.saturating_sub(random.below(10) as u32),
        _ => random.between(0, denominator as usize) as u32,
    }
}

/// One in four is a single figure: four equal numerators.
pub fn any_fractions(random: &mut Random) -> Entry {
    let denominator = any_denominator(random);
    let mut numerators = [0; 4].map(|_: u32| any_numerator(random, denominator));
    numerators.sort();
    match random.below(4) {
        0 => numerators = [numerators[1]; 4],
        1 => numerators[2] = numerators[1],
        _ => (),
    }
    fractions(denominator, numerators)
}

/// An entry of any of the three kinds.
pub fn any_of_three(random: &mut Random, experts: usize) -> Entry {
    if random.percent(40) {
        any_fractions(random)
    } else {
        any_entry(random, experts)
    }
}

/// Every entry has fractions; the experts listed say nothing.
pub fn fractions_alone(random: &mut Random, nodes: Vec<Node>) -> Pair {
    let mut pair = any_pair(random, nodes);
    pair.entries.iter_mut().for_each(|entry| *entry = any_fractions(random));
    pair
}

/// Entries of all three kinds, and fractions at one event at least.
pub fn fractions_beside(random: &mut Random, nodes: Vec<Node>) -> Pair {
    let mut pair = any_pair(random, nodes);
    let experts = pair.scores.len();
    pair.entries.iter_mut().for_each(|entry| *entry = any_of_three(random, experts));
    let event = random.below(pair.entries.len());
    pair.entries[event] = any_fractions(random);
    pair
}

/// Fractions that keep the root of a large tree from 0 and U, alone where there are no experts, else beside opinions.
pub fn lively_fractions(random: &mut Random, nodes: Vec<Node>, experts: usize) -> Pair {
    let mut entries = lively_entries(random, experts, &nodes);
    for entry in &mut entries {
        if let Entry::Four(numbers) = *entry {
            let denominator = random.between(1_000, LARGEST_DENOMINATOR as usize) as u32;
            *entry = fractions(denominator, numbers.map(|units| failures_in(denominator, units)));
        }
    }
    Pair { number: any_number(random), nodes, scores: any_scores(random, experts), entries }
}

/// The most failures in so many starts that are no more than these units.
fn failures_in(starts: u32, units: u32) -> u32 {
    (starts as u64 * units as u64 / U as u64) as u32
}
