//! Scores and entries of an acceptable sheet.

use crate::describe::{same, Entry, Node};
use crate::end::U;
use crate::random::Random;

/// Numbers that are exact in many products stand beside ones that are not.
pub fn any_units(random: &mut Random) -> u32 {
    match random.below(8) {
        0 => 0,
        1 => U,
        2 => random.below(10) as u32,
        3 => U - random.below(10) as u32,
        4 => random.below(11) as u32 * 100_000_000,
        5 => random.below(1_001) as u32 * 1_000_000,
        6 => random.below(100_000) as u32,
        _ => random.below(U as usize + 1) as u32,
    }
}

pub fn any_four(random: &mut Random) -> Entry {
    if random.percent(25) {
        return same(any_units(random));
    }
    let mut numbers = [0; 4].map(|_: u32| any_units(random));
    numbers.sort();
    if random.percent(30) {
        numbers[2] = numbers[1];
    }
    Entry::Four(numbers)
}

/// At least one expert; about one in four is silent, and never all.
pub fn any_opinions(random: &mut Random, experts: usize) -> Entry {
    let mut terms: Vec<u8> = (0..experts).map(|_| any_term(random)).collect();
    let speaker = random.below(experts);
    terms[speaker] = random.between(1, 7) as u8;
    Entry::Opinions(terms)
}

fn any_term(random: &mut Random) -> u8 {
    if random.percent(25) {
        0
    } else {
        random.between(1, 7) as u8
    }
}

pub fn any_scores(random: &mut Random, experts: usize) -> Vec<u8> {
    (0..experts).map(|_| *random.pick(&[1, 2, 3, 5, 7, 10, 12, 15, 50, 97, 99, 100])).collect()
}

/// Opinions only where there is an expert to speak.
pub fn any_entry(random: &mut Random, experts: usize) -> Entry {
    if experts > 0 && random.percent(50) {
        any_opinions(random, experts)
    } else {
        any_four(random)
    }
}

pub fn any_entries(random: &mut Random, experts: usize, events: usize) -> Vec<Entry> {
    (0..events).map(|_| any_entry(random, experts)).collect()
}

/// Entries that keep large trees from ending at 0 or U: near 1 under an AND, near 0 under an OR, and never at either.
pub fn lively_entries(random: &mut Random, experts: usize, nodes: &[Node]) -> Vec<Entry> {
    let mut under_and = vec![false; nodes.len()];
    for node in nodes {
        if let Node::And(inputs) = node {
            inputs.iter().for_each(|&input| under_and[input as usize] = true);
        }
    }
    let events = (0..nodes.len()).filter(|&node| nodes[node] == Node::Event);
    events.map(|event| lively_entry(random, experts, under_and[event])).collect()
}

fn lively_entry(random: &mut Random, experts: usize, near_one: bool) -> Entry {
    if experts > 0 && random.percent(40) {
        let terms: &[u8] = if near_one { &[5, 6, 7] } else { &[1, 2, 3] };
        return Entry::Opinions((0..experts).map(|_| *random.pick(terms)).collect());
    }
    let mut numbers = [0; 4].map(|_: u32| random.between(1, 150_000_000) as u32);
    if near_one {
        numbers = numbers.map(|number| U - number);
    }
    numbers.sort();
    Entry::Four(numbers)
}
