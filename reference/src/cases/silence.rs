//! Inputs whose sheets have many silent experts, of little weight and of much; in one of eight nobody speaks at one
//! event.

use super::case::{input_case, Case, Outcome};
use super::sheets::{any_entry, any_scores};
use super::trees::count_events;
use super::valid::{any_number, shaped_tree, Pair, SHAPES};
use crate::describe::{Entry, Node};
use crate::opinion_sheet::{entry_place, BEST_SCORE, MOST_EXPERTS};
use crate::random::Random;

/// Cases of a turn; turns and shapes are of different number, so that they meet in every combination.
const TURN: u64 = 8;

pub fn silence_case(random: &mut Random, index: u64) -> Case {
    let nodes = shaped_tree(random, index % SHAPES);
    let mut pair = quiet_pair(random, nodes);
    let n = *random.pick(&[1, 2, 3, 4, 7, 10, 16]);
    if index % TURN != TURN - 1 {
        return pair.answered(n);
    }
    let event = random.below(pair.entries.len());
    pair.entries[event] = Entry::Opinions(vec![]);
    input_case(n as u16, &pair.tree(), &pair.sheet(), Outcome::Refused(12, entry_place(event)))
}

/// At least two experts; four entries of five have few who speak.
pub fn quiet_pair(random: &mut Random, nodes: Vec<Node>) -> Pair {
    let experts = *random.pick(&[2, 3, 4, 9, MOST_EXPERTS - 1, MOST_EXPERTS]);
    let entry = |random: &mut Random| match random.percent(80) {
        true => quiet_opinions(random, experts),
        false => any_entry(random, experts),
    };
    let entries = (0..count_events(&nodes)).map(|_| entry(random)).collect();
    Pair { number: any_number(random), nodes, scores: uneven_scores(random, experts), entries }
}

/// Most often one speaks alone, else at most so many as are listed.
fn quiet_opinions(random: &mut Random, experts: usize) -> Entry {
    let speakers = if random.percent(70) { 1 } else { random.between(1, experts) };
    let mut terms = vec![0; experts];
    for _ in 0..speakers {
        terms[any_expert(random, experts)] = random.between(1, 7) as u8;
    }
    Entry::Opinions(terms)
}

/// One expert with the least or the best score among others with the same or the other, or any scores.
fn uneven_scores(random: &mut Random, experts: usize) -> Vec<u8> {
    if random.percent(40) {
        return any_scores(random, experts);
    }
    let [one, others] = [0; 2].map(|_: u8| *random.pick(&[1, BEST_SCORE]));
    let mut scores = vec![others; experts];
    scores[any_expert(random, experts)] = one;
    scores
}

/// The first and the last more often than one between.
fn any_expert(random: &mut Random, experts: usize) -> usize {
    match random.below(3) {
        0 => 0,
        1 => experts - 1,
        _ => random.below(experts),
    }
}
