//! Demand 3 on every node of a tree: order, marks exactly where equal, distance, and containment.

use crate::desk::{fresh_work, holding, Work};
use crate::exact::{bottom_up, cut, events_beneath, fraction, Cut, Fraction};
use crate::whole::Whole;
use reference::cases::fraction_entries::{fractions_alone, fractions_beside, lively_fractions};
use reference::cases::sheets::{any_entries, any_scores, lively_entries};
use reference::cases::silence::quiet_pair;
use reference::cases::trees::{chain, comb, count_events, most_events, random_tree, Shape};
use reference::cases::valid::Pair;
use reference::describe::{same, Entry, Node};
use reference::random::Random;
use std::cmp::Ordering;

/// The reported units and the exact end, both times the denominator.
fn crosswise(units: u32, exact: &Fraction) -> (Whole, Whole) {
    (Whole::new(units as u128).times(&exact.denominator), Whole::new(1_000_000_000).times(&exact.numerator))
}

/// The side on which an unmarked end lies, and its distance of less than 2 × E - 1 units.
fn check_end(units: u32, marked: bool, exact: &Fraction, unmarked_side: Ordering, events: usize) {
    let (reported, true_end) = crosswise(units, exact);
    let side = reported.compare(&true_end);
    assert_eq!(marked, side == Ordering::Equal, "mark of {units}");
    assert!(marked || side == unmarked_side, "side of {units}");
    let distance = if side == Ordering::Less { true_end.minus(&reported) } else { reported.minus(&true_end) };
    let allowance = Whole::new(2 * events as u128 - 1).times(&exact.denominator);
    assert_eq!(distance.compare(&allowance), Ordering::Less, "distance of {units}");
}

fn ends(cuts: &[Cut], end: fn(&Cut) -> u128) -> Vec<Fraction> {
    cuts.iter().map(|cut| fraction(end(cut), cut.denominator)).collect()
}

/// The bound is checked with the events at or beneath the node, which is no more than E of the tree.
fn check_level(nodes: &[Node], scores: &[u8], entries: &[Entry], k: u32, n: u32, random: &mut Random) {
    let mut work = fresh_work(nodes.len(), nodes.len(), nodes.len());
    holding(nodes, scores, entries).question(k, n, &mut work).unwrap();
    let cuts: Vec<Cut> = entries.iter().map(|entry| cut(scores, entry, k, n)).collect();
    let lowers = bottom_up(nodes, &ends(&cuts, |cut| cut.lower));
    let uppers = bottom_up(nodes, &ends(&cuts, |cut| cut.upper));
    let beneath = events_beneath(nodes);
    for node in 0..nodes.len() {
        let marks = work.marks[node];
        check_end(work.lower[node], marks & 1 != 0, &lowers[node], Ordering::Less, beneath[node]);
        check_end(work.upper[node], marks & 2 != 0, &uppers[node], Ordering::Greater, beneath[node]);
    }
    assert_eq!(*beneath.last().unwrap(), entries.len());
    check_containment(nodes, &cuts, &work, random);
}

/// Any fraction inside each cut, ends included.
fn check_containment(nodes: &[Node], cuts: &[Cut], work: &Work, random: &mut Random) {
    let inside: Vec<Fraction> = cuts
        .iter()
        .map(|cut| {
            let parts = random.between(1, 9) as u128;
            let along = random.between(0, parts as usize) as u128;
            fraction(cut.lower * (parts - along) + cut.upper * along, cut.denominator * parts)
        })
        .collect();
    let root = nodes.len() - 1;
    let top = &bottom_up(nodes, &inside)[root];
    let (lower, probability) = crosswise(work.lower[root], top);
    let (upper, _) = crosswise(work.upper[root], top);
    assert!(lower.compare(&probability) != Ordering::Greater);
    assert!(probability.compare(&upper) != Ordering::Greater);
}

/// Three levels of one n.
fn check_levels(nodes: &[Node], scores: &[u8], entries: &[Entry], random: &mut Random) {
    let n = *random.pick(&[1, 2, 3, 7, 10, 1_000]);
    for _ in 0..3 {
        let k = random.between(0, n) as u32;
        check_level(nodes, scores, entries, k, n as u32, random);
    }
}

fn check_tree(nodes: &[Node], random: &mut Random) {
    let experts = random.below(17);
    let scores = any_scores(random, experts);
    let entries = any_entries(random, experts, count_events(nodes));
    check_levels(nodes, &scores, &entries, random);
}

fn check_pair(pair: &Pair, random: &mut Random) {
    check_levels(&pair.nodes, &pair.scores, &pair.entries, random);
}

#[test]
fn small_random_trees() {
    for index in 0..1_500 {
        let random = &mut Random::for_case(43, index);
        let shape = Shape { nodes: random.between(1, 14), event_share: random.between(30, 90), widest: 16 };
        let nodes = random_tree(random, shape);
        check_tree(&nodes, random);
    }
}

/// Opinions and round numbers only: many ends are exact, and zeros and units are frequent.
#[test]
fn round_numbers() {
    for index in 0..1_000 {
        let random = &mut Random::for_case(47, index);
        let shape = Shape { nodes: random.between(2, 12), event_share: 60, widest: 4 };
        let nodes = random_tree(random, shape);
        let entries: Vec<Entry> = (0..count_events(&nodes))
            .map(|_| same(*random.pick(&[0, 1, 100_000_000, 500_000_000, 900_000_000, 999_999_999, 1_000_000_000])))
            .collect();
        check_level(&nodes, &[], &entries, 0, 1, random);
    }
}

#[test]
fn large_random_trees() {
    for index in 0..12 {
        let random = &mut Random::for_case(53, index);
        let shape = Shape { nodes: random.between(100, 300), event_share: 70, widest: 16 };
        let nodes = random_tree(random, shape);
        check_tree(&nodes, random);
    }
}

#[test]
fn largest_trees() {
    let random = &mut Random::for_case(59, 0);
    for nodes in [most_events(random, 1_024), comb(random, 512), chain(random, 1_024)] {
        let scores = any_scores(random, 3);
        let lively = lively_entries(random, 3, &nodes);
        check_level(&nodes, &scores, &lively, 2, 3, random);
        let any = any_entries(random, 3, count_events(&nodes));
        check_level(&nodes, &scores, &any, 1, 3, random);
    }
}

/// Fractions alone and beside the other kinds, under gates and as the only node.
#[test]
fn small_trees_of_fractions() {
    for index in 0..1_000 {
        let random = &mut Random::for_case(67, index);
        let shape = Shape { nodes: random.between(1, 14), event_share: random.between(30, 90), widest: 16 };
        let nodes = random_tree(random, shape);
        let alone = fractions_alone(random, nodes.clone());
        check_pair(&alone, random);
        let beside = fractions_beside(random, nodes);
        check_pair(&beside, random);
    }
}

#[test]
fn large_trees_of_fractions() {
    let random = &mut Random::for_case(71, 0);
    for nodes in [most_events(random, 1_024), comb(random, 512), chain(random, 1_024)] {
        let lively = lively_fractions(random, nodes.clone(), 0);
        check_level(&nodes, &lively.scores, &lively.entries, 1, 3, random);
        let beside = fractions_beside(random, nodes);
        check_level(&beside.nodes, &beside.scores, &beside.entries, 2, 3, random);
    }
}

/// One expert of several speaks in most entries.
#[test]
fn small_trees_of_silence() {
    for index in 0..600 {
        let random = &mut Random::for_case(73, index);
        let shape = Shape { nodes: random.between(1, 14), event_share: random.between(30, 90), widest: 16 };
        let nodes = random_tree(random, shape);
        let pair = quiet_pair(random, nodes);
        check_pair(&pair, random);
    }
}

/// A gate of sixteen rounds fifteen times: one unit per gate would not do.
#[test]
fn gate_of_sixteen_is_off_by_more_than_one_unit() {
    let mut nodes = vec![Node::Event; 16];
    nodes.push(Node::And((0..16).collect()));
    let entries = vec![same(999_999_999); 16];
    let random = &mut Random::for_case(61, 0);
    check_level(&nodes, &[], &entries, 0, 1, random);
    let answer = holding(&nodes, &[], &entries).answer(0, 1).unwrap();
    assert!(answer.upper.units - answer.lower.units > 2);
}
