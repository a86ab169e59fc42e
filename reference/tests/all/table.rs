//! P1 to P12 of document 01, and the order and the roundings of a gate's steps.

use crate::desk::{exact, holding, unmarked};
use reference::describe::{same, Entry, Node};
use reference::end::{End, U};

/// The answer to level k of 2.
fn check(nodes: &[Node], scores: &[u8], entries: &[Entry], k: u32, lower: End, upper: End) {
    let answer = holding(nodes, scores, entries).answer(k, 2).unwrap();
    assert_eq!((answer.lower, answer.upper, answer.events), (lower, upper, entries.len()));
}

fn two(gate: fn(Vec<u16>) -> Node) -> Vec<Node> {
    vec![Node::Event, Node::Event, gate(vec![0, 1])]
}

const P5: Entry = Entry::Four([0, 1, 1, 2]);

#[test]
fn p1_and_of_1_and_1() {
    check(&two(Node::And), &[], &[same(1), same(1)], 1, unmarked(0), unmarked(1));
}

#[test]
fn p2_and_of_unit_and_7() {
    check(&two(Node::And), &[], &[same(U), same(7)], 1, exact(7), exact(7));
}

#[test]
fn p3_and_of_half_and_3() {
    check(&two(Node::And), &[], &[same(500_000_000), same(3)], 1, unmarked(1), unmarked(2));
}

#[test]
fn p4_or_of_1_and_1() {
    check(&two(Node::Or), &[], &[same(1), same(1)], 1, unmarked(1), unmarked(2));
}

#[test]
fn p5_entry_alone() {
    check(&[Node::Event], &[], &[P5], 1, unmarked(0), unmarked(2));
}

#[test]
fn p6_true_zero() {
    check(&two(Node::And), &[], &[P5, same(0)], 1, exact(0), exact(0));
}

#[test]
fn p7_no_true_zero() {
    check(&two(Node::And), &[], &[P5, same(1)], 1, unmarked(0), unmarked(1));
}

#[test]
fn p8_road_trip() {
    let nodes = [Node::Event, Node::Event, Node::Event, Node::Or(vec![1, 2]), Node::And(vec![0, 3])];
    let entries = [same(800_000_000), same(100_000_000), same(400_000_000)];
    check(&nodes, &[], &entries, 1, exact(368_000_000), exact(368_000_000));
}

#[test]
fn p9_two_experts_at_the_top() {
    let entries = [Entry::Opinions(vec![2, 3])];
    check(&[Node::Event], &[2, 1], &entries, 2, unmarked(176_666_666), unmarked(176_666_667));
}

#[test]
fn p10_two_experts_at_the_bottom() {
    let entries = [Entry::Opinions(vec![2, 3])];
    check(&[Node::Event], &[2, 1], &entries, 0, unmarked(103_333_333), exact(250_000_000));
}

const SIX_SCORES: [u8; 6] = [15, 12, 10, 12, 5, 8];

#[test]
fn p11_six_experts_at_the_bottom() {
    let entries = [Entry::Opinions(vec![6, 5, 6, 4, 6, 4])];
    check(&[Node::Event], &SIX_SCORES, &entries, 0, unmarked(624_838_709), unmarked(818_387_097));
}

#[test]
fn p12_six_experts_at_the_top() {
    let entries = [Entry::Opinions(vec![6, 5, 6, 4, 6, 4])];
    check(&[Node::Event], &SIX_SCORES, &entries, 2, unmarked(723_548_387), unmarked(723_548_388));
}

/// The events 5, 300000000 and 900000000 under one gate, in this order of its links.
fn check_in_order(gate: fn(Vec<u16>) -> Node, links: [u16; 3], units: [u32; 3], lower: u32, upper: u32) {
    let nodes = [Node::Event, Node::Event, Node::Event, gate(links.to_vec())];
    check(&nodes, &[], &units.map(same), 1, unmarked(lower), unmarked(upper));
}

const THREE: [u32; 3] = [5, 300_000_000, 900_000_000];

/// By hand, in units: 5 × 0.3 = 1.5, so 1 below and 2 above; then 1 × 0.9 = 0.9, so 0 below, and 2 × 0.9 = 1.8, so 2
/// above. Exactly it is 5 × 0.3 × 0.9 = 1.35: one rounding at the end would give 1 below.
#[test]
fn each_step_of_an_and_is_rounded() {
    check_in_order(Node::And, [0, 1, 2], THREE, 0, 2);
}

/// By hand: 300000000 × 0.9 = 270000000 exactly; then 5 × 0.27 = 1.35, so 1 below and 2 above. The events are the same,
/// the links alone are in another order.
#[test]
fn an_and_goes_by_its_links() {
    check_in_order(Node::And, [1, 2, 0], THREE, 1, 2);
}

/// An OR is the complement of the AND of the complements, which are the three above: 0 and 2 below 1, so the upper end
/// is 1 and the lower end 1 less 2 units; in the other order 1 less 1 unit and 1 less 2.
#[test]
fn an_or_goes_by_its_links_and_rounds_each_step() {
    let complements = THREE.map(|units| U - units);
    check_in_order(Node::Or, [0, 1, 2], complements, U - 2, U);
    check_in_order(Node::Or, [1, 2, 0], complements, U - 2, U - 1);
}
