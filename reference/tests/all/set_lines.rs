//! The text for the minimal cut sets of a tree file.

use reference::cases::set_trees::{and_of_ors, two_levels, under_gates};
use reference::describe::{tree_bytes, Node};
use reference::examples::{container_seal::container_seal, cooling_pumps::cooling_pumps, fuel_supply::fuel_supply};
use reference::random::Random;
use reference::set_lines::print_sets;

/// The lines in the order of text.
fn sorted(text: &str) -> Vec<&str> {
    let mut lines: Vec<&str> = text.strip_suffix('\n').unwrap().split('\n').collect();
    lines[1..].sort();
    lines
}

fn check(nodes: &[Node], lines: &[&str]) {
    let text = print_sets(&tree_bytes(7, nodes));
    assert_eq!(sorted(&text), lines);
}

#[test]
fn by_hand() {
    check(&[Node::Event], &["tree 7 events 1 cut sets 1", "0"]);
    check(&and_of_ors(&[2, 1]), &["tree 7 events 3 cut sets 2", "0 2", "1 2"]);
    let fuel = print_sets(&fuel_supply().tree());
    assert_eq!(sorted(&fuel), ["tree 3 events 7 cut sets 6", "0 1", "0 2", "0 3", "0 4", "0 5", "0 6"]);
    assert!(print_sets(&container_seal().tree()).contains(" cut sets 5\n"));
    let cooling = print_sets(&cooling_pumps().tree());
    assert_eq!(sorted(&cooling), ["tree 4 events 6 cut sets 4", "0 1", "0 2 3", "4", "5"]);
}

#[test]
fn event_63() {
    let text = print_sets(&tree_bytes(65_535, &two_levels(Node::And, Node::And, &[32, 32])));
    let events = (0..64).map(|event: u32| event.to_string()).collect::<Vec<_>>().join(" ");
    assert_eq!(text, format!("tree 65535 events 64 cut sets 1\n{events}\n"));
}

#[test]
fn a_hundred_thousand_and_more() {
    let most = print_sets(&tree_bytes(7, &and_of_ors(&[10; 5])));
    assert_eq!(most.lines().count(), 100_001);
    let mut nodes = and_of_ors(&[10; 5]);
    let below = nodes.len() as u16 - 1;
    nodes.extend([Node::Event, Node::Or(vec![below, below + 1])]);
    check(&nodes, &["tree 7 events 51 cut sets 100001"]);
    check(&and_of_ors(&[4; 16]), &["tree 7 events 64 cut sets 4294967296"]);
}

#[test]
fn refused() {
    let tree = tree_bytes(7, &[Node::Event, Node::And(vec![0])]);
    for (file, line) in [
        (&tree[..0], "refused 1 at 0"),
        (&tree[..20], "refused 5 at 20"),
        (&[&tree[..], &[0]].concat()[..], "refused 5 at 22"),
        (&vec![b'F'; 8_000][..], "refused 2 at 0"),
    ] {
        assert_eq!(print_sets(file), format!("{line}\n"));
    }
    check(&[Node::Event, Node::And(vec![1])], &["refused 8 at 19"]);
    let many = under_gates(&mut Random::for_case(1, 1), two_levels(Node::Or, Node::Or, &[65]), 3);
    check(&many, &["refused 26 at 0"]);
}
