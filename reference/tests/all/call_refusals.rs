//! Refusals 13 and 20 to 25, their places and their order; the desk sees that nothing changes.

use crate::desk::{fresh_work, holding, refusal, Desk, FILL};
use reference::describe::{same, sheet_bytes, tree_bytes, Entry, Node};
use reference::monitor::State;

pub fn nodes() -> Vec<Node> {
    vec![Node::Event, Node::Event, Node::And(vec![1, 0])]
}

pub fn entries() -> Vec<Entry> {
    vec![same(3), Entry::Four([1, 2, 3, 4])]
}

/// Two events; the sheet has 60 bytes and the tree three nodes.
pub fn desk() -> Desk {
    holding(&nodes(), &[], &entries())
}

/// Both calls that judge give the refusal.
fn check(desk: &Desk, k: u32, n: u32, number: u32, place: usize) {
    assert_eq!(desk.judge(k, n), refusal(number, place));
    assert_eq!(desk.answer(k, n), refusal(number, place));
}

#[test]
fn r13_level_out_of_range() {
    let out_of_range =
        [(0, 0), (1, 0), (2, 1), (0, 1_001), (1_001, 1_001), (1_001, 1_000), (0, u32::MAX), (u32::MAX, 1)];
    for (k, n) in out_of_range {
        check(&desk(), k, n, 13, 0);
        check(&Desk::new(0, 0), k, n, 13, 0);
    }
}

#[test]
fn r20_store_too_short() {
    let (tree, sheet) = (tree_bytes(7, &nodes()), sheet_bytes(7, &[], &entries()));
    for short in [1, 2, tree.len()] {
        assert_eq!(Desk::new(tree.len() - short, 0).tree(&tree), refusal(20, 0));
    }
    for short in [1, 2, sheet.len()] {
        assert_eq!(Desk::new(0, sheet.len() - short).sheet(&sheet), refusal(20, 0));
    }
    let mut fitting = Desk::new(tree.len(), sheet.len());
    assert_eq!((fitting.tree(&tree), fitting.sheet(&sheet)), (Ok(()), Ok(())));
}

#[test]
fn r20_after_every_judgement() {
    let mut tree = tree_bytes(7, &nodes());
    *tree.last_mut().unwrap() = 1;
    assert_eq!(Desk::new(0, 0).tree(&tree), refusal(8, tree.len() - 2));
    let sheet = sheet_bytes(7, &[], &[same(3), Entry::Opinions(vec![])]);
    assert_eq!(Desk::new(0, 0).sheet(&sheet), refusal(12, 43));
}

#[test]
fn r20_keeps_the_held_file() {
    let mut desk = desk();
    desk.tree_store.truncate(28);
    let larger = tree_bytes(7, &[Node::Event, Node::And(vec![0]), Node::And(vec![1]), Node::And(vec![2])]);
    assert_eq!(desk.tree(&larger), refusal(20, 0));
    assert!(desk.answer(1, 2).is_ok());
}

#[test]
fn r21_no_tree() {
    check(&Desk::new(0, 0), 1, 2, 21, 0);
    let mut desk = Desk::roomy();
    assert_eq!(desk.sheet(&sheet_bytes(7, &[], &entries())), Ok(()));
    check(&desk, 1, 2, 21, 0);
}

#[test]
fn r22_no_sheet() {
    let mut desk = Desk::roomy();
    assert_eq!(desk.tree(&tree_bytes(7, &nodes())), Ok(()));
    check(&desk, 1, 2, 22, 0);
    desk.tree_store[0] = FILL;
    check(&desk, 1, 2, 22, 0);
}

#[test]
fn r23_changed_bytes() {
    for place in 0..3 {
        let mut desk = desk();
        desk.sheet_store[place] ^= 1;
        check(&desk, 1, 2, 23, 1);
        desk.tree_store[place] ^= 1;
        check(&desk, 1, 2, 23, 0);
    }
}

#[test]
fn r23_length_beyond_the_store() {
    let mut desk = desk();
    let sheet_length = desk.state.sheet_length;
    let tree_length = desk.state.tree_length;
    let cut_off = desk.sheet_store.split_off(sheet_length - 1);
    check(&desk, 1, 2, 23, 1);
    desk.sheet_store.extend(cut_off);
    assert!(desk.answer(1, 2).is_ok());
    let cut_off = desk.tree_store.split_off(tree_length - 1);
    check(&desk, 1, 2, 23, 0);
    desk.tree_store.extend(cut_off);
    assert!(desk.answer(1, 2).is_ok());
}

#[test]
fn r23_held_length_of_no_file() {
    for length in [1, 8, 27, 29, 7_176, usize::MAX] {
        let mut desk = desk();
        desk.state.tree_length = length;
        check(&desk, 1, 2, 23, 0);
    }
    for length in [1, 25, 59, 61, 17_435, usize::MAX] {
        let mut desk = desk();
        desk.state.sheet_length = length;
        check(&desk, 1, 2, 23, 1);
    }
}

#[test]
fn r24_pair_does_not_match() {
    let mut other_number = desk();
    assert_eq!(other_number.sheet(&sheet_bytes(8, &[], &entries())), Ok(()));
    check(&other_number, 1, 2, 24, 0);
    for events in [1, 3] {
        let mut other_count = desk();
        assert_eq!(other_count.sheet(&sheet_bytes(7, &[], &vec![same(3); events])), Ok(()));
        check(&other_count, 1, 2, 24, 0);
    }
}

#[test]
fn r25_slice_too_short() {
    let desk = desk();
    for (lower, upper, marks) in [(2, 3, 3), (3, 2, 3), (3, 3, 2), (0, 0, 0), (2, 1_024, 1_024)] {
        assert_eq!(desk.question(1, 2, &mut fresh_work(lower, upper, marks)), refusal(25, 0));
        assert!(desk.judge(1, 2).is_ok());
    }
    assert!(desk.question(1, 2, &mut fresh_work(3, 3, 3)).is_ok());
}

/// Every fault of the state at once, taken away one by one from the first.
#[test]
fn order_of_a_question() {
    let no_work = || fresh_work(0, 0, 0);
    let mut desk = desk();
    let held = desk.state;
    let (good_tree, good_sheet) = (desk.tree_store.clone(), desk.sheet_store.clone());
    desk.state = State::default();
    desk.tree_store[5] = 9;
    desk.tree_store[0] = 0;
    desk.sheet_store[0] = 0;
    assert_eq!(desk.question(3, 2, &mut no_work()), refusal(13, 0));
    assert_eq!(desk.question(1, 2, &mut no_work()), refusal(21, 0));
    desk.state.tree_length = held.tree_length;
    assert_eq!(desk.question(1, 2, &mut no_work()), refusal(22, 0));
    desk.state.sheet_length = held.sheet_length;
    assert_eq!(desk.question(1, 2, &mut no_work()), refusal(23, 0));
    desk.tree_store[0] = b'F';
    assert_eq!(desk.question(1, 2, &mut no_work()), refusal(23, 1));
    desk.sheet_store = good_sheet;
    assert_eq!(desk.question(1, 2, &mut no_work()), refusal(24, 0));
    desk.tree_store = good_tree;
    assert_eq!(desk.question(1, 2, &mut no_work()), refusal(25, 0));
    assert!(desk.answer(1, 2).is_ok());
}
