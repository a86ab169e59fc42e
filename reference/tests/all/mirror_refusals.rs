//! The refusals of a mirror, their places and their order; the desk sees that neither buffer changes.

use crate::call_refusals::{desk, entries, nodes};
use crate::desk::{refusal, Desk, BUFFER_FILL};
use reference::describe::{same, sheet_bytes, tree_bytes};
use reference::monitor::State;
use reference::refusal::Refusal;

/// The tree has 28 bytes and the sheet 60.
const TREE: usize = 28;
const SHEET: usize = 60;

fn ask(desk: &Desk, tree: usize, sheet: usize) -> Result<(), Refusal> {
    desk.mirror(&mut vec![BUFFER_FILL; tree], &mut vec![BUFFER_FILL; sheet])
}

/// The refusal comes before 31, so with any buffers.
fn check(desk: &Desk, number: u32, place: usize) {
    for (tree, sheet) in [(TREE, SHEET), (7_175, 17_434), (TREE - 1, SHEET), (TREE, SHEET - 1), (0, 0)] {
        assert_eq!(ask(desk, tree, sheet), refusal(number, place));
    }
}

#[test]
fn r31_either_buffer_too_short() {
    let desk = desk();
    assert_eq!(desk.state, State { tree_length: TREE, sheet_length: SHEET });
    for short in [0, 1, 9, TREE - 1] {
        for sheet in [0, SHEET - 1, SHEET, 17_434] {
            assert_eq!(ask(&desk, short, sheet), refusal(31, 0));
        }
    }
    for short in [0, 1, 26, SHEET - 1] {
        for tree in [0, TREE - 1, TREE, 7_175] {
            assert_eq!(ask(&desk, tree, short), refusal(31, 0));
        }
    }
    for (tree, sheet) in [(TREE, SHEET), (TREE + 1, SHEET), (TREE, SHEET + 1), (7_175, 17_434)] {
        assert_eq!(ask(&desk, tree, sheet), Ok(()));
    }
}

#[test]
fn r21_and_22_nothing_held() {
    check(&Desk::new(0, 0), 21, 0);
    check(&Desk::roomy(), 21, 0);
    let mut desk = Desk::roomy();
    assert_eq!(desk.sheet(&sheet_bytes(7, &[], &entries())), Ok(()));
    check(&desk, 21, 0);
    desk.drop_both();
    assert_eq!(desk.tree(&tree_bytes(7, &nodes())), Ok(()));
    check(&desk, 22, 0);
}

#[test]
fn r23_changed_bytes() {
    for place in 0..3 {
        let mut desk = desk();
        desk.sheet_store[place] ^= 1;
        check(&desk, 23, 1);
        desk.tree_store[place] ^= 1;
        check(&desk, 23, 0);
    }
}

#[test]
fn r23_held_lengths() {
    for length in [1, 8, TREE - 1, TREE + 1, 7_176, usize::MAX] {
        let mut desk = desk();
        desk.state.tree_length = length;
        check(&desk, 23, 0);
    }
    for length in [1, 25, SHEET - 1, SHEET + 1, 17_435, usize::MAX] {
        let mut desk = desk();
        desk.state.sheet_length = length;
        check(&desk, 23, 1);
    }
    let mut short = desk();
    short.sheet_store.truncate(SHEET - 1);
    check(&short, 23, 1);
    short.tree_store.truncate(TREE - 1);
    check(&short, 23, 0);
}

#[test]
fn r24_pair_does_not_match() {
    for number in [6, 8, 263] {
        let mut other = desk();
        assert_eq!(other.sheet(&sheet_bytes(number, &[], &entries())), Ok(()));
        check(&other, 24, 0);
    }
    for events in [1, 3] {
        let mut other = desk();
        assert_eq!(other.sheet(&sheet_bytes(7, &[], &vec![same(3); events])), Ok(()));
        check(&other, 24, 0);
    }
}

/// Every fault at once, taken away one by one from the first.
#[test]
fn order_of_a_mirror() {
    let mut desk = desk();
    let held = desk.state;
    let (good_tree, good_sheet) = (desk.tree_store.clone(), desk.sheet_store.clone());
    desk.state = State::default();
    desk.tree_store[5] = 9;
    desk.tree_store[0] = 0;
    desk.sheet_store[0] = 0;
    check(&desk, 21, 0);
    desk.state.tree_length = held.tree_length;
    check(&desk, 22, 0);
    desk.state.sheet_length = held.sheet_length;
    check(&desk, 23, 0);
    desk.tree_store[0] = b'F';
    check(&desk, 23, 1);
    desk.sheet_store = good_sheet;
    check(&desk, 24, 0);
    desk.tree_store = good_tree;
    assert_eq!(ask(&desk, TREE - 1, SHEET - 1), refusal(31, 0));
    assert_eq!(ask(&desk, TREE, SHEET), Ok(()));
}
