//! What a call that is not refused changes, and what it does not.

use crate::desk::{exact, fresh_work, holding, refusal, Desk, Work};
use reference::describe::{same, sheet_bytes, tree_bytes, Entry, Node};
use reference::monitor::{Counts, State};

fn road_trip() -> Desk {
    let nodes = [Node::Event, Node::Event, Node::Event, Node::Or(vec![1, 2]), Node::And(vec![0, 3])];
    holding(&nodes, &[], &[same(800_000_000), same(100_000_000), same(400_000_000)])
}

#[test]
fn every_node_and_the_places_behind() {
    let mut work = fresh_work(5, 6, 9);
    let answer = road_trip().question(1, 2, &mut work).unwrap();
    let ends = vec![800_000_000, 100_000_000, 400_000_000, 460_000_000, 368_000_000];
    let fresh = fresh_work(5, 6, 9);
    assert_eq!(work.lower, ends);
    assert_eq!(work.upper[..5], ends);
    assert_eq!(work.upper[5..], fresh.upper[5..]);
    assert_eq!(work.marks[..5], [3; 5]);
    assert_eq!(work.marks[5..], fresh.marks[5..]);
    assert_eq!((answer.lower, answer.upper, answer.events), (exact(368_000_000), exact(368_000_000), 3));
}

#[test]
fn mark_byte_of_each_case() {
    let entries = [Entry::Four([0, 1, 2, 4]), Entry::Four([0, 2, 2, 3]), Entry::Four([0, 1, 2, 3]), same(1)];
    let nodes = [Node::Event, Node::Event, Node::Event, Node::Event, Node::Or(vec![0, 1, 2, 3])];
    let mut work = fresh_work(5, 5, 5);
    holding(&nodes, &[], &entries).question(1, 2, &mut work).unwrap();
    assert_eq!(work.marks[..4], [2, 1, 0, 3]);
}

#[test]
fn answers_do_not_depend_on_earlier_questions() {
    let nodes = [Node::Event, Node::Event, Node::Or(vec![0, 1])];
    let desk = holding(&nodes, &[2, 1], &[Entry::Opinions(vec![2, 3]), Entry::Four([0, 1, 1, 2])]);
    let fresh: Vec<(Work, _)> = (0..=10)
        .map(|k| {
            let mut work = fresh_work(3, 3, 3);
            let answer = desk.question(k, 10, &mut work);
            (work, answer)
        })
        .collect();
    let mut work = fresh_work(3, 3, 3);
    for k in [3, 3, 10, 0, 7, 0, 3] {
        let answer = desk.question(k, 10, &mut work);
        assert_eq!((work.clone(), answer), fresh[k as usize]);
    }
}

#[test]
fn drop_keeps_the_bytes() {
    let mut desk = road_trip();
    let before = desk.clone();
    desk.drop_both();
    assert_eq!(desk.state, State::default());
    assert_eq!((&desk.tree_store, &desk.sheet_store), (&before.tree_store, &before.sheet_store));
    assert_eq!(desk.answer(1, 2), refusal(21, 0));
    desk.state = before.state;
    assert_eq!(desk.answer(1, 2), before.answer(1, 2));
    let mut empty = Desk::new(0, 0);
    empty.drop_both();
    assert_eq!(empty.state, State::default());
}

#[test]
fn a_new_file_replaces_the_held_one() {
    let mut desk = road_trip();
    assert_eq!(desk.tree(&tree_bytes(7, &[Node::Event])), Ok(()));
    assert_eq!(desk.answer(1, 2), refusal(24, 0));
    assert_eq!(desk.sheet(&sheet_bytes(7, &[], &[same(5)])), Ok(()));
    assert_eq!(desk.judge(1, 2), Ok(Counts { nodes: 1, events: 1 }));
    assert_eq!(desk.answer(1, 2).unwrap().lower, exact(5));
}

/// Bytes that became another acceptable file are answered as they stand.
#[test]
fn held_bytes_are_read_afresh() {
    let mut desk = road_trip();
    desk.tree_store[9 + 5 * 4] = 2;
    assert_eq!(desk.answer(1, 2).unwrap().lower, exact(892_000_000));
    desk.sheet_store[26 + 1..26 + 17].fill(0);
    assert_eq!(desk.answer(1, 2).unwrap().lower, exact(460_000_000));
}
