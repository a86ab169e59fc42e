//! Document 01's limits for the tests.

use crate::desk::{fresh_work, holding, refusal, Desk};
use reference::bytes::write_16;
use reference::cases::trees::{chain, count_events, most_events, one_gate};
use reference::describe::{same, sheet_bytes, tree_bytes, Node};
use reference::random::Random;

fn random() -> Random {
    Random::for_case(1, 1)
}

#[test]
fn nodes_1024_and_1025() {
    let most = chain(&mut random(), 1_024);
    assert_eq!(Desk::roomy().tree(&tree_bytes(1, &most)), Ok(()));
    let past = chain(&mut random(), 1_025);
    assert_eq!(Desk::new(8_000, 0).tree(&tree_bytes(1, &past)), refusal(4, 7));
}

#[test]
fn inputs_16_and_17() {
    let sixteen = one_gate(&mut random(), 16);
    assert_eq!(Desk::roomy().tree(&tree_bytes(1, &sixteen)), Ok(()));
    let seventeen = one_gate(&mut random(), 17);
    assert_eq!(Desk::roomy().tree(&tree_bytes(1, &seventeen)), refusal(7, 9 + 5 * 17));
}

#[test]
fn levels_1000_and_1001() {
    let desk = holding(&[Node::Event], &[], &[same(5)]);
    for k in [0, 1, 999, 1_000] {
        assert!(desk.answer(k, 1_000).is_ok());
    }
    assert_eq!(desk.answer(1_001, 1_000), refusal(13, 0));
    assert_eq!(desk.answer(0, 1_001), refusal(13, 0));
}

#[test]
fn link_equal_to_its_gate_and_one_below() {
    let nodes = [Node::Event, Node::And(vec![0]), Node::Or(vec![1])];
    assert_eq!(Desk::roomy().tree(&tree_bytes(1, &nodes)), Ok(()));
    let nodes = [Node::Event, Node::And(vec![0]), Node::Or(vec![2])];
    assert_eq!(Desk::roomy().tree(&tree_bytes(1, &nodes)), refusal(8, 26));
}

#[test]
fn bytes_9_and_8() {
    let file = tree_bytes(1, &[Node::Event]);
    assert_eq!(Desk::roomy().tree(&file[..8]), refusal(1, 8));
    assert_eq!(Desk::roomy().tree(&file[..9]), refusal(5, 9));
    let mut no_nodes = file[..9].to_vec();
    write_16(&mut no_nodes, 7, 0);
    assert_eq!(Desk::roomy().tree(&no_nodes), refusal(4, 7));
}

#[test]
fn events_960_at_most() {
    let nodes = most_events(&mut random(), 1_024);
    assert_eq!(count_events(&nodes), 960);
    let desk = holding(&nodes, &[], &vec![same(1_000); 960]);
    let mut work = fresh_work(1_024, 1_024, 1_024);
    assert_eq!(desk.question(1, 2, &mut work).unwrap().events, 960);
    assert_eq!(desk.question(1, 2, &mut fresh_work(1_024, 1_023, 1_024)), refusal(25, 0));
}

#[test]
fn sheet_of_1024_and_1025() {
    assert_eq!(Desk::roomy().sheet(&sheet_bytes(1, &[], &vec![same(9); 1_024])), Ok(()));
    assert_eq!(Desk::new(0, 20_000).sheet(&sheet_bytes(1, &[], &vec![same(9); 1_025])), refusal(4, 7));
}

#[test]
fn experts_16_with_best_score() {
    let opinions = reference::describe::Entry::Opinions(vec![7; 16]);
    let desk = holding(&[Node::Event], &[100; 16], &[opinions]);
    assert_eq!(desk.answer(0, 1_000).unwrap().upper.units, 1_000_000_000);
}
