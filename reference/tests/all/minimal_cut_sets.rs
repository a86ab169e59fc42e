//! The minimal cut sets of a tree: by their meaning for up to 16 events, by a top-down expansion for up to 64, each
//! listed set tried by itself where they are many, and slices of every length about the count.

use crate::cut_sets::{beneath, failing};
use crate::desk::{refusal, Desk};
use reference::calls::SET_FILL;
use reference::cases::set_trees::{and_of_ors, join, set_tree, stretched, two_levels, under_gates, GateOf};
use reference::cases::trees::{chain, comb, count_events, most_events, random_tree, Shape};
use reference::describe::{tree_bytes, Node};
use reference::random::Random;
use std::collections::BTreeSet;

/// A desk that holds the tree and no sheet.
fn holding_tree(nodes: &[Node]) -> Desk {
    let mut desk = Desk::roomy();
    assert_eq!(desk.tree(&tree_bytes(7, nodes)), Ok(()));
    desk
}

/// All listed sets, and that each is listed once.
fn listed(nodes: &[Node]) -> BTreeSet<u64> {
    let desk = holding_tree(nodes);
    let count = desk.count_sets().unwrap() as usize;
    let mut sets = vec![SET_FILL; count];
    assert_eq!(desk.list_sets(&mut sets), Ok(count as u64));
    let distinct: BTreeSet<u64> = sets.into_iter().collect();
    assert_eq!(distinct.len(), count, "a set is listed twice: {nodes:?}");
    distinct
}

fn fails(nodes: &[Node], set: u64) -> bool {
    failing(nodes, set)[nodes.len() - 1]
}

/// The sets of events at or beneath the root under which it fails, and under no set strictly inside.
fn by_meaning(nodes: &[Node]) -> BTreeSet<u64> {
    let all = beneath(nodes)[nodes.len() - 1];
    let verdicts: Vec<bool> = (0..=all).map(|set| fails(nodes, set)).collect();
    let inside_fails = |set: u64| (0..set).any(|inner| inner & !set == 0 && verdicts[inner as usize]);
    (0..=all).filter(|&set| verdicts[set as usize] && !inside_fails(set)).collect()
}

/// From the root down: a row of nodes that must all fail, and for each row and gate in it the rows that stand for it;
/// in the end the rows of events that hold no other row.
fn top_down(nodes: &[Node]) -> BTreeSet<u64> {
    let mut open: Vec<BTreeSet<usize>> = vec![BTreeSet::from([nodes.len() - 1])];
    let mut done: Vec<u64> = Vec::new();
    while let Some(mut row) = open.pop() {
        let Some(gate) = row.iter().copied().find(|&node| nodes[node] != Node::Event) else {
            done.push(row.iter().fold(0, |set, &node| set | 1 << count_events(&nodes[..node])));
            continue;
        };
        row.remove(&gate);
        let with = |inputs: &[u16]| row.iter().copied().chain(inputs.iter().map(|&input| input as usize)).collect();
        match &nodes[gate] {
            Node::And(inputs) => open.push(with(inputs)),
            gate => open.extend(gate.inputs().chunks(1).map(with)),
        }
    }
    done.iter().copied().filter(|set| !done.iter().any(|other| other != set && other & !set == 0)).collect()
}

/// Sums and products from the root down.
fn counted(nodes: &[Node], node: usize) -> u128 {
    let inputs = nodes[node].inputs().iter().map(|&input| counted(nodes, input as usize));
    match nodes[node] {
        Node::Event => 1,
        Node::And(_) => inputs.product(),
        Node::Or(_) => inputs.sum(),
    }
}

/// Every listed set fails and no longer does without any one of its events, and they are as many as counted.
fn check_each(nodes: &[Node]) {
    let sets = listed(nodes);
    assert_eq!(sets.len() as u128, counted(nodes, nodes.len() - 1));
    for &set in &sets {
        assert!(fails(nodes, set), "{set:x} is no cut set of {nodes:?}");
        let without = (0..64).map(|event| set & !(1 << event)).filter(|&inner| inner != set);
        assert!(without.into_iter().all(|inner| !fails(nodes, inner)), "{set:x} is not minimal for {nodes:?}");
    }
}

#[test]
fn by_meaning_on_random_trees() {
    let mut trees = [0; 17];
    for index in 0..1_500 {
        let random = &mut Random::for_case(51, index);
        let shape = Shape { nodes: random.between(1, 34), event_share: random.between(10, 80), widest: 6 };
        let nodes = random_tree(random, shape);
        let events = count_events(&nodes);
        // Of the largest a few will do.
        if events > 16 || (events > 11 && trees[events] >= 3) {
            continue;
        }
        trees[events] += 1;
        assert_eq!(listed(&nodes), by_meaning(&nodes), "{nodes:?}");
        assert_eq!(listed(&nodes), top_down(&nodes), "{nodes:?}");
    }
    assert!(trees[1..].iter().all(|&count| count >= 3), "{trees:?}");
}

#[test]
fn by_meaning_on_gates_of_one_input() {
    for index in 0..20 {
        let random = &mut Random::for_case(53, index);
        let length = random.between(1, 1_024);
        assert_eq!(listed(&chain(random, length)), BTreeSet::from([1]));
        let nodes = stretched(random, 300);
        if count_events(&nodes) <= 10 {
            assert_eq!(listed(&nodes), by_meaning(&nodes), "{nodes:?}");
        }
        let chained = under_gates(random, and_of_ors(&[2, 3]), 900);
        assert_eq!(listed(&chained), by_meaning(&and_of_ors(&[2, 3])));
    }
}

#[test]
fn top_down_on_larger_trees() {
    let (mut trees, mut many, mut largest) = (0, 0, 0);
    for index in 0..1_500 {
        let random = &mut Random::for_case(57, index);
        let nodes = set_tree(random);
        let events = count_events(&nodes);
        if events > 64 || counted(&nodes, nodes.len() - 1) > 1_500 {
            continue;
        }
        trees += 1;
        many += usize::from(events > 32);
        largest = largest.max(events);
        assert_eq!(listed(&nodes), top_down(&nodes), "{nodes:?}");
    }
    assert!(trees > 500 && many > 50 && largest == 64, "{trees} {many} {largest}");
}

#[test]
fn each_set_where_there_are_many() {
    check_each(&and_of_ors(&[10; 5]));
    check_each(&and_of_ors(&[16; 4]));
    check_each(&two_levels(Node::Or, Node::And, &[2; 32]));
    for index in 0..300 {
        let random = &mut Random::for_case(59, index);
        let nodes = set_tree(random);
        if count_events(&nodes) <= 64 && counted(&nodes, nodes.len() - 1) <= 20_000 {
            check_each(&nodes);
        }
    }
}

/// A gate over all events, or levels of such gates.
fn one_kind(gate: GateOf, events: usize) -> Vec<Node> {
    let mut nodes = vec![Node::Event; events];
    join(&mut nodes, gate, (0..events as u16).collect());
    nodes
}

#[test]
fn events_63_64_and_65() {
    for events in [63, 64] {
        let all = u64::MAX >> (64 - events);
        assert_eq!(listed(&one_kind(Node::And, events)), BTreeSet::from([all]));
        assert_eq!(listed(&one_kind(Node::Or, events)), (0..events).map(|event| 1 << event).collect());
    }
    for nodes in [one_kind(Node::And, 65), one_kind(Node::Or, 65), most_events(&mut Random::for_case(1, 1), 1_024)] {
        let desk = holding_tree(&nodes);
        assert_eq!(desk.count_sets(), refusal(26, 0));
        for places in [0, 1, 65, 1_024] {
            assert_eq!(desk.list_sets(&mut vec![SET_FILL; places]), refusal(26, 0));
        }
    }
}

/// Sixteen events a gate under one root: one of each four, or one of four whole gates.
#[test]
fn events_64_under_one_root() {
    assert_eq!(holding_tree(&and_of_ors(&[16; 4])).count_sets(), Ok(65_536));
    let whole = (0..4).map(|gate| 0xffff << (16 * gate)).collect();
    assert_eq!(listed(&two_levels(Node::Or, Node::And, &[16; 4])), whole);
}

/// The most sets that 64 events can have: one OR of four and twenty of three.
#[test]
fn counts_above_a_billion() {
    let most = [&[4][..], &[3; 20]].concat();
    for (nodes, count) in [(and_of_ors(&[4; 16]), 1 << 32), (and_of_ors(&most), 4 * 3u64.pow(20))] {
        let desk = holding_tree(&nodes);
        assert_eq!(desk.count_sets(), Ok(count));
        assert_eq!(desk.list_sets(&mut vec![SET_FILL; 1_000]), refusal(27, 0));
    }
}

#[test]
fn a_million_sets() {
    let nodes = and_of_ors(&[10; 6]);
    let sets = listed(&nodes);
    assert_eq!(sets.len(), 1_000_000);
    let one_of_each = |set: u64| (0..6).all(|gate| (set >> (10 * gate) & 0x3ff).is_power_of_two());
    assert!(sets.into_iter().all(|set| set < 1 << 60 && one_of_each(set)));
}

/// The desk sees that places from the count on stay, and all of them where the list is refused.
#[test]
fn slices_about_the_count() {
    for nodes in [vec![Node::Event], and_of_ors(&[2, 3]), comb(&mut Random::for_case(2, 2), 9)] {
        let desk = holding_tree(&nodes);
        let count = counted(&nodes, nodes.len() - 1) as usize;
        for places in 0..count {
            assert_eq!(desk.list_sets(&mut vec![SET_FILL; places]), refusal(27, 0));
        }
        for places in [count, count + 1, count + 70] {
            let mut sets: Vec<u64> = (0..places as u64).map(|place| SET_FILL ^ place).collect();
            assert_eq!(desk.list_sets(&mut sets), Ok(count as u64));
            assert_eq!(sets[..count].iter().copied().collect::<BTreeSet<u64>>(), by_meaning(&nodes));
        }
    }
}

/// Every fault at once, taken away one by one from the first; no sheet is ever held.
#[test]
fn order_of_a_list() {
    let mut desk = holding_tree(&one_kind(Node::Or, 65));
    let (held, tree_store) = (desk.state, desk.tree_store.clone());
    let check = |desk: &Desk, number: u32| {
        assert_eq!(desk.list_sets(&mut []), refusal(number, 0));
        assert_eq!(desk.list_sets(&mut [SET_FILL; 63]), refusal(number, 0));
        assert_eq!(desk.count_sets(), if number == 27 { Ok(64) } else { refusal(number, 0) });
    };
    desk.state.tree_length = 0;
    desk.tree_store[0] = 0;
    check(&desk, 21);
    desk.state = held;
    check(&desk, 23);
    desk.tree_store = tree_store;
    check(&desk, 26);
    desk.tree_store.truncate(held.tree_length - 1);
    check(&desk, 23);
    let desk = holding_tree(&one_kind(Node::Or, 64));
    check(&desk, 27);
    assert_eq!(desk.list_sets(&mut [SET_FILL; 64]), Ok(64));
}

#[test]
fn the_sheet_does_not_matter() {
    let mut desk = holding_tree(&and_of_ors(&[2, 3]));
    for sheet_length in [0, 1, 43, usize::MAX] {
        desk.state.sheet_length = sheet_length;
        assert_eq!((desk.count_sets(), desk.list_sets(&mut [SET_FILL; 6])), (Ok(6), Ok(6)));
    }
    for tree_length in [1, 8, 7_176, usize::MAX] {
        desk.state.tree_length = tree_length;
        assert_eq!((desk.count_sets(), desk.list_sets(&mut [SET_FILL; 6])), (refusal(23, 0), refusal(23, 0)));
    }
}
