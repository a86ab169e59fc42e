//! The text of the node printer, byte for byte, and its root's line held to the level printer's.

use reference::bytes::read_16;
use reference::cases::{write_case, Kind};
use reference::describe::{same, sheet_bytes, tree_bytes, Entry, Node};
use reference::levels::{print_levels, printer_input};
use reference::node_lines::{node_input, print_nodes};

fn tree() -> Vec<u8> {
    tree_bytes(7, &[Node::Event, Node::Event, Node::Or(vec![0, 1])])
}

fn sheet() -> Vec<u8> {
    sheet_bytes(7, &[], &[Entry::Four([0, 1, 1, 2]), same(500_000_000)])
}

/// 1 minus (U − 1) / U times a half is a half and half a billionth, which is not whole.
#[test]
fn each_node_has_a_line() {
    let text = "tree 7 events 2 nodes 3 level 2 of 2\n0 1 = 1 =\n1 500000000 = 500000000 =\n\
                2 500000000 ~ 500000001 ~\n";
    assert_eq!(print_nodes(&node_input(2, 2, &tree(), &sheet())), text);
    let text = "tree 7 events 2 nodes 3 level 1 of 2\n0 0 ~ 2 ~\n1 500000000 = 500000000 =\n\
                2 500000000 ~ 500000001 ~\n";
    assert_eq!(print_nodes(&node_input(1, 2, &tree(), &sheet())), text);
}

#[test]
fn input_line() {
    let whole = node_input(1, 2, &tree(), &sheet());
    for length in 0..whole.len() {
        assert_eq!(print_nodes(&whole[..length]), "input\n");
    }
    assert_eq!(print_nodes(&[&whole[..], &[0]].concat()), "input\n");
    for place in [4, 6] {
        let mut wrong = whole.clone();
        wrong[place] += 1;
        assert_eq!(print_nodes(&wrong), "input\n");
    }
    assert_eq!(print_nodes(&printer_input(2, &tree(), &sheet())), "input\n");
    assert_eq!(print_nodes(&[0; 8]), "refused 1 at 0\n");
}

/// Of the tree, of the sheet, and then of the question.
#[test]
fn first_refusal_alone() {
    let bad_tree = tree_bytes(7, &[Node::Event, Node::And(vec![0]), Node::And(vec![1]), Node::And(vec![3])]);
    let bad_sheet = sheet_bytes(7, &[], &[Entry::Four([2, 1, 1, 1]), same(1)]);
    let other_sheet = sheet_bytes(8, &[], &[same(1), same(1)]);
    let text = |k, n, tree: &[u8], sheet: &[u8]| print_nodes(&node_input(k, n, tree, sheet));
    assert_eq!(text(3, 2, &bad_tree, &bad_sheet), "refused 8 at 33\n");
    assert_eq!(text(3, 2, &tree(), &bad_sheet), "refused 10 at 26\n");
    assert_eq!(text(3, 2, &tree(), &other_sheet), "refused 13 at 0\n");
    assert_eq!(text(0, 0, &tree(), &sheet()), "refused 13 at 0\n");
    assert_eq!(text(0, 1_001, &tree(), &sheet()), "refused 13 at 0\n");
    assert_eq!(text(2, 2, &tree(), &other_sheet), "refused 24 at 0\n");
}

/// The last node is the root: its ends are those of the level printer, and a refusal of the files is the same.
#[test]
fn the_root_as_the_level_printer_has_it() {
    let (mut answered, mut refused, mut input) = (0, 0, 0);
    for index in 0..600 {
        let case = write_case(Kind::Nodes, 107, index);
        let text = print_nodes(&case);
        if text == "input\n" {
            input += 1;
            continue;
        }
        let (k, levels) = (read_16(&case, 0), print_levels(&case[2..]));
        if text.starts_with("refused") {
            refused += 1;
            assert!(text == levels || text == "refused 13 at 0\n", "case {index}");
            continue;
        }
        answered += 1;
        let level = levels.lines().find_map(|line| line.strip_prefix(&format!("{k} "))).unwrap();
        let (_, root) = text.lines().last().unwrap().split_once(' ').unwrap();
        assert_eq!(root, level, "case {index}");
    }
    assert!(answered > 100 && refused > 100 && input > 10, "{answered} {refused} {input}");
}
