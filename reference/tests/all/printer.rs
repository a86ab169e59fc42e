//! The level printer's text, byte for byte.

use reference::bytes::write_16;
use reference::describe::{same, sheet_bytes, tree_bytes, Entry, Node};
use reference::levels::{print_levels, printer_input};

fn tree() -> Vec<u8> {
    tree_bytes(7, &[Node::Event])
}

fn sheet() -> Vec<u8> {
    sheet_bytes(7, &[], &[Entry::Four([0, 1, 1, 2])])
}

#[test]
fn example_of_document_01() {
    let text = "tree 7 events 1 levels 2\n2 1 = 1 =\n1 0 ~ 2 ~\n0 0 = 2 =\n";
    assert_eq!(print_levels(&printer_input(2, &tree(), &sheet())), text);
}

/// The same input written out as bytes.
#[test]
fn example_as_bytes() {
    let mut input = vec![2, 0, 14, 0, 43, 0];
    input.extend(b"FTF\x01\0\x07\0\x01\0\0\0\0\0\0");
    input.extend(b"FTS\x01\0\x07\0\x01\0\0");
    input.extend([0; 16]);
    input.extend([0, 0, 0, 0, 0, 1, 0, 0, 0, 1, 0, 0, 0, 2, 0, 0, 0]);
    assert_eq!(input, printer_input(2, &tree(), &sheet()));
}

#[test]
fn input_line() {
    let whole = printer_input(2, &tree(), &sheet());
    for length in 0..whole.len() {
        assert_eq!(print_levels(&whole[..length]), "input\n");
    }
    let mut longer = whole.clone();
    longer.push(0);
    assert_eq!(print_levels(&longer), "input\n");
    for place in [2, 4] {
        let mut wrong = whole.clone();
        wrong[place] += 1;
        assert_eq!(print_levels(&wrong), "input\n");
    }
}

/// The lengths together pass 16 bits, so their sum has to be reckoned wider.
#[test]
fn sum_of_lengths_past_16_bits() {
    let mut input = vec![0; 6];
    write_16(&mut input, 2, 65_535);
    write_16(&mut input, 4, 1);
    assert_eq!(print_levels(&input), "input\n");
}

#[test]
fn longest_lengths() {
    let full_tree = [tree(), vec![0; 7_175 - 14]].concat();
    assert_eq!(print_levels(&printer_input(2, &full_tree, &sheet())), "refused 5 at 7175\n");
    let past_tree = [tree(), vec![0; 7_176 - 14]].concat();
    assert_eq!(print_levels(&printer_input(2, &past_tree, &sheet())), "input\n");
    let full_sheet = [sheet(), vec![0; 17_434 - 43]].concat();
    assert_eq!(print_levels(&printer_input(2, &tree(), &full_sheet)), "refused 5 at 17434\n");
    let past_sheet = [sheet(), vec![0; 17_435 - 43]].concat();
    assert_eq!(print_levels(&printer_input(2, &tree(), &past_sheet)), "input\n");
}

#[test]
fn first_refusal_alone() {
    let bad_tree = tree_bytes(7, &[Node::Event, Node::And(vec![0]), Node::And(vec![1]), Node::And(vec![3])]);
    let bad_sheet = sheet_bytes(7, &[], &[Entry::Four([2, 1, 1, 1])]);
    let other_sheet = sheet_bytes(8, &[], &[same(1)]);
    assert_eq!(print_levels(&printer_input(0, &bad_tree, &bad_sheet)), "refused 8 at 33\n");
    assert_eq!(print_levels(&printer_input(0, &tree(), &bad_sheet)), "refused 10 at 26\n");
    assert_eq!(print_levels(&printer_input(0, &tree(), &other_sheet)), "refused 13 at 0\n");
    assert_eq!(print_levels(&printer_input(1_001, &tree(), &sheet())), "refused 13 at 0\n");
    assert_eq!(print_levels(&printer_input(2, &tree(), &other_sheet)), "refused 24 at 0\n");
    assert_eq!(print_levels(&printer_input(2, &[], &[])), "refused 1 at 0\n");
}

/// Document 01's own example of a refusal: the first link of a tree of five nodes.
#[test]
fn refused_8_at_34() {
    let mut five = vec![Node::Event, Node::Event, Node::Event, Node::Event, Node::And(vec![4, 0, 1, 2])];
    assert_eq!(print_levels(&printer_input(2, &tree_bytes(7, &five), &sheet())), "refused 8 at 34\n");
    five[4] = Node::And(vec![3, 0, 1, 2]);
    assert_eq!(print_levels(&printer_input(2, &tree_bytes(7, &five), &sheet())), "refused 24 at 0\n");
}

#[test]
fn a_thousand_levels() {
    let text = print_levels(&printer_input(1_000, &tree(), &sheet()));
    assert_eq!(text.lines().count(), 1_002);
    assert!(text.starts_with("tree 7 events 1 levels 1000\n1000 1 = 1 =\n999 0 ~ 2 ~\n"));
    assert!(text.ends_with("\n1 0 ~ 2 ~\n0 0 = 2 =\n"));
}
