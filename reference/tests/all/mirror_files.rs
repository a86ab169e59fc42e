//! The mirror of two files, byte for byte, and the lines in their place.

use crate::desk::holding;
use reference::bytes::write_16;
use reference::describe::{same, sheet_bytes, tree_bytes, Entry, Node};
use reference::levels::pair_input;
use reference::mirror_files::print_mirror;

fn nodes() -> Vec<Node> {
    vec![Node::Event, Node::Event, Node::And(vec![1, 0])]
}

fn tree() -> Vec<u8> {
    tree_bytes(7, &nodes())
}

fn entries() -> Vec<Entry> {
    vec![Entry::Opinions(vec![2, 0]), Entry::Four([0, 1, 1, 2])]
}

fn sheet() -> Vec<u8> {
    sheet_bytes(7, &[2, 1], &entries())
}

fn long(file: Vec<u8>, length: usize) -> Vec<u8> {
    [&file[..], &vec![0; length - file.len()]].concat()
}

#[test]
fn both_files_behind_each_other() {
    let (mirrored_tree, mirrored_sheet) = holding(&nodes(), &[2, 1], &entries()).mirrored_files();
    let printed = print_mirror(&pair_input(&tree(), &sheet()));
    assert_eq!(printed, [mirrored_tree, mirrored_sheet].concat());
    assert!(printed.starts_with(b"FTF"));
    assert_eq!(printed[19], 2);
    assert_eq!(printed[28..31], *b"FTS");
}

/// An input written out as bytes: one event of 1 unit, mirrored to 999,999,999.
#[test]
fn input_as_bytes() {
    let mut input = vec![14, 0, 43, 0];
    input.extend(b"FTF\x01\0\x07\0\x01\0\0\0\0\0\0");
    input.extend(b"FTS\x01\0\x07\0\x01\0\0");
    input.extend([0; 17]);
    let mut wanted = input[4..].to_vec();
    input.extend([1, 0, 0, 0].repeat(4));
    wanted.extend([0xff, 0xc9, 0x9a, 0x3b].repeat(4));
    assert_eq!(input, pair_input(&tree_bytes(7, &[Node::Event]), &sheet_bytes(7, &[], &[same(1)])));
    assert_eq!(print_mirror(&input), wanted);
}

#[test]
fn input_line() {
    let whole = pair_input(&tree(), &sheet());
    for length in 0..whole.len() {
        assert_eq!(print_mirror(&whole[..length]), b"input\n");
    }
    assert_eq!(print_mirror(&[&whole[..], &[0]].concat()), b"input\n");
    for place in 0..4 {
        let mut wrong = whole.clone();
        wrong[place] += 1;
        assert_eq!(print_mirror(&wrong), b"input\n");
    }
    for lengths in [[65_535, 1], [1, 65_535], [65_532, 0], [0, 65_532], [65_535, 89]] {
        let mut wrong = whole.clone();
        lengths.iter().enumerate().for_each(|(part, &length)| write_16(&mut wrong, 2 * part, length));
        assert_eq!(print_mirror(&wrong), b"input\n");
    }
    assert_eq!(print_mirror(&[0; 4]), b"refused 1 at 0\n");
}

#[test]
fn longest_lengths() {
    assert_eq!(print_mirror(&pair_input(&long(tree(), 7_175), &sheet())), b"refused 5 at 7175\n");
    assert_eq!(print_mirror(&pair_input(&long(tree(), 7_176), &sheet())), b"input\n");
    assert_eq!(print_mirror(&pair_input(&tree(), &long(sheet(), 17_434))), b"refused 5 at 17434\n");
    assert_eq!(print_mirror(&pair_input(&tree(), &long(sheet(), 17_435))), b"input\n");
    assert_eq!(print_mirror(&pair_input(&long(tree(), 7_175), &long(sheet(), 17_434))), b"refused 5 at 7175\n");
}

/// Of the tree, of the sheet, and then of both together.
#[test]
fn first_refusal_alone() {
    let bad_tree = tree_bytes(7, &[Node::Event, Node::Event, Node::And(vec![1, 2])]);
    let bad_sheet = sheet_bytes(7, &[2, 1], &[Entry::Opinions(vec![2, 0]), Entry::Opinions(vec![])]);
    let other_sheet = sheet_bytes(8, &[2, 1], &entries());
    let short_sheet = sheet_bytes(7, &[2, 1], &entries()[..1]);
    assert_eq!(print_mirror(&pair_input(&bad_tree, &bad_sheet)), b"refused 8 at 26\n");
    assert_eq!(print_mirror(&pair_input(&tree(), &bad_sheet)), b"refused 12 at 43\n");
    assert_eq!(print_mirror(&pair_input(&tree(), &other_sheet)), b"refused 24 at 0\n");
    assert_eq!(print_mirror(&pair_input(&tree(), &short_sheet)), b"refused 24 at 0\n");
    assert_eq!(print_mirror(&pair_input(&[], &bad_sheet)), b"refused 1 at 0\n");
    assert_eq!(print_mirror(&pair_input(&tree(), &[])), b"refused 1 at 0\n");
}
