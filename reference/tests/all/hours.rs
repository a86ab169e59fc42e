//! The text of the level printer at an hour, byte for byte.

use reference::bytes::write_16;
use reference::describe::{book_bytes, same, sheet_bytes, tree_bytes, Entry, Node};
use reference::hours::{hour_input, print_hours};
use reference::levels::{print_levels, printer_input};
use reference::work_windows::{Plan, Window};

fn tree() -> Vec<u8> {
    tree_bytes(7, &[Node::Event])
}

fn sheet() -> Vec<u8> {
    sheet_bytes(7, &[], &[Entry::Four([0, 1, 1, 2])])
}

fn book(first: u32, end: u32) -> Vec<u8> {
    book_bytes(&[Window { event: 0, first, end }])
}

/// Document 01's example, in and out of a window.
#[test]
fn open_and_closed() {
    let closed = "tree 7 events 1 levels 2\n2 1 = 1 =\n1 0 ~ 2 ~\n0 0 = 2 =\n";
    let open = "tree 7 events 1 levels 2\n2 1000000000 = 1000000000 =\n1 1000000000 = 1000000000 =\n\
                0 1000000000 = 1000000000 =\n";
    let book = book(5, 7);
    for (hour, text) in [(4, closed), (5, open), (6, open), (7, closed), (0, closed), (u32::MAX, closed)] {
        assert_eq!(print_hours(&hour_input(2, &tree(), &sheet(), Plan { book: &book, hour })), text, "hour {hour}");
    }
    let no_book = Plan { book: &[], hour: 5 };
    assert_eq!(print_hours(&hour_input(2, &tree(), &sheet(), no_book)), closed);
    assert_eq!(print_levels(&printer_input(2, &tree(), &sheet())), closed);
}

/// An input written out as bytes: hour 258 in a window from 257 on.
#[test]
fn input_as_bytes() {
    let mut input = vec![2, 0, 14, 0, 43, 0, 10, 0, 2, 1, 0, 0];
    input.extend(b"FTF\x01\0\x07\0\x01\0\0\0\0\0\0");
    input.extend(b"FTS\x01\0\x07\0\x01\0\0");
    input.extend([0; 16]);
    input.extend([0, 0, 0, 0, 0, 1, 0, 0, 0, 1, 0, 0, 0, 2, 0, 0, 0]);
    input.extend([0, 0, 1, 1, 0, 0, 3, 1, 0, 0]);
    let book = book(257, 259);
    assert_eq!(input, hour_input(2, &tree(), &sheet(), Plan { book: &book, hour: 258 }));
}

#[test]
fn input_line() {
    let book = book(5, 7);
    let whole = hour_input(2, &tree(), &sheet(), Plan { book: &book, hour: 5 });
    for length in 0..whole.len() {
        assert_eq!(print_hours(&whole[..length]), "input\n");
    }
    assert_eq!(print_hours(&[&whole[..], &[0]].concat()), "input\n");
    for place in [2, 4, 6] {
        let mut wrong = whole.clone();
        wrong[place] += 1;
        assert_eq!(print_hours(&wrong), "input\n");
    }
    assert_eq!(print_hours(&printer_input(2, &tree(), &sheet())), "input\n");
    assert_eq!(print_hours(&[0; 12]), "refused 1 at 0\n");
}

/// The lengths together pass 16 bits, so their sum has to be reckoned wider.
#[test]
fn sum_of_lengths_past_16_bits() {
    let whole = hour_input(2, &tree(), &sheet(), Plan { book: &[], hour: 5 });
    for missing in 1..=12 {
        let mut input = whole[..whole.len() - missing].to_vec();
        write_16(&mut input, 6, (missing as u16).wrapping_neg());
        assert_eq!(print_hours(&input), "input\n");
    }
    for lengths in [[65_535, 1, 0], [65_535, 0, 1], [0, 65_535, 1], [0, 1, 65_535], [14, 43, 65_479]] {
        let mut input = vec![0; 12];
        lengths.iter().enumerate().for_each(|(part, &length)| write_16(&mut input, 2 + 2 * part, length));
        assert_eq!(print_hours(&input), "input\n");
    }
}

#[test]
fn longest_lengths() {
    let plan = Plan { book: &[], hour: 5 };
    let long = |file: Vec<u8>, length: usize| [&file[..], &vec![0; length - file.len()]].concat();
    assert_eq!(print_hours(&hour_input(2, &long(tree(), 7_175), &sheet(), plan)), "refused 5 at 7175\n");
    assert_eq!(print_hours(&hour_input(2, &long(tree(), 7_176), &sheet(), plan)), "input\n");
    assert_eq!(print_hours(&hour_input(2, &tree(), &long(sheet(), 17_434), plan)), "refused 5 at 17434\n");
    assert_eq!(print_hours(&hour_input(2, &tree(), &long(sheet(), 17_435), plan)), "input\n");
    for length in [2_561, 2_570, 17_434, 65_530, 65_535] {
        let book = long(book(5, 7), length);
        let text = print_hours(&hour_input(2, &tree(), &sheet(), Plan { book: &book, hour: 5 }));
        assert_eq!(text, format!("refused 29 at {length}\n"));
    }
}

/// Of the tree, of the sheet, and then of the question at level n of n.
#[test]
fn first_refusal_alone() {
    let bad_tree = tree_bytes(7, &[Node::Event, Node::And(vec![0]), Node::And(vec![1]), Node::And(vec![3])]);
    let bad_sheet = sheet_bytes(7, &[], &[Entry::Four([2, 1, 1, 1])]);
    let other_sheet = sheet_bytes(8, &[], &[same(1)]);
    let event = book_bytes(&[Window { event: 0, first: 1, end: 2 }, Window { event: 1, first: 7, end: 7 }]);
    let text =
        |n, tree: &[u8], sheet: &[u8], book: &[u8]| print_hours(&hour_input(n, tree, sheet, Plan { book, hour: 5 }));
    assert_eq!(text(0, &bad_tree, &bad_sheet, &event), "refused 8 at 33\n");
    assert_eq!(text(0, &tree(), &bad_sheet, &event), "refused 10 at 26\n");
    assert_eq!(text(0, &tree(), &other_sheet, &event), "refused 13 at 0\n");
    assert_eq!(text(1_001, &tree(), &sheet(), &event), "refused 13 at 0\n");
    assert_eq!(text(2, &tree(), &other_sheet, &event), "refused 24 at 0\n");
    assert_eq!(text(2, &tree(), &sheet(), &event), "refused 29 at 10\n");
    assert_eq!(text(2, &tree(), &sheet(), &event[..19]), "refused 29 at 19\n");
    assert_eq!(text(2, &tree(), &sheet(), &book(7, 7)), "refused 29 at 6\n");
}
