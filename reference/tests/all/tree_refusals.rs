//! Refusals 1 to 9 of a tree file, each with its place; the desk sees that nothing changes.

use crate::altered::{with_16, with_byte};
use crate::desk::{refusal, Desk};
use reference::describe::{tree_bytes, Node};

/// One event: 14 bytes.
fn smallest() -> Vec<u8> {
    tree_bytes(7, &[Node::Event])
}

/// Two events and an OR: 28 bytes, with links at 24 and 26.
fn pair() -> Vec<u8> {
    tree_bytes(7, &[Node::Event, Node::Event, Node::Or(vec![0, 1])])
}

/// An event and three gates of one input: links at 29, 31 and 33.
fn chain() -> Vec<u8> {
    tree_bytes(7, &[Node::Event, Node::And(vec![0]), Node::And(vec![1]), Node::And(vec![2])])
}

/// A tree is held before, so that a refusal has something to change.
fn check(file: &[u8], number: u32, place: usize) {
    let mut desk = Desk::roomy();
    assert_eq!(desk.tree(&chain()), Ok(()));
    assert_eq!(desk.tree(file), refusal(number, place));
}

#[test]
fn lengths_of_the_samples() {
    assert_eq!((smallest().len(), pair().len(), chain().len()), (14, 28, 35));
    for file in [smallest(), pair(), chain()] {
        assert_eq!(Desk::roomy().tree(&file), Ok(()));
    }
}

#[test]
fn r1_shorter_than_header() {
    for length in 0..9 {
        check(&smallest()[..length], 1, length);
    }
}

#[test]
fn r2_wrong_letters() {
    for place in 0..3 {
        check(&with_byte(smallest(), place, b'X'), 2, 0);
    }
    check(&with_byte(smallest(), 2, b'S'), 2, 0);
}

#[test]
fn r3_version() {
    for version in [0, 2, 256, 257] {
        check(&with_16(smallest(), 3, version), 3, 3);
    }
}

#[test]
fn r4_nodes() {
    for nodes in [0, 1_025, 65_535] {
        check(&with_16(smallest(), 7, nodes), 4, 7);
    }
}

#[test]
fn r5_length() {
    for length in 9..28 {
        check(&pair()[..length], 5, length);
    }
    let mut longer = pair();
    longer.push(0);
    check(&longer, 5, 29);
    check(&with_16(pair(), 7, 2), 5, 28);
    check(&with_16(pair(), 7, 4), 5, 28);
}

#[test]
fn r6_unknown_kind() {
    for node in 0..3 {
        for kind in [3, 4, 255] {
            check(&with_byte(pair(), 9 + 5 * node, kind), 6, 9 + 5 * node);
        }
    }
}

#[test]
fn r6_kind_comes_before_fields() {
    check(&with_16(with_byte(pair(), 14, 9), 15, 77), 6, 14);
}

#[test]
fn r7_event_fields() {
    check(&with_16(pair(), 10, 1), 7, 9);
    check(&with_16(pair(), 15, 0), 7, 14);
    check(&with_16(pair(), 15, 2), 7, 14);
    check(&with_16(pair(), 12, 1), 7, 9);
    check(&with_16(pair(), 17, 256), 7, 14);
}

#[test]
fn r7_gate_fields() {
    check(&with_16(pair(), 20, 1), 7, 19);
    check(&with_16(pair(), 22, 0), 7, 19);
    check(&with_16(pair(), 22, 3), 7, 19);
    check(&with_16(with_16(pair(), 20, 65_535), 22, 2), 7, 19);
    check(&with_16(chain(), 20, 0), 7, 19);
}

#[test]
fn r7_gate_in_a_file_of_one_node() {
    check(&with_16(with_byte(smallest(), 9, 1), 12, 1), 7, 9);
    check(&with_byte(smallest(), 9, 1), 7, 9);
}

#[test]
fn r7_sum_below() {
    check(&with_16(pair(), 22, 1), 7, 24);
    check(&tree_bytes_of_events(), 7, 9 + 5 * 2);
}

/// Two events and a link that no gate takes.
fn tree_bytes_of_events() -> Vec<u8> {
    let mut file = tree_bytes(7, &[Node::Event, Node::Event]);
    file.extend([0, 0]);
    file
}

#[test]
fn r8_link_not_below_its_gate() {
    check(&with_16(pair(), 24, 2), 8, 24);
    check(&with_16(pair(), 26, 2), 8, 26);
    check(&with_16(pair(), 26, 3), 8, 26);
    check(&with_16(pair(), 24, 65_535), 8, 24);
    check(&with_16(chain(), 29, 1), 8, 29);
    check(&with_16(chain(), 31, 2), 8, 31);
}

#[test]
fn r9_linked_before() {
    check(&with_16(pair(), 26, 0), 9, 26);
    check(&with_16(chain(), 31, 0), 9, 31);
    check(&with_16(chain(), 33, 0), 9, 33);
}

#[test]
fn r9_before_a_later_8() {
    check(&with_16(with_16(chain(), 31, 0), 33, 3), 9, 31);
}

/// An event as last record: its links can't all be placed.
#[test]
fn last_record_an_event() {
    check(&tree_bytes(7, &[Node::Event, Node::And(vec![0, 1]), Node::Event]), 8, 26);
}
