//! Document 01's table of terms, read through the calls.

use crate::desk::{exact, holding};
use reference::describe::{Entry, Node};

/// Code, then a, b = c and d in hundredths.
const TABLE: [[u32; 4]; 7] = [
    [1, 0, 4, 8],
    [2, 7, 13, 19],
    [3, 17, 27, 37],
    [4, 35, 50, 65],
    [5, 62, 73, 82],
    [6, 81, 87, 93],
    [7, 92, 96, 100],
];

#[test]
fn each_term_alone() {
    for [code, a, b, d] in TABLE {
        let desk = holding(&[Node::Event], &[13], &[Entry::Opinions(vec![code as u8])]);
        let bottom = desk.answer(0, 1).unwrap();
        let top = desk.answer(1, 1).unwrap();
        assert_eq!((bottom.lower, bottom.upper), (exact(a * 10_000_000), exact(d * 10_000_000)));
        assert_eq!((top.lower, top.upper), (exact(b * 10_000_000), exact(b * 10_000_000)));
    }
}
