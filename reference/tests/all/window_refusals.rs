//! Refusals 29 and 30, their places, and the order of all rules of a question at an hour; the desk sees that nothing
//! changes.

use crate::call_refusals::{desk, entries, nodes};
use crate::desk::{fresh_work, holding, refusal, Desk, BUFFER_FILL};
use reference::describe::{book_bytes, same, sheet_bytes, tree_bytes, Node};
use reference::monitor::State;
use reference::work_windows::{Plan, Window};

fn book(windows: &[(u16, u32, u32)]) -> Vec<u8> {
    let windows: Vec<Window> = windows.iter().map(|&(event, first, end)| Window { event, first, end }).collect();
    book_bytes(&windows)
}

/// 29 at that place, at whatever hour.
fn check(book: &[u8], place: usize) {
    for hour in [0, 5, u32::MAX] {
        assert_eq!(desk().answer_at_hour(1, 2, Plan { book, hour }), refusal(29, place), "{book:?}");
    }
}

fn is_taken(book: &[u8]) -> bool {
    desk().answer_at_hour(1, 2, Plan { book, hour: 5 }).is_ok()
}

#[test]
fn r29_length() {
    let full = book(&[(1, 5, 6); 256]);
    for length in 0..=2_560 {
        if length % 10 == 0 {
            assert!(is_taken(&full[..length]));
        } else {
            check(&full[..length], length);
        }
    }
    let longer = book(&[(1, 5, 6); 6_600]);
    for length in [2_561, 2_569, 2_570, 2_571, 5_120, 65_530, 65_535, 65_536, 66_000] {
        check(&longer[..length], length);
    }
}

#[test]
fn r29_event() {
    for event in [2, 3, 255, 256, 257, 65_535] {
        check(&book(&[(event, 5, 6)]), 0);
        check(&book(&[(1, 5, 6), (event, 5, 6), (1, 5, 6)]), 10);
        check(&book(&[&[(1, 5, 6); 255][..], &[(event, 5, 6)]].concat()), 2_550);
    }
    assert!(is_taken(&book(&[(1, 5, 6), (0, 5, 6)])));
    let lone = holding(&[Node::Event], &[], &[same(3)]);
    assert_eq!(lone.answer_at_hour(1, 2, Plan { book: &book(&[(1, 5, 6)]), hour: 5 }), refusal(29, 0));
    assert!(lone.answer_at_hour(1, 2, Plan { book: &book(&[(0, 5, 6)]), hour: 5 }).is_ok());
}

#[test]
fn r29_end() {
    let high = 0x0100_0000;
    for (first, end) in
        [(0, 0), (5, 5), (6, 5), (1, 0), (u32::MAX, u32::MAX), (u32::MAX, 0), (high, high - 1), (high + 1, 0xffff)]
    {
        check(&book(&[(0, first, end)]), 6);
        check(&book(&[(1, 5, 6), (0, first, end), (1, 5, 6)]), 16);
        check(&book(&[&[(1, 5, 6); 255][..], &[(0, first, end)]].concat()), 2_556);
    }
    for (first, end) in [(0, 1), (u32::MAX - 1, u32::MAX), (0, u32::MAX), (high - 1, high), (0xffff, high + 1)] {
        assert!(is_taken(&book(&[(0, first, end)])));
    }
}

/// In the order of windows, and in a window the event before the end.
#[test]
fn r29_first_fault() {
    check(&book(&[(2, 6, 6)]), 0);
    check(&book(&[(0, 6, 6), (2, 5, 6)]), 6);
    check(&book(&[(2, 5, 6), (0, 6, 6)]), 0);
    check(&book(&[(0, 5, 6), (0, 6, 6), (2, 5, 6)]), 16);
    check(&book(&[(0, 5, 6), (2, 7, 6), (0, 6, 6)]), 10);
    // The length before any window.
    check(&[book(&[(2, 6, 6)]), vec![0]].concat(), 11);
    check(&book(&[(2, 6, 6); 257]), 2_570);
    check(&book(&[(2, 6, 6)])[..9], 9);
}

#[test]
fn r30_buffer_shorter_than_the_held_sheet() {
    let desk = desk();
    let book = book(&[(0, 5, 6)]);
    let plan = Plan { book: &book, hour: 5 };
    for length in [0, 1, 43, 59] {
        for work in [fresh_work(3, 3, 3), fresh_work(2, 3, 3), fresh_work(0, 0, 0)] {
            let outcome = desk.question_at_hour(1, 2, plan, &mut vec![BUFFER_FILL; length], &mut work.clone());
            assert_eq!(outcome, refusal(30, 0));
        }
    }
    for length in [60, 61, 17_434, 20_000] {
        assert!(desk.question_at_hour(1, 2, plan, &mut vec![BUFFER_FILL; length], &mut fresh_work(3, 3, 3)).is_ok());
    }
}

#[test]
fn r25_before_anything_is_written() {
    let book = book(&[(0, 5, 6)]);
    for (lower, upper, marks) in [(2, 3, 3), (3, 2, 3), (3, 3, 2), (0, 0, 0), (2, 1_024, 1_024)] {
        let mut work = fresh_work(lower, upper, marks);
        let outcome = desk().question_at_hour(1, 2, Plan { book: &book, hour: 5 }, &mut [BUFFER_FILL; 60], &mut work);
        assert_eq!(outcome, refusal(25, 0));
    }
}

#[test]
fn r13_and_21_to_24_as_a_question() {
    let bad = book(&[(2, 6, 6)]);
    let plan = Plan { book: &bad[..9], hour: 5 };
    for (k, n) in [(0, 0), (1, 0), (2, 1), (0, 1_001), (u32::MAX, 1)] {
        assert_eq!(desk().answer_at_hour(k, n, plan), refusal(13, 0));
    }
    let mut other_number = desk();
    assert_eq!(other_number.sheet(&sheet_bytes(8, &[], &entries())), Ok(()));
    assert_eq!(other_number.answer_at_hour(1, 2, plan), refusal(24, 0));
    let mut one_tree = Desk::roomy();
    assert_eq!(one_tree.answer_at_hour(1, 2, plan), refusal(21, 0));
    assert_eq!(one_tree.tree(&tree_bytes(7, &nodes())), Ok(()));
    assert_eq!(one_tree.answer_at_hour(1, 2, plan), refusal(22, 0));
}

/// Every fault at once, taken away one by one from the first.
#[test]
fn order_of_a_question_at_an_hour() {
    let mut desk = desk();
    let held = desk.state;
    let (good_tree, good_sheet) = (desk.tree_store.clone(), desk.sheet_store.clone());
    desk.state = State::default();
    desk.tree_store[5] = 9;
    desk.tree_store[0] = 0;
    desk.sheet_store[0] = 0;
    let faulty = book(&[(0, 6, 6), (2, 6, 6)]);
    let longer = [&faulty[..], &[0]].concat();
    let ask = |desk: &Desk, k: u32, book: &[u8], buffer: usize, places: usize| {
        let plan = Plan { book, hour: 5 };
        desk.question_at_hour(k, 2, plan, &mut vec![BUFFER_FILL; buffer], &mut fresh_work(places, places, places))
    };
    assert_eq!(ask(&desk, 3, &longer, 59, 2), refusal(13, 0));
    assert_eq!(ask(&desk, 1, &longer, 59, 2), refusal(21, 0));
    desk.state.tree_length = held.tree_length;
    assert_eq!(ask(&desk, 1, &longer, 59, 2), refusal(22, 0));
    desk.state.sheet_length = held.sheet_length;
    assert_eq!(ask(&desk, 1, &longer, 59, 2), refusal(23, 0));
    desk.tree_store[0] = b'F';
    assert_eq!(ask(&desk, 1, &longer, 59, 2), refusal(23, 1));
    desk.sheet_store = good_sheet;
    assert_eq!(ask(&desk, 1, &longer, 59, 2), refusal(24, 0));
    desk.tree_store = good_tree;
    assert_eq!(ask(&desk, 1, &longer, 59, 2), refusal(29, 21));
    assert_eq!(ask(&desk, 1, &faulty, 59, 2), refusal(29, 6));
    assert_eq!(ask(&desk, 1, &book(&[(0, 5, 6), (2, 6, 6)]), 59, 2), refusal(29, 10));
    assert_eq!(ask(&desk, 1, &book(&[(0, 5, 6), (1, 6, 6)]), 59, 2), refusal(29, 16));
    let good = book(&[(0, 5, 6), (1, 5, 6)]);
    assert_eq!(ask(&desk, 1, &good, 59, 2), refusal(30, 0));
    assert_eq!(ask(&desk, 1, &good, 60, 2), refusal(25, 0));
    assert!(ask(&desk, 1, &good, 60, 3).is_ok());
}
