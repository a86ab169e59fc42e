//! Inputs of the level printer at an hour: books at their limits, faults of 29 and what comes before them, answered
//! books, and bytes that are no input.

use super::books::{any_book, any_windows, book_of_wrong_length, faulty_book, hour_near, WINDOW_FAULTS};
use super::case::{Case, Outcome};
use super::changed::{change_bytes, changed_input};
use super::damaged::damaged_case;
use super::fraction_entries::{fractions_beside, lively_fractions};
use super::sheets::any_four;
use super::spot::SPOTS;
use super::trees::{chain, most_events};
use super::valid::{lively_pair, shaped_tree, small_tree, Pair, SHAPES};
use crate::bytes::{read_16, write_16};
use crate::describe::{book_bytes, Node};
use crate::hours::{hour_input, HOUR_HEADER};
use crate::levels::INPUT_HEADER;
use crate::opinion_sheet::MOST_EXPERTS;
use crate::random::Random;
use crate::tree_file::MOST_NODES;
use crate::work_windows::{Plan, Window, END_HOUR, LARGEST_BOOK, MOST_WINDOWS, WINDOW};

/// Cases of a turn: one limit, and as many of the others as `window_case` says.
const TURN: u64 = 8;

/// So many cases have every limit, and every fault at every spot of a book.
pub const WINDOW_CASES: u64 = TURN * WINDOW_LIMITS.len() as u64;

/// Each part of a turn keeps a count of its own, so that it goes through its whole list.
pub fn window_case(random: &mut Random, index: u64) -> Vec<u8> {
    let turn = index / TURN;
    match index % TURN {
        0 => window_limit(random, turn).bytes,
        1 => window_fault(random, turn).bytes,
        2 => before_the_book(random, turn).bytes,
        3 => no_input(random, turn).bytes,
        part @ 4..=6 => answered_windows(random, 3 * turn + part - 4).bytes,
        _ => changed_windows(random),
    }
}

type Maker = fn(&mut Random) -> Case;

pub const WINDOW_LIMITS: [Maker; 35] = [
    |random| full_book(random, most_events, 3),
    |random| full_book(random, chain, 3),
    |random| one_window(random, 0, 1, 0, 1_000),
    |random| last_window(random, 0),
    |random| last_window(random, 1),
    |random| windows(random, 0),
    |random| windows(random, 1),
    |random| windows(random, MOST_WINDOWS - 1),
    |random| windows(random, MOST_WINDOWS),
    |random| book_length(random, LARGEST_BOOK + WINDOW),
    |random| book_length(random, LARGEST_BOOK + 1),
    |random| book_length(random, LARGEST_BOOK - 1),
    |random| book_length(random, WINDOW - 1),
    |random| book_length(random, WINDOW + 1),
    |random| book_length(random, 1),
    |random| book_length(random, 65_530),
    |random| book_length(random, 65_535),
    |random| last_event(random, 0),
    |random| last_event(random, 1),
    |random| last_event(random, 256),
    |random| last_event(random, 65_535),
    |random| one_window(random, 0, 1, 1, 2),
    |random| one_window(random, 5, 6, 4, 2),
    |random| one_window(random, 5, 6, 5, 2),
    |random| one_window(random, 5, 6, 6, 2),
    |random| one_window(random, 5, 5, 5, 2),
    |random| one_window(random, 5, 4, 5, 2),
    |random| one_window(random, 0, 0, 0, 2),
    |random| one_window(random, u32::MAX, u32::MAX, u32::MAX, 2),
    |random| one_window(random, 0, u32::MAX, u32::MAX, 2),
    |random| one_window(random, 0, u32::MAX, u32::MAX - 1, 2),
    |random| one_window(random, u32::MAX - 1, u32::MAX, u32::MAX - 1, 2),
    |random| one_window(random, 0x00ff_ffff, 0x0100_0000, 0x00ff_ffff, 2),
    |random| one_window(random, 0x0100_0000, 0x00ff_ffff, 0x0100_0000, 2),
    |random| one_window(random, 0x7fff_ffff, 0x8000_0001, 0x8000_0000, 2),
];

pub fn window_limit(random: &mut Random, index: u64) -> Case {
    WINDOW_LIMITS[(index % WINDOW_LIMITS.len() as u64) as usize](random)
}

fn hour_case(pair: &Pair, n: u16, book: &[u8], hour: u32, outcome: Outcome) -> Case {
    Case { bytes: hour_input(n, &pair.tree(), &pair.sheet(), Plan { book, hour }), outcome }
}

/// Entries of all three kinds.
fn small_pair(random: &mut Random) -> Pair {
    let nodes = small_tree(random, 20);
    fractions_beside(random, nodes)
}

/// 256 windows over the largest tree of a shape, all open and as many on different events as it has.
fn full_book(random: &mut Random, shape: fn(&mut Random, usize) -> Vec<Node>, n: u16) -> Case {
    let nodes = shape(random, MOST_NODES);
    let pair = lively_pair(random, nodes);
    let events = pair.entries.len();
    let start = random.below(events);
    let window = |index| Window { event: ((start + 3 * index) % events) as u16, first: 7, end: 9 + index as u32 };
    let book = book_bytes(&(0..MOST_WINDOWS).map(window).collect::<Vec<_>>());
    hour_case(&pair, n, &book, 8, Outcome::Answered)
}

/// One window of one event.
fn one_window(random: &mut Random, first: u32, end: u32, hour: u32, n: u16) -> Case {
    let pair = fractions_beside(random, vec![Node::Event]);
    let outcome = if end <= first { Outcome::Refused(29, END_HOUR) } else { Outcome::Answered };
    hour_case(&pair, n, &book_bytes(&[Window { event: 0, first, end }]), hour, outcome)
}

/// 256 windows, of which the last alone is open; and with its end so much too early.
fn last_window(random: &mut Random, too_early: u32) -> Case {
    let pair = small_pair(random);
    let mut windows = vec![Window { event: 0, first: 3, end: 7 }; MOST_WINDOWS];
    let event = random.below(pair.entries.len()) as u16;
    windows[MOST_WINDOWS - 1] = Window { event, first: 7, end: 8 - too_early };
    let refused = Outcome::Refused(29, LARGEST_BOOK - WINDOW + END_HOUR);
    let outcome = if too_early > 0 { refused } else { Outcome::Answered };
    hour_case(&pair, 2, &book_bytes(&windows), 7, outcome)
}

fn windows(random: &mut Random, count: usize) -> Case {
    let pair = small_pair(random);
    let windows = any_windows(random, pair.entries.len(), count);
    hour_case(&pair, 3, &book_bytes(&windows), hour_near(random, &windows), Outcome::Answered)
}

/// Whole windows and a part of one, all acceptable but for the length.
fn book_length(random: &mut Random, length: usize) -> Case {
    let pair = small_pair(random);
    let windows = any_windows(random, pair.entries.len(), length.div_ceil(WINDOW));
    let book = &book_bytes(&windows)[..length];
    hour_case(&pair, 2, book, hour_near(random, &windows), Outcome::Refused(29, length))
}

/// The last event, or so far past it, in the second window; an event number has 16 bits.
fn last_event(random: &mut Random, past: usize) -> Case {
    let pair = small_pair(random);
    let event = (pair.entries.len() - 1 + past).min(u16::MAX as usize) as u16;
    let windows = [0, event].map(|event| Window { event, first: 2, end: 4 });
    let outcome = if past > 0 { Outcome::Refused(29, WINDOW) } else { Outcome::Answered };
    hour_case(&pair, 2, &book_bytes(&windows), 3, outcome)
}

/// Each fault in the first, the middle and the last window; then wrong lengths, as often as one fault.
pub fn window_fault(random: &mut Random, index: u64) -> Case {
    let turn = index as usize % (SPOTS.len() * (WINDOW_FAULTS.len() + 1));
    let (fault, spot) = (turn / SPOTS.len(), SPOTS[turn % SPOTS.len()]);
    let pair = small_pair(random);
    let events = pair.entries.len();
    let Some(&fault) = WINDOW_FAULTS.get(fault) else {
        let book = book_of_wrong_length(random, events);
        return hour_case(&pair, 2, &book, 5, Outcome::Refused(29, book.len()));
    };
    let count = *random.pick(&[1, 2, 3, 12, MOST_WINDOWS]);
    let windows = any_windows(random, events, count);
    let (book, place) = faulty_book(random, &windows, events, fault, spot.of(count));
    hour_case(&pair, 2, &book, hour_near(random, &windows), Outcome::Refused(29, place))
}

/// A fault that is named before any of the book's: of the files, of the level, or of both files together.
pub fn before_the_book(random: &mut Random, index: u64) -> Case {
    let Case { bytes, outcome } = damaged_case(random, index);
    let book = book_of_wrong_length(random, 1);
    let outcome = match outcome {
        Outcome::Answered => Outcome::Refused(29, book.len()),
        outcome => outcome,
    };
    Case { bytes: with_book(&bytes, Plan { book: &book, hour: 5 }), outcome }
}

/// The input of the level printer with a book and an hour; what is no input of that one is none of this.
fn with_book(input: &[u8], plan: Plan) -> Vec<u8> {
    if input.len() < INPUT_HEADER {
        return input.to_vec();
    }
    let (header, files) = input.split_at(INPUT_HEADER);
    [header, &(plan.book.len() as u16).to_le_bytes(), &plan.hour.to_le_bytes(), files, plan.book].concat()
}

/// Bytes that are no input.
const NO_INPUTS: [fn(&mut Random) -> Vec<u8>; 11] = [
    |random| {
        let length = random.below(HOUR_HEADER);
        altered(random, |bytes| bytes.truncate(length))
    },
    |random| altered(random, |bytes| bytes.truncate(HOUR_HEADER)),
    |random| altered(random, |bytes| bytes.truncate(bytes.len() - 1)),
    |random| altered(random, |bytes| bytes.push(0)),
    |random| other_length(random, TREE_LENGTH),
    |random| other_length(random, SHEET_LENGTH),
    |random| other_length(random, BOOK_LENGTH),
    // The level printer's input, and the book behind it.
    |random| altered(random, |bytes| bytes.splice(INPUT_HEADER..HOUR_HEADER, []).for_each(drop)),
    |random| long_files(random, 7_176, 0),
    |random| long_files(random, 0, 17_435),
    sum_past_16_bits,
];

const TREE_LENGTH: usize = 2;
const SHEET_LENGTH: usize = 4;
const BOOK_LENGTH: usize = 6;

pub fn no_input(random: &mut Random, index: u64) -> Case {
    let bytes = NO_INPUTS[(index % NO_INPUTS.len() as u64) as usize](random);
    Case { bytes, outcome: Outcome::Input }
}

fn altered(random: &mut Random, alter: impl FnOnce(&mut Vec<u8>)) -> Vec<u8> {
    let index = random.draw();
    let mut bytes = answered_windows(random, index).bytes;
    alter(&mut bytes);
    bytes
}

fn other_length(random: &mut Random, place: usize) -> Vec<u8> {
    let choice = random.below(4);
    altered(random, |bytes| {
        let length = read_16(bytes, place);
        write_16(bytes, place, [length.wrapping_sub(1), length + 1, length ^ 0x0100, 65_535][choice]);
    })
}

/// Files of at least these lengths, all there.
fn long_files(random: &mut Random, tree_length: usize, sheet_length: usize) -> Vec<u8> {
    let pair = small_pair(random);
    let (mut tree, mut sheet) = (pair.tree(), pair.sheet());
    tree.resize(tree_length.max(tree.len()), 0);
    sheet.resize(sheet_length.max(sheet.len()), 0);
    hour_input(2, &tree, &sheet, Plan { book: &[], hour: 5 })
}

/// The book's length makes a sum with the others that is right in 16 bits alone.
fn sum_past_16_bits(random: &mut Random) -> Vec<u8> {
    let pair = small_pair(random);
    let mut bytes = hour_input(2, &pair.tree(), &pair.sheet(), Plan { book: &[], hour: 5 });
    let missing = random.between(1, HOUR_HEADER);
    write_16(&mut bytes, BOOK_LENGTH, (missing as u16).wrapping_neg());
    bytes.truncate(bytes.len() - missing);
    bytes
}

/// Shapes and styles are of different number, so that their turns meet in every combination.
const STYLES: u64 = 3;

pub fn answered_windows(random: &mut Random, index: u64) -> Case {
    let nodes = shaped_tree(random, index % SHAPES);
    let pair = match index % STYLES {
        0 => fractions_beside(random, nodes),
        1 => lively_pair(random, nodes),
        _ => {
            let experts = random.below(MOST_EXPERTS + 1);
            lively_fractions(random, nodes, experts)
        }
    };
    let windows = any_book(random, pair.entries.len());
    let n = *random.pick(&[1, 2, 3, 4, 7, 10]);
    hour_case(&pair, n, &book_bytes(&windows), hour_near(random, &windows), Outcome::Answered)
}

/// Blind changes of the files, the book or the whole; what comes of them is left to the judge.
pub fn changed_windows(random: &mut Random) -> Vec<u8> {
    if random.percent(30) {
        let input = changed_input(random);
        let windows = any_book(random, 1);
        let plan = Plan { book: &book_bytes(&windows), hour: hour_near(random, &windows) };
        return with_book(&input, plan);
    }
    let mut pair = small_pair(random);
    if random.percent(10) {
        pair.entries.push(any_four(random));
    }
    let windows = any_book(random, pair.entries.len());
    let mut book = book_bytes(&windows);
    for _ in 0..*random.pick(&[1, 1, 1, 2]) {
        change_bytes(random, &mut book);
    }
    let plan = Plan { book: &book, hour: hour_near(random, &windows) };
    let mut input = hour_input(random.between(1, 4) as u16, &pair.tree(), &pair.sheet(), plan);
    if random.percent(5) {
        change_bytes(random, &mut input);
    }
    input
}
