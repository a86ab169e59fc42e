//! Questions at an hour, by hand and beside a plainer way: event by event, is there a window that has it open?

use crate::desk::{exact, fresh_work, holding, unmarked, Desk, BUFFER_FILL};
use reference::cases::books::{any_book, any_windows, hour_near};
use reference::cases::fraction_entries::fractions_beside;
use reference::cases::trees::{chain, most_events};
use reference::cases::valid::{lively_pair, shaped_tree, small_tree, Pair, SHAPES};
use reference::describe::{book_bytes, fractions, same, sheet_bytes, Entry, Node};
use reference::end::U;
use reference::random::Random;
use reference::work_windows::{Plan, Window};

fn window(event: u16, first: u32, end: u32) -> Window {
    Window { event, first, end }
}

fn desk_of(pair: &Pair) -> Desk {
    holding(&pair.nodes, &pair.scores, &pair.entries)
}

/// Every entry as it is, or as four times U where a window of the event has begun and not ended.
fn entries_at(entries: &[Entry], windows: &[Window], hour: u32) -> Vec<Entry> {
    let is_open = |event: usize| {
        windows.iter().any(|window| usize::from(window.event) == event && (window.first..window.end).contains(&hour))
    };
    let entry = |(event, entry): (usize, &Entry)| if is_open(event) { same(U) } else { entry.clone() };
    entries.iter().enumerate().map(entry).collect()
}

/// The answer, the slices and the buffer are those of a plain question from the sheet of the plainer way.
fn check(pair: &Pair, windows: &[Window], hour: u32, (k, n): (u32, u32), spare: usize) {
    let (nodes, book) = (pair.nodes.len(), book_bytes(windows));
    let sheet = sheet_bytes(7, &pair.scores, &entries_at(&pair.entries, windows, hour));
    let mut buffer = vec![BUFFER_FILL; sheet.len() + spare];
    let mut work = fresh_work(nodes + spare, nodes, nodes + 1);
    let found = desk_of(pair).question_at_hour(k, n, Plan { book: &book, hour }, &mut buffer, &mut work).unwrap();
    assert_eq!(buffer, [sheet.clone(), vec![BUFFER_FILL; spare]].concat());
    let mut plain = desk_of(pair);
    plain.sheet(&sheet).unwrap();
    let mut plain_work = fresh_work(nodes + spare, nodes, nodes + 1);
    let wanted = plain.question(k, n, &mut plain_work).unwrap();
    assert_eq!((found, work), (wanted, plain_work), "hour {hour} of {windows:?}");
}

/// Every hour at an edge of a window, one before it and one behind it.
fn edges(windows: &[Window]) -> Vec<u32> {
    let around = |hour: u32| [hour.saturating_sub(1), hour, hour.saturating_add(1)];
    let mut hours: Vec<u32> = windows.iter().flat_map(|window| [window.first, window.end]).flat_map(around).collect();
    hours.extend([0, u32::MAX]);
    hours.sort();
    hours.dedup();
    hours
}

#[test]
fn generated_books_at_every_edge() {
    for index in 0..400 {
        let random = &mut Random::for_case(51, index);
        let nodes = small_tree(random, 12);
        let pair = fractions_beside(random, nodes);
        let count = random.below(7);
        let windows = any_windows(random, pair.entries.len(), count);
        for hour in edges(&windows) {
            let n = *random.pick(&[1, 3, 1_000]);
            let level = (random.between(0, n) as u32, n as u32);
            check(&pair, &windows, hour, level, random.below(3));
        }
    }
}

#[test]
fn generated_books_of_every_length() {
    for index in 0..300 {
        let random = &mut Random::for_case(53, index);
        let nodes = shaped_tree(random, index % SHAPES);
        let pair = if index % 2 == 0 { lively_pair(random, nodes) } else { fractions_beside(random, nodes) };
        let windows = any_book(random, pair.entries.len());
        for _ in 0..4 {
            check(&pair, &windows, hour_near(random, &windows), (1, 2), 5);
        }
    }
}

/// Every hour from 0 to past the last end, on windows that overlap, touch, repeat and lie within each other.
#[test]
fn every_hour_of_a_short_plan() {
    let random = &mut Random::for_case(55, 0);
    for _ in 0..60 {
        let nodes = small_tree(random, 9);
        let pair = fractions_beside(random, nodes);
        let events = pair.entries.len();
        let mut windows = Vec::new();
        for _ in 0..random.between(1, 8) {
            let first = random.below(9) as u32;
            windows.push(window(random.below(events) as u16, first, first + random.between(1, 5) as u32));
        }
        (0..16).for_each(|hour| check(&pair, &windows, hour, (2, 3), 0));
    }
}

/// P8 of document 01: 0.8 AND (0.1 OR 0.4). Without the first event it is 0.46, without the second 0.8.
fn road_trip() -> Pair {
    let nodes = vec![Node::Event, Node::Event, Node::Event, Node::Or(vec![1, 2]), Node::And(vec![0, 3])];
    let entries = vec![same(800_000_000), same(100_000_000), same(400_000_000)];
    Pair { number: 7, nodes, scores: vec![], entries }
}

fn units_at(windows: &[Window], hour: u32) -> u32 {
    let book = book_bytes(windows);
    let answer = desk_of(&road_trip()).answer_at_hour(1, 2, Plan { book: &book, hour }).unwrap();
    assert!(answer.lower == answer.upper && answer.lower.exact);
    answer.lower.units
}

#[test]
fn by_hand() {
    let windows = [window(0, 10, 20), window(1, 15, 30), window(0, 18, 22)];
    let by_hand =
        [(9, 368), (10, 460), (14, 460), (15, 1_000), (19, 1_000), (20, 1_000), (21, 1_000), (22, 800), (29, 800)];
    for (hour, thousandths) in by_hand.into_iter().chain([(30, 368), (0, 368), (u32::MAX, 368)]) {
        assert_eq!(units_at(&windows, hour), thousandths * 1_000_000, "hour {hour}");
    }
}

/// Hours in any order: each has the answer that it had before.
#[test]
fn the_hour_may_go_back() {
    let windows = [window(0, 10, 20), window(1, 15, 30)];
    for hour in [16, 9, 25, 16, 31, 12, 9, 16] {
        let wanted = match hour {
            12 => 460,
            16 => 1_000,
            25 => 800,
            _ => 368,
        };
        assert_eq!(units_at(&windows, hour), wanted * 1_000_000, "hour {hour}");
    }
}

#[test]
fn the_last_hour_is_in_no_window() {
    assert_eq!(units_at(&[window(0, 0, u32::MAX)], u32::MAX), 368_000_000);
    assert_eq!(units_at(&[window(0, 0, u32::MAX)], u32::MAX - 1), 460_000_000);
    assert_eq!(units_at(&[window(0, u32::MAX - 1, u32::MAX)], u32::MAX - 1), 460_000_000);
}

#[test]
fn every_byte_of_an_hour_counts() {
    for byte in 0..4 {
        let first = 1 << (8 * byte);
        for (hour, units) in [(first - 1, 368), (first, 460), (2 * first - 1, 460), (2 * first, 368)] {
            assert_eq!(units_at(&[window(0, first, 2 * first)], hour), units * 1_000_000, "byte {byte}, hour {hour}");
        }
    }
}

/// All orders of three windows, and each of them twice.
#[test]
fn overlaps_in_any_order() {
    let [a, b, c] = [window(0, 5, 15), window(0, 10, 20), window(1, 12, 13)];
    for hour in [4, 5, 9, 10, 12, 13, 14, 15, 19, 20] {
        let wanted = units_at(&[a, b, c], hour);
        for order in [[a, c, b], [b, a, c], [b, c, a], [c, a, b], [c, b, a]] {
            assert_eq!(units_at(&order, hour), wanted);
            assert_eq!(units_at(&[order, order].concat(), hour), wanted);
        }
    }
}

/// An event out of service has the ends U and U at every level, both exact, whatever its entry.
#[test]
fn every_kind_of_entry() {
    let entries = [Entry::Four([1, 2, 3, 4]), Entry::Opinions(vec![2]), fractions(3, [0, 1, 1, 2])];
    let nodes = [vec![Node::Event; 3], vec![Node::And(vec![0, 1, 2])]].concat();
    let desk = holding(&nodes, &[5], &entries);
    for event in 0..3 {
        let book = book_bytes(&[window(event, 3, 4)]);
        for k in 0..=3 {
            let mut work = fresh_work(4, 4, 4);
            desk.question_at_hour(k, 3, Plan { book: &book, hour: 3 }, &mut [BUFFER_FILL; 77], &mut work).unwrap();
            let event = usize::from(event);
            assert_eq!((work.lower[event], work.upper[event], work.marks[event]), (U, U, 3));
        }
    }
    let all = book_bytes(&[0, 1, 2].map(|event| window(event, 3, 4)));
    let answer = desk.answer_at_hour(1, 3, Plan { book: &all, hour: 3 }).unwrap();
    assert_eq!((answer.lower, answer.upper, answer.events), (exact(U), exact(U), 3));
    // (2, 3, 4) of 9 at level 1 of 3 with the two others out.
    let two = book_bytes(&[0, 1].map(|event| window(event, 3, 4)));
    let answer = desk.answer_at_hour(1, 3, Plan { book: &two, hour: 3 }).unwrap();
    assert_eq!((answer.lower, answer.upper), (unmarked(111_111_111), unmarked(555_555_556)));
}

/// The entry as bytes: kind 0, then 1,000,000,000 four times, low byte first; all others as held.
#[test]
fn the_written_sheet() {
    let entries = [Entry::Opinions(vec![2, 0, 7]), fractions(1_250, [1, 3, 3, 6]), Entry::Four([1, 2, 3, 4])];
    let nodes = [vec![Node::Event; 3], vec![Node::Or(vec![0, 1, 2])]].concat();
    let desk = holding(&nodes, &[5, 1, 100], &entries);
    let held = sheet_bytes(7, &[5, 1, 100], &entries);
    let book = book_bytes(&[window(1, 0, 1)]);
    let mut buffer = vec![BUFFER_FILL; 90];
    desk.question_at_hour(0, 1, Plan { book: &book, hour: 0 }, &mut buffer, &mut fresh_work(4, 4, 4)).unwrap();
    assert_eq!(buffer[43], 0);
    assert_eq!(buffer[44..60], [0x00, 0xca, 0x9a, 0x3b].repeat(4));
    assert_eq!((&buffer[..43], &buffer[60..77]), (&held[..43], &held[60..77]));
    assert_eq!(buffer[77..], [BUFFER_FILL; 13]);
}

#[test]
fn an_empty_book_and_one_that_is_not_open() {
    let random = &mut Random::for_case(57, 0);
    let nodes = small_tree(random, 12);
    let pair = fractions_beside(random, nodes);
    for (windows, hour) in [(vec![], 0), (vec![], u32::MAX), (vec![window(0, 5, 9)], 9), (vec![window(0, 5, 9)], 4)] {
        let book = book_bytes(&windows);
        let answer = desk_of(&pair).answer_at_hour(1, 2, Plan { book: &book, hour });
        assert_eq!(answer, desk_of(&pair).answer(1, 2));
        check(&pair, &windows, hour, (1, 2), 4);
    }
}

/// 255 closed windows before the one that is open, and 256 on as many events, on the largest trees.
#[test]
fn full_books() {
    let random = &mut Random::for_case(59, 0);
    let nodes = most_events(random, 1_024);
    let pair = lively_pair(random, nodes);
    let last_alone = [vec![window(0, 1, 5); 255], vec![window(959, 5, 6)]].concat();
    let all: Vec<Window> = (0..256).map(|index| window(959 - 3 * index, 5, 6 + u32::from(index))).collect();
    for windows in [last_alone, all] {
        [4, 5, 6, 100, 260, 261].iter().for_each(|&hour| check(&pair, &windows, hour, (333, 1_000), 1));
    }
    let nodes = chain(random, 1_024);
    let pair = lively_pair(random, nodes);
    check(&pair, &vec![window(0, 5, 6); 256], 5, (1, 2), 0);
}
