//! Books of work windows, acceptable or with one fault, and hours at and around the edges of their windows.

use crate::bytes::{write_16, write_32};
use crate::describe::book_bytes;
use crate::random::Random;
use crate::work_windows::{Window, END_HOUR, FIRST_HOUR, LARGEST_BOOK, MOST_WINDOWS, WINDOW};

/// Hours at the limits and at the edges of their bytes stand beside any others.
fn any_hour(random: &mut Random) -> u32 {
    match random.below(6) {
        0 => random.below(10) as u32,
        1 => u32::MAX - random.below(10) as u32,
        2 => *random.pick(&[255, 256, 65_535, 65_536, 0xff_ffff, 0x100_0000, 0x7fff_ffff, 0x8000_0000]),
        3 => random.below(200_000) as u32,
        _ => random.draw() as u32,
    }
}

/// So many windows over that many events. They meet in one stretch of hours, so that many overlap, follow each other at
/// once or are repeated.
pub fn any_windows(random: &mut Random, events: usize, count: usize) -> Vec<Window> {
    let (start, reach) = (any_hour(random), *random.pick(&[1, 2, 24, 1_000, u32::MAX as usize]));
    let busy = (*random.pick(&[1, 3, events, events])).min(events);
    let window = |_| {
        let first = start.saturating_add(random.below(reach) as u32).min(u32::MAX - 1);
        let end = first.saturating_add(random.between(1, reach) as u32);
        Window { event: random.below(busy) as u16, first, end }
    };
    (0..count).map(window).collect()
}

/// Few more often than many, and at times as many as a book has.
fn any_count(random: &mut Random) -> usize {
    match random.below(10) {
        0 => 0,
        1 => 1,
        2 => MOST_WINDOWS,
        3 => random.between(1, MOST_WINDOWS),
        _ => random.between(2, 12),
    }
}

/// The windows of an acceptable book.
pub fn any_book(random: &mut Random, events: usize) -> Vec<Window> {
    let count = any_count(random);
    any_windows(random, events, count)
}

/// At an edge of a window or beside it, where there is one, and at times any hour.
pub fn hour_near(random: &mut Random, windows: &[Window]) -> u32 {
    if windows.is_empty() || random.percent(10) {
        return any_hour(random);
    }
    let Window { first, end, .. } = *random.pick(windows);
    *random.pick(&[first.saturating_sub(1), first, first + (end - first) / 2, end - 1, end, end.saturating_add(1)])
}

/// Damages window `index` of a book for so many events; answers where 29 must stand.
type Fault = fn(&mut Random, &mut [u8], usize, usize) -> usize;

pub const WINDOW_FAULTS: [Fault; 8] = [
    |_, book, index, events| set_event(book, index, events as u16),
    |random, book, index, events| {
        let event = random.between(events, u16::MAX as usize) as u16;
        set_event(book, index, event)
    },
    |_, book, index, _| set_event(book, index, u16::MAX),
    |random, book, index, _| {
        let hour = any_hour(random);
        set_hours(book, index, hour, hour)
    },
    |random, book, index, _| {
        let first = any_hour(random).max(1);
        set_hours(book, index, first, first - 1)
    },
    |random, book, index, _| {
        let first = any_hour(random);
        let end = random.between(0, first as usize) as u32;
        set_hours(book, index, first, end)
    },
    // By the low bytes alone the end is after the first hour.
    |random, book, index, _| set_hours(book, index, 0x0100_0001, *random.pick(&[0x0000_ffff, 0x00ff_ffff])),
    // The event is named before the end.
    |_, book, index, events| {
        set_hours(book, index, 7, 7);
        set_event(book, index, events as u16)
    },
];

fn set_event(book: &mut [u8], index: usize, event: u16) -> usize {
    let place = WINDOW * index;
    write_16(book, place, event);
    place
}

fn set_hours(book: &mut [u8], index: usize, first: u32, end: u32) -> usize {
    let place = WINDOW * index;
    write_32(book, place + FIRST_HOUR, first);
    write_32(book, place + END_HOUR, end);
    place + END_HOUR
}

/// A book for so many events with one fault in window `index`, and in one of two cases with others behind it; and where
/// 29 must stand.
pub fn faulty_book(
    random: &mut Random,
    windows: &[Window],
    events: usize,
    fault: Fault,
    index: usize,
) -> (Vec<u8>, usize) {
    let mut book = book_bytes(windows);
    let place = fault(random, &mut book, index, events);
    if random.percent(50) {
        for behind in index + 1..windows.len() {
            random.pick(&WINDOW_FAULTS)(random, &mut book, behind, events);
        }
    }
    (book, place)
}

/// A book whose length breaks the rule, in one of two cases with faults in all of its windows; 29 stands at its length.
pub fn book_of_wrong_length(random: &mut Random, events: usize) -> Vec<u8> {
    let windows = any_book(random, events);
    let mut book = book_bytes(&windows);
    if random.percent(50) {
        (0..windows.len()).for_each(|index| {
            random.pick(&WINDOW_FAULTS)(random, &mut book, index, events);
        });
    }
    let part = random.between(1, WINDOW - 1);
    let length = match random.below(4) {
        0 => book.len().saturating_sub(part).max(part),
        1 => book.len() + part,
        2 => LARGEST_BOOK + WINDOW,
        _ => random.between(LARGEST_BOOK + 1, u16::MAX as usize),
    };
    book.resize(length, 0);
    book
}

/// A book that 29 refuses.
pub fn bad_book(random: &mut Random, events: usize) -> Vec<u8> {
    let windows = any_book(random, events);
    if windows.is_empty() || random.percent(30) {
        return book_of_wrong_length(random, events);
    }
    let (fault, index) = (*random.pick(&WINDOW_FAULTS), random.below(windows.len()));
    faulty_book(random, &windows, events, fault, index).0
}
