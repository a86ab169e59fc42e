//! Questions at an hour through the C library beside plain ones and beside the reference's at that hour, with books of
//! several lengths of which no window or every one is open.

use crate::capi::CAPI;
use crate::ratios::{pair, Size};
use crate::timing::{self, Bench, Contestant, Cost};
use reference::describe::book_bytes;
use reference::random::Random;
use reference::work_windows::{Plan, Window};

const HOUR: u32 = 43_842;

/// The windows of a book, and whether they are open at the hour.
#[derive(Clone, Copy, Debug)]
pub struct Book {
    pub windows: usize,
    pub open: bool,
}

/// The number of events of each size, and the cost of a question at the hour; the others are a plain question and the
/// reference's at the hour.
pub fn costs(sizes: &[(Size, Book)]) -> Vec<(usize, Cost)> {
    let contestants = [Contestant::LibraryAtHour(CAPI), Contestant::Library(CAPI), Contestant::ReferenceAtHour];
    let mut events = Vec::new();
    let mut benches = Vec::new();
    for &(size, book) in sizes {
        let pair = pair(size);
        let plan = Plan { book: &bytes(book, pair.entries.len()), hour: HOUR };
        assert_eq!(plan.has_open(), book.open && book.windows > 0);
        benches.push(Bench::with_plan(&pair, plan, &contestants, |_| ()));
        events.push(pair.entries.len());
    }
    events.into_iter().zip(timing::costs(benches)).collect()
}

/// Windows on different events where there are as many, in no order. Those that are not open have ended or have not
/// begun.
fn bytes(book: Book, events: usize) -> Vec<u8> {
    let random = &mut Random::for_case(book.windows as u64, events as u64);
    let mut left: Vec<u16> = Vec::new();
    let window = |_| {
        if left.is_empty() {
            left.extend(0..events as u16);
        }
        let event = left.swap_remove(random.below(left.len()));
        let [before, behind] = [0; 2].map(|_: u32| random.between(1, 1_000) as u32);
        let (first, end) = match (book.open, random.percent(50)) {
            (true, _) => (HOUR - before, HOUR + behind),
            (false, true) => (HOUR - before - behind, HOUR - before),
            (false, false) => (HOUR + before, HOUR + before + behind),
        };
        Window { event, first, end }
    };
    book_bytes(&(0..book.windows).map(window).collect::<Vec<_>>())
}
