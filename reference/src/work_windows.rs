//! The book of work windows and the question at an hour (02, CR 4): an event in an open window has the numbers
//! (U, U, U, U).
//! A window is 10 bytes: a 16-bit event, then the first hour and the end hour, 32 bits each, since commissioning.

use crate::bytes::{read_16, read_32};
use crate::cut::Level;
use crate::end::U;
use crate::evaluation::WorkSlices;
use crate::monitor::{judge, question, Answer, State, Stores};
use crate::opinion_sheet::write_four;
use crate::refusal::{refuse_if, Refusal};

pub const WINDOW: usize = 10;
pub const MOST_WINDOWS: usize = 256;
pub const LARGEST_BOOK: usize = WINDOW * MOST_WINDOWS;
pub const FIRST_HOUR: usize = 2;
pub const END_HOUR: usize = 6;

/// The fields of a window as they stand in the book.
#[derive(Clone, Copy, PartialEq, Eq, Debug)]
pub struct Window {
    pub event: u16,
    pub first: u32,
    pub end: u32,
}

impl Window {
    /// The first hour counts, the end hour doesn't.
    pub fn is_open(self, hour: u32) -> bool {
        self.first <= hour && hour < self.end
    }
}

/// The lent book, and the hour that is asked for.
#[derive(Clone, Copy)]
pub struct Plan<'a> {
    pub book: &'a [u8],
    pub hour: u32,
}

impl Plan<'_> {
    /// Whether a window is open. The length of the book was judged.
    pub fn has_open(&self) -> bool {
        self.windows().any(|(_, window)| window.is_open(self.hour))
    }

    /// The windows of the book with the place of each, in order.
    fn windows(&self) -> impl Iterator<Item = (usize, Window)> + '_ {
        (0..self.book.len()).step_by(WINDOW).map(|place| (place, read_window(self.book, place)))
    }
}

fn read_window(book: &[u8], place: usize) -> Window {
    Window {
        event: read_16(book, place),
        first: read_32(book, place + FIRST_HOUR),
        end: read_32(book, place + END_HOUR),
    }
}

/// The held sheet with the plan's open windows goes to the front of the buffer, and the level is asked of it there.
pub fn question_at_hour(
    state: State,
    stores: Stores,
    level: Level,
    plan: Plan,
    buffer: &mut [u8],
    work: WorkSlices,
) -> (State, Result<Answer, Refusal>) {
    (state, answer_at_hour(state, stores, level, plan, buffer, work))
}

/// Nothing is written before the last rule is judged.
fn answer_at_hour(
    state: State,
    stores: Stores,
    level: Level,
    plan: Plan,
    buffer: &mut [u8],
    work: WorkSlices,
) -> Result<Answer, Refusal> {
    let counts = judge(state, stores, level).1?;
    judge_book(plan, counts.events)?;
    refuse_if(buffer.len() < state.sheet_length, 30, 0)?;
    refuse_if(!work.hold(counts.nodes), 25, 0)?;
    write_sheet(&stores.sheet[..state.sheet_length], plan, buffer);
    question(state, Stores { tree: stores.tree, sheet: buffer }, level, work).1
}

/// Refusal 29: of the length, then window by window of the event and of the end.
fn judge_book(plan: Plan, events: usize) -> Result<(), Refusal> {
    let length = plan.book.len();
    refuse_if(length > LARGEST_BOOK || !length.is_multiple_of(WINDOW), 29, length)?;
    for (place, window) in plan.windows() {
        refuse_if(window.event as usize >= events, 29, place)?;
        refuse_if(window.end <= window.first, 29, place + END_HOUR)?;
    }
    Ok(())
}

/// The book was judged for this sheet, and the buffer holds the sheet.
fn write_sheet(held: &[u8], plan: Plan, buffer: &mut [u8]) {
    buffer[..held.len()].copy_from_slice(held);
    for (_, window) in plan.windows().filter(|(_, window)| window.is_open(plan.hour)) {
        write_four(buffer, window.event as usize, [U; 4]);
    }
}
