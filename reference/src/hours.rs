//! The level printer at an hour: the text that the level printer prints, with the open work windows of a book.

use crate::bytes::read_32;
use crate::levels::{answer_all, printer_input, refusal_line, split_input, INPUT_HEADER, INPUT_LINE, SHEET_STORE};
use crate::work_windows::{question_at_hour, Plan};

/// The level printer's header, a 16-bit book length and a 32-bit hour.
pub const HOUR_HEADER: usize = 12;
const HOUR: usize = 8;

/// A book of any length is let in and judged.
pub fn print_hours(input: &[u8]) -> String {
    match split_input(input, HOUR_HEADER) {
        None => INPUT_LINE.to_string(),
        Some((n, [tree, sheet, book])) => {
            let plan = Plan { book, hour: read_32(input, HOUR) };
            let mut buffer = [0; SHEET_STORE];
            answer_all(n, tree, sheet, |state, stores, level, work| {
                question_at_hour(state, stores, level, plan, &mut buffer, work)
            })
            .unwrap_or_else(refusal_line)
        }
    }
}

/// An input of the printer; the lengths are cut to 16 bits.
pub fn hour_input(n: u16, tree: &[u8], sheet: &[u8], plan: Plan) -> Vec<u8> {
    let input = printer_input(n, tree, sheet);
    let (header, files) = input.split_at(INPUT_HEADER);
    let book_length = plan.book.len() as u16;
    [header, &book_length.to_le_bytes(), &plan.hour.to_le_bytes(), files, plan.book].concat()
}
