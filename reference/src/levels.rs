//! The level printer: the whole printed text for an input.

use crate::bytes::read_16;
use crate::cut::Level;
use crate::end::End;
use crate::evaluation::WorkSlices;
use crate::monitor::{hand_in_sheet, hand_in_tree, question, Answer, State, Stores};
use crate::opinion_sheet;
use crate::refusal::Refusal;
use crate::tree_file;
use std::array::from_fn;

/// 16-bit n, before the lengths of the parts.
pub const LEVELS_FIELD: usize = 2;
/// 16-bit n, tree length and sheet length.
pub const INPUT_HEADER: usize = LEVELS_FIELD + PAIR_HEADER;
/// 16-bit tree length and sheet length.
pub const PAIR_HEADER: usize = 4;
/// The lengths of the longest tree file and of the longest sheet.
pub const TREE_STORE: usize = 7_175;
pub const SHEET_STORE: usize = 17_434;
/// The text for bytes that are no header with parts of its lengths.
pub const INPUT_LINE: &str = "input\n";

pub fn print_levels(input: &[u8]) -> String {
    match split_input(input, INPUT_HEADER) {
        None => INPUT_LINE.to_string(),
        Some((n, [tree, sheet])) => answer_all(n, tree, sheet, question).unwrap_or_else(refusal_line),
    }
}

pub fn refusal_line(refusal: Refusal) -> String {
    format!("refused {} at {}\n", refusal.number, refusal.place)
}

/// An end's units and its mark.
pub fn end_text(end: End) -> String {
    format!("{} {}", end.units, if end.exact { '=' } else { '~' })
}

/// n and the parts behind the header, or nothing where the printer says `input`. The header begins with n and the
/// lengths of the parts.
pub fn split_input<const PARTS: usize>(input: &[u8], header: usize) -> Option<(u16, [&[u8]; PARTS])> {
    let parts = split_parts(input, header, LEVELS_FIELD)?;
    Some((read_16(input, 0), parts))
}

/// The parts behind the header, or nothing where there is no header with parts of its lengths. The lengths are 16-bit
/// fields of the header from `first_length` on, the tree's and the sheet's first.
pub fn split_parts<const PARTS: usize>(input: &[u8], header: usize, first_length: usize) -> Option<[&[u8]; PARTS]> {
    if input.len() < header {
        return None;
    }
    let lengths: [usize; PARTS] = from_fn(|part| read_16(input, first_length + 2 * part) as usize);
    let fits = lengths[0] <= TREE_STORE && lengths[1] <= SHEET_STORE;
    if !fits || input.len() != header + lengths.iter().sum::<usize>() {
        return None;
    }
    let mut rest = &input[header..];
    let parts = lengths.map(|length| {
        let (part, behind) = rest.split_at(length);
        rest = behind;
        part
    });
    Some(parts)
}

/// The text of all levels, each asked by `ask`. Refusals 20 and 25 can't occur here: the stores take any file that is
/// let in, the slices any tree.
pub fn answer_all(
    n: u16,
    tree: &[u8],
    sheet: &[u8],
    mut ask: impl FnMut(State, Stores, Level, WorkSlices) -> (State, Result<Answer, Refusal>),
) -> Result<String, Refusal> {
    let mut tree_store = [0; TREE_STORE];
    let mut sheet_store = [0; SHEET_STORE];
    let (state, accepted) = hand_in_tree(State::default(), &mut tree_store, tree);
    accepted?;
    let (state, accepted) = hand_in_sheet(state, &mut sheet_store, sheet);
    accepted?;

    let mut lower = [0; tree_file::MOST_NODES];
    let mut upper = [0; tree_file::MOST_NODES];
    let mut marks = [0; tree_file::MOST_NODES];
    let stores = Stores { tree: &tree_store, sheet: &sheet_store };
    let mut text = String::new();
    for k in (0..=n as u32).rev() {
        let work = WorkSlices { lower: &mut lower, upper: &mut upper, marks: &mut marks };
        let (_, answer) = ask(state, stores, Level { k, n: n as u32 }, work);
        let answer = answer?;
        if text.is_empty() {
            text = header_line(tree, answer.events, n);
        }
        text.push_str(&level_line(k, answer));
    }
    Ok(text)
}

fn header_line(tree: &[u8], events: usize, n: u16) -> String {
    format!("tree {} events {} levels {}\n", read_16(tree, tree_file::NUMBER_PLACE), events, n)
}

fn level_line(k: u32, answer: Answer) -> String {
    format!("{} {} {}\n", k, end_text(answer.lower), end_text(answer.upper))
}

/// An input of the printer; the lengths are cut to 16 bits.
pub fn printer_input(n: u16, tree: &[u8], sheet: &[u8]) -> Vec<u8> {
    [&n.to_le_bytes()[..], &pair_input(tree, sheet)].concat()
}

/// The lengths of both files, cut to 16 bits, and the files.
pub fn pair_input(tree: &[u8], sheet: &[u8]) -> Vec<u8> {
    let [tree_length, sheet_length] = [tree, sheet].map(|file| (file.len() as u16).to_le_bytes());
    [&tree_length, &sheet_length, tree, sheet].concat()
}

/// The greatest lengths are those of the greatest counts.
const _: () = assert!(TREE_STORE == 7 * tree_file::MOST_NODES + 7);
const _: () = assert!(SHEET_STORE == 26 + 17 * opinion_sheet::MOST_EVENTS);
