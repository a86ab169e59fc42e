//! A list of calls as bytes, as crates/stored_calls reads it from standard input for the program of a family.
//!
//! Each call is a byte that says which and five numbers of 32 bits, low byte first; a number that the call has no use
//! for is 0. A file handed in, or a book, follows its call.
//!
//!   1 stores       tree length, sheet length
//!   2 poke tree    place, byte
//!   3 poke sheet   place, byte
//!   4 state        tree length, sheet length
//!   5 tree         length of the file
//!   6 sheet        length of the file
//!   7 drop
//!   8 judge        k, n
//!   9 question     k, n, places of lower, of upper and of marks
//!  10 count
//!  11 cut sets     places
//!  12 book         length of the book
//!  13 hour         hour, length of the buffer
//!  14 hour question    k, n, places of lower, of upper and of marks
//!
//! What is printed is the text of `calls` in its short form.

use crate::bytes::read_32;
use crate::calls::{Call, Desk, Form};
use crate::cut::Level;
use crate::monitor::State;

/// The room of crates/stored_calls.
pub const TREE_ROOM: usize = 7_200;
pub const SHEET_ROOM: usize = 17_500;
pub const FILE_ROOM: usize = 17_500;
pub const BOOK_ROOM: usize = 2_600;
pub const BUFFER_ROOM: usize = 17_500;
pub const SLICE_ROOM: usize = 1_100;
pub const SET_ROOM: usize = 4_096;
pub const MOST_CALLS: usize = 100_000;

/// A byte and five numbers.
const HEAD: usize = 21;

pub fn write_stream(calls: &[Call]) -> Vec<u8> {
    calls.iter().flat_map(call_bytes).collect()
}

fn call_bytes(call: &Call) -> Vec<u8> {
    match call {
        Call::Stores(tree, sheet) => head(1, &[*tree as u32, *sheet as u32]),
        Call::PokeTree(place, byte) => head(2, &[*place, *byte as u32]),
        Call::PokeSheet(place, byte) => head(3, &[*place, *byte as u32]),
        Call::Held(state) => head(4, &[state.tree_length as u32, state.sheet_length as u32]),
        Call::Tree(file) => [head(5, &[file.len() as u32]), file.clone()].concat(),
        Call::Sheet(file) => [head(6, &[file.len() as u32]), file.clone()].concat(),
        Call::Drop => head(7, &[]),
        Call::Judge(level) => head(8, &[level.k, level.n]),
        Call::Question(level, [lower, upper, marks]) => {
            head(9, &[level.k, level.n, *lower as u32, *upper as u32, *marks as u32])
        }
        Call::Count => head(10, &[]),
        Call::CutSets(places) => head(11, &[*places as u32]),
        Call::Book(book) => [head(12, &[book.len() as u32]), book.clone()].concat(),
        Call::Hour(hour, buffer) => head(13, &[*hour, *buffer as u32]),
        Call::HourQuestion(level, [lower, upper, marks]) => {
            head(14, &[level.k, level.n, *lower as u32, *upper as u32, *marks as u32])
        }
    }
}

fn head(which: u8, numbers: &[u32]) -> Vec<u8> {
    let mut bytes = vec![which];
    bytes.extend(numbers.iter().flat_map(|number| number.to_le_bytes()));
    bytes.resize(HEAD, 0);
    bytes
}

/// The calls of a stream, or nothing where a part of it is no call or the program has no room for it.
pub fn read_stream(mut stream: &[u8]) -> Option<Vec<Call>> {
    let mut calls = Vec::new();
    while !stream.is_empty() {
        let (call, rest) = read_call(stream)?;
        calls.push(call);
        stream = rest;
    }
    Some(calls).filter(|calls| calls.len() <= MOST_CALLS)
}

fn read_call(stream: &[u8]) -> Option<(Call, &[u8])> {
    let head = stream.get(..HEAD)?;
    let rest = &stream[HEAD..];
    let number = |index: usize| read_32(head, 1 + 4 * index);
    let length = |index: usize, room: usize| Some(number(index) as usize).filter(|&length| length <= room);
    let level = Level { k: number(0), n: number(1) };
    let slices = || Some([length(2, SLICE_ROOM)?, length(3, SLICE_ROOM)?, length(4, SLICE_ROOM)?]);
    let call = match head[0] {
        1 => Call::Stores(length(0, TREE_ROOM)?, length(1, SHEET_ROOM)?),
        2 => Call::PokeTree(number(0), u8::try_from(number(1)).ok()?),
        3 => Call::PokeSheet(number(0), u8::try_from(number(1)).ok()?),
        4 => Call::Held(State { tree_length: number(0) as usize, sheet_length: number(1) as usize }),
        5 => return with_file(Call::Tree, rest, length(0, FILE_ROOM)?),
        6 => return with_file(Call::Sheet, rest, length(0, FILE_ROOM)?),
        7 => Call::Drop,
        8 => Call::Judge(level),
        9 => Call::Question(level, slices()?),
        10 => Call::Count,
        11 => Call::CutSets(length(0, SET_ROOM)?),
        12 => return with_file(Call::Book, rest, length(0, BOOK_ROOM)?),
        13 => Call::Hour(number(0), length(1, BUFFER_ROOM)?),
        14 => Call::HourQuestion(level, slices()?),
        _ => return None,
    };
    Some((call, rest))
}

/// The call with the bytes that follow it, and what is behind them.
fn with_file(call: fn(Vec<u8>) -> Call, rest: &[u8], length: usize) -> Option<(Call, &[u8])> {
    let (file, behind) = rest.split_at_checked(length)?;
    Some((call(file.to_vec()), behind))
}

/// The text that the program must print for a stream, or nothing where the stream is no list of calls.
pub fn stream_text(stream: &[u8]) -> Option<String> {
    let mut desk = Desk::new(Form::Short);
    read_stream(stream)?.iter().map(|call| desk.run(call)).collect()
}
