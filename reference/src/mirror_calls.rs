//! Calls of the mirror as bytes, as the program of crates/mirror_vectors reads them from standard input.
//!
//! Each call is six numbers of 32 bits, low byte first, and the bytes of both stores:
//!
//!   1 length of the tree store    2 length of the sheet store
//!   3 held tree length            4 held sheet length
//!   5 length of the tree buffer   6 length of the sheet buffer
//!
//! Both buffers hold ee in every byte before each call. What is printed for it, in the short form of `calls`:
//!
//!   mirrored           or: refused R at P
//!   state T S
//!   tree BYTES         the tree buffer
//!   sheet BYTES        the sheet buffer

use crate::bytes::read_32;
use crate::calls::{answer_line, Form, STORE_FILL};
use crate::mirror::{mirror, Buffers};
use crate::monitor::{State, Stores};

/// The room of the program of crates/mirror_vectors, for a store and for a buffer.
pub const TREE_ROOM: usize = 8_000;
pub const SHEET_ROOM: usize = 18_000;

/// Six numbers.
const HEAD: usize = 24;

#[derive(Clone, PartialEq, Eq, Debug)]
pub struct MirrorCall {
    pub tree_store: Vec<u8>,
    pub sheet_store: Vec<u8>,
    pub state: State,
    /// The lengths of both buffers.
    pub tree_buffer: usize,
    pub sheet_buffer: usize,
}

pub fn write_mirror_stream(calls: &[MirrorCall]) -> Vec<u8> {
    calls.iter().flat_map(call_bytes).collect()
}

fn call_bytes(call: &MirrorCall) -> Vec<u8> {
    let MirrorCall { tree_store, sheet_store, state, tree_buffer, sheet_buffer } = call;
    let State { tree_length, sheet_length } = *state;
    let numbers = [tree_store.len(), sheet_store.len(), tree_length, sheet_length, *tree_buffer, *sheet_buffer];
    let mut bytes: Vec<u8> = numbers.iter().flat_map(|&number| (number as u32).to_le_bytes()).collect();
    bytes.extend(tree_store);
    bytes.extend(sheet_store);
    bytes
}

/// The calls of a stream, or nothing where a part of it is no call or the program has no room for it.
pub fn read_mirror_stream(mut stream: &[u8]) -> Option<Vec<MirrorCall>> {
    let mut calls = Vec::new();
    while !stream.is_empty() {
        let (call, rest) = read_call(stream)?;
        calls.push(call);
        stream = rest;
    }
    Some(calls)
}

fn read_call(stream: &[u8]) -> Option<(MirrorCall, &[u8])> {
    let (head, rest) = stream.split_at_checked(HEAD)?;
    let number = |index: usize| read_32(head, 4 * index) as usize;
    let length = |index: usize, room: usize| Some(number(index)).filter(|&length| length <= room);
    let (tree_store, rest) = rest.split_at_checked(length(0, TREE_ROOM)?)?;
    let (sheet_store, rest) = rest.split_at_checked(length(1, SHEET_ROOM)?)?;
    let call = MirrorCall {
        tree_store: tree_store.to_vec(),
        sheet_store: sheet_store.to_vec(),
        state: State { tree_length: number(2), sheet_length: number(3) },
        tree_buffer: length(4, TREE_ROOM)?,
        sheet_buffer: length(5, SHEET_ROOM)?,
    };
    Some((call, rest))
}

/// The text that the program must print for a stream, or nothing where the stream is no row of calls.
pub fn mirror_stream_text(stream: &[u8]) -> Option<String> {
    Some(read_mirror_stream(stream)?.iter().map(mirror_call_text).collect())
}

pub fn mirror_call_text(call: &MirrorCall) -> String {
    let stores = Stores { tree: &call.tree_store, sheet: &call.sheet_store };
    let [mut tree, mut sheet] = [call.tree_buffer, call.sheet_buffer].map(|length| vec![STORE_FILL; length]);
    let (state, outcome) = mirror(call.state, stores, Buffers { tree: &mut tree, sheet: &mut sheet });
    answer_line(outcome.map(|()| "mirrored".to_string())) + &Form::Short.after(state, &tree, &sheet)
}
