//! Many cases in one stream: a 32-bit length, low byte first, before each.

use crate::bytes::read_32;

pub fn frame(case: &[u8]) -> Vec<u8> {
    let mut framed = (case.len() as u32).to_le_bytes().to_vec();
    framed.extend(case);
    framed
}

/// The cases of a stream, or nothing where the stream ends inside one.
pub fn split_frames(mut stream: &[u8]) -> Option<Vec<&[u8]>> {
    let mut cases = Vec::new();
    while !stream.is_empty() {
        if stream.len() < 4 {
            return None;
        }
        let length = read_32(stream, 0) as usize;
        let rest = &stream[4..];
        cases.push(rest.get(..length)?);
        stream = &rest[length..];
    }
    Some(cases)
}
