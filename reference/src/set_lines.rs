//! The text for the minimal cut sets of a tree file: a line that counts, then a line for each set, in no promised
//! order.

use crate::bytes::read_16;
use crate::cut_sets::{count_sets, list_sets};
use crate::levels::refusal_line;
use crate::monitor::State;
use crate::refusal::Refusal;
use crate::tree_file::NUMBER_PLACE;
use crate::tree_judge::judge_tree;

/// Where there are more, they are counted and not listed.
pub const MOST_LISTED: u64 = 100_000;

/// Refused by the first fault of the file, or by 26.
pub fn print_sets(file: &[u8]) -> String {
    all_sets(file).unwrap_or_else(refusal_line)
}

fn all_sets(file: &[u8]) -> Result<String, Refusal> {
    let events = judge_tree(file)?.events;
    let state = State { tree_length: file.len(), sheet_length: 0 };
    let count = count_sets(state, file)?;
    let mut text = format!("tree {} events {events} cut sets {count}\n", read_16(file, NUMBER_PLACE));
    if count <= MOST_LISTED {
        let mut sets = vec![0; count as usize];
        list_sets(state, file, &mut sets).1?;
        text.extend(sets.into_iter().map(set_line));
    }
    Ok(text)
}

/// The numbers of the events, rising.
fn set_line(set: u64) -> String {
    let events: Vec<String> =
        (0..u64::BITS).filter(|event| set >> event & 1 == 1).map(|event| event.to_string()).collect();
    events.join(" ") + "\n"
}
