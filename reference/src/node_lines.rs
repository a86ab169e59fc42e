//! Every node of a pair at one level: a line each, or the line that says why there are none.

use crate::bytes::read_16;
use crate::cut::Level;
use crate::evaluation::WorkSlices;
use crate::levels::{end_text, printer_input, refusal_line, split_input, INPUT_HEADER, INPUT_LINE};
use crate::monitor::{question, State, Stores};
use crate::refusal::Refusal;
use crate::sheet_judge::judge_sheet;
use crate::tree_file;
use crate::tree_judge::judge_tree;

/// 16-bit k, before the level printer's input.
pub const LEVEL_FIELD: usize = 2;

pub fn print_nodes(input: &[u8]) -> String {
    if input.len() < LEVEL_FIELD {
        return INPUT_LINE.to_string();
    }
    let (k, rest) = input.split_at(LEVEL_FIELD);
    match split_input(rest, INPUT_HEADER) {
        None => INPUT_LINE.to_string(),
        Some((n, [tree, sheet])) => {
            let level = Level { k: read_16(k, 0).into(), n: n.into() };
            answer_nodes(level, tree, sheet).unwrap_or_else(refusal_line)
        }
    }
}

/// The header and all nodes, refused by the first fault of the tree, of the sheet, or of the question.
fn answer_nodes(level: Level, tree: &[u8], sheet: &[u8]) -> Result<String, Refusal> {
    judge_tree(tree)?;
    judge_sheet(sheet)?;
    let state = State { tree_length: tree.len(), sheet_length: sheet.len() };
    let nodes = read_16(tree, tree_file::NODES_PLACE) as usize;
    let (mut lower, mut upper, mut marks) = (vec![0; nodes], vec![0; nodes], vec![0; nodes]);
    let work = WorkSlices { lower: &mut lower, upper: &mut upper, marks: &mut marks };
    let answer = question(state, Stores { tree, sheet }, level, work).1?;
    let work = WorkSlices { lower: &mut lower, upper: &mut upper, marks: &mut marks };
    let number = read_16(tree, tree_file::NUMBER_PLACE);
    let Level { k, n } = level;
    let mut text = format!("tree {number} events {} nodes {nodes} level {k} of {n}\n", answer.events);
    for node in 0..nodes {
        let ends = [work.lower_end(node), work.upper_end(node)].map(end_text);
        text.push_str(&format!("{node} {}\n", ends.join(" ")));
    }
    Ok(text)
}

/// An input of the node printer; the lengths are cut to 16 bits.
pub fn node_input(k: u16, n: u16, tree: &[u8], sheet: &[u8]) -> Vec<u8> {
    [&k.to_le_bytes()[..], &printer_input(n, tree, sheet)].concat()
}
