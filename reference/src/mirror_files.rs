//! The mirror of a tree file and a sheet as files: both behind each other, or the line that says why there are none.

use crate::levels::{refusal_line, split_parts, INPUT_LINE, PAIR_HEADER};
use crate::mirror::{mirror, Buffers};
use crate::monitor::{State, Stores};
use crate::refusal::Refusal;
use crate::sheet_judge::judge_sheet;
use crate::tree_judge::judge_tree;

/// An input is the lengths of both files, 16 bits each, and the files. The mirrored files begin with the letters of a
/// tree file, as no line does.
pub fn print_mirror(input: &[u8]) -> Vec<u8> {
    match split_parts(input, PAIR_HEADER, 0) {
        None => INPUT_LINE.into(),
        Some([tree, sheet]) => mirror_pair(tree, sheet).unwrap_or_else(|refusal| refusal_line(refusal).into_bytes()),
    }
}

/// The mirrored tree and the mirrored sheet, refused by the first fault of the tree, of the sheet, or by 24.
fn mirror_pair(tree: &[u8], sheet: &[u8]) -> Result<Vec<u8>, Refusal> {
    judge_tree(tree)?;
    judge_sheet(sheet)?;
    let state = State { tree_length: tree.len(), sheet_length: sheet.len() };
    let mut files = vec![0; tree.len() + sheet.len()];
    let (tree_buffer, sheet_buffer) = files.split_at_mut(tree.len());
    mirror(state, Stores { tree, sheet }, Buffers { tree: tree_buffer, sheet: sheet_buffer }).1?;
    Ok(files)
}
