//! The calls of document 01. The state is a value that goes in and comes back; all memory is lent at each call.

use crate::cut::Level;
use crate::end::End;
use crate::evaluation::{evaluate, WorkSlices};
use crate::opinion_sheet::Sheet;
use crate::refusal::{refuse_if, refused, Refusal};
use crate::sheet_judge::judge_sheet;
use crate::tree_file::Tree;
use crate::tree_judge::judge_tree;

/// The held lengths; 0 where nothing is held, since no accepted file is empty.
#[derive(Clone, Copy, PartialEq, Eq, Debug, Default)]
pub struct State {
    pub tree_length: usize,
    pub sheet_length: usize,
}

/// The two lent stores as a question sees them.
#[derive(Clone, Copy)]
pub struct Stores<'a> {
    pub tree: &'a [u8],
    pub sheet: &'a [u8],
}

/// N and E of the held tree.
#[derive(Clone, Copy, PartialEq, Eq, Debug)]
pub struct Counts {
    pub nodes: usize,
    pub events: usize,
}

/// The root's four results, and E.
#[derive(Clone, Copy, PartialEq, Eq, Debug)]
pub struct Answer {
    pub lower: End,
    pub upper: End,
    pub events: usize,
}

pub fn hand_in_tree(state: State, store: &mut [u8], file: &[u8]) -> (State, Result<(), Refusal>) {
    match judge_tree(file).and_then(|_| copy_to_front(store, file)) {
        Ok(()) => (State { tree_length: file.len(), ..state }, Ok(())),
        Err(refusal) => (state, Err(refusal)),
    }
}

pub fn hand_in_sheet(state: State, store: &mut [u8], file: &[u8]) -> (State, Result<(), Refusal>) {
    match judge_sheet(file).and_then(|_| copy_to_front(store, file)) {
        Ok(()) => (State { sheet_length: file.len(), ..state }, Ok(())),
        Err(refusal) => (state, Err(refusal)),
    }
}

/// Refusal 20 comes after every judgement of the file.
fn copy_to_front(store: &mut [u8], file: &[u8]) -> Result<(), Refusal> {
    refuse_if(store.len() < file.len(), 20, 0)?;
    store[..file.len()].copy_from_slice(file);
    Ok(())
}

/// Never refused; the stores are not lent, so their bytes stay.
pub fn drop_both(_: State) -> State {
    State::default()
}

/// The part of a question that only judges: refusals 13 and 21 to 24.
pub fn judge(state: State, stores: Stores, level: Level) -> (State, Result<Counts, Refusal>) {
    let counts = judge_held(state, stores, level).map(|(tree, _)| Counts { nodes: tree.nodes, events: tree.events });
    (state, counts)
}

pub fn question(state: State, stores: Stores, level: Level, work: WorkSlices) -> (State, Result<Answer, Refusal>) {
    (state, answer_level(state, stores, level, work))
}

fn answer_level(state: State, stores: Stores, level: Level, mut work: WorkSlices) -> Result<Answer, Refusal> {
    let (tree, sheet) = judge_held(state, stores, level)?;
    refuse_if(!work.hold(tree.nodes), 25, 0)?;
    evaluate(&tree, &sheet, level, &mut work);
    let root = tree.nodes - 1;
    Ok(Answer { lower: work.lower_end(root), upper: work.upper_end(root), events: tree.events })
}

fn judge_held<'a>(state: State, stores: Stores<'a>, level: Level) -> Result<(Tree<'a>, Sheet<'a>), Refusal> {
    refuse_if(!level.in_range(), 13, 0)?;
    held_pair(state, stores)
}

/// The held files as their bytes stand: refusals 21 to 24.
pub fn held_pair<'a>(state: State, stores: Stores<'a>) -> Result<(Tree<'a>, Sheet<'a>), Refusal> {
    refuse_if(state.tree_length == 0, 21, 0)?;
    refuse_if(state.sheet_length == 0, 22, 0)?;
    let tree = held_tree(state, stores.tree)?;
    let sheet = held(stores.sheet, state.sheet_length).and_then(|file| judge_sheet(file).ok()).ok_or(refused(23, 1))?;
    refuse_if(tree.number() != sheet.number() || tree.events != sheet.events, 24, 0)?;
    Ok((tree, sheet))
}

/// The held tree as its bytes stand: refusal 23.
pub fn held_tree(state: State, store: &[u8]) -> Result<Tree<'_>, Refusal> {
    held(store, state.tree_length).and_then(|file| judge_tree(file).ok()).ok_or(refused(23, 0))
}

/// The held bytes, or nothing where the held length is beyond the store.
fn held(store: &[u8], length: usize) -> Option<&[u8]> {
    store.get(..length)
}
