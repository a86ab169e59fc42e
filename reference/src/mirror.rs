//! The mirror of the held pair (02, CR 6): a tree for what works, from one for what fails. AND and OR are exchanged,
//! and each number of an event is taken from 1, so that the least comes last.

use crate::end::U;
use crate::mean::weighted_mean;
use crate::monitor::{held_pair, State, Stores};
use crate::opinion_sheet::{write_four, write_fractions, Entry, Fractions, Sheet};
use crate::refusal::{refuse_if, Refusal};
use crate::tree_file::{record_place, Gate, Node, Tree, AND, OR};

/// The two lent buffers, for the mirrored tree and for the mirrored sheet.
pub struct Buffers<'a> {
    pub tree: &'a mut [u8],
    pub sheet: &'a mut [u8],
}

/// Both mirrored files go to the fronts of the buffers; with the same state the buffers are stores that hold them.
pub fn mirror(state: State, stores: Stores, buffers: Buffers) -> (State, Result<(), Refusal>) {
    (state, write_pair(state, stores, buffers))
}

/// Nothing is written before the last rule is judged.
fn write_pair(state: State, stores: Stores, buffers: Buffers) -> Result<(), Refusal> {
    let (tree, sheet) = held_pair(state, stores)?;
    refuse_if(buffers.tree.len() < tree.file.len() || buffers.sheet.len() < sheet.file.len(), 31, 0)?;
    write_tree(&tree, buffers.tree);
    write_sheet(&sheet, buffers.sheet);
    Ok(())
}

/// The buffer holds the tree. All but the gates' kinds is copied.
fn write_tree(tree: &Tree, buffer: &mut [u8]) {
    buffer[..tree.file.len()].copy_from_slice(tree.file);
    for node in 0..tree.nodes {
        if let Node::Gate(gate, _) = tree.node(node) {
            buffer[record_place(node)] = match gate {
                Gate::And => OR,
                Gate::Or => AND,
            };
        }
    }
}

/// The buffer holds the sheet. The header is copied whole, the experts too where no opinion is left.
fn write_sheet(sheet: &Sheet, buffer: &mut [u8]) {
    buffer[..sheet.file.len()].copy_from_slice(sheet.file);
    for event in 0..sheet.events {
        match sheet.entry(event) {
            Entry::Four(numbers) => write_four(buffer, event, from_whole(U, numbers)),
            Entry::Opinions { scores, terms } => {
                write_fractions(buffer, event, mirrored(weighted_mean(scores, terms)));
            }
            Entry::Fractions(fractions) => write_fractions(buffer, event, mirrored(fractions)),
        }
    }
}

fn mirrored(fractions: Fractions) -> Fractions {
    Fractions { numerators: from_whole(fractions.denominator, fractions.numerators), ..fractions }
}

/// What each number leaves of the whole, the greatest number first: rising as the numbers rose.
fn from_whole(whole: u32, [a, b, c, d]: [u32; 4]) -> [u32; 4] {
    [d, c, b, a].map(|number| whole - number)
}
