//! The first fault of a tree file in document 01's order, or the accepted tree.

use crate::bytes::read_16;
use crate::refusal::{refuse_if, Refusal};
use crate::tree_file::*;

pub fn judge_tree(file: &[u8]) -> Result<Tree<'_>, Refusal> {
    let nodes = judge_header(file)?;
    let events = judge_records(file, nodes)?;
    judge_links(file, nodes)?;
    Ok(Tree { file, nodes, events })
}

/// Refusals 1 to 5; answers N.
fn judge_header(file: &[u8]) -> Result<usize, Refusal> {
    refuse_if(file.len() < HEADER, 1, file.len())?;
    refuse_if(!file.starts_with(LETTERS), 2, 0)?;
    refuse_if(read_16(file, VERSION_PLACE) != 1, 3, VERSION_PLACE)?;
    let nodes = read_16(file, NODES_PLACE) as usize;
    refuse_if(!(1..=MOST_NODES).contains(&nodes), 4, NODES_PLACE)?;
    refuse_if(file.len() != file_length(nodes), 5, file.len())?;
    Ok(nodes)
}

/// Refusals 6 and 7, then the sum of all b; answers E.
fn judge_records(file: &[u8], nodes: usize) -> Result<usize, Refusal> {
    let links = nodes - 1;
    let mut events = 0;
    let mut linked = 0;
    for node in 0..nodes {
        let place = record_place(node);
        let Record { kind, a, b } = read_record(file, node);
        match kind {
            EVENT => {
                refuse_if(a != events || b != 0, 7, place)?;
                events += 1;
            }
            AND | OR => {
                refuse_if(a != linked || !(1..=MOST_INPUTS).contains(&b) || a + b > links, 7, place)?;
                linked += b;
            }
            _ => refuse_if(true, 6, place)?,
        }
    }
    refuse_if(linked < links, 7, link_place(nodes, 0))?;
    Ok(events)
}

/// Refusals 8 and 9, link by link. Rising gates have rising links, since each a is the sum of the b before it.
fn judge_links(file: &[u8], nodes: usize) -> Result<(), Refusal> {
    let mut linked_before = [false; MOST_NODES];
    for gate in 0..nodes {
        let Record { kind, a, b } = read_record(file, gate);
        if kind == EVENT {
            continue;
        }
        for link in a..a + b {
            let input = read_link(file, nodes, link);
            refuse_if(input >= gate, 8, link_place(nodes, link))?;
            refuse_if(linked_before[input], 9, link_place(nodes, link))?;
            linked_before[input] = true;
        }
    }
    Ok(())
}
