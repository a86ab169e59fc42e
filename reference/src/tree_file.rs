//! The tree file's layout, and reading an accepted one.
//! Header of 9 bytes, N records of 5 (kind, a, b), N - 1 links of 2.

use crate::bytes::read_16;

pub const LETTERS: &[u8] = b"FTF";
pub const VERSION_PLACE: usize = 3;
pub const NUMBER_PLACE: usize = 5;
pub const NODES_PLACE: usize = 7;
pub const HEADER: usize = 9;
pub const RECORD: usize = 5;
pub const LINK: usize = 2;
pub const MOST_NODES: usize = 1_024;
pub const MOST_INPUTS: usize = 16;

pub const EVENT: u8 = 0;
pub const AND: u8 = 1;
pub const OR: u8 = 2;

pub fn record_place(node: usize) -> usize {
    HEADER + RECORD * node
}

pub fn link_place(nodes: usize, link: usize) -> usize {
    HEADER + RECORD * nodes + LINK * link
}

/// At least 1 node.
pub fn file_length(nodes: usize) -> usize {
    link_place(nodes, nodes - 1)
}

#[derive(Clone, Copy, PartialEq, Eq, Debug)]
pub enum Gate {
    And,
    Or,
}

/// The kind, a and b of a node as they stand in the file.
#[derive(Clone, Copy, PartialEq, Eq, Debug)]
pub struct Record {
    pub kind: u8,
    pub a: usize,
    pub b: usize,
}

pub fn read_record(file: &[u8], node: usize) -> Record {
    let place = record_place(node);
    Record { kind: file[place], a: read_16(file, place + 1) as usize, b: read_16(file, place + 3) as usize }
}

pub fn read_link(file: &[u8], nodes: usize, link: usize) -> usize {
    read_16(file, link_place(nodes, link)) as usize
}

/// A tree file that was judged and accepted.
#[derive(Clone, Copy, Debug)]
pub struct Tree<'a> {
    pub file: &'a [u8],
    /// N of document 01.
    pub nodes: usize,
    /// E of document 01: the number of basic records.
    pub events: usize,
}

pub enum Node {
    Event(usize),
    Gate(Gate, std::ops::Range<usize>),
}

impl Tree<'_> {
    pub fn number(&self) -> u16 {
        read_16(self.file, NUMBER_PLACE)
    }

    /// An event with its number, or a gate with the range of its links.
    pub fn node(&self, node: usize) -> Node {
        let record = read_record(self.file, node);
        match record.kind {
            EVENT => Node::Event(record.a),
            AND => Node::Gate(Gate::And, record.a..record.a + record.b),
            _ => Node::Gate(Gate::Or, record.a..record.a + record.b),
        }
    }

    pub fn link(&self, link: usize) -> usize {
        read_link(self.file, self.nodes, link)
    }
}
