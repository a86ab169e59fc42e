//! Files written from a description. Nothing is judged: a faulty description gives a faulty file.

use crate::opinion_sheet::{FOUR_NUMBERS, FRACTIONS, MOST_EXPERTS, OPINIONS};
use crate::tree_file::{AND, EVENT, OR};
use crate::work_windows::Window;

/// A node with the nodes that it links, in link order.
#[derive(Clone, PartialEq, Eq, Debug)]
pub enum Node {
    Event,
    And(Vec<u16>),
    Or(Vec<u16>),
}

#[derive(Clone, PartialEq, Eq, Debug)]
pub enum Entry {
    Four([u32; 4]),
    /// The terms of the experts, 0 for silence; the places after the last are filled with 0.
    Opinions(Vec<u8>),
    /// Each number is below 2 to the 24th; the last byte is 0 in an acceptable entry.
    Fractions {
        denominator: u32,
        numerators: [u32; 4],
        last: u8,
    },
}

pub fn same(units: u32) -> Entry {
    Entry::Four([units; 4])
}

pub fn fractions(denominator: u32, numerators: [u32; 4]) -> Entry {
    Entry::Fractions { denominator, numerators, last: 0 }
}

impl Node {
    pub fn inputs(&self) -> &[u16] {
        match self {
            Node::Event => &[],
            Node::And(inputs) | Node::Or(inputs) => inputs,
        }
    }

    fn kind(&self) -> u8 {
        match self {
            Node::Event => EVENT,
            Node::And(_) => AND,
            Node::Or(_) => OR,
        }
    }
}

pub fn tree_bytes(number: u16, nodes: &[Node]) -> Vec<u8> {
    let mut file = b"FTF".to_vec();
    for field in [1, number, nodes.len() as u16] {
        file.extend(field.to_le_bytes());
    }
    let (mut events, mut links) = (0u16, 0u16);
    for node in nodes {
        let b = node.inputs().len() as u16;
        let a = if *node == Node::Event { events } else { links };
        file.push(node.kind());
        file.extend(a.to_le_bytes());
        file.extend(b.to_le_bytes());
        events += (*node == Node::Event) as u16;
        links += b;
    }
    for input in nodes.iter().flat_map(Node::inputs) {
        file.extend(input.to_le_bytes());
    }
    file
}

/// At most sixteen scores, and at most sixteen terms an entry.
pub fn sheet_bytes(number: u16, scores: &[u8], entries: &[Entry]) -> Vec<u8> {
    let mut file = b"FTS".to_vec();
    for field in [1, number, entries.len() as u16] {
        file.extend(field.to_le_bytes());
    }
    file.push(scores.len() as u8);
    file.extend(sixteen(scores));
    for entry in entries {
        write_entry(&mut file, entry);
    }
    file
}

fn write_entry(file: &mut Vec<u8>, entry: &Entry) {
    match entry {
        Entry::Four(numbers) => {
            file.push(FOUR_NUMBERS);
            file.extend(numbers.iter().flat_map(|number| number.to_le_bytes()));
        }
        Entry::Opinions(terms) => {
            file.push(OPINIONS);
            file.extend(sixteen(terms));
        }
        Entry::Fractions { denominator, numerators, last } => {
            file.push(FRACTIONS);
            file.extend(three_bytes(*denominator));
            file.extend(numerators.iter().flat_map(|&numerator| three_bytes(numerator)));
            file.push(*last);
        }
    }
}

fn three_bytes(number: u32) -> [u8; 3] {
    let [low, middle, high, _] = number.to_le_bytes();
    [low, middle, high]
}

fn sixteen(bytes: &[u8]) -> [u8; MOST_EXPERTS] {
    let mut filled = [0; MOST_EXPERTS];
    filled[..bytes.len()].copy_from_slice(bytes);
    filled
}

pub fn book_bytes(windows: &[Window]) -> Vec<u8> {
    windows.iter().flat_map(window_bytes).collect()
}

fn window_bytes(window: &Window) -> Vec<u8> {
    [&window.event.to_le_bytes()[..], &window.first.to_le_bytes(), &window.end.to_le_bytes()].concat()
}
