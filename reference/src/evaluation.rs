//! All nodes from the first to the root, into the lent work slices.

use crate::cut::{exact_cut, rounded_cut, Level};
use crate::end::{and_end, or_end, End, Rounding};
use crate::mean::four_numbers;
use crate::opinion_sheet::Sheet;
use crate::tree_file::{Gate, Node, Tree};

/// Mark byte: 1 for lower exact plus 2 for upper exact.
const LOWER_EXACT: u8 = 1;
const UPPER_EXACT: u8 = 2;

/// The three lent work slices; place i is for node i.
pub struct WorkSlices<'a> {
    pub lower: &'a mut [u32],
    pub upper: &'a mut [u32],
    pub marks: &'a mut [u8],
}

impl WorkSlices<'_> {
    pub fn hold(&self, nodes: usize) -> bool {
        self.lower.len() >= nodes && self.upper.len() >= nodes && self.marks.len() >= nodes
    }

    pub fn lower_end(&self, node: usize) -> End {
        End { units: self.lower[node], exact: self.marks[node] & LOWER_EXACT != 0 }
    }

    pub fn upper_end(&self, node: usize) -> End {
        End { units: self.upper[node], exact: self.marks[node] & UPPER_EXACT != 0 }
    }

    fn write(&mut self, node: usize, lower: End, upper: End) {
        self.lower[node] = lower.units;
        self.upper[node] = upper.units;
        self.marks[node] = lower.exact as u8 * LOWER_EXACT + upper.exact as u8 * UPPER_EXACT;
    }
}

/// The slices hold all nodes, the sheet has an entry for each event, and the level is in range.
pub fn evaluate(tree: &Tree, sheet: &Sheet, level: Level, work: &mut WorkSlices) {
    for node in 0..tree.nodes {
        let (lower, upper) = match tree.node(node) {
            Node::Event(event) => rounded_cut(&exact_cut(&four_numbers(&sheet.entry(event)), level)),
            Node::Gate(gate, links) => {
                let lowers = links.clone().map(|link| work.lower_end(tree.link(link)));
                let uppers = links.map(|link| work.upper_end(tree.link(link)));
                (gate_end(gate, lowers, Rounding::Down), gate_end(gate, uppers, Rounding::Up))
            }
        };
        work.write(node, lower, upper);
    }
}

fn gate_end(gate: Gate, inputs: impl Iterator<Item = End>, rounding: Rounding) -> End {
    match gate {
        Gate::And => and_end(inputs, rounding),
        Gate::Or => or_end(inputs, rounding),
    }
}
