//! Questions on trees of AND gates alone, of OR gates alone and of both, from sheets that make all ends exact, none, or
//! some: what a gate's step costs where its rounding and its mark always go one way, and where they do not.

use crate::marked_sheets::{marked_entries, Marks};
use crate::ratios::{paired_tree, TREE_NUMBER};
use crate::timing::{self, Bench, Contestant, Cost};
use reference::cases::trees::gate;
use reference::cases::valid::Pair;
use reference::describe::Node;
use reference::random::Random;

/// The kind of the gates.
#[derive(Clone, Copy, PartialEq, Eq, Debug)]
pub enum Gates {
    And,
    Or,
    Mixed,
}

/// A tree's gates, its number of nodes, and the marks that the sheet gives them.
#[derive(Clone, Copy, Debug)]
pub struct Size {
    pub gates: Gates,
    pub nodes: usize,
    pub marks: Marks,
}

/// The cost of a question for each size.
pub fn costs(sizes: &[Size], contestants: &[Contestant]) -> Vec<Cost> {
    timing::costs(sizes.iter().map(|&size| bench(size, contestants)).collect())
}

fn bench(size: Size, contestants: &[Contestant]) -> Bench {
    let pair = pair(size);
    let mut tally = Tally::default();
    let bench = Bench::new(&pair, contestants, |marks| tally.count(&pair.nodes, marks));
    assert!(tally.shows(size.marks), "{size:?}: {tally:?}");
    bench
}

fn pair(size: Size) -> Pair {
    let random = &mut Random::for_case(size.nodes as u64, 0);
    let nodes = paired_tree(size.nodes, |inputs| match size.gates {
        Gates::And => Node::And(inputs),
        Gates::Or => Node::Or(inputs),
        Gates::Mixed => gate(random, inputs),
    });
    let entries = marked_entries(random, &nodes, size.marks);
    Pair { number: TREE_NUMBER, nodes, scores: Vec::new(), entries }
}

/// Mark bits over all levels.
#[derive(Clone, Copy, Default, Debug)]
struct Share {
    set: usize,
    all: usize,
}

/// The mark bits of all nodes, of the gates, and of the gates over gates; and those of gates that are not as at the
/// level before.
#[derive(Clone, Default, Debug)]
struct Tally {
    nodes: Share,
    gates: Share,
    upper_gates: Share,
    turned: Share,
    before: Vec<u8>,
}

impl Share {
    fn add(&mut self, bits: u8) {
        self.set += bits.count_ones() as usize;
        self.all += 2;
    }

    /// Between a fifth and four fifths.
    fn is_mixed(&self) -> bool {
        (self.all..=4 * self.all).contains(&(5 * self.set))
    }
}

impl Tally {
    /// The marks of the nodes at a level.
    fn count(&mut self, nodes: &[Node], marks: &[u8]) {
        let is_gate = |node: usize| nodes[node] != Node::Event;
        for (node, &mark) in marks.iter().enumerate() {
            self.nodes.add(mark);
            if !is_gate(node) {
                continue;
            }
            self.gates.add(mark);
            if nodes[node].inputs().iter().all(|&input| is_gate(input as usize)) {
                self.upper_gates.add(mark);
            }
            self.before.get(node).into_iter().for_each(|before| self.turned.add(mark ^ before));
        }
        self.before = marks.to_vec();
    }

    /// Mixed marks are so over the nodes and over the levels: from level to level at least one in twenty turns.
    fn shows(&self, marks: Marks) -> bool {
        match marks {
            Marks::All => self.nodes.set == self.nodes.all,
            Marks::None => self.nodes.set == 0,
            Marks::Mixed => {
                self.gates.is_mixed() && self.upper_gates.is_mixed() && 20 * self.turned.set >= self.turned.all
            }
        }
    }
}
