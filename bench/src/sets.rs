//! Lists of minimal cut sets through the C library beside the same lists by the reference, each into a slice of its
//! own. A round goes through every tree and both, so that all see the same machine.

use crate::capi::{State, CAPI};
use crate::expected;
use crate::timing::median;
use reference::cases::set_trees::{and_of_ors, set_count, under_gates};
use reference::cut_sets::list_sets;
use reference::describe::{tree_bytes, Node};
use reference::random::Random;
use std::hint::black_box;
use std::time::Instant;

const ROUNDS: usize = 21;

/// The nodes and sets of a tree, the median nanoseconds of a set in a list, and the median over the rounds of the C
/// library's time by the reference's.
#[derive(Clone, Copy, Debug)]
pub struct Cost {
    pub nodes: usize,
    pub sets: usize,
    pub capi: f64,
    pub reference: f64,
    pub ratio: f64,
}

/// A held tree, a slice for each of the two, and what each round took.
struct Bench {
    state: State,
    tree: Vec<u8>,
    nodes: usize,
    capi_sets: Vec<u64>,
    reference_sets: Vec<u64>,
    capi: Vec<f64>,
    reference: Vec<f64>,
}

/// One of ten events for each of so many gates: a million sets, a tenth and a hundredth of them, the tenth under 500
/// gates of one input, and the tenth behind a gate of two sets.
fn trees() -> Vec<Vec<Node>> {
    let chained = under_gates(&mut Random::for_case(1, 0), and_of_ors(&[10; 5]), 500);
    vec![and_of_ors(&[10; 6]), and_of_ors(&[10; 5]), and_of_ors(&[10; 4]), chained, behind_two(and_of_ors(&[10; 5]))]
}

/// An AND of an OR of two events and of the tree.
fn behind_two(mut nodes: Vec<Node>) -> Vec<Node> {
    let root = nodes.len() as u16 - 1;
    nodes.extend([Node::Event, Node::Event, Node::Or(vec![root + 1, root + 2]), Node::And(vec![root + 3, root])]);
    nodes
}

/// The cost of a list for each tree.
pub fn costs() -> Vec<Cost> {
    let mut benches: Vec<Bench> = trees().iter().map(|nodes| Bench::new(nodes)).collect();
    for round in 0..ROUNDS {
        benches.iter_mut().for_each(|bench| bench.run_round(round % 2 == 0));
    }
    benches.into_iter().map(Bench::cost).collect()
}

impl Bench {
    fn new(nodes: &[Node]) -> Bench {
        let tree = tree_bytes(1, nodes);
        let sets = set_count(nodes).expect("at most 64 events") as usize;
        let mut bench = Bench {
            state: State { tree_len: tree.len(), sheet_len: 0 },
            tree,
            nodes: nodes.len(),
            capi_sets: vec![0; sets],
            reference_sets: vec![0; sets],
            capi: Vec::new(),
            reference: Vec::new(),
        };
        bench.warm_up();
        bench
    }

    /// Both list, and the same sets.
    fn warm_up(&mut self) {
        self.list_by_capi();
        self.list_by_reference();
        let (mut found, mut wanted) = (self.capi_sets.clone(), self.reference_sets.clone());
        found.sort_unstable();
        wanted.sort_unstable();
        assert!(found == wanted, "capi lists other sets than reference");
    }

    fn list_by_capi(&mut self) {
        let listing = CAPI.list_cut_sets(self.state, &self.tree, &mut self.capi_sets).expect("capi has cut sets");
        assert_eq!((listing.refusal.number, listing.count), (0, self.capi_sets.len() as u64));
        black_box(&mut self.capi_sets);
    }

    fn list_by_reference(&mut self) {
        let (_, outcome) = list_sets(expected::held(self.state), &self.tree, &mut self.reference_sets);
        assert_eq!(outcome, Ok(self.reference_sets.len() as u64));
        black_box(&mut self.reference_sets);
    }

    fn run_round(&mut self, capi_first: bool) {
        for capi in [capi_first, !capi_first] {
            let start = Instant::now();
            if capi {
                self.list_by_capi();
            } else {
                self.list_by_reference();
            }
            let time = start.elapsed().as_nanos() as f64 / self.capi_sets.len() as f64;
            if capi { &mut self.capi } else { &mut self.reference }.push(time);
        }
    }

    fn cost(self) -> Cost {
        let ratios = self.capi.iter().zip(&self.reference).map(|(capi, reference)| capi / reference).collect();
        Cost {
            nodes: self.nodes,
            sets: self.capi_sets.len(),
            capi: median(self.capi),
            reference: median(self.reference),
            ratio: median(ratios),
        }
    }
}
