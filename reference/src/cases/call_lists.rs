//! Lists of calls: files good and bad, stores and slices at their least length and around it, changed bytes and states.

use super::fraction_damage::faulty_sheet;
use super::fraction_entries::fractions_beside;
use super::set_trees::{set_count, set_tree};
use super::sheet_damage::SHEET_DAMAGES;
use super::tree_damage::TREE_DAMAGES;
use super::valid::{any_pair, small_tree, Pair};
use crate::hex::hex_text;
use crate::random::Random;

/// Two pairs to choose from, what makes a faulty sheet, and the store lengths as last set, for pokes inside them.
struct Writer<'a> {
    random: &'a mut Random,
    pairs: [Pair; 2],
    bad_sheet: fn(&mut Random) -> Vec<u8>,
    tree_store: usize,
    sheet_store: usize,
    list: String,
}

fn any_bad_sheet(random: &mut Random) -> Vec<u8> {
    random.pick(&SHEET_DAMAGES)(random).sheet
}

pub fn call_list(random: &mut Random) -> String {
    let pairs = [0, 1].map(|_| {
        let nodes = small_tree(random, 9);
        any_pair(random, nodes)
    });
    level_list(Writer::new(random, pairs, any_bad_sheet))
}

/// The same with fraction entries in every sheet, and with faults of 28.
pub fn fraction_list(random: &mut Random) -> String {
    let pairs = [0, 1].map(|_| {
        let nodes = small_tree(random, 7);
        fractions_beside(random, nodes)
    });
    level_list(Writer::new(random, pairs, faulty_sheet))
}

fn level_list(mut writer: Writer) -> String {
    if writer.random.percent(80) {
        writer.usual_start();
    }
    for _ in 0..writer.random.between(6, 16) {
        writer.any_line();
    }
    writer.list
}

/// The slice of a list has up to this many places.
const MOST_SETS: u64 = 4_000;

/// Counts and lists of minimal cut sets, with a sheet or with none.
pub fn set_list(random: &mut Random) -> String {
    let trees = [set_tree(random), small_tree(random, 12)];
    let pairs = trees.map(|nodes| any_pair(random, nodes));
    let mut writer = Writer::new(random, pairs, any_bad_sheet);
    if writer.random.percent(80) {
        writer.set_start();
    }
    for _ in 0..writer.random.between(4, 12) {
        writer.any_set_line();
    }
    writer.list
}

impl Writer<'_> {
    fn new(random: &mut Random, pairs: [Pair; 2], bad_sheet: fn(&mut Random) -> Vec<u8>) -> Writer<'_> {
        Writer { random, pairs, bad_sheet, tree_store: 0, sheet_store: 0, list: String::new() }
    }

    fn line(&mut self, line: String) {
        self.list.push_str(&line);
        self.list.push('\n');
    }

    fn pair(&mut self) -> Pair {
        let chosen = usize::from(self.random.percent(25));
        self.pairs[chosen].clone()
    }

    /// Stores that suffice, both files of a pair, and a question.
    fn usual_start(&mut self) {
        let pair = self.pair();
        let (tree, sheet) = (pair.tree(), pair.sheet());
        let spare = *self.random.pick(&[0, 1, 30]);
        self.stores(tree.len() + spare, sheet.len() + spare);
        self.line(format!("tree {}", hex_text(&tree)));
        self.line(format!("sheet {}", hex_text(&sheet)));
        self.question(pair.nodes.len());
    }

    fn any_line(&mut self) {
        match self.random.below(24) {
            0 => self.any_stores(),
            1..=3 => self.hand_in_tree(),
            4..=6 => self.hand_in_sheet(),
            7 => self.line("drop".to_string()),
            8..=10 => {
                let (k, n) = self.level();
                self.line(format!("judge {k} {n}"));
            }
            11 | 12 => self.poke(),
            13 => self.any_state(),
            _ => {
                let nodes = self.pair().nodes.len();
                self.question(nodes);
            }
        }
    }

    /// A store that suffices and the tree of a pair in it, counted and listed.
    fn set_start(&mut self) {
        let tree = self.pair().tree();
        let spare = *self.random.pick(&[0, 1, 30]);
        self.stores(tree.len() + spare, 0);
        self.line(format!("tree {}", hex_text(&tree)));
        self.line("count".to_string());
        self.cut_sets();
    }

    fn any_set_line(&mut self) {
        match self.random.below(20) {
            0 => self.any_stores(),
            1..=3 => self.hand_in_tree(),
            4 => self.hand_in_sheet(),
            5 => self.line("drop".to_string()),
            6 | 7 => self.poke(),
            8 => self.any_state(),
            9..=11 => self.line("count".to_string()),
            _ => self.cut_sets(),
        }
    }

    /// A slice about as long as the number of sets of a pair's tree, where that is not too many.
    fn cut_sets(&mut self) {
        let places = match set_count(&self.pair().nodes).filter(|&count| count <= MOST_SETS) {
            Some(count) => self.near(count as usize),
            None => *self.random.pick(&[0, 1, 64, MOST_SETS as usize]),
        };
        self.line(format!("cut-sets {places}"));
    }

    fn stores(&mut self, tree: usize, sheet: usize) {
        self.tree_store = tree;
        self.sheet_store = sheet;
        self.line(format!("stores {tree} {sheet}"));
    }

    fn any_stores(&mut self) {
        let pair = self.pair();
        let tree = self.near(pair.tree().len());
        let sheet = self.near(pair.sheet().len());
        self.stores(tree, sheet);
    }

    /// The length itself more often than one below it, and at times 0 or far above.
    fn near(&mut self, length: usize) -> usize {
        match self.random.below(8) {
            0 | 1 => length - 1,
            2 => 0,
            3 => length + 1,
            4 => length + 50,
            _ => length,
        }
    }

    fn hand_in_tree(&mut self) {
        let tree = match self.random.below(4) {
            0 => self.random.pick(&TREE_DAMAGES)(self.random).tree,
            _ => self.pair().tree(),
        };
        self.line(format!("tree {}", hex_text(&tree)));
    }

    fn hand_in_sheet(&mut self) {
        let sheet = match self.random.below(4) {
            0 => (self.bad_sheet)(self.random),
            _ => self.pair().sheet(),
        };
        self.line(format!("sheet {}", hex_text(&sheet)));
    }

    /// Mostly in range, else at a limit.
    fn level(&mut self) -> (usize, usize) {
        if self.random.percent(85) {
            let n = *self.random.pick(&[1, 2, 3, 10, 1_000]);
            return (self.random.between(0, n), n);
        }
        *self.random.pick(&[(0, 0), (1, 0), (2, 1), (0, 1_001), (1_001, 1_001), (1_001, 1_000), (u32::MAX as usize, 1)])
    }

    fn question(&mut self, nodes: usize) {
        let (k, n) = self.level();
        let mut places = [nodes; 3];
        match self.random.below(4) {
            0 => places[self.random.below(3)] = self.near(nodes),
            1 => places = places.map(|places| places + self.random.below(4)),
            _ => (),
        }
        self.line(format!("question {k} {n} {} {} {}", places[0], places[1], places[2]));
    }

    /// A byte of a store, most often one of the first: there it meets a held file.
    fn poke(&mut self) {
        let in_tree = self.random.percent(50);
        let (name, length) = if in_tree { ("tree", self.tree_store) } else { ("sheet", self.sheet_store) };
        if length == 0 {
            return;
        }
        let place = if self.random.percent(50) { self.random.below(length.min(50)) } else { self.random.below(length) };
        let byte = *self.random.pick(&[0, 1, 2, 3, 7, 8, 70, 255]);
        self.line(format!("poke {name} {place} {byte}"));
    }

    fn any_state(&mut self) {
        let pair = self.pair();
        let tree = self.near(pair.tree().len());
        let sheet = self.near(pair.sheet().len());
        self.line(format!("state {tree} {sheet}"));
    }
}
