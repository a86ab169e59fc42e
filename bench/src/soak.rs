//! Calls in a random order on a desk for the C library: questions, alone and at an hour, judgements, cut sets, mirrors,
//! hand-ins good and bad and drops, with changed store bytes, states, store lengths, books and buffers between them.
//! Most trees are small, so that many calls take little time.

use crate::capi::{State, CAPI};
use crate::compare::{any_buffer, LONGEST};
use crate::desk::{guarded, Checked, Desk, Difference, Tally};
use crate::mirror_law::hold_to_law;
use reference::cases::books::{any_book, bad_book, hour_near};
use reference::cases::fraction_damage::faulty_sheet;
use reference::cases::fraction_entries::{fractions_alone, fractions_beside};
use reference::cases::set_trees::{set_count, set_tree};
use reference::cases::sheet_damage::SHEET_DAMAGES;
use reference::cases::silence::quiet_pair;
use reference::cases::tree_damage::TREE_DAMAGES;
use reference::cases::trees::{chain, most_events, random_tree, Shape};
use reference::cases::valid::{any_pair, lively_pair, small_tree};
use reference::cut::Level;
use reference::describe::{book_bytes, Node};
use reference::random::Random;
use reference::work_windows::Window;

/// Calls between two changes of the files at hand.
const CALLS_A_SHELF: u64 = 20_000;
/// One shelf in this many has large trees, and another has trees for cut sets.
const SHELVES: u64 = 8;
/// The slice of a list has up to this many places.
const MOST_SETS: u64 = 300;
/// Percent of answered mirrors that are held to their law.
const LAW_SHARE: usize = 10;
const PAIRS: usize = 12;
const DAMAGED: usize = 24;

/// The trees of a shelf.
#[derive(Clone, Copy, PartialEq, Eq)]
enum Trees {
    Little,
    Large,
    /// Of few and many events, sets and gates of one input.
    Sets,
}

/// The files of a pair, its number of nodes and of events, and that of minimal cut sets where there are not too many.
struct Files {
    tree: Vec<u8>,
    sheet: Vec<u8>,
    nodes: usize,
    events: usize,
    sets: usize,
}

/// The files at hand.
struct Shelf {
    pairs: Vec<Files>,
    bad_trees: Vec<Vec<u8>>,
    bad_sheets: Vec<Vec<u8>>,
}

impl Shelf {
    fn new(random: &mut Random, trees: Trees) -> Shelf {
        Shelf {
            pairs: (0..PAIRS).map(|_| any_files(random, trees)).collect(),
            bad_trees: (0..DAMAGED).map(|_| random.pick(&TREE_DAMAGES)(random).tree).collect(),
            bad_sheets: (0..DAMAGED).map(|_| bad_sheet(random)).collect(),
        }
    }
}

/// One in four with a fault of a fraction entry.
fn bad_sheet(random: &mut Random) -> Vec<u8> {
    if random.percent(25) {
        faulty_sheet(random)
    } else {
        random.pick(&SHEET_DAMAGES)(random).sheet
    }
}

/// Two sheets in seven have fraction entries, and one has few experts who speak.
fn any_files(random: &mut Random, trees: Trees) -> Files {
    let nodes = match trees {
        Trees::Little => little_tree(random),
        Trees::Large => large_tree(random),
        Trees::Sets => set_tree(random),
    };
    let count = nodes.len();
    let sets = set_count(&nodes).unwrap_or(1).min(MOST_SETS) as usize;
    let pair = match random.below(7) {
        0 | 1 => any_pair(random, nodes),
        2 | 3 => lively_pair(random, nodes),
        4 => fractions_alone(random, nodes),
        5 => fractions_beside(random, nodes),
        _ => quiet_pair(random, nodes),
    };
    Files { tree: pair.tree(), sheet: pair.sheet(), nodes: count, events: pair.entries.len(), sets }
}

fn little_tree(random: &mut Random) -> Vec<Node> {
    match random.below(4) {
        0 => vec![Node::Event],
        1 => small_tree(random, 20),
        _ => small_tree(random, 7),
    }
}

fn large_tree(random: &mut Random) -> Vec<Node> {
    let nodes = *random.pick(&[200, 500, 1_023, 1_024]);
    match random.below(4) {
        0 => most_events(random, nodes),
        1 => chain(random, nodes),
        _ => {
            let shape = Shape { nodes, event_share: random.between(30, 80), widest: random.between(2, 16) };
            random_tree(random, shape)
        }
    }
}

struct Soak {
    random: Random,
    desk: Desk,
    shelf: Shelf,
    /// The pair that most hand-ins and questions are about.
    chosen: usize,
    /// Those of the book, or of one like it where the book has a fault.
    windows: Vec<Window>,
}

/// Runs calls until that many were compared, or to the first difference.
pub fn soak(seed: u64, calls: u64) -> (Tally, Result<(), Difference>) {
    let mut random = Random::for_case(seed, 0);
    let shelf = Shelf::new(&mut random, Trees::Little);
    let mut soak = Soak { random, desk: Desk::new(&[CAPI]), shelf, chosen: 0, windows: vec![] };
    let outcome = guarded(|| soak.run(calls));
    (soak.desk.tally, outcome)
}

impl Soak {
    fn run(&mut self, calls: u64) -> Checked {
        let mut shelves = 0;
        while self.desk.tally.calls < calls {
            if self.desk.tally.calls / CALLS_A_SHELF >= shelves {
                let trees = match SHELVES - 1 - shelves % SHELVES {
                    0 => Trees::Large,
                    4 => Trees::Sets,
                    _ => Trees::Little,
                };
                self.shelf = Shelf::new(&mut self.random, trees);
                shelves += 1;
                self.take_pair()?;
            }
            self.step()?;
        }
        Ok(())
    }

    fn step(&mut self) -> Checked {
        match self.random.below(100) {
            0 => self.desk.drop_both(),
            1..=5 => {
                let level = self.level();
                self.desk.judge(level)
            }
            6..=13 => self.hand_in_tree(),
            14..=22 => self.hand_in_sheet(),
            23..=28 => self.take_pair(),
            29..=31 => self.poke(),
            32 => self.change_state(),
            33 => self.change_stores(),
            34 | 35 => self.desk.count_cut_sets(),
            36..=40 => self.list_cut_sets(),
            41 | 42 => {
                self.change_book();
                Ok(())
            }
            43..=54 => self.question_at_hour(),
            55..=59 => self.mirror(),
            _ => self.question(),
        }
    }

    fn pair(&self) -> &Files {
        &self.shelf.pairs[self.chosen]
    }

    /// Another pair is handed in whole, into stores that have room for it, and there is a book for it.
    fn take_pair(&mut self) -> Checked {
        self.chosen = self.random.below(PAIRS);
        let (tree, sheet) = (self.pair().tree.len(), self.pair().sheet.len());
        let spare = *self.random.pick(&[0, 1, 30, 200]);
        self.desk.set_stores(tree + spare, sheet + spare);
        self.change_book();
        let files = &self.shelf.pairs[self.chosen];
        self.desk.hand_in_tree(&files.tree)?;
        self.desk.hand_in_sheet(&files.sheet)
    }

    fn hand_in_tree(&mut self) -> Checked {
        let random = &mut self.random;
        let file = match random.below(8) {
            0 => &self.shelf.pairs[random.below(PAIRS)].tree,
            1 => random.pick(&self.shelf.bad_trees),
            _ => &self.shelf.pairs[self.chosen].tree,
        };
        self.desk.hand_in_tree(file)
    }

    fn hand_in_sheet(&mut self) -> Checked {
        let random = &mut self.random;
        let sheet = match random.below(8) {
            0 => &self.shelf.pairs[random.below(PAIRS)].sheet,
            1 => random.pick(&self.shelf.bad_sheets),
            _ => &self.shelf.pairs[self.chosen].sheet,
        };
        self.desk.hand_in_sheet(sheet)
    }

    /// A byte of a store, most often one at its front, where it meets a held file.
    fn poke(&mut self) -> Checked {
        let stores = self.desk.stores();
        let in_tree = self.random.percent(50);
        let length = if in_tree { stores[0] } else { stores[1] };
        if length == 0 {
            return Ok(());
        }
        let reach = if self.random.percent(50) { length.min(50) } else { length };
        let place = self.random.below(reach);
        let byte = self.random.draw() as u8 % *self.random.pick(&[2, 8, 101, 255]);
        if in_tree {
            self.desk.poke_tree(place, byte);
        } else {
            self.desk.poke_sheet(place, byte);
        }
        Ok(())
    }

    fn change_state(&mut self) -> Checked {
        let (tree, sheet) = (self.pair().tree.len(), self.pair().sheet.len());
        let state = State { tree_len: self.near(tree), sheet_len: self.near(sheet) };
        self.desk.set_state(state);
        Ok(())
    }

    fn change_stores(&mut self) -> Checked {
        let (tree, sheet) = (self.pair().tree.len(), self.pair().sheet.len());
        let (tree, sheet) = (self.near(tree), self.near(sheet));
        self.desk.set_stores(tree, sheet);
        Ok(())
    }

    /// The length itself more often than one beside it, and at times 0 or well above.
    fn near(&mut self, length: usize) -> usize {
        match self.random.below(8) {
            0 => length - 1,
            1 => length + 1,
            2 => 0,
            3 => length + 17,
            _ => length,
        }
    }

    /// Mostly in range, else at a limit.
    fn level(&mut self) -> Level {
        if self.random.percent(95) {
            let n = *self.random.pick(&[1, 2, 3, 7, 10, 999, 1_000]);
            return Level { k: self.random.between(0, n) as u32, n: n as u32 };
        }
        *self.random.pick(&[
            Level { k: 0, n: 0 },
            Level { k: 2, n: 1 },
            Level { k: 0, n: 1_001 },
            Level { k: 1_001, n: 1_000 },
            Level { k: u32::MAX, n: u32::MAX },
        ])
    }

    fn question(&mut self) -> Checked {
        let (level, places) = self.lent();
        self.desk.question(level, places)
    }

    /// A level, and the places of the slices, which hold what earlier questions left or are filled anew.
    fn lent(&mut self) -> (Level, [usize; 3]) {
        let level = self.level();
        let nodes = self.pair().nodes;
        let mut places = [nodes; 3];
        match self.random.below(8) {
            0 => places[self.random.below(3)] = self.near(nodes),
            1 => self.desk.fill_slices(),
            _ => places = places.map(|places| places + self.random.below(4)),
        }
        (level, places)
    }

    /// One in eight has a fault.
    fn change_book(&mut self) {
        let events = self.pair().events;
        self.windows = any_book(&mut self.random, events);
        let bad = self.random.below(8) == 0;
        let book = if bad { bad_book(&mut self.random, events) } else { book_bytes(&self.windows) };
        self.desk.set_book(&book);
    }

    /// The buffer holds what earlier questions left, or is another.
    fn question_at_hour(&mut self) -> Checked {
        self.desk.set_hour(hour_near(&mut self.random, &self.windows));
        let sheet_length = self.pair().sheet.len();
        self.desk.set_buffer(any_buffer(&mut self.random, sheet_length, LONGEST[1]));
        if self.random.percent(20) {
            self.desk.fill_buffer();
        }
        let (level, places) = self.lent();
        self.desk.question_at_hour(level, places)
    }

    /// The buffers hold what earlier mirrors left, or are others.
    fn mirror(&mut self) -> Checked {
        let files = [(self.pair().tree.len(), LONGEST[0]), (self.pair().sheet.len(), LONGEST[1])];
        self.desk.set_mirror_buffers(files.map(|(length, longest)| any_buffer(&mut self.random, length, longest)));
        if self.random.percent(20) {
            self.desk.fill_mirror_buffers();
        }
        match self.desk.mirror()? && self.random.percent(LAW_SHARE) {
            true => hold_to_law(&mut self.desk, &mut self.random),
            false => Ok(()),
        }
    }

    fn list_cut_sets(&mut self) -> Checked {
        let sets = self.pair().sets;
        let places = self.near(sets);
        self.desk.list_cut_sets(places)
    }
}
