//! The stored calls of the mirror that crates/mirror_vectors runs: entries and gates at their limits, the examples,
//! buffers and stores around the lengths of their files, each refusal at each place and in its order, changed bytes and
//! lengths, the largest files, and generated pairs.

use super::fraction_damage::FRACTION_FAULTS;
use super::fraction_entries::{fractions_beside, lively_fractions};
use super::mirrors::any_mirror_pair;
use super::sheet_damage::SHEET_DAMAGES;
use super::sheets::any_opinions;
use super::tree_damage::TREE_DAMAGES;
use super::trees::{chain, comb, count_events, most_events};
use super::valid::{lively_pair, Pair};
use super::window_vectors::three_kinds;
use crate::calls::STORE_FILL;
use crate::describe::{fractions, same, Entry, Node};
use crate::end::U;
use crate::examples::{example, NAMES};
use crate::mirror::{mirror, Buffers};
use crate::mirror_calls::{MirrorCall, SHEET_ROOM, TREE_ROOM};
use crate::monitor::{State, Stores};
use crate::opinion_sheet::{BEST_SCORE, LARGEST_DENOMINATOR, MOST_EVENTS, MOST_EXPERTS};
use crate::random::Random;
use crate::tree_file::{MOST_INPUTS, MOST_NODES};

const SEED: u64 = 2_031;

struct List {
    random: Random,
    calls: Vec<MirrorCall>,
}

pub fn mirror_list() -> Vec<MirrorCall> {
    let mut list = List { random: Random::for_case(SEED, 0), calls: Vec::new() };
    list.entries();
    list.experts();
    list.gates();
    list.examples();
    list.buffers();
    list.stores();
    list.nothing_held();
    list.held_lengths();
    list.faulty_files();
    list.other_trees();
    list.order();
    list.changed_bytes();
    list.largest();
    list.generated();
    list.calls
}

/// Both files held in stores of their lengths, and buffers of the same.
fn holding(tree: &[u8], sheet: &[u8]) -> MirrorCall {
    MirrorCall {
        tree_store: tree.to_vec(),
        sheet_store: sheet.to_vec(),
        state: State { tree_length: tree.len(), sheet_length: sheet.len() },
        tree_buffer: tree.len(),
        sheet_buffer: sheet.len(),
    }
}

fn of_pair(pair: &Pair) -> MirrorCall {
    holding(&pair.tree(), &pair.sheet())
}

fn one_event(scores: &[u8], entry: Entry) -> Pair {
    Pair { number: 7, nodes: vec![Node::Event], scores: scores.to_vec(), entries: vec![entry] }
}

/// The same call on the pair that this one writes.
fn on_mirrored(call: &MirrorCall) -> MirrorCall {
    let mut mirrored = call.clone();
    let buffers = Buffers { tree: &mut mirrored.tree_store, sheet: &mut mirrored.sheet_store };
    let stores = Stores { tree: &call.tree_store, sheet: &call.sheet_store };
    mirror(call.state, stores, buffers).1.expect("a pair that can be mirrored");
    mirrored
}

impl List {
    /// The pair, and the pair mirrored.
    fn twice(&mut self, pair: &Pair) {
        let call = of_pair(pair);
        let back = on_mirrored(&call);
        self.calls.extend([call, back]);
    }

    /// The call with its buffers, with either or both a byte shorter, and with none.
    fn with_short_buffers(&mut self, call: &MirrorCall) {
        let MirrorCall { tree_buffer, sheet_buffer, .. } = *call;
        let [tree_short, sheet_short] = [tree_buffer, sheet_buffer].map(|length| length.saturating_sub(1));
        for (tree_buffer, sheet_buffer) in [
            (tree_buffer, sheet_buffer),
            (tree_short, sheet_buffer),
            (tree_buffer, sheet_short),
            (tree_short, sheet_short),
            (0, 0),
        ] {
            self.calls.push(MirrorCall { tree_buffer, sheet_buffer, ..call.clone() });
        }
    }

    /// Numbers at 0 and U, and denominators of 1 and of the largest; with experts who have nothing to say and without.
    fn entries(&mut self) {
        let numbers = [[0; 4], [U; 4], [0, 0, U, U], [0, 1, U - 1, U], [1, 2, 3, 4], [1, 256, 65_536, 1 << 24]];
        let most = LARGEST_DENOMINATOR;
        let parts = [
            (1, [0; 4]),
            (1, [1; 4]),
            (1, [0, 0, 1, 1]),
            (3, [0, 1, 1, 2]),
            (1_250, [1, 3, 3, 6]),
            (65_537, [255, 256, 65_535, 65_536]),
            (most - 1, [0, 1, most - 2, most - 1]),
            (most, [0, 1, most - 1, most]),
            (most, [0; 4]),
            (most, [most; 4]),
        ];
        for scores in [vec![], vec![1], vec![BEST_SCORE; MOST_EXPERTS]] {
            numbers.iter().for_each(|&numbers| self.twice(&one_event(&scores, Entry::Four(numbers))));
            parts
                .iter()
                .for_each(|&(denominator, parts)| self.twice(&one_event(&scores, fractions(denominator, parts))));
        }
        self.twice(&three_kinds());
    }

    /// One expert and sixteen, of the least score and of the best, with each term and with silence.
    fn experts(&mut self) {
        let opinions = |terms: &[u8]| Entry::Opinions(terms.to_vec());
        for term in 1..=7 {
            for score in [1, BEST_SCORE] {
                self.twice(&one_event(&[score], opinions(&[term])));
                self.twice(&one_event(&[score; MOST_EXPERTS], opinions(&[term; MOST_EXPERTS])));
                self.twice(&one_event(&[score; MOST_EXPERTS], opinions(&[term])));
                self.twice(&one_event(&[score, 101 - score], opinions(&[0, term])));
            }
        }
        let rising: Vec<u8> = (0..MOST_EXPERTS as u8).map(|expert| expert % 8).collect();
        let scores: Vec<u8> = (1..=MOST_EXPERTS as u8).map(|expert| 6 * expert).collect();
        self.twice(&one_event(&scores, opinions(&rising)));
        self.twice(&one_event(&[BEST_SCORE; MOST_EXPERTS], opinions(&rising)));
        let last_alone = [vec![0; MOST_EXPERTS - 1], vec![4]].concat();
        self.twice(&one_event(&scores, opinions(&last_alone)));
        self.twice(&one_event(&[2, 1], opinions(&[2, 0])));
        self.twice(&one_event(&[2, 1], opinions(&[2, 3])));
        self.twice(&one_event(&[15, 12, 10, 12, 5, 8], opinions(&[6, 5, 6, 4, 6, 4])));
    }

    fn gates(&mut self) {
        let gates: [fn(Vec<u16>) -> Node; 2] = [Node::And, Node::Or];
        for gate in gates {
            for inputs in [1, 2, MOST_INPUTS - 1, MOST_INPUTS] {
                let nodes = [vec![Node::Event; inputs], vec![gate((0..inputs as u16).rev().collect())]].concat();
                let pair = fractions_beside(&mut self.random, nodes);
                self.twice(&pair);
            }
            for above in gates {
                let nodes = vec![Node::Event, gate(vec![0]), Node::Event, above(vec![2, 1])];
                let pair = fractions_beside(&mut self.random, nodes);
                self.twice(&pair);
            }
        }
    }

    fn examples(&mut self) {
        for name in NAMES {
            let example = example(name).expect("an example of that name");
            let call = holding(&example.tree(), &example.sheet());
            self.calls.push(on_mirrored(&call));
            self.calls.push(call);
        }
    }

    /// None, one byte, one too few, just enough, one more and as many as there may be; of both.
    fn buffers(&mut self) {
        let call = of_pair(&three_kinds());
        let lengths = |file: usize, room: usize| [0, 1, file - 1, file, file + 1, room];
        for tree_buffer in lengths(call.tree_buffer, TREE_ROOM) {
            for sheet_buffer in lengths(call.sheet_buffer, SHEET_ROOM) {
                self.calls.push(MirrorCall { tree_buffer, sheet_buffer, ..call.clone() });
            }
        }
        self.with_short_buffers(&of_pair(&one_event(&[], same(5))));
    }

    /// Stores longer than the held files, of which nothing comes to the buffers but the files.
    fn stores(&mut self) {
        let call = of_pair(&three_kinds());
        for [tree_spare, sheet_spare] in [[1, 0], [0, 1], [2, 3], [700, 30]] {
            let mut longer = call.clone();
            longer.tree_store.resize(call.tree_store.len() + tree_spare, 1);
            longer.sheet_store.resize(call.sheet_store.len() + sheet_spare, STORE_FILL);
            self.calls.push(longer.clone());
            let [tree_buffer, sheet_buffer] = [longer.tree_store.len(), longer.sheet_store.len()];
            self.calls.push(MirrorCall { tree_buffer, sheet_buffer, ..longer });
        }
        let mut longest = call;
        longest.tree_store.resize(TREE_ROOM, STORE_FILL);
        longest.sheet_store.resize(SHEET_ROOM, STORE_FILL);
        self.calls.push(MirrorCall { tree_buffer: TREE_ROOM, sheet_buffer: SHEET_ROOM, ..longest });
    }

    /// 21 and 22, with empty stores and with the files there, and the other file held or not.
    fn nothing_held(&mut self) {
        let call = of_pair(&three_kinds());
        let State { tree_length, sheet_length } = call.state;
        let bare = MirrorCall { tree_store: vec![], sheet_store: vec![], ..call.clone() };
        for (tree_length, sheet_length) in [(0, 0), (0, sheet_length), (tree_length, 0)] {
            let state = State { tree_length, sheet_length };
            self.with_short_buffers(&MirrorCall { state, ..call.clone() });
            self.with_short_buffers(&MirrorCall { state, ..bare.clone() });
        }
        self.with_short_buffers(&bare);
    }

    /// 23 for lengths of no file and beyond the store, of the tree, of the sheet and of both; and for short stores.
    fn held_lengths(&mut self) {
        let mut call = of_pair(&three_kinds());
        let State { tree_length: tree, sheet_length: sheet } = call.state;
        call.tree_store.extend([0; 2]);
        call.sheet_store.extend([0; 3]);
        for tree_length in [0, 1, 8, tree - 7, tree - 1, tree, tree + 1, tree + 2, tree + 3, 1 << 31, u32::MAX as usize]
        {
            for sheet_length in [0, 1, sheet - 17, sheet, sheet + 3, sheet + 4, 1 << 31, u32::MAX as usize] {
                self.calls.push(MirrorCall { state: State { tree_length, sheet_length }, ..call.clone() });
            }
        }
        for (tree_store, sheet_store) in [(tree - 1, sheet), (tree, sheet - 1), (tree - 1, sheet - 1), (0, sheet)] {
            let mut short = call.clone();
            short.tree_store.truncate(tree_store);
            short.sheet_store.truncate(sheet_store);
            self.with_short_buffers(&short);
        }
    }

    /// 23 for each known fault of a file, beside one that is accepted and beside one with a fault too.
    fn faulty_files(&mut self) {
        for damage in TREE_DAMAGES {
            let damaged = damage(&mut self.random);
            self.calls.push(holding(&damaged.tree, &damaged.pair.sheet()));
        }
        for damage in SHEET_DAMAGES {
            let damaged = damage(&mut self.random);
            self.calls.push(holding(&damaged.pair.tree(), &damaged.sheet));
        }
        for fault in FRACTION_FAULTS {
            let mut pair = three_kinds();
            let event = self.random.below(pair.entries.len());
            pair.entries[event] = fault(&mut self.random);
            self.calls.push(of_pair(&pair));
        }
        for _ in 0..8 {
            let tree = self.random.pick(&TREE_DAMAGES)(&mut self.random).tree;
            let sheet = self.random.pick(&SHEET_DAMAGES)(&mut self.random).sheet;
            self.calls.push(holding(&tree, &sheet));
        }
    }

    /// 24 for another tree number, in either byte, and for an event more or less.
    fn other_trees(&mut self) {
        let pair = three_kinds();
        let tree = pair.tree();
        for number in [6, 8, 7 + 256, 7 << 8] {
            self.with_short_buffers(&holding(&tree, &Pair { number, ..pair.clone() }.sheet()));
        }
        for events in [1, 2, 4] {
            let mut other = pair.clone();
            other.entries.resize(events, same(3));
            self.with_short_buffers(&holding(&tree, &other.sheet()));
        }
    }

    /// Every fault at once, taken away one by one from the first.
    fn order(&mut self) {
        let good = of_pair(&three_kinds());
        let mut call = good.clone();
        call.state = State::default();
        call.tree_store[0] = 0;
        call.sheet_store = Pair { number: 8, ..three_kinds() }.sheet();
        let other_tree = call.sheet_store.clone();
        call.sheet_store[0] = 0;
        self.with_short_buffers(&call);
        call.state.tree_length = good.state.tree_length;
        self.with_short_buffers(&call);
        call.state.sheet_length = good.state.sheet_length;
        self.with_short_buffers(&call);
        call.tree_store = good.tree_store.clone();
        self.with_short_buffers(&call);
        call.sheet_store = other_tree;
        self.with_short_buffers(&call);
        self.with_short_buffers(&good);
    }

    /// Each byte of both held files changed in two ways: some are still a pair, which is mirrored as it stands.
    fn changed_bytes(&mut self) {
        let call = of_pair(&three_kinds());
        for place in 0..call.tree_store.len() {
            for changed in [call.tree_store[place] ^ 1, call.tree_store[place] ^ 3] {
                let mut other = call.clone();
                other.tree_store[place] = changed;
                self.calls.push(other);
            }
        }
        for place in 0..call.sheet_store.len() {
            for changed in [call.sheet_store[place] ^ 1, call.sheet_store[place].wrapping_add(128)] {
                let mut other = call.clone();
                other.sheet_store[place] = changed;
                self.calls.push(other);
            }
        }
    }

    /// 1,024 nodes, with 960 events of each kind of entry, with 512 and with one; and 1,024 entries, which no tree has.
    fn largest(&mut self) {
        let random = &mut self.random;
        let nodes = most_events(random, MOST_NODES);
        let opinions = (0..count_events(&nodes)).map(|_| any_opinions(random, MOST_EXPERTS)).collect();
        let scores = vec![BEST_SCORE; MOST_EXPERTS];
        let experts = Pair { number: 65_535, nodes: nodes.clone(), scores, entries: opinions };
        let makers = lively_fractions(random, nodes.clone(), 0);
        let beside = fractions_beside(random, nodes);
        let [one, half] = [chain(random, MOST_NODES), comb(random, MOST_NODES / 2)];
        for pair in [experts, makers, beside, lively_pair(random, one), lively_pair(random, half)] {
            self.calls.push(of_pair(&pair));
        }
        let last = self.calls.last().expect("the call before").clone();
        self.calls.push(MirrorCall { tree_buffer: last.tree_buffer - 1, ..last.clone() });
        self.calls.push(MirrorCall { sheet_buffer: SHEET_ROOM, ..last });
        let mut most = one_event(&[], same(5));
        most.entries = vec![same(5); MOST_EVENTS];
        self.calls.push(of_pair(&most));
    }

    /// Pairs of every shape and style, with buffers that suffice or are a few bytes longer, and one in ten too short.
    fn generated(&mut self) {
        for index in 0..105 {
            let random = &mut Random::for_case(SEED + 1, index);
            let mut call = of_pair(&any_mirror_pair(random, index));
            call.tree_buffer += random.below(3);
            call.sheet_buffer += random.below(3);
            match random.below(20) {
                0 => call.tree_buffer = random.below(call.tree_store.len()),
                1 => call.sheet_buffer = random.below(call.sheet_store.len()),
                _ => (),
            }
            self.calls.push(call);
        }
    }
}
