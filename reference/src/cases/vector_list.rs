//! The stored calls, a list for each family: document 01's table, each limit and one past it, each refusal with what is
//! left after it, and changed stores and states, of levels, minimal cut sets, fraction entries, questions at an hour
//! and silent experts; many questions on two pairs in a random order; generated pairs, trees and lists.

use super::call_lists::{call_list, set_list};
use super::changed::changed_input;
use super::set_trees::{and_of_ors, set_count, stretched, two_levels, under_gates, with_set, GateOf};
use super::sheet_damage::SHEET_DAMAGES;
use super::sheets::{any_four, any_opinions};
use super::tree_damage::TREE_DAMAGES;
use super::trees::{chain, comb, count_events, most_events, one_gate};
use super::valid::{any_pair, lively_pair, small_tree, valid_case, Pair};
use crate::bytes::{read_16, write_16};
use crate::calls::{parse_call, Call, SET_FILL};
use crate::cut::Level;
use crate::describe::{same, Entry, Node};
use crate::end::U;
use crate::examples::{container_seal::container_seal, fuel_supply::fuel_supply};
use crate::levels::INPUT_HEADER;
use crate::monitor::State;
use crate::opinion_sheet;
use crate::random::Random;
use crate::tree_file;
use crate::vectors::SET_ROOM;

pub(super) const SEED: u64 = 2_026;

pub(super) struct List {
    pub(super) random: Random,
    pub(super) calls: Vec<Call>,
}

/// Each is the standard input of a program of crates/, which begins with nothing held and empty stores.
#[derive(Clone, Copy, PartialEq, Eq, Debug)]
pub enum Family {
    /// Calls chosen one by one.
    Limit,
    /// Every level of two pairs several times.
    RandomOrder,
    Generated,
}

/// The program of a family has its name, and `_vectors` behind it.
pub const FAMILIES: [(&str, Family); 3] =
    [("limit", Family::Limit), ("random_order", Family::RandomOrder), ("generated", Family::Generated)];

/// What writes the calls, in order: the random numbers of all are one row, so that each part hangs on those above it.
/// No part goes on from what one of another family leaves.
const PARTS: [(Family, fn(&mut List)); 20] = [
    (Family::Limit, List::table),
    (Family::Limit, List::tree_limits),
    (Family::Limit, List::sheet_limits),
    (Family::Limit, List::level_limits),
    (Family::Limit, List::damaged_files),
    (Family::Limit, List::call_refusals),
    (Family::Limit, List::changed_bytes),
    (Family::Limit, List::changed_states),
    (Family::RandomOrder, List::many_questions),
    (Family::Generated, List::generated_pairs),
    (Family::Generated, List::generated_lists),
    (Family::Limit, List::set_limits),
    (Family::Limit, List::set_refusals),
    (Family::Limit, List::set_changes),
    (Family::Generated, List::generated_sets),
    (Family::Limit, List::fraction_entries),
    (Family::Generated, List::generated_fractions),
    (Family::Limit, List::step_limits),
    (Family::Limit, List::work_windows),
    (Family::Limit, List::silence),
];

pub fn parse_family(word: &str) -> Option<Family> {
    FAMILIES.iter().find(|(name, _)| *name == word).map(|&(_, family)| family)
}

pub fn vector_list(family: Family) -> Vec<Call> {
    let mut list = List { random: Random::for_case(SEED, 0), calls: Vec::new() };
    let mut calls = Vec::new();
    for (written_for, write) in PARTS {
        write(&mut list);
        let part = std::mem::take(&mut list.calls);
        if written_for == family {
            calls.extend(part);
        }
    }
    calls
}

/// A pair of one tree and one entry for each event, with four equal numbers.
fn plain_pair(nodes: Vec<Node>, units: u32) -> Pair {
    let entries = vec![same(units); count_events(&nodes)];
    Pair { number: 7, nodes, scores: vec![], entries }
}

/// P8's tree and sheet.
fn road_trip() -> Pair {
    let nodes = vec![Node::Event, Node::Event, Node::Event, Node::Or(vec![1, 2]), Node::And(vec![0, 3])];
    let entries = vec![same(800_000_000), same(100_000_000), same(400_000_000)];
    Pair { number: 1, nodes, scores: vec![], entries }
}

impl List {
    pub(super) fn held(&mut self, tree_length: usize, sheet_length: usize) {
        self.calls.push(Call::Held(State { tree_length, sheet_length }));
    }

    /// Empty stores, then stores of these lengths, and nothing held.
    pub(super) fn fresh(&mut self, tree_store: usize, sheet_store: usize) {
        self.calls.push(Call::Stores(0, 0));
        self.calls.push(Call::Stores(tree_store, sheet_store));
        self.held(0, 0);
    }

    fn hand_in(&mut self, tree: &[u8], sheet: &[u8]) {
        self.calls.push(Call::Tree(tree.to_vec()));
        self.calls.push(Call::Sheet(sheet.to_vec()));
    }

    /// Both files handed in to stores with a few bytes to spare.
    pub(super) fn holding(&mut self, tree: &[u8], sheet: &[u8]) {
        self.fresh(tree.len() + 2, sheet.len() + 3);
        self.hand_in(tree, sheet);
    }

    pub(super) fn holding_pair(&mut self, pair: &Pair) {
        self.holding(&pair.tree(), &pair.sheet());
    }

    pub(super) fn judge(&mut self, k: u32, n: u32) {
        self.calls.push(Call::Judge(Level { k, n }));
    }

    pub(super) fn question(&mut self, k: u32, n: u32, places: usize) {
        self.calls.push(Call::Question(Level { k, n }, [places; 3]));
    }

    /// A tree in a store that has room for the longest.
    fn lone_tree(&mut self, tree: &[u8]) {
        self.fresh(tree_file::file_length(tree_file::MOST_NODES), 0);
        self.calls.push(Call::Tree(tree.to_vec()));
    }

    fn lone_sheet(&mut self, sheet: &[u8]) {
        self.fresh(0, opinion_sheet::file_length(opinion_sheet::MOST_EVENTS));
        self.calls.push(Call::Sheet(sheet.to_vec()));
    }

    /// P1 to P12 of document 01.
    fn table(&mut self) {
        let two = |gate: fn(Vec<u16>) -> Node| vec![Node::Event, Node::Event, gate(vec![0, 1])];
        let p5 = Entry::Four([0, 1, 1, 2]);
        let pair = |nodes, scores: &[u8], entries| Pair { number: 7, nodes, scores: scores.to_vec(), entries };
        let experts = [15, 12, 10, 12, 5, 8];
        let rows = [
            (pair(two(Node::And), &[], vec![same(1), same(1)]), 1),
            (pair(two(Node::And), &[], vec![same(U), same(7)]), 1),
            (pair(two(Node::And), &[], vec![same(500_000_000), same(3)]), 1),
            (pair(two(Node::Or), &[], vec![same(1), same(1)]), 1),
            (pair(vec![Node::Event], &[], vec![p5.clone()]), 1),
            (pair(two(Node::And), &[], vec![p5.clone(), same(0)]), 1),
            (pair(two(Node::And), &[], vec![p5, same(1)]), 1),
            (road_trip(), 1),
            (pair(vec![Node::Event], &[2, 1], vec![Entry::Opinions(vec![2, 3])]), 2),
            (pair(vec![Node::Event], &[2, 1], vec![Entry::Opinions(vec![2, 3])]), 0),
            (pair(vec![Node::Event], &experts, vec![Entry::Opinions(vec![6, 5, 6, 4, 6, 4])]), 0),
            (pair(vec![Node::Event], &experts, vec![Entry::Opinions(vec![6, 5, 6, 4, 6, 4])]), 2),
        ];
        for (pair, k) in rows {
            self.holding_pair(&pair);
            self.question(k, 2, pair.nodes.len());
            self.question(k, 2, pair.nodes.len() + 2);
        }
    }

    /// A large pair at the levels where a cut is widest, narrowest and between, in slices that just suffice or spare.
    fn large(&mut self, pair: &Pair) {
        let nodes = pair.nodes.len();
        self.holding_pair(pair);
        for (k, n) in [(0, 1_000), (1_000, 1_000), (333, 1_000), (1, 3)] {
            self.question(k, n, nodes);
        }
        self.question(1, 1, 1_100);
        self.question(1, 1, nodes - 1);
    }

    fn tree_limits(&mut self) {
        let shapes: [fn(&mut Random) -> Vec<Node>; 3] = [
            |random| most_events(random, tree_file::MOST_NODES),
            |random| chain(random, tree_file::MOST_NODES),
            |random| comb(random, tree_file::MOST_NODES / 2),
        ];
        for shape in shapes {
            let nodes = shape(&mut self.random);
            let pair = lively_pair(&mut self.random, nodes);
            self.large(&pair);
        }
        let longest = plain_pair(most_events(&mut self.random, tree_file::MOST_NODES), 5).tree();
        for store in [longest.len() - 1, longest.len(), 7_200] {
            self.fresh(store, 0);
            self.calls.push(Call::Tree(longest.clone()));
        }
        for cut in [&longest[..longest.len() - 1], &longest[..9], &longest[..8], &longest[..0]] {
            self.lone_tree(cut);
        }
        self.lone_tree(&[&longest[..], &[0]].concat());
        let too_many = plain_pair(chain(&mut self.random, 1_025), 5).tree();
        self.lone_tree(&too_many);
        self.lone_tree(&too_many[..9]);
        self.gates_and_links();
    }

    fn gates_and_links(&mut self) {
        for inputs in [1, 15, 16, 17] {
            let nodes = one_gate(&mut self.random, inputs);
            let pair = any_pair(&mut self.random, nodes);
            self.holding_pair(&pair);
            self.question(1, 2, pair.nodes.len());
        }
        // A chain of four: its last link is 0, 1, 2 or 3 below its gate, or above it.
        for link in [3, 2, 1, 0, 4, 65_535] {
            let pair = plain_pair(chain(&mut self.random, 4), 9);
            let mut tree = pair.tree();
            write_16(&mut tree, tree_file::link_place(4, 2), link);
            self.holding(&tree, &pair.sheet());
            self.question(1, 2, 4);
        }
    }

    fn sheet_limits(&mut self) {
        for units in [0, 1, U - 1, U] {
            let pair = plain_pair(most_events(&mut self.random, tree_file::MOST_NODES), units);
            self.holding_pair(&pair);
            self.question(1, 2, pair.nodes.len());
        }
        let nodes = most_events(&mut self.random, tree_file::MOST_NODES);
        let entries = (0..count_events(&nodes)).map(|_| any_opinions(&mut self.random, 16)).collect();
        self.large(&Pair { number: 65_535, nodes, scores: vec![100; 16], entries });
        for events in [961, 1_024, 1_025] {
            let entries: Vec<Entry> = (0..events).map(|_| any_four(&mut self.random)).collect();
            let pair = Pair { number: 7, nodes: vec![Node::Event], scores: vec![], entries };
            self.lone_sheet(&pair.sheet());
            self.calls.push(Call::Stores(14, opinion_sheet::file_length(1_024)));
            self.calls.push(Call::Tree(pair.tree()));
            self.question(1, 2, 1);
        }
        self.short_sheets();
        self.experts();
    }

    fn short_sheets(&mut self) {
        let sheet = road_trip().sheet();
        for length in [0, 1, 25, 26, sheet.len() - 1] {
            self.lone_sheet(&sheet[..length]);
        }
        self.lone_sheet(&[&sheet[..], &[0]].concat());
        for store in [sheet.len() - 1, sheet.len()] {
            self.fresh(0, store);
            self.calls.push(Call::Sheet(sheet.clone()));
        }
    }

    /// Opinions with no expert, with sixteen of score 100 at every term, and past the last expert.
    fn experts(&mut self) {
        let one = |scores: &[u8], terms: &[u8]| {
            let entries = vec![Entry::Opinions(terms.to_vec())];
            Pair { number: 7, nodes: vec![Node::Event], scores: scores.to_vec(), entries }
        };
        self.holding_pair(&one(&[], &[]));
        self.holding_pair(&one(&[], &[1]));
        self.holding_pair(&one(&[], &[0, 0, 8]));
        for term in 1..=7 {
            self.holding_pair(&one(&[100; 16], &[term; 16]));
            for k in 0..=3 {
                self.question(k, 3, 1);
            }
        }
        for (scores, terms) in [
            (vec![1, 100], vec![0, 7]),
            (vec![1, 100], vec![0, 0]),
            (vec![1, 100], vec![1, 7, 1]),
            (vec![1, 101], vec![1, 7]),
            (vec![1, 0], vec![1, 7]),
            (vec![1, 100], vec![1, 8]),
            (vec![1; 16], (0..16).map(|expert| expert % 8).collect()),
        ] {
            self.holding_pair(&one(&scores, &terms));
            self.question(1, 3, 1);
        }
    }

    /// Each with a pair held and with nothing held: 13 comes before 21.
    fn level_limits(&mut self) {
        let levels = [
            (0, 1),
            (1, 1),
            (0, 1_000),
            (1_000, 1_000),
            (0, 0),
            (1, 0),
            (2, 1),
            (0, 1_001),
            (1_001, 1_001),
            (u32::MAX, 1),
        ];
        self.holding_pair(&road_trip());
        for (k, n) in levels.into_iter().chain([(1_001, 1_000), (0, u32::MAX), (u32::MAX, u32::MAX), (65_537, 65_537)])
        {
            self.judge(k, n);
            self.question(k, n, 5);
        }
        self.calls.push(Call::Drop);
        for (k, n) in levels {
            self.judge(k, n);
            self.question(k, n, 5);
        }
    }

    /// Every known fault of a file, twice, beside a held pair that stays.
    fn damaged_files(&mut self) {
        self.holding_pair(&road_trip());
        self.calls.push(Call::Stores(600, 800));
        for damage in TREE_DAMAGES.iter().chain(&TREE_DAMAGES) {
            let tree = damage(&mut self.random).tree;
            self.calls.push(Call::Tree(tree));
            self.judge(1, 2);
        }
        for damage in SHEET_DAMAGES.iter().chain(&SHEET_DAMAGES) {
            let sheet = damage(&mut self.random).sheet;
            self.calls.push(Call::Sheet(sheet));
            self.judge(1, 2);
        }
        self.question(1, 2, 5);
    }

    /// 20 to 25, each alone and before those that come after it.
    fn call_refusals(&mut self) {
        let pair = road_trip();
        let (tree, sheet) = (pair.tree(), pair.sheet());
        self.fresh(tree.len() - 1, sheet.len() - 1);
        self.hand_in(&tree, &sheet);
        self.question(1, 2, 5);
        self.calls.push(Call::Stores(tree.len(), sheet.len()));
        self.calls.push(Call::Sheet(sheet.clone()));
        self.question(1, 2, 5);
        self.calls.push(Call::Tree(tree.clone()));
        self.question(1, 2, 5);
        for short in 0..3 {
            for places in [0, 4] {
                let mut slices = [5; 3];
                slices[short] = places;
                self.calls.push(Call::Question(Level { k: 1, n: 2 }, slices));
            }
        }
        self.calls.push(Call::Question(Level { k: 1, n: 2 }, [5, 6, 7]));
        self.calls.push(Call::Drop);
        self.question(1, 2, 5);
        self.calls.push(Call::Tree(tree.clone()));
        self.question(1, 2, 5);
        for other in [Pair { number: 2, ..pair.clone() }, Pair { number: 257, ..pair.clone() }] {
            self.calls.push(Call::Sheet(other.sheet()));
            self.question(1, 2, 5);
            self.question(1, 2, 4);
        }
        let mut fewer = pair.clone();
        fewer.entries.pop();
        let mut more = pair.clone();
        more.entries.push(same(3));
        for other in [fewer, more] {
            self.fresh(tree.len(), 200);
            self.hand_in(&tree, &other.sheet());
            self.question(1, 2, 5);
        }
    }

    /// Each byte of both held files changed and changed back.
    fn changed_bytes(&mut self) {
        let pair = road_trip();
        let (tree, sheet) = (pair.tree(), pair.sheet());
        self.holding(&tree, &sheet);
        for (place, &byte) in tree.iter().enumerate() {
            let place = place as u32;
            for changed in [byte ^ 1, byte.wrapping_add(128)] {
                self.calls.push(Call::PokeTree(place, changed));
                self.question(1, 2, 5);
            }
            self.calls.push(Call::PokeTree(place, byte));
            self.judge(1, 2);
        }
        for (place, &byte) in sheet.iter().enumerate() {
            self.calls.push(Call::PokeSheet(place as u32, byte ^ 1));
            self.question(1, 2, 5);
            self.calls.push(Call::PokeSheet(place as u32, byte));
            self.judge(1, 2);
        }
        // Past the held files a byte changes nothing.
        self.calls.push(Call::PokeTree(tree.len() as u32, 1));
        self.calls.push(Call::PokeSheet(sheet.len() as u32, 1));
        self.question(1, 2, 5);
    }

    /// Lengths beyond the store and within it, and the same state with a longer store.
    fn changed_states(&mut self) {
        let pair = road_trip();
        let (tree, sheet) = (pair.tree(), pair.sheet());
        self.holding(&tree, &sheet);
        for tree_length in [0, 1, tree.len() - 1, tree.len(), tree.len() + 1, tree.len() + 2, tree.len() + 3, 1 << 31] {
            for sheet_length in [0, sheet.len() - 17, sheet.len(), sheet.len() + 3, sheet.len() + 4, u32::MAX as usize]
            {
                self.held(tree_length, sheet_length);
                self.question(1, 2, 5);
            }
        }
        self.held(tree.len(), sheet.len());
        for (tree_store, sheet_store) in [
            (tree.len() - 1, sheet.len()),
            (tree.len(), sheet.len() - 1),
            (tree.len(), sheet.len()),
            (0, 0),
            (7_200, 17_500),
        ] {
            self.calls.push(Call::Stores(tree_store, sheet_store));
            self.question(1, 2, 5);
        }
        self.hand_in(&tree, &sheet);
        self.question(1, 2, 5);
        self.calls.push(Call::Drop);
        self.calls.push(Call::Drop);
        self.held(tree.len(), sheet.len());
        self.question(1, 2, 5);
    }

    /// Each level of two pairs several times, in a random order.
    fn many_questions(&mut self) {
        let fuel = fuel_supply();
        self.levels_at_random(&fuel.tree(), &fuel.sheet(), 9, 100, 10);
        let seal = container_seal();
        self.levels_at_random(&seal.tree(), &seal.sheet(), 10, 50, 20);
    }

    fn levels_at_random(&mut self, tree: &[u8], sheet: &[u8], nodes: usize, n: u32, times: u32) {
        self.holding(tree, sheet);
        let mut levels: Vec<u32> = (0..times).flat_map(|_| 0..=n).collect();
        while !levels.is_empty() {
            let chosen = self.random.below(levels.len());
            self.question(levels.swap_remove(chosen), n, nodes);
        }
    }

    /// Pairs of every shape and style, and pairs with blind changes, each at three levels.
    fn generated_pairs(&mut self) {
        for index in 0..100 {
            let random = &mut Random::for_case(SEED + 1, index);
            self.printer_case(&valid_case(random, index).bytes);
        }
        for index in 0..200 {
            let random = &mut Random::for_case(SEED + 2, index);
            self.printer_case(&changed_input(random));
        }
        for index in 0..100 {
            let random = &mut Random::for_case(SEED + 3, index);
            let nodes = small_tree(random, 12);
            let pair = any_pair(random, nodes);
            self.holding_pair(&pair);
            self.question(random.below(11) as u32, 10, pair.nodes.len());
        }
    }

    /// The files of an input of the level printer, where it is whole.
    fn printer_case(&mut self, input: &[u8]) {
        let (n, length) = (read_16(input, 0) as u32, read_16(input, 2) as usize);
        if input.len() < INPUT_HEADER + length {
            return;
        }
        let (tree, sheet) = input[INPUT_HEADER..].split_at(length);
        self.holding(tree, sheet);
        let nodes = tree.len() / 7;
        self.question(0, n, nodes);
        self.question(n / 2, n, nodes);
        self.question(n, n, nodes + 1);
    }

    fn generated_lists(&mut self) {
        for index in 0..100 {
            let list = call_list(&mut Random::for_case(SEED + 4, index));
            self.fresh(0, 0);
            self.calls.extend(list.lines().map(|line| parse_call(line).expect("a line of a list")));
        }
    }

    /// A tree alone, since no sheet is needed, its count, and slices of exactly that many places and around it.
    fn sets_of(&mut self, nodes: Vec<Node>) {
        let count = set_count(&nodes);
        self.tree_alone(nodes);
        self.calls.push(Call::Count);
        let room = SET_ROOM as u64;
        match count {
            Some(count) if count <= room => {
                for places in [count - 1, count, (count + 1).min(room)] {
                    self.calls.push(Call::CutSets(places as usize));
                }
            }
            _ => self.calls.push(Call::CutSets(SET_ROOM)),
        }
    }

    fn tree_alone(&mut self, nodes: Vec<Node>) {
        let tree = plain_pair(nodes, 5).tree();
        self.fresh(tree.len() + 2, 0);
        self.calls.push(Call::Tree(tree));
    }

    /// The least trees, the most events, the largest counts, the deepest chains.
    fn set_limits(&mut self) {
        self.sets_of(vec![Node::Event]);
        let kinds: [(GateOf, GateOf); 2] = [(Node::And, Node::Or), (Node::Or, Node::And)];
        for (gate, other) in kinds {
            for inputs in [1, 2, 16] {
                let mut nodes = vec![Node::Event; inputs];
                nodes.push(gate((0..inputs as u16).collect()));
                self.sets_of(nodes);
            }
            // Events 31, 32 and 63 alone or with all others.
            for events in [32, 33, 63, 64, 65] {
                self.sets_of(two_levels(gate, gate, &[events]));
            }
            // 64 events under one root, sixteen to a gate: 65,536 sets or 4.
            self.sets_of(two_levels(gate, other, &[16; 4]));
        }
        for nodes in [road_trip().nodes, fuel_supply().nodes, container_seal().nodes] {
            self.sets_of(nodes);
        }
        // 4,095, 4,096 and 4,097 sets.
        self.sets_of(and_of_ors(&[3, 3, 5, 7, 13]));
        self.sets_of(and_of_ors(&[16; 3]));
        let mut nodes = and_of_ors(&[16; 3]);
        let below = nodes.len() as u16 - 1;
        nodes.extend([Node::Event, Node::Or(vec![below, below + 1])]);
        self.sets_of(nodes);
        // 2 to the 32nd, 3 to the 21st, and the most that 64 events can have.
        self.sets_of(and_of_ors(&[4; 16]));
        self.sets_of(and_of_ors(&[3; 21]));
        self.sets_of(and_of_ors(&[&[4][..], &[3; 20]].concat()));
        // A set like what the slice held before.
        self.sets_of(with_set(SET_FILL));
        let longest = chain(&mut self.random, tree_file::MOST_NODES);
        self.sets_of(longest);
        let chained = under_gates(&mut self.random, and_of_ors(&[2, 3]), 900);
        self.sets_of(chained);
        for nodes in [950, tree_file::MOST_NODES] {
            let nodes = stretched(&mut self.random, nodes);
            self.sets_of(nodes);
        }
        let deepest = comb(&mut self.random, 64);
        self.sets_of(deepest);
        for nodes in [most_events(&mut self.random, tree_file::MOST_NODES), comb(&mut self.random, 512)] {
            self.sets_of(nodes);
        }
    }

    fn count_and_list(&mut self, places: usize) {
        self.calls.push(Call::Count);
        self.calls.push(Call::CutSets(places));
    }

    /// 21, 23, 26 and 27, each before those that come after it; 22 is none of them.
    fn set_refusals(&mut self) {
        let pair = road_trip();
        let (tree, sheet) = (pair.tree(), pair.sheet());
        self.fresh(0, 0);
        self.count_and_list(0);
        self.count_and_list(3);
        self.fresh(tree.len(), sheet.len());
        self.calls.push(Call::Sheet(sheet.clone()));
        self.count_and_list(2);
        self.calls.push(Call::Tree(tree.clone()));
        for places in 0..5 {
            self.calls.push(Call::CutSets(places));
        }
        self.calls.push(Call::PokeSheet(0, 0));
        self.count_and_list(2);
        self.calls.push(Call::Drop);
        self.count_and_list(2);
        // Too many events, held bytes that are no file, and a slice with no places, at once and one by one.
        let many = two_levels(Node::Or, Node::And, &[16, 16, 16, 17]);
        let length = plain_pair(many.clone(), 5).tree().len();
        self.tree_alone(many);
        self.count_and_list(0);
        self.count_and_list(4);
        self.calls.push(Call::PokeTree(0, 0));
        self.count_and_list(0);
        self.count_and_list(4);
        self.held(0, 0);
        self.count_and_list(0);
        self.held(length, 0);
        self.calls.push(Call::PokeTree(0, b'F'));
        self.calls.push(Call::Stores(length - 1, 0));
        self.count_and_list(0);
        // 64 events: the same tree without one of them.
        self.tree_alone(two_levels(Node::Or, Node::And, &[16; 4]));
        self.count_and_list(0);
        self.calls.push(Call::PokeTree(2, 0));
        self.count_and_list(3);
    }

    /// Each byte of the held tree changed and changed back, and held lengths within the store and beyond it.
    fn set_changes(&mut self) {
        let tree = road_trip().tree();
        self.tree_alone(road_trip().nodes);
        self.held(tree.len(), 0);
        for (place, &byte) in tree.iter().enumerate() {
            for changed in [byte ^ 1, byte ^ 3] {
                self.calls.push(Call::PokeTree(place as u32, changed));
                self.calls.push(Call::CutSets(4));
            }
            self.calls.push(Call::PokeTree(place as u32, byte));
        }
        for tree_length in [1, tree.len() - 1, tree.len() + 1, tree.len() + 2, tree.len() + 3, u32::MAX as usize] {
            for sheet_length in [0, u32::MAX as usize] {
                self.held(tree_length, sheet_length);
                self.count_and_list(2);
            }
        }
        self.held(tree.len(), u32::MAX as usize);
        for store in [tree.len() - 1, tree.len(), 0, 7_200] {
            self.calls.push(Call::Stores(store, 0));
            self.count_and_list(2);
        }
    }

    fn generated_sets(&mut self) {
        for index in 0..24 {
            let random = &mut Random::for_case(SEED + 5, index);
            let nodes = small_tree(random, 40);
            self.sets_of(nodes);
        }
        for index in 0..16 {
            let list = set_list(&mut Random::for_case(SEED + 6, index));
            self.fresh(0, 0);
            self.calls.extend(list.lines().map(|line| parse_call(line).expect("a line of a list")));
        }
    }
}
