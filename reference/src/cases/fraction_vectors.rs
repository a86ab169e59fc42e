//! Fraction entries among the stored calls: fractions worked out by hand, each limit and one past it, each fault
//! of 28 at each kind of place, changed bytes, the largest sheets, and generated pairs and lists.

use super::call_lists::fraction_list;
use super::fraction_damage::{fill_to_most, FRACTION_FAULTS};
use super::fraction_entries::{any_fractions, fractions_beside, lively_fractions};
use super::spot::SPOTS;
use super::trees::most_events;
use super::valid::{small_tree, Pair};
use super::vector_list::{List, SEED};
use crate::calls::{parse_call, Call};
use crate::describe::{fractions, same, Entry, Node};
use crate::opinion_sheet::{self, entry_place, last_place, LARGEST_DENOMINATOR};
use crate::random::Random;
use crate::tree_file;

/// A denominator and its numerators, n, and each k of n that is asked.
type Row = (u32, [u32; 4], u32, &'static [u32]);

const BY_HAND: [Row; 12] = [
    (1_250, [3; 4], 2, &[1]),
    (3, [1; 4], 2, &[1]),
    (1_000_000, [1; 4], 1, &[0]),
    (1_000_000, [999_999; 4], 1, &[1]),
    (1, [1; 4], 1_000, &[1]),
    (1, [0; 4], 2, &[1]),
    (1_000_000, [1_000_000; 4], 1_000, &[0]),
    (3, [0, 1, 1, 2], 3, &[0, 1, 2, 3]),
    (6, [1, 2, 4, 5], 2, &[0, 1, 2]),
    (999_983, [1, 1, 999_982, 999_983], 1_000, &[0, 1, 999, 1_000]),
    (0x01_0000, [0x00_0100, 0x00_0101, 0x00_ff00, 0x01_0000], 1, &[0, 1]),
    (1_000_000, [1, 499_999, 999_999, 1_000_000], 1_000, &[0, 333, 1_000]),
];

/// A pair of one tree and a sheet for it, with one expert.
fn pair_of(nodes: Vec<Node>, entries: Vec<Entry>) -> Pair {
    Pair { number: 7, nodes, scores: vec![1], entries }
}

fn one_event(entry: Entry) -> Pair {
    pair_of(vec![Node::Event], vec![entry])
}

fn two_events(entries: [Entry; 2]) -> Pair {
    pair_of(vec![Node::Event, Node::Event, Node::Or(vec![0, 1])], entries.to_vec())
}

impl List {
    pub(super) fn fraction_entries(&mut self) {
        self.fractions_by_hand();
        self.fraction_limits();
        self.fractions_and_others();
        self.fraction_faults();
        self.fraction_bytes();
        self.largest_fractions();
    }

    /// One event; each sheet takes the place of the one before.
    fn fractions_by_hand(&mut self) {
        self.holding_pair(&one_event(same(5)));
        for (denominator, numerators, n, levels) in BY_HAND {
            self.calls.push(Call::Sheet(one_event(fractions(denominator, numerators)).sheet()));
            for &k in levels {
                self.question(k, n, 1);
            }
        }
    }

    /// Each rule of 28 one past its limit, beside a held pair that stays.
    fn fraction_limits(&mut self) {
        let refused = [
            (0, [0; 4], 0),
            (LARGEST_DENOMINATOR + 1, [0; 4], 0),
            (0xff_ffff, [0; 4], 0),
            (1_250, [4, 3, 3, 6], 0),
            (1_250, [1, 4, 3, 6], 0),
            (1_250, [1, 3, 7, 6], 0),
            (1_250, [1, 3, 3, 1_251], 0),
            (1_250, [1, 3, 3, 6], 1),
            (1_250, [1, 3, 3, 6], 128),
            (1_250, [1, 3, 3, 6], 255),
            (0, [1, 0, 0, 0], 1),
        ];
        self.holding_pair(&one_event(fractions(1_250, [1, 3, 3, 6])));
        for (denominator, numerators, last) in refused {
            let entry = Entry::Fractions { denominator, numerators, last };
            self.calls.push(Call::Sheet(one_event(entry).sheet()));
            self.judge(1, 2);
        }
        self.question(1, 2, 1);
    }

    /// 28 before and behind 6, 10, 12 and 28, and behind 7.
    fn fractions_and_others(&mut self) {
        let (good, bad) = (fractions(1_250, [1, 3, 3, 6]), fractions(1_250, [1, 3, 3, 1_251]));
        let (numbers, silent) = (Entry::Four([2, 1, 1, 1]), Entry::Opinions(vec![]));
        self.holding_pair(&two_events([good.clone(), Entry::Opinions(vec![2])]));
        for other in [numbers, silent, good.clone(), bad.clone()] {
            self.calls.push(Call::Sheet(two_events([bad.clone(), other.clone()]).sheet()));
            self.calls.push(Call::Sheet(two_events([other, bad.clone()]).sheet()));
        }
        for unknown in [0, 1] {
            for entries in [[bad.clone(), bad.clone()], [good.clone(), bad.clone()], [bad.clone(), good.clone()]] {
                let mut sheet = two_events(entries).sheet();
                sheet[entry_place(unknown)] = 3;
                self.calls.push(Call::Sheet(sheet));
            }
        }
        let mut sheet = two_events([bad, good]).sheet();
        sheet[opinion_sheet::SCORES_PLACE] = 0;
        self.calls.push(Call::Sheet(sheet));
        self.question(1, 2, 3);
    }

    /// Each fault at the first, the middle and the last of five entries, beside a held pair that stays.
    fn fraction_faults(&mut self) {
        let nodes = [vec![Node::Event; 5], vec![Node::Or(vec![0, 1, 2, 3, 4])]].concat();
        let entries = [fractions(1_250, [3; 4]), same(500_000_000), Entry::Opinions(vec![4])];
        let entries = [&entries[..], &[fractions(3, [0, 1, 1, 2]), fractions(1_000_000, [1; 4])]].concat();
        let pair = pair_of(nodes, entries);
        self.holding_pair(&pair);
        for fault in FRACTION_FAULTS {
            for spot in SPOTS {
                let mut faulty = pair.clone();
                faulty.entries[spot.of(5)] = fault(&mut self.random);
                self.calls.push(Call::Sheet(faulty.sheet()));
            }
            self.judge(1, 2);
        }
        self.question(1, 2, 6);
    }

    /// Each byte of a held fraction entry changed and changed back.
    fn fraction_bytes(&mut self) {
        let sheet = one_event(fractions(0x0c_0c0c, [0x02_0202, 0x04_0404, 0x06_0606, 0x08_0808])).sheet();
        self.holding(&one_event(same(5)).tree(), &sheet);
        for (place, &byte) in sheet.iter().enumerate().skip(entry_place(0)) {
            self.calls.push(Call::PokeSheet(place as u32, byte ^ 1));
            self.question(1, 3, 1);
            self.calls.push(Call::PokeSheet(place as u32, byte.wrapping_add(128)));
            self.judge(1, 3);
            self.calls.push(Call::PokeSheet(place as u32, byte));
        }
        self.question(1, 3, 1);
    }

    /// 960 entries of the largest tree, and 1,024 with and without a fault in the last.
    fn largest_fractions(&mut self) {
        let nodes = most_events(&mut self.random, tree_file::MOST_NODES);
        let mut pair = lively_fractions(&mut self.random, nodes, 0);
        let places = pair.nodes.len();
        let (last, sheet) = (last_place(pair.entries.len() - 1), pair.sheet());
        self.holding(&pair.tree(), &sheet);
        self.question(333, 1_000, places);
        self.calls.push(Call::PokeSheet(last as u32, 1));
        self.question(333, 1_000, places);
        self.calls.push(Call::PokeSheet(last as u32, sheet[last]));
        self.question(1_000, 1_000, places);
        fill_to_most(&mut self.random, &mut pair);
        self.calls.push(Call::Stores(pair.tree().len(), opinion_sheet::file_length(opinion_sheet::MOST_EVENTS)));
        *pair.entries.last_mut().expect("1,024 entries") = fractions(3, [0, 1, 1, 4]);
        self.calls.push(Call::Sheet(pair.sheet()));
        self.judge(1, 2);
        *pair.entries.last_mut().expect("1,024 entries") = any_fractions(&mut self.random);
        self.calls.push(Call::Sheet(pair.sheet()));
        self.judge(1, 2);
    }

    /// Pairs with entries of all three kinds, each at a level, and lists of calls.
    pub(super) fn generated_fractions(&mut self) {
        for index in 0..8 {
            let random = &mut Random::for_case(SEED + 7, index);
            let nodes = small_tree(random, 10);
            let pair = fractions_beside(random, nodes);
            self.holding_pair(&pair);
            self.question(random.below(8) as u32, 7, pair.nodes.len());
        }
        for index in 0..3 {
            let list = fraction_list(&mut Random::for_case(SEED + 8, index));
            self.fresh(0, 0);
            self.calls.extend(list.lines().map(|line| parse_call(line).expect("a line of a list")));
        }
    }
}
