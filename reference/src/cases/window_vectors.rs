//! Questions at an hour among the stored calls: the edges of windows, each limit of a book and one past it, each
//! refusal at each kind of place and in its order, buffers and slices around their least length, changed bytes, and the
//! largest tree.

use super::books::{any_book, hour_near};
use super::trees::{chain, most_events};
use super::valid::{lively_pair, Pair};
use super::vector_list::{List, SEED};
use crate::calls::Call;
use crate::cut::Level;
use crate::describe::{book_bytes, fractions, Entry, Node};
use crate::opinion_sheet::{entry_place, inside_entry, NUMBER_PLACE};
use crate::random::Random;
use crate::tree_file;
use crate::vectors::BUFFER_ROOM;
use crate::work_windows::{Window, LARGEST_BOOK, MOST_WINDOWS, WINDOW};

fn window(event: u16, first: u32, end: u32) -> Window {
    Window { event, first, end }
}

/// An acceptable window of the first event.
const GOOD: Window = Window { event: 0, first: 5, end: 9 };
/// In that window.
const HOUR: u32 = 7;
const LEVEL: Level = Level { k: 1, n: 3 };

/// Three events, one of each kind of entry.
pub(super) fn three_kinds() -> Pair {
    let nodes = vec![Node::Event, Node::Event, Node::Event, Node::Or(vec![1, 2]), Node::And(vec![0, 3])];
    let numbers = Entry::Four([100_000_000, 200_000_001, 200_000_002, 300_000_000]);
    Pair {
        number: 7,
        nodes,
        scores: vec![5],
        entries: vec![numbers, Entry::Opinions(vec![2]), fractions(7, [1, 2, 2, 4])],
    }
}

impl List {
    pub(super) fn work_windows(&mut self) {
        self.edges_of_windows();
        self.entries_in_windows();
        self.lengths_of_books();
        self.faulty_windows();
        self.lent_lengths();
        self.order_of_an_hour_question();
        self.changed_between_hours();
        self.generated_books();
        self.largest_with_full_books();
    }

    pub(super) fn book(&mut self, windows: &[Window]) {
        self.calls.push(Call::Book(book_bytes(windows)));
    }

    pub(super) fn hour_question(&mut self, hour: u32, buffer: usize, level: Level, places: [usize; 3]) {
        self.calls.push(Call::Hour(hour, buffer));
        self.calls.push(Call::HourQuestion(level, places));
    }

    /// With a buffer and slices that just suffice.
    fn at_hours(&mut self, pair: &Pair, hours: &[u32]) {
        for &hour in hours {
            self.hour_question(hour, pair.sheet().len(), LEVEL, [pair.nodes.len(); 3]);
        }
    }

    /// 29 at whatever hour.
    fn refused_book(&mut self, pair: &Pair, windows: &[Window]) {
        self.book(windows);
        self.at_hours(pair, &[HOUR]);
    }

    /// The hours before, at and behind both edges, at the first and the last hours there are, and going back.
    fn edges_of_windows(&mut self) {
        let pair = three_kinds();
        self.holding_pair(&pair);
        self.at_hours(&pair, &[0]);
        self.book(&[window(0, 10, 20)]);
        self.at_hours(&pair, &[9, 10, 19, 20, 10, 9]);
        self.book(&[window(0, 0, 1)]);
        self.at_hours(&pair, &[0, 1]);
        self.book(&[window(0, 0, u32::MAX)]);
        self.at_hours(&pair, &[u32::MAX - 1, u32::MAX]);
        self.book(&[window(0, u32::MAX - 1, u32::MAX)]);
        self.at_hours(&pair, &[u32::MAX - 2, u32::MAX - 1, u32::MAX]);
        // Each byte of an hour.
        self.book(&[window(0, 0x0102_0304, 0x0203_0405)]);
        self.at_hours(&pair, &[0x0102_0303, 0x0102_0304, 0x0203_0404, 0x0203_0405]);
    }

    /// Each kind of entry alone and all at once, overlapping and repeated.
    fn entries_in_windows(&mut self) {
        let pair = three_kinds();
        for event in 0..3 {
            self.book(&[window(event, 5, 9)]);
            self.at_hours(&pair, &[HOUR]);
        }
        self.book(&[0, 2, 1].map(|event| window(event, 5, 9)));
        self.at_hours(&pair, &[HOUR]);
        self.book(&[window(0, 10, 20), window(1, 12, 13), window(0, 5, 15), window(0, 10, 20)]);
        self.at_hours(&pair, &[12, 14, 15, 20]);
    }

    /// No window, one, 255 and 256, of which the last alone is open; and lengths that are no book's.
    fn lengths_of_books(&mut self) {
        let pair = three_kinds();
        self.book(&[]);
        self.at_hours(&pair, &[HOUR]);
        let full = [vec![window(1, 3, 5); MOST_WINDOWS - 1], vec![window(2, 5, 6)]].concat();
        self.book(&full[1..]);
        self.at_hours(&pair, &[5]);
        self.book(&full);
        self.at_hours(&pair, &[5, 6, 3]);
        let longer = book_bytes(&[full, vec![GOOD]].concat());
        for length in [1, WINDOW - 1, WINDOW + 1, LARGEST_BOOK - 1, LARGEST_BOOK + 1, LARGEST_BOOK + WINDOW] {
            self.calls.push(Call::Book(longer[..length].to_vec()));
            self.at_hours(&pair, &[HOUR]);
        }
        // All windows are faulty too.
        self.refused_book(&pair, &[window(3, 5, 5); MOST_WINDOWS + 1]);
        self.calls.push(Call::Book(book_bytes(&[window(3, 5, 5)])[..WINDOW - 1].to_vec()));
        self.at_hours(&pair, &[HOUR]);
    }

    /// Events past the last, and ends not after their start, in the first, a middle and the last window.
    fn faulty_windows(&mut self) {
        let pair = three_kinds();
        for event in [3, 256, u16::MAX] {
            self.refused_book(&pair, &[window(event, 5, 9)]);
        }
        for (first, end) in [(5, 5), (5, 4), (0, 0), (u32::MAX, u32::MAX), (0x0100_0000, 0x00ff_ffff)] {
            self.refused_book(&pair, &[window(0, first, end)]);
        }
        let before_last = [GOOD; MOST_WINDOWS - 1];
        for (event, end) in [(3, 9), (2, 5), (3, 5)] {
            let faulty = window(event, 5, end);
            self.refused_book(&pair, &[GOOD, faulty, GOOD]);
            self.refused_book(&pair, &[&before_last[..], &[faulty]].concat());
        }
        // Two faulty windows, either first, and one with both faults.
        self.refused_book(&pair, &[window(0, 5, 5), window(3, 5, 9)]);
        self.refused_book(&pair, &[window(3, 5, 9), window(0, 5, 5)]);
        self.refused_book(&pair, &[window(3, 5, 5), GOOD]);
    }

    /// Buffers around the sheet's length, and slices around the number of nodes: 30 before 25.
    fn lent_lengths(&mut self) {
        let pair = three_kinds();
        let (sheet, nodes) = (pair.sheet().len(), pair.nodes.len());
        self.book(&[GOOD]);
        for buffer in [0, sheet - 1, sheet + 1, BUFFER_ROOM] {
            self.hour_question(HOUR, buffer, LEVEL, [nodes; 3]);
        }
        for short in 0..3 {
            let mut places = [nodes; 3];
            places[short] = nodes - 1;
            self.hour_question(HOUR, sheet, LEVEL, places);
        }
        self.hour_question(HOUR, sheet, LEVEL, [0; 3]);
        self.hour_question(HOUR, sheet - 1, LEVEL, [nodes - 1; 3]);
        self.hour_question(HOUR, sheet + 2, LEVEL, [nodes + 1, nodes + 2, nodes + 3]);
    }

    /// Every fault at once, taken away one by one from the first.
    fn order_of_an_hour_question(&mut self) {
        let pair = three_kinds();
        let (tree, sheet) = (pair.tree(), pair.sheet());
        let faulty = [window(0, 5, 5), window(3, 5, 5)];
        let longer = [book_bytes(&faulty), vec![0]].concat();
        self.held(0, 0);
        self.calls.extend([Call::Book(longer), Call::PokeTree(0, 0), Call::PokeSheet(0, 0)]);
        self.calls.push(Call::PokeSheet(NUMBER_PLACE as u32, 8));
        let ask = |list: &mut List, level: Level| {
            list.hour_question(HOUR, sheet.len() - 1, level, [pair.nodes.len() - 1; 3]);
        };
        for (k, n) in [(4, 3), (0, 0), (0, 1_001)] {
            ask(self, Level { k, n });
        }
        ask(self, LEVEL);
        self.held(tree.len(), 0);
        ask(self, LEVEL);
        self.held(tree.len(), sheet.len());
        ask(self, LEVEL);
        self.calls.push(Call::PokeTree(0, tree[0]));
        ask(self, LEVEL);
        self.calls.push(Call::PokeSheet(0, sheet[0]));
        ask(self, LEVEL);
        self.calls.push(Call::PokeSheet(NUMBER_PLACE as u32, 7));
        for windows in [&faulty[..], &[GOOD, faulty[1]], &[GOOD, faulty[0]], &[GOOD]] {
            ask(self, LEVEL);
            self.book(windows);
        }
        ask(self, LEVEL);
        self.hour_question(HOUR, sheet.len(), LEVEL, [pair.nodes.len() - 1; 3]);
        self.at_hours(&pair, &[HOUR]);
        for level in [Level { k: 0, n: 1 }, Level { k: 1_000, n: 1_000 }] {
            self.hour_question(HOUR, sheet.len(), level, [pair.nodes.len(); 3]);
        }
    }

    /// A held byte changed between two questions, in and outside of an open window: the held sheet is judged as it
    /// stands, and its changed numbers count where no window is open.
    fn changed_between_hours(&mut self) {
        let pair = three_kinds();
        let sheet = pair.sheet();
        self.book(&[GOOD]);
        for (place, byte) in [(inside_entry(0, 0), 7), (entry_place(0), 3), (inside_entry(2, 3), 0), (sheet.len(), 1)] {
            self.calls.push(Call::PokeSheet(place as u32, byte));
            self.at_hours(&pair, &[HOUR, 9]);
            self.calls.push(Call::PokeSheet(place as u32, sheet.get(place).copied().unwrap_or(2)));
        }
        // Held lengths of no file and beyond the store.
        let (tree, sheet) = (pair.tree().len(), sheet.len());
        for (tree_length, sheet_length) in [(tree - 1, sheet), (tree, sheet + 3), (tree, sheet + 4)] {
            self.held(tree_length, sheet_length);
            self.at_hours(&pair, &[HOUR]);
        }
        self.held(tree, sheet);
        // The byte behind the held sheet does not come to the buffer.
        self.hour_question(HOUR, sheet + 3, LEVEL, [pair.nodes.len(); 3]);
    }

    fn generated_books(&mut self) {
        let pair = three_kinds();
        for index in 0..12 {
            let random = &mut Random::for_case(SEED + 9, index);
            let windows = any_book(random, pair.entries.len());
            self.book(&windows);
            self.at_hours(&pair, &[hour_near(random, &windows)]);
        }
    }

    /// 256 windows on as many of 960 events, and on the one event of the longest chain.
    fn largest_with_full_books(&mut self) {
        let shapes: [fn(&mut Random, usize) -> Vec<Node>; 2] = [most_events, chain];
        for shape in shapes {
            let nodes = shape(&mut self.random, tree_file::MOST_NODES);
            let pair = lively_pair(&mut self.random, nodes);
            let events = pair.entries.len();
            let window = |index: usize| window((events - 1 - 3 * index % events) as u16, 5, 6 + index as u32);
            self.holding_pair(&pair);
            self.book(&(0..MOST_WINDOWS).map(window).collect::<Vec<_>>());
            self.at_hours(&pair, &[5, 260]);
        }
        let places = [tree_file::MOST_NODES, tree_file::MOST_NODES - 1, tree_file::MOST_NODES];
        self.hour_question(5, BUFFER_ROOM, LEVEL, places);
    }
}
