//! A list of calls, and every answer with the state, the stores and the slices after it.
//!
//! One call or setting a line, words parted by one space, each line ended by a line feed. Numbers are decimal and
//! below 2^32. HEX is two digits a byte, or `-` for no bytes. At first both stores, the book and the buffer are empty,
//! the hour is 0 and nothing is held.
//!
//!   stores T S         the tree store gets T bytes and the sheet store S; bytes there stay, new ones are ee
//!   poke tree I B      byte I of the tree store becomes B, and `poke sheet I B` likewise
//!   state T S          the held lengths become T and S, 0 for nothing held
//!   book HEX           the book of work windows becomes HEX
//!   hour H B           the hour becomes H, and the buffer that an hour question is lent gets B bytes
//!   tree HEX           hand in a tree
//!   sheet HEX          hand in a sheet
//!   drop               drop both
//!   judge K N          judge level K of N: refusals 13 and 21 to 24
//!   question K N L U M question level K of N, with work slices of L, U and M places
//!   count              count the minimal cut sets of the held tree: refusals 21, 23 and 26
//!   cut-sets P         list them into a slice of P places: these, and 27
//!   hour-question K N L U M    a question at the hour, by the book and with the buffer
//!
//! The first five are settings and print nothing. A question's slices hold 4000000001, 4000000002 and 238 at every
//! place before it, a list's slice 17216961135462248174 (ee in every byte), and the buffer ee. Store, buffer and slice
//! lengths are at most 65536. Each call prints its answer, one of
//!
//!   accepted
//!   dropped
//!   nodes N events E
//!   lower UNITS MARK upper UNITS MARK events E
//!   cut sets COUNT
//!   refused R at P
//!
//! where MARK is `=` for exact and `~` for not, and then all that there is after it:
//!
//!   state T S
//!   tree HEX
//!   sheet HEX
//!   buffer HEX         after an hour question alone
//!   lower UNITS ...    these three after either question; `lower` and nothing more for a slice of 0 places
//!   upper UNITS ...
//!   marks BYTE ...
//!   sets P SUM SQUARES left LEFT    after a list alone
//!
//! The last does not depend on the order of the sets. SUM is the sum of the sets below the count, SQUARES that of their
//! squares, both modulo 4294967291, and LEFT how many places from the count on still hold what they held before. Where
//! the list is refused, both sums are 0 and LEFT counts all places.
//!
//! In the short form a store of more than 8 bytes is printed as `tree LENGTH FIRST..LAST CHECKSUM`, its first and last
//! byte in hex, and a slice of more than 8 places as `lower LENGTH FIRST..LAST CHECKSUM`. All that there is after an
//! hour question is then one line, `after HELD LENT`: HELD is the checksum of four numbers, both held lengths and the
//! checksums of both stores, and LENT that of the checksums of the buffer and the three slices.
//!
//! A line that is none of these ends the list: `line I`, with I counted from 1, is the last line printed.

use crate::cut::Level;
use crate::cut_sets::{count_sets, list_sets};
use crate::evaluation::WorkSlices;
use crate::hex::{hex_text, parse_hex};
use crate::levels::{end_text, refusal_line};
use crate::monitor::{drop_both, hand_in_sheet, hand_in_tree, judge, question, Answer, State, Stores};
use crate::refusal::Refusal;
use crate::work_windows::{question_at_hour, Plan};
use std::fmt::Display;

pub const STORE_FILL: u8 = 0xee;
pub const LOWER_FILL: u32 = 4_000_000_001;
pub const UPPER_FILL: u32 = 4_000_000_002;
pub const MARK_FILL: u8 = 238;
pub const SET_FILL: u64 = 0xeeee_eeee_eeee_eeee;
pub const MOST_PLACES: usize = 65_536;
/// In the short form a store or a slice of more places than this is printed by its ends.
pub const MOST_WHOLE: usize = 8;
/// The greatest prime below 2^32: sums that are printed are taken modulo it.
const PRIME: u64 = 4_294_967_291;

/// A setting or a call, as a line says it.
#[derive(Clone, PartialEq, Eq, Debug)]
pub enum Call {
    Stores(usize, usize),
    PokeTree(u32, u8),
    PokeSheet(u32, u8),
    Held(State),
    Book(Vec<u8>),
    /// The hour, and the bytes of the buffer.
    Hour(u32, usize),
    Tree(Vec<u8>),
    Sheet(Vec<u8>),
    Drop,
    Judge(Level),
    /// The level and the places of the lower, upper and mark slices.
    Question(Level, [usize; 3]),
    Count,
    /// The places of the slice.
    CutSets(usize),
    /// As a question.
    HourQuestion(Level, [usize; 3]),
}

/// How stores and slices are printed: all of them, or a long one by its ends and its checksum.
#[derive(Clone, Copy, PartialEq, Eq, Debug)]
pub enum Form {
    Whole,
    Short,
}

impl Form {
    /// The lines for a state, and for a tree and a sheet in their stores or buffers.
    pub fn after(self, state: State, tree: &[u8], sheet: &[u8]) -> String {
        let State { tree_length, sheet_length } = state;
        let (tree, sheet) = (self.store_text(tree), self.store_text(sheet));
        format!("state {tree_length} {sheet_length}\ntree {tree}\nsheet {sheet}\n")
    }

    fn is_short<T>(self, places: &[T]) -> bool {
        self == Form::Short && places.len() > MOST_WHOLE
    }

    fn store_text(self, store: &[u8]) -> String {
        if !self.is_short(store) {
            return hex_text(store);
        }
        let (first, last) = (store[0], store[store.len() - 1]);
        format!("{} {first:02x}..{last:02x} {}", store.len(), checksum(store))
    }
}

/// What a list of calls works on, and how it is printed.
pub struct Desk {
    form: Form,
    state: State,
    tree_store: Vec<u8>,
    sheet_store: Vec<u8>,
    book: Vec<u8>,
    hour: u32,
    /// The length of the buffer, which is a fresh one at each hour question.
    buffer: usize,
}

/// The work slices of a question.
struct Slices {
    lower: Vec<u32>,
    upper: Vec<u32>,
    marks: Vec<u8>,
}

impl Slices {
    fn new([lower, upper, marks]: [usize; 3]) -> Slices {
        Slices { lower: vec![LOWER_FILL; lower], upper: vec![UPPER_FILL; upper], marks: vec![MARK_FILL; marks] }
    }

    fn lent(&mut self) -> WorkSlices<'_> {
        WorkSlices { lower: &mut self.lower, upper: &mut self.upper, marks: &mut self.marks }
    }
}

/// The printed text, and whether every line was understood.
pub fn run_calls(list: &str) -> (String, bool) {
    let mut desk = Desk::new(Form::Whole);
    let mut text = String::new();
    for (index, line) in list.split_terminator('\n').enumerate() {
        match parse_call(line).and_then(|call| desk.run(&call)) {
            Some(answer) => text.push_str(&answer),
            None => {
                text.push_str(&format!("line {}\n", index + 1));
                return (text, false);
            }
        }
    }
    (text, true)
}

/// The call that a line says, or nothing where it is not understood.
pub fn parse_call(line: &str) -> Option<Call> {
    let words: Vec<&str> = line.split(' ').collect();
    Some(match *words.as_slice() {
        ["stores", tree, sheet] => Call::Stores(places(tree)?, places(sheet)?),
        ["poke", "tree", place, byte] => Call::PokeTree(number(place)?, u8::try_from(number(byte)?).ok()?),
        ["poke", "sheet", place, byte] => Call::PokeSheet(number(place)?, u8::try_from(number(byte)?).ok()?),
        ["state", tree, sheet] => {
            Call::Held(State { tree_length: number(tree)? as usize, sheet_length: number(sheet)? as usize })
        }
        ["book", hex] => Call::Book(parse_hex(hex)?),
        ["hour", hour, buffer] => Call::Hour(number(hour)?, places(buffer)?),
        ["tree", hex] => Call::Tree(parse_hex(hex)?),
        ["sheet", hex] => Call::Sheet(parse_hex(hex)?),
        ["drop"] => Call::Drop,
        ["judge", k, n] => Call::Judge(Level { k: number(k)?, n: number(n)? }),
        ["question", k, n, lower, upper, marks] => {
            Call::Question(Level { k: number(k)?, n: number(n)? }, [places(lower)?, places(upper)?, places(marks)?])
        }
        ["count"] => Call::Count,
        ["cut-sets", sets] => Call::CutSets(places(sets)?),
        ["hour-question", k, n, lower, upper, marks] => {
            Call::HourQuestion(Level { k: number(k)?, n: number(n)? }, [places(lower)?, places(upper)?, places(marks)?])
        }
        _ => return None,
    })
}

impl Desk {
    pub fn new(form: Form) -> Desk {
        Desk {
            form,
            state: State::default(),
            tree_store: Vec::new(),
            sheet_store: Vec::new(),
            book: Vec::new(),
            hour: 0,
            buffer: 0,
        }
    }

    /// The text printed for a call, or nothing where a poke is outside its store.
    pub fn run(&mut self, call: &Call) -> Option<String> {
        match call {
            Call::Stores(tree, sheet) => self.set_stores(*tree, *sheet),
            Call::PokeTree(place, byte) => poke(&mut self.tree_store, *place, *byte)?,
            Call::PokeSheet(place, byte) => poke(&mut self.sheet_store, *place, *byte)?,
            Call::Held(state) => self.state = *state,
            Call::Book(book) => self.book = book.clone(),
            Call::Hour(hour, buffer) => (self.hour, self.buffer) = (*hour, *buffer),
            Call::Tree(file) => return Some(self.call_tree(file)),
            Call::Sheet(file) => return Some(self.call_sheet(file)),
            Call::Drop => return Some(self.call_drop()),
            Call::Judge(level) => return Some(self.call_judge(*level)),
            Call::Question(level, places) => return Some(self.call_question(*level, *places)),
            Call::Count => return Some(self.call_count()),
            Call::CutSets(places) => return Some(self.call_cut_sets(*places)),
            Call::HourQuestion(level, places) => return Some(self.call_hour_question(*level, *places)),
        }
        Some(String::new())
    }

    fn set_stores(&mut self, tree: usize, sheet: usize) {
        self.tree_store.resize(tree, STORE_FILL);
        self.sheet_store.resize(sheet, STORE_FILL);
    }

    fn call_tree(&mut self, file: &[u8]) -> String {
        let (state, outcome) = hand_in_tree(self.state, &mut self.tree_store, file);
        self.state = state;
        answer_line(outcome.map(|()| "accepted".to_string())) + &self.after()
    }

    fn call_sheet(&mut self, file: &[u8]) -> String {
        let (state, outcome) = hand_in_sheet(self.state, &mut self.sheet_store, file);
        self.state = state;
        answer_line(outcome.map(|()| "accepted".to_string())) + &self.after()
    }

    fn call_drop(&mut self) -> String {
        self.state = drop_both(self.state);
        "dropped\n".to_string() + &self.after()
    }

    fn call_judge(&mut self, level: Level) -> String {
        let (state, outcome) = judge(self.state, self.stores(), level);
        self.state = state;
        answer_line(outcome.map(|counts| format!("nodes {} events {}", counts.nodes, counts.events))) + &self.after()
    }

    fn call_question(&mut self, level: Level, places: [usize; 3]) -> String {
        let mut slices = Slices::new(places);
        let (state, outcome) = question(self.state, self.stores(), level, slices.lent());
        self.state = state;
        answer_line(outcome.map(ends_text)) + &self.after() + &self.slice_lines(&slices)
    }

    fn call_hour_question(&mut self, level: Level, places: [usize; 3]) -> String {
        let mut slices = Slices::new(places);
        let mut buffer = vec![STORE_FILL; self.buffer];
        let plan = Plan { book: &self.book, hour: self.hour };
        let (state, outcome) = question_at_hour(self.state, self.stores(), level, plan, &mut buffer, slices.lent());
        self.state = state;
        let after = match self.form {
            Form::Whole => {
                self.after() + &format!("buffer {}\n", self.form.store_text(&buffer)) + &self.slice_lines(&slices)
            }
            Form::Short => self.sums_line(&buffer, &slices),
        };
        answer_line(outcome.map(ends_text)) + &after
    }

    fn call_count(&self) -> String {
        answer_line(count_sets(self.state, &self.tree_store).map(count_text)) + &self.after()
    }

    fn call_cut_sets(&mut self, places: usize) -> String {
        let mut sets = vec![SET_FILL; places];
        let (state, outcome) = list_sets(self.state, &self.tree_store, &mut sets);
        self.state = state;
        answer_line(outcome.map(count_text)) + &self.after() + &sets_line(&sets, outcome.unwrap_or(0) as usize)
    }

    fn stores(&self) -> Stores<'_> {
        Stores { tree: &self.tree_store, sheet: &self.sheet_store }
    }

    fn after(&self) -> String {
        self.form.after(self.state, &self.tree_store, &self.sheet_store)
    }

    fn slice_lines(&self, Slices { lower, upper, marks }: &Slices) -> String {
        self.slice_line("lower", lower) + &self.slice_line("upper", upper) + &self.slice_line("marks", marks)
    }

    /// What is held, and what was lent to an hour question.
    fn sums_line(&self, buffer: &[u8], Slices { lower, upper, marks }: &Slices) -> String {
        let lengths = [self.state.tree_length as u64, self.state.sheet_length as u64];
        let held = [&lengths[..], &[checksum(&self.tree_store), checksum(&self.sheet_store)]].concat();
        let lent = [checksum(buffer), checksum(lower), checksum(upper), checksum(marks)];
        format!("after {} {}\n", checksum(&held), checksum(&lent))
    }

    fn slice_line<T: Display + Copy + Into<u64>>(&self, name: &str, slice: &[T]) -> String {
        if self.form.is_short(slice) {
            let (first, last) = (slice[0], slice[slice.len() - 1]);
            return format!("{name} {} {first}..{last} {}\n", slice.len(), checksum(slice));
        }
        let mut line = name.to_string();
        for value in slice {
            line.push_str(&format!(" {value}"));
        }
        line + "\n"
    }
}

/// The places as the digits of a number in base 257, the first one highest.
fn checksum<T: Copy + Into<u64>>(places: &[T]) -> u64 {
    places.iter().fold(0, |sum, &place| (sum * 257 + place.into()) % PRIME)
}

fn ends_text(answer: Answer) -> String {
    format!("lower {} upper {} events {}", end_text(answer.lower), end_text(answer.upper), answer.events)
}

fn count_text(count: u64) -> String {
    format!("cut sets {count}")
}

/// The listed sets as sums, and how many of the other places still hold the fill.
fn sets_line(sets: &[u64], count: usize) -> String {
    let (listed, rest) = sets.split_at(count);
    let sum = listed.iter().fold(0, |sum, set| (sum + set % PRIME) % PRIME);
    let squares = listed.iter().fold(0, |sum, set| (sum + (set % PRIME) * (set % PRIME) % PRIME) % PRIME);
    let left = rest.iter().filter(|&&place| place == SET_FILL).count();
    format!("sets {} {sum} {squares} left {left}\n", sets.len())
}

/// Digits alone: no sign, and no leading zero.
fn number(word: &str) -> Option<u32> {
    let digits = word.bytes().all(|byte| byte.is_ascii_digit());
    if !digits || (word.len() > 1 && word.starts_with('0')) {
        return None;
    }
    word.parse().ok()
}

fn places(word: &str) -> Option<usize> {
    number(word).map(|value| value as usize).filter(|&value| value <= MOST_PLACES)
}

fn poke(store: &mut [u8], place: u32, byte: u8) -> Option<()> {
    *store.get_mut(place as usize)? = byte;
    Some(())
}

pub fn answer_line(outcome: Result<String, Refusal>) -> String {
    match outcome {
        Ok(answer) => answer + "\n",
        Err(refusal) => refusal_line(refusal),
    }
}
