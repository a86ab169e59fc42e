//! Generated cases through the C library, the peer and the reference: lists of calls, and the level printer's inputs as
//! calls, with questions at some hours between them; and every pair that they hold mirrored.

use crate::capi::{CAPI, PEER};
use crate::desk::{guarded, Checked, Desk, Difference, Tally};
use crate::expected;
use crate::mirror_law::hold_to_law;
use reference::calls::{parse_call, Call};
use reference::cases::books::{any_book, bad_book, hour_near};
use reference::cases::fractions::FRACTION_CASES;
use reference::cases::large_damage::LARGE_DAMAGES;
use reference::cases::limits::LIMITS;
use reference::cases::mirror_list::mirror_list;
use reference::cases::mirrors::MIRROR_CASES;
use reference::cases::valid::{lively_pair, small_tree};
use reference::cases::vector_list::{vector_list, Family, FAMILIES};
use reference::cases::{is_input, write_case, Kind};
use reference::cut::Level;
use reference::describe::book_bytes;
use reference::levels::{INPUT_HEADER, SHEET_STORE, TREE_STORE};
use reference::mirror_calls::MirrorCall;
use reference::random::Random;
use reference::sheet_judge::judge_sheet;
use reference::tree_judge::judge_tree;
use reference::work_windows::Window;
use reference::{opinion_sheet, tree_file};
use std::fmt::{self, Display, Formatter};

/// The lengths of the longest tree file and of the longest sheet.
pub const LONGEST: [usize; 2] = [TREE_STORE, SHEET_STORE];

/// Places of the slice for the cut sets of an input's tree.
const LISTED: usize = 100;

/// Which cases: COUNT of them from case `first` on. Case i of a seed does not depend on how many are run.
#[derive(Clone, Copy, Debug)]
pub struct Cases {
    pub seed: u64,
    pub count: u64,
    pub first: u64,
}

/// What is run: each family of stored calls, those of the mirror, the limits, the faults in large files and a round of
/// fraction entries and of pairs to be mirrored come before the generated cases of a whole run.
#[derive(Clone, Copy, Debug)]
pub enum Case {
    Stored(&'static str, Family),
    StoredMirrors,
    Limit(u64),
    Large(u64),
    Fractions(u64),
    Mirrors(u64),
    Generated(u64),
}

impl Case {
    /// The words that run this case again, with little beside it.
    pub fn again(self, seed: u64) -> String {
        match self {
            Case::Generated(index) => format!("{seed} 1 {index}"),
            _ => format!("{seed} 0"),
        }
    }

    fn run(self, desk: &mut Desk, seed: u64) -> Result<(), (usize, Difference)> {
        let (calls, mirror_seed) = match self {
            Case::Stored(_, family) => (vector_list(family), seed),
            Case::StoredMirrors => return run_mirrors(desk, &mirror_list()),
            Case::Limit(index) => (listed_calls(Kind::Limits, seed, index), seed ^ index),
            Case::Large(index) => (listed_calls(Kind::Large, seed, index), seed ^ index),
            Case::Fractions(index) => (listed_calls(Kind::Fractions, seed, index), seed ^ index),
            Case::Mirrors(index) => (listed_calls(Kind::Mirrors, seed, index), seed ^ index),
            Case::Generated(index) => (with_hours(generated_calls(seed, index), seed ^ index), seed ^ index),
        };
        run_calls(desk, &calls, mirror_seed)
    }
}

impl Display for Case {
    fn fmt(&self, out: &mut Formatter) -> fmt::Result {
        match self {
            Case::Stored(name, _) => write!(out, "stored calls, {name}"),
            Case::StoredMirrors => write!(out, "stored calls of the mirror"),
            Case::Limit(index) => write!(out, "limit {index}"),
            Case::Large(index) => write!(out, "fault {index} in a large file"),
            Case::Fractions(index) => write!(out, "case {index} of fraction entries"),
            Case::Mirrors(index) => write!(out, "case {index} of pairs to be mirrored"),
            Case::Generated(index) => write!(out, "case {index}"),
        }
    }
}

/// The case and the call in it at which a library differs from the reference.
#[derive(Debug)]
pub struct Found {
    pub case: Case,
    pub call: usize,
    pub difference: Difference,
}

/// Runs the cases to the first difference. A run from case 0 on has the stored calls, every limit, every fault in large
/// files and in fraction entries, and every limit of a mirror before them.
pub fn compare(cases: Cases) -> (Tally, Result<(), Found>) {
    let mut tally = Tally::default();
    let listed = (0..LIMITS.len() as u64).map(Case::Limit).chain((0..LARGE_DAMAGES as u64).map(Case::Large));
    let listed = listed.chain((0..FRACTION_CASES).map(Case::Fractions)).chain((0..MIRROR_CASES).map(Case::Mirrors));
    let stored = FAMILIES.map(|(name, family)| Case::Stored(name, family)).into_iter().chain([Case::StoredMirrors]);
    let first = stored.chain(listed).filter(|_| cases.first == 0);
    let generated = (cases.first..cases.first.saturating_add(cases.count)).map(Case::Generated);
    for case in first.chain(generated) {
        let mut desk = Desk::new(&[CAPI, PEER]);
        let outcome = case.run(&mut desk, cases.seed);
        tally.add(desk.tally);
        if let Err((call, difference)) = outcome {
            return (tally, Err(Found { case, call, difference }));
        }
    }
    (tally, Ok(()))
}

/// Runs each of a row of calls, and tells at which one a library differs.
fn run_each<T>(calls: &[T], mut run: impl FnMut(&T) -> Checked) -> Result<(), (usize, Difference)> {
    for (index, call) in calls.iter().enumerate() {
        guarded(|| run(call)).map_err(|difference| (index, difference))?;
    }
    Ok(())
}

fn run_calls(desk: &mut Desk, calls: &[Call], mirror_seed: u64) -> Result<(), (usize, Difference)> {
    let mut mirrors = Mirrors { random: Random::for_case(mirror_seed, 2), changed: true };
    run_each(calls, |call| {
        desk.run(call)?;
        mirrors.follow(call, desk)
    })
}

fn run_mirrors(desk: &mut Desk, calls: &[MirrorCall]) -> Result<(), (usize, Difference)> {
    run_each(calls, |call| {
        desk.set_store_bytes(&call.tree_store, &call.sheet_store);
        desk.set_state(expected::state(call.state));
        desk.set_mirror_buffers([call.tree_buffer, call.sheet_buffer]);
        desk.fill_mirror_buffers();
        desk.mirror().map(drop)
    })
}

/// Percent of calls on an unchanged pair with a mirror behind them.
const MIRROR_SHARE: usize = 15;

/// What is mirrored between the calls of a case; and whether what is held or its stores may have changed since.
struct Mirrors {
    random: Random,
    changed: bool,
}

impl Mirrors {
    fn follow(&mut self, call: &Call, desk: &mut Desk) -> Checked {
        match call {
            Call::Tree(_) | Call::Sheet(_) | Call::Drop => self.changed = true,
            Call::Stores(..) | Call::PokeTree(..) | Call::PokeSheet(..) | Call::Held(_) => self.changed = true,
            Call::Book(_) | Call::Hour(..) => (),
            Call::Judge(_) | Call::Question(..) | Call::Count | Call::CutSets(_) | Call::HourQuestion(..) => {
                if std::mem::take(&mut self.changed) {
                    return self.mirror_pair(desk);
                }
                if self.random.percent(MIRROR_SHARE) {
                    return self.mirror_to(desk, any_buffer).map(drop);
                }
            }
        }
        Ok(())
    }

    /// With buffers that suffice for what is held; what is answered is held to the law.
    fn mirror_pair(&mut self, desk: &mut Desk) -> Checked {
        let room = |random: &mut Random, length: usize, _| length + random.below(3);
        if !self.mirror_to(desk, room)? {
            return Ok(());
        }
        hold_to_law(desk, &mut self.random)
    }

    /// No buffer is longer than the longest file and a few bytes, whatever is held.
    fn mirror_to(
        &mut self,
        desk: &mut Desk,
        buffer: fn(&mut Random, usize, usize) -> usize,
    ) -> Result<bool, Difference> {
        let (held, [tree, sheet]) = (desk.state(), LONGEST);
        let lengths =
            [(held.tree_len, tree), (held.sheet_len, sheet)].map(|(held, longest)| (held.min(longest), longest));
        desk.set_mirror_buffers(lengths.map(|(length, longest)| buffer(&mut self.random, length, longest)));
        if self.random.percent(20) {
            desk.fill_mirror_buffers();
        }
        desk.mirror()
    }
}

/// Pairs to be mirrored have no level of their own, and get this many.
const MIRROR_LEVELS: u16 = 3;

fn listed_calls(kind: Kind, seed: u64, index: u64) -> Vec<Call> {
    let case = write_case(kind, seed, index);
    let input = match kind {
        Kind::Mirrors => [&MIRROR_LEVELS.to_le_bytes()[..], &case].concat(),
        _ => case,
    };
    with_hours(input_calls(&input, seed ^ index), seed ^ index)
}

/// A list of calls, an input of the printer, a list of calls for cut sets, an input with fraction entries and one with
/// many silent experts by turns; each kind keeps a count of its own.
fn generated_calls(seed: u64, index: u64) -> Vec<Call> {
    let kinds = [Kind::Calls, Kind::Mixed, Kind::Sets, Kind::Fractions, Kind::Silence];
    let (kind, turn) = (kinds[index as usize % kinds.len()], index / kinds.len() as u64);
    let case = write_case(kind, seed, turn);
    if is_input(kind) {
        return input_calls(&case, seed ^ index);
    }
    let parsed = |line: &str| parse_call(line).unwrap_or_else(|| panic!("{line:?} is no call"));
    held_pair(seed ^ index).into_iter().chain(String::from_utf8_lossy(&case).lines().map(parsed)).collect()
}

/// Stores for the largest files, and a pair in them.
fn held_pair(pair_seed: u64) -> Vec<Call> {
    let random = &mut Random::for_case(pair_seed, 0);
    let nodes = small_tree(random, 9);
    let pair = lively_pair(random, nodes);
    let [tree, sheet] = LONGEST;
    vec![Call::Stores(tree, sheet), Call::Tree(pair.tree()), Call::Sheet(pair.sheet())]
}

/// The input's files, whatever their lengths, handed in over a held pair, its levels, the outermost, the middle and the
/// first ones, and its cut sets. Where a file is refused, the first level meets what is held then and all else the pair
/// again.
fn input_calls(input: &[u8], pair_seed: u64) -> Vec<Call> {
    let field = |place: usize| match input.get(place..place + 2) {
        Some(bytes) => u16::from_le_bytes([bytes[0], bytes[1]]) as usize,
        None => 0,
    };
    let files = input.get(INPUT_HEADER..).unwrap_or(&[]);
    let (tree, sheet) = files.split_at(field(2).min(files.len()));
    let n = field(0) as u32;
    let mut calls = held_pair(pair_seed);
    calls.extend([Call::Tree(tree.to_vec()), Call::Sheet(sheet.to_vec())]);
    calls.extend(level_calls(Level { k: n, n }));
    if judge_tree(tree).is_err() || judge_sheet(sheet).is_err() {
        calls.extend(held_pair(pair_seed));
    }
    for k in [0, n / 2, 1, 2] {
        calls.extend(level_calls(Level { k, n }));
    }
    calls.extend([Call::Count, Call::CutSets(LISTED)]);
    calls.extend([Call::Drop, Call::Judge(Level { k: 0, n: 1 }), Call::Count]);
    calls
}

/// Percent of questions with one at an hour behind it, of these with a book of their own, and of books with a fault.
const HOUR_SHARE: usize = 40;
const BOOK_SHARE: usize = 40;
const BAD_SHARE: usize = 16;

/// The calls, and behind some questions the same at an hour.
fn with_hours(calls: Vec<Call>, hour_seed: u64) -> Vec<Call> {
    let random = &mut Random::for_case(hour_seed, 1);
    let mut planner = Planner { events: 1, sheet_length: opinion_sheet::file_length(1), windows: None };
    let mut all = Vec::new();
    for call in calls {
        planner.see(&call);
        let question = match call {
            Call::Question(level, places) if random.percent(HOUR_SHARE) => Some(Call::HourQuestion(level, places)),
            _ => None,
        };
        all.push(call);
        if let Some(question) = question {
            all.extend(planner.plan(random));
            all.push(question);
        }
    }
    all
}

/// E of the last good tree and the length of the last good sheet handed in, and the windows of the book.
struct Planner {
    events: usize,
    sheet_length: usize,
    windows: Option<Vec<Window>>,
}

impl Planner {
    fn see(&mut self, call: &Call) {
        match call {
            Call::Tree(file) => self.events = judge_tree(file).map_or(self.events, |tree| tree.events),
            Call::Sheet(file) if judge_sheet(file).is_ok() => self.sheet_length = file.len(),
            _ => (),
        }
    }

    /// At first and at times another book; then an hour and a buffer.
    fn plan(&mut self, random: &mut Random) -> Vec<Call> {
        let mut calls = Vec::new();
        if self.windows.is_none() || random.percent(BOOK_SHARE) {
            let windows = any_book(random, self.events);
            let bad = random.percent(BAD_SHARE);
            calls.push(Call::Book(if bad { bad_book(random, self.events) } else { book_bytes(&windows) }));
            self.windows = Some(windows);
        }
        let hour = hour_near(random, self.windows.as_deref().unwrap_or(&[]));
        calls.push(Call::Hour(hour, any_buffer(random, self.sheet_length, LONGEST[1])));
        calls
    }
}

/// A buffer for a file: its length more often than one beside it, and at times none or that of the longest file.
pub fn any_buffer(random: &mut Random, length: usize, longest: usize) -> usize {
    match random.below(16) {
        0 => length.saturating_sub(1),
        1 => 0,
        2 => longest,
        3..=7 => length + random.between(1, 40),
        _ => length,
    }
}

fn level_calls(level: Level) -> [Call; 2] {
    [Call::Judge(level), Call::Question(level, [tree_file::MOST_NODES; 3])]
}
