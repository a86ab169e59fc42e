//! The same calls on libraries with the C interface and on the reference, each with memory of its own. After each call
//! the answer, the state and every byte of each memory must be those of the reference, but for the order of listed
//! sets.

use crate::capi::{self, Library, State, Work};
use crate::expected;
use reference::calls::{Call, LOWER_FILL, MARK_FILL, SET_FILL, STORE_FILL, UPPER_FILL};
use reference::cut::Level;
use reference::cut_sets;
use reference::evaluation::WorkSlices;
use reference::mirror::{self, Buffers};
use reference::monitor::{self, Stores};
use reference::opinion_sheet;
use reference::work_windows::{self, Plan};
use std::fmt::Debug;
use std::panic::{self, AssertUnwindSafe};

/// What a library and the reference differ in.
#[derive(Debug)]
pub struct Difference(pub String);

pub type Checked = Result<(), Difference>;

/// Runs a part of the work; a panic in it counts as a difference, so that its case is named.
pub fn guarded(work: impl FnOnce() -> Checked) -> Checked {
    let panicked = |_| Err(Difference("the reference panics".to_string()));
    panic::catch_unwind(AssertUnwindSafe(work)).unwrap_or_else(panicked)
}

/// Places of each work slice; a question is lent the first ones, and the others are watched.
pub const ROOM: usize = 1_100;

/// Places watched behind the slice that a list is lent, and behind each buffer.
const WATCHED: usize = 8;

#[derive(Clone, PartialEq, Eq)]
struct Memory {
    tree: Vec<u8>,
    sheet: Vec<u8>,
    slices: Slices,
    book: Vec<u8>,
    buffer: Vec<u8>,
    /// The buffers of a mirror.
    mirrored: Mirrored,
    /// Filled anew for each list, and compared after it.
    sets: Vec<u64>,
}

/// The work slices.
#[derive(Clone, PartialEq, Eq)]
struct Slices {
    lower: Vec<u32>,
    upper: Vec<u32>,
    marks: Vec<u8>,
}

impl Slices {
    fn fill(&mut self) {
        self.lower.fill(LOWER_FILL);
        self.upper.fill(UPPER_FILL);
        self.marks.fill(MARK_FILL);
    }

    /// The first places of each, there being never more than `ROOM`.
    fn lent(&mut self, places: [usize; 3]) -> Work<'_> {
        let [lower, upper, marks] = places.map(|places| places.min(ROOM));
        Work { lower: &mut self.lower[..lower], upper: &mut self.upper[..upper], marks: &mut self.marks[..marks] }
    }

    /// The same as the reference takes them.
    fn lent_to_reference(&mut self, places: [usize; 3]) -> WorkSlices<'_> {
        let Work { lower, upper, marks } = self.lent(places);
        WorkSlices { lower, upper, marks }
    }
}

/// The buffers for a mirrored tree and for a mirrored sheet, each with watched bytes behind it.
#[derive(Clone, PartialEq, Eq)]
struct Mirrored {
    tree: Vec<u8>,
    sheet: Vec<u8>,
}

impl Mirrored {
    /// The buffers without the watched bytes.
    fn lent(&mut self) -> [&mut [u8]; 2] {
        [&mut self.tree, &mut self.sheet].map(|buffer| {
            let length = buffer.len() - WATCHED;
            &mut buffer[..length]
        })
    }
}

/// The work slices of a library after a question.
pub struct Ends<'a> {
    pub library: &'static str,
    pub lower: &'a [u32],
    pub upper: &'a [u32],
    pub marks: &'a [u8],
}

/// How many calls were compared.
#[derive(Clone, Copy, Default, Debug)]
pub struct Tally {
    pub calls: u64,
    pub questions: u64,
    pub answered: u64,
    /// Those answered from a sheet with a fraction entry, and from one with a silent expert.
    pub fractions: u64,
    pub silent: u64,
    /// Questions where the tree or the sheet is missing: refusals 21 and 22.
    pub unheld: u64,
    pub hand_ins: u64,
    pub accepted: u64,
    /// Lists of minimal cut sets, those answered, and the sets in them.
    pub lists: u64,
    pub listed: u64,
    pub sets: u64,
    /// Questions at an hour, those answered, and those answered with a window open.
    pub hour_questions: u64,
    pub hours_answered: u64,
    pub open: u64,
    /// Mirrors, those answered, and the results of nodes that were held to the law of the mirror.
    pub mirrors: u64,
    pub mirrored: u64,
    pub lawful: u64,
}

impl Tally {
    pub fn add(&mut self, other: Tally) {
        self.calls += other.calls;
        self.questions += other.questions;
        self.answered += other.answered;
        self.fractions += other.fractions;
        self.silent += other.silent;
        self.unheld += other.unheld;
        self.hand_ins += other.hand_ins;
        self.accepted += other.accepted;
        self.lists += other.lists;
        self.listed += other.listed;
        self.sets += other.sets;
        self.hour_questions += other.hour_questions;
        self.hours_answered += other.hours_answered;
        self.open += other.open;
        self.mirrors += other.mirrors;
        self.mirrored += other.mirrored;
        self.lawful += other.lawful;
    }
}

pub struct Desk {
    state: State,
    hour: u32,
    libraries: Vec<(Library, Memory)>,
    reference: Memory,
    pub tally: Tally,
}

impl Desk {
    pub fn new(libraries: &[Library]) -> Desk {
        let memory = Memory {
            tree: Vec::new(),
            sheet: Vec::new(),
            slices: Slices {
                lower: vec![LOWER_FILL; ROOM],
                upper: vec![UPPER_FILL; ROOM],
                marks: vec![MARK_FILL; ROOM],
            },
            book: Vec::new(),
            buffer: vec![STORE_FILL; WATCHED],
            mirrored: Mirrored { tree: vec![STORE_FILL; WATCHED], sheet: vec![STORE_FILL; WATCHED] },
            sets: Vec::new(),
        };
        Desk {
            state: State::default(),
            hour: 0,
            libraries: libraries.iter().map(|&library| (library, memory.clone())).collect(),
            reference: memory,
            tally: Tally::default(),
        }
    }

    /// Runs a call of the reference's lists. A question's slices and buffer are filled before it, as such lists say.
    pub fn run(&mut self, call: &Call) -> Checked {
        match call {
            Call::Stores(tree, sheet) => self.set_stores(*tree, *sheet),
            Call::PokeTree(place, byte) => self.poke_tree(*place as usize, *byte),
            Call::PokeSheet(place, byte) => self.poke_sheet(*place as usize, *byte),
            Call::Held(state) => self.set_state(expected::state(*state)),
            Call::Book(book) => self.set_book(book),
            Call::Hour(hour, buffer) => {
                self.set_hour(*hour);
                self.set_buffer(*buffer);
            }
            Call::Tree(file) => return self.hand_in_tree(file),
            Call::Sheet(file) => return self.hand_in_sheet(file),
            Call::Drop => return self.drop_both(),
            Call::Judge(level) => return self.judge(*level),
            Call::Question(level, places) => {
                self.fill_slices();
                return self.question(*level, *places);
            }
            Call::Count => return self.count_cut_sets(),
            Call::CutSets(places) => return self.list_cut_sets(*places),
            Call::HourQuestion(level, places) => {
                self.fill_slices();
                self.fill_buffer();
                return self.question_at_hour(*level, *places);
            }
        }
        Ok(())
    }

    /// Bytes there stay, and new ones are ee.
    pub fn set_stores(&mut self, tree: usize, sheet: usize) {
        for memory in self.memories() {
            memory.tree.resize(tree, STORE_FILL);
            memory.sheet.resize(sheet, STORE_FILL);
        }
    }

    /// The lengths of both stores.
    pub fn stores(&self) -> [usize; 2] {
        [self.reference.tree.len(), self.reference.sheet.len()]
    }

    /// A place outside the store is passed over.
    pub fn poke_tree(&mut self, place: usize, byte: u8) {
        for memory in self.memories() {
            memory.tree.get_mut(place).into_iter().for_each(|old| *old = byte);
        }
    }

    pub fn poke_sheet(&mut self, place: usize, byte: u8) {
        for memory in self.memories() {
            memory.sheet.get_mut(place).into_iter().for_each(|old| *old = byte);
        }
    }

    pub fn set_state(&mut self, state: State) {
        self.state = state;
    }

    pub fn state(&self) -> State {
        self.state
    }

    /// Stores with these bytes, and no others.
    pub fn set_store_bytes(&mut self, tree: &[u8], sheet: &[u8]) {
        for memory in self.memories() {
            memory.tree = tree.to_vec();
            memory.sheet = sheet.to_vec();
        }
    }

    /// The held tree file as its bytes stand in the first library's store; the held length is not beyond it.
    pub fn held_tree(&self) -> &[u8] {
        &self.libraries[0].1.tree[..self.state.tree_len]
    }

    /// The work slices of each library.
    pub fn ends(&self) -> impl Iterator<Item = Ends<'_>> {
        self.libraries.iter().map(|(library, Memory { slices: Slices { lower, upper, marks }, .. })| Ends {
            library: library.name,
            lower,
            upper,
            marks,
        })
    }

    pub fn fill_slices(&mut self) {
        self.memories().for_each(|memory| memory.slices.fill());
    }

    pub fn set_book(&mut self, book: &[u8]) {
        self.memories().for_each(|memory| memory.book = book.to_vec());
    }

    pub fn set_hour(&mut self, hour: u32) {
        self.hour = hour;
    }

    /// A buffer of that length, and watched bytes behind it; bytes there stay, and new ones are ee.
    pub fn set_buffer(&mut self, length: usize) {
        self.memories().for_each(|memory| memory.buffer.resize(length + WATCHED, STORE_FILL));
    }

    pub fn fill_buffer(&mut self) {
        self.memories().for_each(|memory| memory.buffer.fill(STORE_FILL));
    }

    /// Buffers of these lengths for a mirror, and watched bytes behind them; bytes there stay, and new ones are ee.
    pub fn set_mirror_buffers(&mut self, [tree, sheet]: [usize; 2]) {
        for memory in self.memories() {
            memory.mirrored.tree.resize(tree + WATCHED, STORE_FILL);
            memory.mirrored.sheet.resize(sheet + WATCHED, STORE_FILL);
        }
    }

    pub fn fill_mirror_buffers(&mut self) {
        for memory in self.memories() {
            memory.mirrored.tree.fill(STORE_FILL);
            memory.mirrored.sheet.fill(STORE_FILL);
        }
    }

    fn memories(&mut self) -> impl Iterator<Item = &mut Memory> {
        self.libraries.iter_mut().map(|(_, memory)| memory).chain([&mut self.reference])
    }

    pub fn hand_in_tree(&mut self, file: &[u8]) -> Checked {
        let state = self.state;
        let wanted = monitor::hand_in_tree(expected::held(state), &mut self.reference.tree, file);
        self.count_hand_in(wanted.1.is_ok());
        self.state = expected::state(wanted.0);
        self.compare(expected::answer(wanted), |library, memory| {
            Some(library.hand_in_tree(state, file, &mut memory.tree))
        })
    }

    pub fn hand_in_sheet(&mut self, sheet: &[u8]) -> Checked {
        let state = self.state;
        let wanted = monitor::hand_in_sheet(expected::held(state), &mut self.reference.sheet, sheet);
        self.count_hand_in(wanted.1.is_ok());
        self.state = expected::state(wanted.0);
        self.compare(expected::answer(wanted), |library, memory| {
            Some(library.hand_in_sheet(state, sheet, &mut memory.sheet))
        })
    }

    pub fn drop_both(&mut self) -> Checked {
        let state = self.state;
        self.state = expected::state(monitor::drop_both(expected::held(state)));
        self.compare(self.state, |library, _| Some(library.drop_both(state)))
    }

    pub fn judge(&mut self, Level { k, n }: Level) -> Checked {
        let state = self.state;
        let stores = Stores { tree: &self.reference.tree, sheet: &self.reference.sheet };
        let (_, wanted) = monitor::judge(expected::held(state), stores, Level { k, n });
        self.compare(expected::standing(wanted), |library, memory| {
            Some(library.judge(state, &memory.tree, &memory.sheet, k, n))
        })
    }

    pub fn question(&mut self, Level { k, n }: Level, places: [usize; 3]) -> Checked {
        let state = self.state;
        let memory = &mut self.reference;
        let stores = Stores { tree: &memory.tree, sheet: &memory.sheet };
        let work = memory.slices.lent_to_reference(places);
        let wanted = monitor::question(expected::held(state), stores, Level { k, n }, work);
        self.tally.questions += 1;
        self.tally.answered += u64::from(wanted.1.is_ok());
        self.tally.fractions += u64::from(wanted.1.is_ok_and(|answer| has_fractions(&memory.sheet, answer.events)));
        self.tally.silent += u64::from(wanted.1.is_ok_and(|answer| has_silence(&memory.sheet, answer.events)));
        self.tally.unheld += u64::from(wanted.1.is_err_and(|refusal| [21, 22].contains(&refusal.number)));
        self.state = expected::state(wanted.0);
        self.compare(expected::reply(wanted), |library, memory| {
            Some(library.question(state, &memory.tree, &memory.sheet, k, n, memory.slices.lent(places)))
        })
    }

    /// A question by the book and at the hour last set, with the buffer as it is.
    pub fn question_at_hour(&mut self, Level { k, n }: Level, places: [usize; 3]) -> Checked {
        let (state, hour) = (self.state, self.hour);
        let memory = &mut self.reference;
        let length = memory.buffer.len() - WATCHED;
        let stores = Stores { tree: &memory.tree, sheet: &memory.sheet };
        let (plan, work) = (Plan { book: &memory.book, hour }, memory.slices.lent_to_reference(places));
        let buffer = &mut memory.buffer[..length];
        let held = expected::held(state);
        let wanted = work_windows::question_at_hour(held, stores, Level { k, n }, plan, buffer, work);
        self.tally.hour_questions += 1;
        self.tally.hours_answered += u64::from(wanted.1.is_ok());
        self.tally.open += u64::from(wanted.1.is_ok() && plan.has_open());
        self.state = expected::state(wanted.0);
        self.compare(expected::reply(wanted), |library, memory| {
            let plan = capi::Plan { book: &memory.book, hour, buffer: &mut memory.buffer[..length] };
            library.question_at_hour(state, &memory.tree, &memory.sheet, [k, n], plan, memory.slices.lent(places))
        })
    }

    /// A mirror to the buffers as they are; answers whether the held pair was mirrored.
    pub fn mirror(&mut self) -> Result<bool, Difference> {
        let state = self.state;
        let memory = &mut self.reference;
        let stores = Stores { tree: &memory.tree, sheet: &memory.sheet };
        let [tree, sheet] = memory.mirrored.lent();
        let wanted = mirror::mirror(expected::held(state), stores, Buffers { tree, sheet });
        let mirrored = wanted.1.is_ok();
        self.tally.mirrors += 1;
        self.tally.mirrored += u64::from(mirrored);
        self.state = expected::state(wanted.0);
        self.compare(expected::answer(wanted), |library, memory| {
            library.mirror(state, &memory.tree, &memory.sheet, memory.mirrored.lent())
        })?;
        Ok(mirrored)
    }

    /// A desk for the same libraries, to which both files were handed in that the first library's mirror wrote.
    pub fn with_mirrored_pair(&self) -> Result<Desk, Difference> {
        let State { tree_len, sheet_len } = self.state;
        let Mirrored { tree, sheet } = &self.libraries[0].1.mirrored;
        let libraries: Vec<Library> = self.libraries.iter().map(|(library, _)| *library).collect();
        let mut desk = Desk::new(&libraries);
        desk.set_stores(tree_len, sheet_len);
        desk.hand_in_tree(&tree[..tree_len])?;
        desk.hand_in_sheet(&sheet[..sheet_len])?;
        match desk.state == self.state {
            true => Ok(desk),
            false => Err(Difference("a mirrored file is refused".to_string())),
        }
    }

    pub fn count_cut_sets(&mut self) -> Checked {
        let state = self.state;
        let wanted = expected::set_count(cut_sets::count_sets(expected::held(state), &self.reference.tree));
        self.compare(wanted, |library, memory| library.count_cut_sets(state, &memory.tree))
    }

    /// Lends that many filled places; those behind them are watched. Sets are compared in rising order.
    pub fn list_cut_sets(&mut self, places: usize) -> Checked {
        let state = self.state;
        for memory in self.memories() {
            memory.sets.clear();
            memory.sets.resize(places + WATCHED, SET_FILL);
        }
        let memory = &mut self.reference;
        let wanted = cut_sets::list_sets(expected::held(state), &memory.tree, &mut memory.sets[..places]);
        let wanted = expected::listing(wanted);
        let count = wanted.count as usize;
        memory.sets[..count].sort_unstable();
        self.tally.lists += 1;
        self.tally.listed += u64::from(wanted.refusal.number == 0);
        self.tally.sets += wanted.count;
        self.state = wanted.state;
        self.compare(wanted, |library, memory| library.list_cut_sets(state, &memory.tree, &mut memory.sets[..places]))?;
        for (library, memory) in &mut self.libraries {
            memory.sets[..count].sort_unstable();
            let found = same_places("sets in rising order", &memory.sets, &self.reference.sets);
            found.map_err(|Difference(left)| Difference(format!("{} {left}", library.name)))?;
        }
        Ok(())
    }

    fn count_hand_in(&mut self, accepted: bool) {
        self.tally.hand_ins += 1;
        self.tally.accepted += u64::from(accepted);
    }

    /// Each library is asked, and must answer and leave what the reference does. One that has no such call gets what
    /// the reference left.
    fn compare<T: PartialEq + Debug>(
        &mut self,
        wanted: T,
        ask: impl Fn(&Library, &mut Memory) -> Option<T>,
    ) -> Checked {
        self.tally.calls += 1;
        for (library, memory) in &mut self.libraries {
            let Some(found) = ask(library, memory) else {
                memory.clone_from(&self.reference);
                continue;
            };
            if found != wanted {
                return Err(Difference(format!("{} answers {found:?}, reference {wanted:?}", library.name)));
            }
            memory
                .same_as(&self.reference)
                .map_err(|Difference(left)| Difference(format!("{} {left}", library.name)))?;
        }
        Ok(())
    }
}

impl Memory {
    fn same_as(&self, wanted: &Memory) -> Checked {
        same_places("tree store", &self.tree, &wanted.tree)?;
        same_places("sheet store", &self.sheet, &wanted.sheet)?;
        same_places("lower ends", &self.slices.lower, &wanted.slices.lower)?;
        same_places("upper ends", &self.slices.upper, &wanted.slices.upper)?;
        same_places("marks", &self.slices.marks, &wanted.slices.marks)?;
        same_places("book", &self.book, &wanted.book)?;
        same_places("buffer", &self.buffer, &wanted.buffer)?;
        same_places("tree buffer", &self.mirrored.tree, &wanted.mirrored.tree)?;
        same_places("sheet buffer", &self.mirrored.sheet, &wanted.mirrored.sheet)
    }
}

/// Whether one of the entries of an accepted sheet has fractions.
fn has_fractions(sheet: &[u8], events: usize) -> bool {
    (0..events).any(|event| sheet[opinion_sheet::entry_place(event)] == opinion_sheet::FRACTIONS)
}

/// Whether a listed expert says nothing in one of the opinion entries of an accepted sheet.
fn has_silence(sheet: &[u8], events: usize) -> bool {
    let experts = sheet[opinion_sheet::EXPERTS_PLACE] as usize;
    let terms = |event: usize| &sheet[opinion_sheet::inside_entry(event, 0)..][..experts];
    let is_opinions = |event: usize| sheet[opinion_sheet::entry_place(event)] == opinion_sheet::OPINIONS;
    (0..events).any(|event| is_opinions(event) && terms(event).contains(&0))
}

fn same_places<T: PartialEq + Debug>(name: &str, found: &[T], wanted: &[T]) -> Checked {
    if found == wanted {
        return Ok(());
    }
    let place = found.iter().zip(wanted).position(|(found, wanted)| found != wanted);
    Err(Difference(match place {
        Some(place) => {
            format!("leaves {:?} at place {place} of its {name}, reference {:?}", found[place], wanted[place])
        }
        None => format!("leaves {} places of its {name}, reference {}", found.len(), wanted.len()),
    }))
}
