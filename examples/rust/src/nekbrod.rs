//! The calls of include/nekbrod.h as a monitor that owns what the library is lent: two stores, a buffer for an hour's
//! sheet, three work slices, and the state between calls. So a safe program cannot pass it a wrong pointer, a wrong
//! length or another state.

/// No accepted tree file and no accepted opinion sheet is longer, and no accepted tree has more nodes.
const LARGEST_TREE: usize = 7_175;
const LARGEST_SHEET: usize = 17_434;
const MOST_NODES: usize = 1_024;

/// Why a call was refused: the number and the place, as docs/REFUSALS.md explains them.
#[repr(C)]
#[derive(Clone, Copy, PartialEq, Eq, Debug)]
pub struct Refusal {
    pub number: usize,
    pub place: usize,
}

/// An end in billionths, and whether it is the exact one.
#[derive(Clone, Copy, PartialEq, Eq, Debug)]
pub struct End {
    pub billionths: u32,
    pub exact: bool,
}

/// The enclosure of the top probability, and the number of basic events.
#[derive(Clone, Copy, PartialEq, Eq, Debug)]
pub struct Level {
    pub lower: End,
    pub upper: End,
    pub events: usize,
}

pub struct Monitor {
    state: State,
    tree_store: Vec<u8>,
    sheet_store: Vec<u8>,
    buffer: Vec<u8>,
    lower: Vec<u32>,
    upper: Vec<u32>,
    marks: Vec<u8>,
}

impl Monitor {
    /// A monitor that holds nothing, with room for the largest files and the largest tree.
    pub fn new() -> Monitor {
        Monitor {
            state: State { tree_len: 0, sheet_len: 0 },
            tree_store: vec![0; LARGEST_TREE],
            sheet_store: vec![0; LARGEST_SHEET],
            buffer: vec![0; LARGEST_SHEET],
            lower: vec![0; MOST_NODES],
            upper: vec![0; MOST_NODES],
            marks: vec![0; MOST_NODES],
        }
    }

    /// Holds a tree file in place of the one before; refused, the monitor stays as it was.
    pub fn hand_in_tree(&mut self, file: &[u8]) -> Result<(), Refusal> {
        let store = &mut self.tree_store;
        // SAFETY: both slices are there for their lengths, and Rust keeps the store apart from the file.
        let answer =
            unsafe { nekbrod_hand_in_tree(self.state, file.as_ptr(), file.len(), store.as_mut_ptr(), store.len()) };
        self.state = answer.state;
        answer.refusal.unless_none()
    }

    /// Holds an opinion sheet in place of the one before; refused, the monitor stays as it was.
    pub fn hand_in_sheet(&mut self, file: &[u8]) -> Result<(), Refusal> {
        let store = &mut self.sheet_store;
        // SAFETY: as for a tree.
        let answer =
            unsafe { nekbrod_hand_in_sheet(self.state, file.as_ptr(), file.len(), store.as_mut_ptr(), store.len()) };
        self.state = answer.state;
        answer.refusal.unless_none()
    }

    /// How many minimal cut sets the held tree has; no sheet is needed.
    pub fn count_cut_sets(&self) -> Result<u64, Refusal> {
        // SAFETY: the store is lent with its length, and nothing is written.
        let counted = unsafe { nekbrod_count_cut_sets(self.state, self.tree_store.as_ptr(), self.tree_store.len()) };
        counted.refusal.unless_none()?;
        Ok(counted.count)
    }

    /// Each minimal cut set of the held tree once, bit i for basic event i, in no promised order. It needs memory for
    /// as many as `count_cut_sets` says.
    pub fn cut_sets(&mut self) -> Result<Vec<u64>, Refusal> {
        let mut sets = vec![0; self.count_cut_sets()? as usize];
        // SAFETY: both are vectors of their own, lent with their lengths.
        let listing = unsafe {
            nekbrod_list_cut_sets(
                self.state,
                self.tree_store.as_ptr(),
                self.tree_store.len(),
                sets.as_mut_ptr(),
                sets.len(),
            )
        };
        self.state = listing.state;
        listing.refusal.unless_none()?;
        sets.truncate(listing.count as usize);
        Ok(sets)
    }

    /// Level k of n of the held pair.
    pub fn question(&mut self, k: u32, n: u32) -> Result<Level, Refusal> {
        // SAFETY: all five are vectors of their own, lent with their lengths.
        let reply = unsafe {
            nekbrod_question(
                self.state,
                self.tree_store.as_ptr(),
                self.tree_store.len(),
                self.sheet_store.as_ptr(),
                self.sheet_store.len(),
                k,
                n,
                self.lower.as_mut_ptr(),
                self.lower.len(),
                self.upper.as_mut_ptr(),
                self.upper.len(),
                self.marks.as_mut_ptr(),
                self.marks.len(),
            )
        };
        self.level_of(reply)
    }

    /// Level k of n of the held pair at an hour since commissioning: each basic event in a work window of the book that
    /// is open then is counted as failed with certainty. The held sheet stays, and nothing is kept for the next hour.
    pub fn question_at_hour(&mut self, book: &[u8], k: u32, n: u32, hour: u32) -> Result<Level, Refusal> {
        // SAFETY: all six are vectors of their own, lent with their lengths, and Rust keeps them apart from the book.
        let reply = unsafe {
            nekbrod_question_at_hour(
                self.state,
                self.tree_store.as_ptr(),
                self.tree_store.len(),
                self.sheet_store.as_ptr(),
                self.sheet_store.len(),
                book.as_ptr(),
                book.len(),
                k,
                n,
                hour,
                self.buffer.as_mut_ptr(),
                self.buffer.len(),
                self.lower.as_mut_ptr(),
                self.lower.len(),
                self.upper.as_mut_ptr(),
                self.upper.len(),
                self.marks.as_mut_ptr(),
                self.marks.len(),
            )
        };
        self.level_of(reply)
    }

    /// A monitor that holds the mirror of the held pair, the tree and the sheet of what must work. At each level its
    /// lower end is a billion minus the upper end here, its upper end a billion minus the lower one, each exact where
    /// that end is. Mirrored again it answers each level as here; only entries of opinions have become fractions.
    pub fn mirror(&self) -> Result<Monitor, Refusal> {
        let mut mirrored = Monitor::new();
        // SAFETY: the stores here are read, the other monitor's are vectors of its own, all lent with their lengths.
        let answer = unsafe {
            nekbrod_mirror(
                self.state,
                self.tree_store.as_ptr(),
                self.tree_store.len(),
                self.sheet_store.as_ptr(),
                self.sheet_store.len(),
                mirrored.tree_store.as_mut_ptr(),
                mirrored.tree_store.len(),
                mirrored.sheet_store.as_mut_ptr(),
                mirrored.sheet_store.len(),
            )
        };
        answer.refusal.unless_none()?;
        mirrored.state = answer.state;
        Ok(mirrored)
    }

    /// What a question answered, and the state that came with it.
    fn level_of(&mut self, reply: Reply) -> Result<Level, Refusal> {
        self.state = reply.state;
        reply.refusal.unless_none()?;
        Ok(Level {
            lower: End { billionths: reply.lower, exact: reply.lower_exact },
            upper: End { billionths: reply.upper, exact: reply.upper_exact },
            events: reply.events,
        })
    }
}

impl Refusal {
    /// Number 0 says that the call was not refused.
    fn unless_none(self) -> Result<(), Refusal> {
        if self.number == 0 {
            Ok(())
        } else {
            Err(self)
        }
    }
}

#[repr(C)]
#[derive(Clone, Copy)]
struct State {
    tree_len: usize,
    sheet_len: usize,
}

#[repr(C)]
struct Answer {
    state: State,
    refusal: Refusal,
}

#[repr(C)]
struct Reply {
    state: State,
    refusal: Refusal,
    lower: u32,
    upper: u32,
    lower_exact: bool,
    upper_exact: bool,
    events: usize,
}

#[repr(C)]
struct SetCount {
    refusal: Refusal,
    count: u64,
}

#[repr(C)]
struct Listing {
    state: State,
    refusal: Refusal,
    count: u64,
}

extern "C" {
    fn nekbrod_hand_in_tree(
        state: State,
        file: *const u8,
        file_len: usize,
        tree_store: *mut u8,
        tree_store_len: usize,
    ) -> Answer;
    fn nekbrod_hand_in_sheet(
        state: State,
        sheet: *const u8,
        sheet_len: usize,
        sheet_store: *mut u8,
        sheet_store_len: usize,
    ) -> Answer;
    fn nekbrod_question(
        state: State,
        tree_store: *const u8,
        tree_store_len: usize,
        sheet_store: *const u8,
        sheet_store_len: usize,
        k: u32,
        n: u32,
        lower: *mut u32,
        lower_len: usize,
        upper: *mut u32,
        upper_len: usize,
        marks: *mut u8,
        marks_len: usize,
    ) -> Reply;
    fn nekbrod_question_at_hour(
        state: State,
        tree_store: *const u8,
        tree_store_len: usize,
        sheet_store: *const u8,
        sheet_store_len: usize,
        book: *const u8,
        book_len: usize,
        k: u32,
        n: u32,
        hour: u32,
        buffer: *mut u8,
        buffer_len: usize,
        lower: *mut u32,
        lower_len: usize,
        upper: *mut u32,
        upper_len: usize,
        marks: *mut u8,
        marks_len: usize,
    ) -> Reply;
    fn nekbrod_mirror(
        state: State,
        tree_store: *const u8,
        tree_store_len: usize,
        sheet_store: *const u8,
        sheet_store_len: usize,
        tree_buffer: *mut u8,
        tree_buffer_len: usize,
        sheet_buffer: *mut u8,
        sheet_buffer_len: usize,
    ) -> Answer;
    fn nekbrod_count_cut_sets(state: State, tree_store: *const u8, tree_store_len: usize) -> SetCount;
    fn nekbrod_list_cut_sets(
        state: State,
        tree_store: *const u8,
        tree_store_len: usize,
        sets: *mut u64,
        sets_len: usize,
    ) -> Listing;
}
