//! The C interface, declared as in include/nekbrod.h, with a safe function for each call. Two linked libraries have it,
//! the proved one and the peer, which has no cut sets, no question at an hour and no mirror; others may be found at run
//! time.

use std::ffi::{c_void, CStr};
use std::mem::transmute;
use std::ptr::NonNull;

/// The probability 1 in units.
pub const ONE: u32 = 1_000_000_000;

#[repr(C)]
#[derive(Clone, Copy, PartialEq, Eq, Debug, Default)]
pub struct State {
    pub tree_len: usize,
    pub sheet_len: usize,
}

/// Number 0: not refused.
#[repr(C)]
#[derive(Clone, Copy, PartialEq, Eq, Debug, Default)]
pub struct Refusal {
    pub number: usize,
    pub place: usize,
}

#[repr(C)]
#[derive(Clone, Copy, PartialEq, Eq, Debug)]
pub struct Answer {
    pub state: State,
    pub refusal: Refusal,
}

#[repr(C)]
#[derive(Clone, Copy, PartialEq, Eq, Debug)]
pub struct Standing {
    pub refusal: Refusal,
    pub nodes: usize,
    pub events: usize,
}

#[repr(C)]
#[derive(Clone, Copy, PartialEq, Eq, Debug)]
pub struct Reply {
    pub state: State,
    pub refusal: Refusal,
    pub lower: u32,
    pub upper: u32,
    pub lower_exact: bool,
    pub upper_exact: bool,
    pub events: usize,
}

/// The count is 0 where it is refused.
#[repr(C)]
#[derive(Clone, Copy, PartialEq, Eq, Debug)]
pub struct SetCount {
    pub refusal: Refusal,
    pub count: u64,
}

#[repr(C)]
#[derive(Clone, Copy, PartialEq, Eq, Debug)]
pub struct Listing {
    pub state: State,
    pub refusal: Refusal,
    pub count: u64,
}

type HandIn = unsafe extern "C" fn(State, *const u8, usize, *mut u8, usize) -> Answer;
type DropBoth = unsafe extern "C" fn(State) -> State;
type Judge = unsafe extern "C" fn(State, *const u8, usize, *const u8, usize, u32, u32) -> Standing;
#[rustfmt::skip]
type Question = unsafe extern "C" fn(
    State, *const u8, usize, *const u8, usize, u32, u32, *mut u32, usize, *mut u32, usize, *mut u8, usize,
) -> Reply;

#[rustfmt::skip]
type QuestionAtHour = unsafe extern "C" fn(
    State, *const u8, usize, *const u8, usize, *const u8, usize, u32, u32, u32, *mut u8, usize, *mut u32, usize,
    *mut u32, usize, *mut u8, usize,
) -> Reply;

#[rustfmt::skip]
type Mirror = unsafe extern "C" fn(
    State, *const u8, usize, *const u8, usize, *mut u8, usize, *mut u8, usize,
) -> Answer;

/// The calls for minimal cut sets.
#[derive(Clone, Copy)]
struct CutSets {
    count: unsafe extern "C" fn(State, *const u8, usize) -> SetCount,
    list: unsafe extern "C" fn(State, *const u8, usize, *mut u64, usize) -> Listing,
}

/// A library with the calls of the header.
#[derive(Clone, Copy)]
pub struct Library {
    pub name: &'static str,
    hand_in_tree: HandIn,
    hand_in_sheet: HandIn,
    drop_both: DropBoth,
    judge: Judge,
    question: Question,
    cut_sets: Option<CutSets>,
    question_at_hour: Option<QuestionAtHour>,
    mirror: Option<Mirror>,
}

/// The library whose calls have these names.
macro_rules! declared_library {
    (
        $name:literal, $hand_in_tree:ident, $hand_in_sheet:ident, $drop_both:ident, $judge:ident, $question:ident,
        $cut_sets:expr, $question_at_hour:expr, $mirror:expr
    ) => {{
        extern "C" {
            fn $hand_in_tree(
                state: State,
                file: *const u8,
                file_len: usize,
                tree_store: *mut u8,
                tree_store_len: usize,
            ) -> Answer;
            fn $hand_in_sheet(
                state: State,
                sheet: *const u8,
                sheet_len: usize,
                sheet_store: *mut u8,
                sheet_store_len: usize,
            ) -> Answer;
            fn $drop_both(state: State) -> State;
            fn $judge(
                state: State,
                tree_store: *const u8,
                tree_store_len: usize,
                sheet_store: *const u8,
                sheet_store_len: usize,
                k: u32,
                n: u32,
            ) -> Standing;
            fn $question(
                state: State,
                tree_store: *const u8,
                tree_store_len: usize,
                sheet_store: *const u8,
                sheet_store_len: usize,
                k: u32,
                n: u32,
                lower: *mut u32,
                lower_len: usize,
                upper: *mut u32,
                upper_len: usize,
                marks: *mut u8,
                marks_len: usize,
            ) -> Reply;
        }
        Library {
            name: $name,
            hand_in_tree: $hand_in_tree,
            hand_in_sheet: $hand_in_sheet,
            drop_both: $drop_both,
            judge: $judge,
            question: $question,
            cut_sets: $cut_sets,
            question_at_hour: $question_at_hour,
            mirror: $mirror,
        }
    }};
}

extern "C" {
    fn nekbrod_count_cut_sets(state: State, tree_store: *const u8, tree_store_len: usize) -> SetCount;
    fn nekbrod_list_cut_sets(
        state: State,
        tree_store: *const u8,
        tree_store_len: usize,
        sets: *mut u64,
        sets_len: usize,
    ) -> Listing;
    fn nekbrod_question_at_hour(
        state: State,
        tree_store: *const u8,
        tree_store_len: usize,
        sheet_store: *const u8,
        sheet_store_len: usize,
        book: *const u8,
        book_len: usize,
        k: u32,
        n: u32,
        hour: u32,
        buffer: *mut u8,
        buffer_len: usize,
        lower: *mut u32,
        lower_len: usize,
        upper: *mut u32,
        upper_len: usize,
        marks: *mut u8,
        marks_len: usize,
    ) -> Reply;
    fn nekbrod_mirror(
        state: State,
        tree_store: *const u8,
        tree_store_len: usize,
        sheet_store: *const u8,
        sheet_store_len: usize,
        tree_buffer: *mut u8,
        tree_buffer_len: usize,
        sheet_buffer: *mut u8,
        sheet_buffer_len: usize,
    ) -> Answer;
}

/// The proved library.
pub const CAPI: Library = declared_library!(
    "capi",
    nekbrod_hand_in_tree,
    nekbrod_hand_in_sheet,
    nekbrod_drop_both,
    nekbrod_judge,
    nekbrod_question,
    Some(CutSets { count: nekbrod_count_cut_sets, list: nekbrod_list_cut_sets }),
    Some(nekbrod_question_at_hour),
    Some(nekbrod_mirror)
);

/// The plain C program, src/peer.c.
pub const PEER: Library = declared_library!(
    "peer",
    peer_hand_in_tree,
    peer_hand_in_sheet,
    peer_drop_both,
    peer_judge,
    peer_question,
    None,
    None,
    None
);

/// An empty slice goes as the null pointer, as C's callers may pass one.
fn read<T>(slice: &[T]) -> *const T {
    if slice.is_empty() {
        std::ptr::null()
    } else {
        slice.as_ptr()
    }
}

fn written<T>(slice: &mut [T]) -> *mut T {
    if slice.is_empty() {
        std::ptr::null_mut()
    } else {
        slice.as_mut_ptr()
    }
}

/// The three work slices that a question is lent.
pub struct Work<'a> {
    pub lower: &'a mut [u32],
    pub upper: &'a mut [u32],
    pub marks: &'a mut [u8],
}

/// The book of work windows, the hour, and the buffer that a question at an hour is lent.
pub struct Plan<'a> {
    pub book: &'a [u8],
    pub hour: u32,
    pub buffer: &'a mut [u8],
}

impl Library {
    /// The library whose calls are found by their names in the header; without the cut sets, the question at an hour
    /// and the mirror, which no one asks it for and one of another commit may not have.
    ///
    /// # Safety
    /// An address that is found is that of the call, with the header's types, for as long as the program runs.
    pub unsafe fn found<E>(
        name: &'static str,
        find: impl Fn(&CStr) -> Result<NonNull<c_void>, E>,
    ) -> Result<Library, E> {
        Ok(Library {
            name,
            hand_in_tree: transmute::<NonNull<c_void>, HandIn>(find(c"nekbrod_hand_in_tree")?),
            hand_in_sheet: transmute::<NonNull<c_void>, HandIn>(find(c"nekbrod_hand_in_sheet")?),
            drop_both: transmute::<NonNull<c_void>, DropBoth>(find(c"nekbrod_drop_both")?),
            judge: transmute::<NonNull<c_void>, Judge>(find(c"nekbrod_judge")?),
            question: transmute::<NonNull<c_void>, Question>(find(c"nekbrod_question")?),
            cut_sets: None,
            question_at_hour: None,
            mirror: None,
        })
    }

    pub fn hand_in_tree(&self, state: State, file: &[u8], store: &mut [u8]) -> Answer {
        // SAFETY: both slices are there for their lengths, and Rust keeps the written one apart from the other.
        unsafe { (self.hand_in_tree)(state, read(file), file.len(), written(store), store.len()) }
    }

    pub fn hand_in_sheet(&self, state: State, sheet: &[u8], store: &mut [u8]) -> Answer {
        // SAFETY: as for a tree.
        unsafe { (self.hand_in_sheet)(state, read(sheet), sheet.len(), written(store), store.len()) }
    }

    pub fn drop_both(&self, state: State) -> State {
        // SAFETY: numbers alone.
        unsafe { (self.drop_both)(state) }
    }

    pub fn judge(&self, state: State, tree: &[u8], sheet: &[u8], k: u32, n: u32) -> Standing {
        // SAFETY: both slices are there for their lengths, and nothing is written.
        unsafe { (self.judge)(state, read(tree), tree.len(), read(sheet), sheet.len(), k, n) }
    }

    pub fn question(&self, state: State, tree: &[u8], sheet: &[u8], k: u32, n: u32, work: Work) -> Reply {
        let Work { lower, upper, marks } = work;
        // SAFETY: all slices are there for their lengths, and Rust keeps the written ones apart from all others.
        unsafe {
            (self.question)(
                state,
                read(tree),
                tree.len(),
                read(sheet),
                sheet.len(),
                k,
                n,
                written(lower),
                lower.len(),
                written(upper),
                upper.len(),
                written(marks),
                marks.len(),
            )
        }
    }

    /// Nothing where the library has no such question.
    pub fn question_at_hour(
        &self,
        state: State,
        tree: &[u8],
        sheet: &[u8],
        [k, n]: [u32; 2],
        plan: Plan,
        work: Work,
    ) -> Option<Reply> {
        let Plan { book, hour, buffer } = plan;
        let Work { lower, upper, marks } = work;
        // SAFETY: as for a question.
        self.question_at_hour.map(|call| unsafe {
            call(
                state,
                read(tree),
                tree.len(),
                read(sheet),
                sheet.len(),
                read(book),
                book.len(),
                k,
                n,
                hour,
                written(buffer),
                buffer.len(),
                written(lower),
                lower.len(),
                written(upper),
                upper.len(),
                written(marks),
                marks.len(),
            )
        })
    }

    /// Nothing where the library has no mirror.
    pub fn mirror(
        &self,
        state: State,
        tree: &[u8],
        sheet: &[u8],
        [tree_buffer, sheet_buffer]: [&mut [u8]; 2],
    ) -> Option<Answer> {
        // SAFETY: as for a question.
        self.mirror.map(|call| unsafe {
            call(
                state,
                read(tree),
                tree.len(),
                read(sheet),
                sheet.len(),
                written(tree_buffer),
                tree_buffer.len(),
                written(sheet_buffer),
                sheet_buffer.len(),
            )
        })
    }

    /// Nothing where the library has no cut sets.
    pub fn count_cut_sets(&self, state: State, tree: &[u8]) -> Option<SetCount> {
        // SAFETY: the slice is there for its length, and nothing is written.
        self.cut_sets.map(|calls| unsafe { (calls.count)(state, read(tree), tree.len()) })
    }

    /// Nothing where the library has no cut sets.
    pub fn list_cut_sets(&self, state: State, tree: &[u8], sets: &mut [u64]) -> Option<Listing> {
        // SAFETY: both slices are there for their lengths, and Rust keeps the written one apart from the other.
        self.cut_sets.map(|calls| unsafe { (calls.list)(state, read(tree), tree.len(), written(sets), sets.len()) })
    }
}
