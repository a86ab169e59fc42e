//! A monitor with its lent memory, which sees to it that a refusal changes nothing.

use reference::cut::Level;
use reference::cut_sets::{count_sets, list_sets};
use reference::describe::{sheet_bytes, tree_bytes, Entry, Node};
use reference::end::End;
use reference::evaluation::WorkSlices;
use reference::mirror::{mirror, Buffers};
use reference::monitor::{drop_both, hand_in_sheet, hand_in_tree, judge, question, Answer, Counts, State, Stores};
use reference::refusal::{refused, Refusal};
use reference::work_windows::{question_at_hour, Plan};

pub const FILL: u8 = 0xa5;
/// Another than that of the stores, so that a byte copied from behind the held sheet is seen.
pub const BUFFER_FILL: u8 = 0x5a;

#[derive(Clone, PartialEq, Eq, Debug)]
pub struct Desk {
    pub state: State,
    pub tree_store: Vec<u8>,
    pub sheet_store: Vec<u8>,
}

/// Work slices after a question.
#[derive(Clone, PartialEq, Eq, Debug)]
pub struct Work {
    pub lower: Vec<u32>,
    pub upper: Vec<u32>,
    pub marks: Vec<u8>,
}

pub fn fresh_work(lower: usize, upper: usize, marks: usize) -> Work {
    Work { lower: vec![0xdddd_0001; lower], upper: vec![0xdddd_0002; upper], marks: vec![FILL; marks] }
}

impl Desk {
    pub fn new(tree_store: usize, sheet_store: usize) -> Desk {
        Desk { state: State::default(), tree_store: vec![FILL; tree_store], sheet_store: vec![FILL; sheet_store] }
    }

    /// Stores for the longest files.
    pub fn roomy() -> Desk {
        Desk::new(7_175, 17_434)
    }

    pub fn tree(&mut self, file: &[u8]) -> Result<(), Refusal> {
        let before = self.clone();
        let (state, outcome) = hand_in_tree(self.state, &mut self.tree_store, file);
        self.state = state;
        if outcome.is_err() {
            assert_eq!(*self, before);
        } else {
            assert_eq!(self.state, State { tree_length: file.len(), ..before.state });
            assert_eq!(self.tree_store[..file.len()], *file);
            assert_eq!(self.tree_store[file.len()..], before.tree_store[file.len()..]);
        }
        outcome
    }

    pub fn sheet(&mut self, file: &[u8]) -> Result<(), Refusal> {
        let before = self.clone();
        let (state, outcome) = hand_in_sheet(self.state, &mut self.sheet_store, file);
        self.state = state;
        if outcome.is_err() {
            assert_eq!(*self, before);
        } else {
            assert_eq!(self.state, State { sheet_length: file.len(), ..before.state });
            assert_eq!(self.sheet_store[..file.len()], *file);
            assert_eq!(self.sheet_store[file.len()..], before.sheet_store[file.len()..]);
        }
        outcome
    }

    pub fn drop_both(&mut self) {
        self.state = drop_both(self.state);
    }

    fn stores(&self) -> Stores<'_> {
        Stores { tree: &self.tree_store, sheet: &self.sheet_store }
    }

    pub fn judge(&self, k: u32, n: u32) -> Result<Counts, Refusal> {
        let (state, outcome) = judge(self.state, self.stores(), Level { k, n });
        assert_eq!(state, self.state);
        outcome
    }

    pub fn question(&self, k: u32, n: u32, work: &mut Work) -> Result<Answer, Refusal> {
        let before = work.clone();
        let Work { lower, upper, marks } = work;
        let slices = WorkSlices { lower, upper, marks };
        let (state, outcome) = question(self.state, self.stores(), Level { k, n }, slices);
        assert_eq!(state, self.state);
        if outcome.is_err() {
            assert_eq!(*work, before);
        }
        outcome
    }

    /// A refusal leaves the buffer and the slices as they were, and any answer the buffer behind the sheet.
    pub fn question_at_hour(
        &self,
        k: u32,
        n: u32,
        plan: Plan,
        buffer: &mut [u8],
        work: &mut Work,
    ) -> Result<Answer, Refusal> {
        let before = (buffer.to_vec(), work.clone());
        let Work { lower, upper, marks } = work;
        let slices = WorkSlices { lower, upper, marks };
        let (state, outcome) = question_at_hour(self.state, self.stores(), Level { k, n }, plan, buffer, slices);
        assert_eq!(state, self.state);
        if outcome.is_err() {
            assert_eq!((buffer.to_vec(), work.clone()), before);
        } else {
            assert_eq!(buffer[self.state.sheet_length..], before.0[self.state.sheet_length..]);
        }
        outcome
    }

    /// One with a buffer for the longest sheet and slices of 1,024 places.
    pub fn answer_at_hour(&self, k: u32, n: u32, plan: Plan) -> Result<Answer, Refusal> {
        self.question_at_hour(k, n, plan, &mut [BUFFER_FILL; 17_434], &mut fresh_work(1_024, 1_024, 1_024))
    }

    /// A refusal leaves both buffers as they were, and an answer what is behind the files.
    pub fn mirror(&self, tree: &mut [u8], sheet: &mut [u8]) -> Result<(), Refusal> {
        let before = (tree.to_vec(), sheet.to_vec());
        let (state, outcome) = mirror(self.state, self.stores(), Buffers { tree, sheet });
        assert_eq!(state, self.state);
        let State { tree_length, sheet_length } = if outcome.is_ok() { state } else { State::default() };
        assert_eq!(
            (&tree[tree_length..], &sheet[sheet_length..]),
            (&before.0[tree_length..], &before.1[sheet_length..])
        );
        outcome
    }

    /// Both mirrored files, from buffers that just suffice.
    pub fn mirrored_files(&self) -> (Vec<u8>, Vec<u8>) {
        let State { tree_length, sheet_length } = self.state;
        let (mut tree, mut sheet) = (vec![BUFFER_FILL; tree_length], vec![BUFFER_FILL; sheet_length]);
        assert_eq!(self.mirror(&mut tree, &mut sheet), Ok(()));
        (tree, sheet)
    }

    /// A desk to which both mirrored files were handed in.
    pub fn mirrored(&self) -> Desk {
        let (tree, sheet) = self.mirrored_files();
        let mut desk = Desk::new(tree.len(), sheet.len());
        assert_eq!((desk.tree(&tree), desk.sheet(&sheet)), (Ok(()), Ok(())));
        desk
    }

    pub fn count_sets(&self) -> Result<u64, Refusal> {
        count_sets(self.state, &self.tree_store)
    }

    /// Places from the count on stay, and all where it is refused.
    pub fn list_sets(&self, sets: &mut [u64]) -> Result<u64, Refusal> {
        let before = sets.to_vec();
        let (state, outcome) = list_sets(self.state, &self.tree_store, sets);
        assert_eq!(state, self.state);
        let written = outcome.unwrap_or(0) as usize;
        assert_eq!(sets[written..], before[written..]);
        outcome
    }

    /// A question with slices of 1,024 places.
    pub fn answer(&self, k: u32, n: u32) -> Result<Answer, Refusal> {
        self.question(k, n, &mut fresh_work(1_024, 1_024, 1_024))
    }
}

pub fn refusal<T>(number: u32, place: usize) -> Result<T, Refusal> {
    Err(refused(number, place))
}

/// A desk that holds both files.
pub fn holding(nodes: &[Node], scores: &[u8], entries: &[Entry]) -> Desk {
    let mut desk = Desk::roomy();
    assert_eq!(desk.tree(&tree_bytes(7, nodes)), Ok(()));
    assert_eq!(desk.sheet(&sheet_bytes(7, scores, entries)), Ok(()));
    desk
}

pub fn exact(units: u32) -> End {
    End { units, exact: true }
}

pub fn unmarked(units: u32) -> End {
    End { units, exact: false }
}
