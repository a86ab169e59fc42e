//! The same questions or mirrors to several contestants, with the same buffers, timed. A round goes through every pair
//! of files and every contestant, so that all see the same machine.

use crate::capi::{self, Answer, Library, Reply, State, Work};
use crate::expected;
use reference::calls::{LOWER_FILL, MARK_FILL, STORE_FILL, UPPER_FILL};
use reference::cases::valid::Pair;
use reference::cut::Level;
use reference::evaluation::WorkSlices;
use reference::mirror::{self, Buffers};
use reference::monitor::{self, Stores};
use reference::work_windows::{self, Plan};
use std::hint::black_box;
use std::time::Instant;

const ROUNDS: usize = 201;
/// About the time that the first contestant has for each pair in a round.
const TURN_NANOSECONDS: f64 = 1_000_000.0;
const FIRST_QUESTIONS: u32 = 64;
const LEVELS: u32 = 1_000;

/// Who answers: a library with the C interface, or the reference, each a question, one at the hour, or a mirror.
#[derive(Clone, Copy)]
pub enum Contestant {
    Library(Library),
    Reference,
    LibraryAtHour(Library),
    ReferenceAtHour,
    LibraryMirror(Library),
    ReferenceMirror,
}

/// What a contestant is asked: to the same there is one answer.
#[derive(Clone, Copy, PartialEq, Eq)]
enum Asked {
    Question,
    QuestionAtHour,
    Mirror,
}

/// What a question or a mirror answers.
#[derive(Clone, Copy, PartialEq, Eq, Debug)]
enum Said {
    Reply(Reply),
    Answer(Answer),
}

impl Said {
    fn is_refused(&self) -> bool {
        let refusal = match self {
            Said::Reply(reply) => reply.refusal,
            Said::Answer(answer) => answer.refusal,
        };
        refusal.number != 0
    }
}

/// A held pair, a book and an hour, as every question is lent them.
struct Held {
    state: State,
    tree: Vec<u8>,
    sheet: Vec<u8>,
    book: Vec<u8>,
    hour: u32,
}

/// The buffers and the work slices, as every question is lent them; the tree buffer is for mirrors alone.
#[derive(Clone, PartialEq, Eq, Debug)]
struct Lent {
    tree_buffer: Vec<u8>,
    buffer: Vec<u8>,
    lower: Vec<u32>,
    upper: Vec<u32>,
    marks: Vec<u8>,
}

/// A pair, the contestants, and what each took in each round.
pub struct Bench {
    held: Held,
    lent: Lent,
    /// Questions in a turn.
    questions: u32,
    contestants: Vec<(Contestant, Vec<f64>)>,
}

/// Median nanoseconds of a question, contestant by contestant; and for each after the first the median over the rounds
/// of the first one's time by its own.
#[derive(Clone, Debug)]
pub struct Cost {
    pub times: Vec<f64>,
    pub ratios: Vec<f64>,
}

/// The cost of a question for each bench.
pub fn costs(mut benches: Vec<Bench>) -> Vec<Cost> {
    for round in 0..ROUNDS {
        benches.iter_mut().for_each(|bench| bench.run_round(round));
    }
    benches.into_iter().map(Bench::cost).collect()
}

pub fn median(mut times: Vec<f64>) -> f64 {
    times.sort_by(f64::total_cmp);
    times[times.len() / 2]
}

/// Who comes when: each is first as often as any other, and each comes after each.
fn order(contestants: usize, round: usize) -> Vec<usize> {
    let mut order: Vec<usize> = (0..contestants).collect();
    order.rotate_left(round / 2 % contestants);
    if round % 2 == 1 {
        order.reverse();
    }
    order
}

impl Contestant {
    fn name(&self) -> &'static str {
        match self {
            Contestant::Library(library) | Contestant::LibraryAtHour(library) | Contestant::LibraryMirror(library) => {
                library.name
            }
            Contestant::Reference | Contestant::ReferenceAtHour | Contestant::ReferenceMirror => "reference",
        }
    }

    fn asked(&self) -> Asked {
        match self {
            Contestant::Library(_) | Contestant::Reference => Asked::Question,
            Contestant::LibraryAtHour(_) | Contestant::ReferenceAtHour => Asked::QuestionAtHour,
            Contestant::LibraryMirror(_) | Contestant::ReferenceMirror => Asked::Mirror,
        }
    }

    /// Level k is asked; a mirror has none.
    fn ask(&self, held: &Held, k: u32, lent: &mut Lent) -> Said {
        match self {
            Contestant::Library(library) | Contestant::LibraryAtHour(library) | Contestant::LibraryMirror(library) => {
                ask_library(library, self.asked(), held, k, lent)
            }
            Contestant::Reference | Contestant::ReferenceAtHour | Contestant::ReferenceMirror => {
                ask_reference(self.asked(), held, k, lent)
            }
        }
    }
}

fn ask_library(library: &Library, asked: Asked, held: &Held, k: u32, lent: &mut Lent) -> Said {
    let Held { state, tree, sheet, book, hour } = held;
    let Lent { tree_buffer, buffer, lower, upper, marks } = lent;
    let work = Work { lower, upper, marks };
    match asked {
        Asked::Question => Said::Reply(library.question(*state, tree, sheet, k, LEVELS, work)),
        Asked::QuestionAtHour => {
            let plan = capi::Plan { book, hour: *hour, buffer };
            let reply = library.question_at_hour(*state, tree, sheet, [k, LEVELS], plan, work);
            Said::Reply(reply.expect("it has such a question"))
        }
        Asked::Mirror => {
            let answer = library.mirror(*state, tree, sheet, [tree_buffer, buffer]);
            Said::Answer(answer.expect("it has a mirror"))
        }
    }
}

fn ask_reference(asked: Asked, held: &Held, k: u32, lent: &mut Lent) -> Said {
    let Held { state, tree, sheet, book, hour } = held;
    let Lent { tree_buffer, buffer, lower, upper, marks } = lent;
    let (state, stores, level) = (expected::held(*state), Stores { tree, sheet }, Level { k, n: LEVELS });
    let work = WorkSlices { lower, upper, marks };
    match asked {
        Asked::Question => Said::Reply(expected::reply(monitor::question(state, stores, level, work))),
        Asked::QuestionAtHour => {
            let plan = Plan { book, hour: *hour };
            let reply = work_windows::question_at_hour(state, stores, level, plan, buffer, work);
            Said::Reply(expected::reply(reply))
        }
        Asked::Mirror => {
            let buffers = Buffers { tree: tree_buffer, sheet: buffer };
            Said::Answer(expected::answer(mirror::mirror(state, stores, buffers)))
        }
    }
}

impl Lent {
    fn new(nodes: usize, tree_length: usize, sheet_length: usize) -> Lent {
        Lent {
            tree_buffer: vec![STORE_FILL; tree_length],
            buffer: vec![STORE_FILL; sheet_length],
            lower: vec![LOWER_FILL; nodes],
            upper: vec![UPPER_FILL; nodes],
            marks: vec![MARK_FILL; nodes],
        }
    }

    fn fill(&mut self) {
        self.tree_buffer.fill(STORE_FILL);
        self.buffer.fill(STORE_FILL);
        self.lower.fill(LOWER_FILL);
        self.upper.fill(UPPER_FILL);
        self.marks.fill(MARK_FILL);
    }
}

impl Bench {
    /// Every contestant has answered every level, and all alike; the marks of each level's nodes are shown to `watch`.
    pub fn new(pair: &Pair, contestants: &[Contestant], watch: impl FnMut(&[u8])) -> Bench {
        Bench::with_plan(pair, Plan { book: &[], hour: 0 }, contestants, watch)
    }

    /// The same with a book and an hour; those that are asked the same answer alike.
    pub fn with_plan(pair: &Pair, plan: Plan, contestants: &[Contestant], watch: impl FnMut(&[u8])) -> Bench {
        let (tree, sheet) = (pair.tree(), pair.sheet());
        let mut bench = Bench {
            lent: Lent::new(pair.nodes.len(), tree.len(), sheet.len()),
            held: Held {
                state: State { tree_len: tree.len(), sheet_len: sheet.len() },
                tree,
                sheet,
                book: plan.book.to_vec(),
                hour: plan.hour,
            },
            questions: FIRST_QUESTIONS,
            contestants: contestants.iter().map(|&contestant| (contestant, Vec::new())).collect(),
        };
        bench.warm_up(watch);
        bench.questions = ((TURN_NANOSECONDS / bench.time(contestants[0], 0).max(1.0)) as u32).max(4);
        bench
    }

    fn warm_up(&mut self, mut watch: impl FnMut(&[u8])) {
        for k in 0..=LEVELS {
            let mut answered: Vec<(Contestant, Said, Lent)> = Vec::new();
            for (contestant, _) in &self.contestants {
                self.lent.fill();
                let found = contestant.ask(&self.held, k, &mut self.lent);
                assert!(!found.is_refused());
                if answered.is_empty() {
                    watch(&self.lent.marks);
                }
                match answered.iter().find(|(other, ..)| other.asked() == contestant.asked()) {
                    None => answered.push((*contestant, found, self.lent.clone())),
                    Some((other, wanted, left)) => {
                        assert_eq!(found, *wanted, "{} and {} at level {k}", contestant.name(), other.name());
                        assert!(
                            self.lent == *left,
                            "slices of {} and {} at level {k}",
                            contestant.name(),
                            other.name()
                        );
                    }
                }
            }
        }
    }

    /// The levels go on from round to round, and are the same for all in a round.
    fn run_round(&mut self, round: usize) {
        for index in order(self.contestants.len(), round) {
            let time = self.time(self.contestants[index].0, round as u32 * self.questions);
            self.contestants[index].1.push(time);
        }
    }

    /// Nanoseconds of a question over a turn, level after level.
    fn time(&mut self, contestant: Contestant, first: u32) -> f64 {
        let start = Instant::now();
        for question in first..first + self.questions {
            let k = black_box(question % (LEVELS + 1));
            black_box(contestant.ask(&self.held, k, &mut self.lent));
        }
        start.elapsed().as_nanos() as f64 / self.questions as f64
    }

    fn cost(self) -> Cost {
        let times: Vec<Vec<f64>> = self.contestants.into_iter().map(|(_, times)| times).collect();
        let by = |others: &Vec<f64>| median(times[0].iter().zip(others).map(|(first, other)| first / other).collect());
        let ratios = times[1..].iter().map(by).collect();
        Cost { times: times.into_iter().map(median).collect(), ratios }
    }
}
