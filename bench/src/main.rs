//! The commands; `bench help` lists them.

use bench::capi::{CAPI, PEER};
use bench::compare::{compare, Cases};
use bench::desk::Tally;
use bench::gates::{self, Gates};
use bench::loaded::{load, Loaded};
use bench::marked_sheets::Marks;
use bench::ratios::{self, Entries, Shape};
use bench::sets;
use bench::soak::soak;
use bench::timing::{Contestant, Cost};
use bench::windows::{self, Book};
use std::process::ExitCode;
use std::time::{Instant, SystemTime, UNIX_EPOCH};

const USAGE: &str = "\
bench [LIBRARY]                     questions through capi beside the same to the peer: ratios, and the cost per node
bench gates [LIBRARY]               questions on trees of AND gates alone, OR gates alone and mixed, with all ends
                                    exact, none and some: through capi beside reference/
bench compare [SEED COUNT [FIRST]]  generated cases through capi, the peer and reference/, from case FIRST on; with no
                                    FIRST all limits, all faults in large files and in fraction entries, and all
                                    limits of a mirror too; every pair that is held is mirrored
bench soak [SEED CALLS]             calls in a random order through capi and reference/, each checked
bench windows                       questions at an hour through capi, with books of up to 256 windows, none open and
                                    all: beside plain questions and beside reference/
bench mirror                        mirrors through capi beside plain questions on the same pair and beside reference/
bench sets                          lists of up to a million cut sets through capi beside reference/: ratios, and the
                                    cost per set
LIBRARY is a shared library of another commit, timed beside both in the same run.
";

const CASES: u64 = 100_000;
const SOAK_CALLS: u64 = 10_000_000;
/// The last has 960 events under 64 gates.
const TREES: [(Shape, usize); 7] = [
    (Shape::Paired, 3),
    (Shape::Paired, 64),
    (Shape::Paired, 127),
    (Shape::Paired, 255),
    (Shape::Paired, 511),
    (Shape::Paired, 1_023),
    (Shape::MostEvents, 1_024),
];
const ENTRIES: [(Entries, &str); 4] = [
    (Entries::Numbers, "four numbers"),
    (Entries::Opinions, "opinions"),
    (Entries::Both, "both"),
    (Entries::Fractions, "fractions"),
];

/// The trees of `bench gates`.
const GATES: [(Gates, &str); 3] = [(Gates::And, "AND"), (Gates::Or, "OR"), (Gates::Mixed, "mixed")];
const GATE_NODES: [usize; 2] = [64, 1_023];
const MARKS: [(Marks, &str); 3] = [(Marks::All, "all"), (Marks::None, "none"), (Marks::Mixed, "mixed")];

/// The trees of `bench windows` and `bench mirror`.
const FEW_TREES: [(Shape, usize); 3] = [(Shape::Paired, 64), (Shape::Paired, 1_023), (Shape::MostEvents, 1_024)];
/// The entries and books of `bench windows`.
const WINDOW_ENTRIES: [(Entries, &str); 3] =
    [(Entries::Numbers, "four numbers"), (Entries::Opinions, "opinions"), (Entries::Fractions, "fractions")];
const BOOKS: [Book; 7] = [
    Book { windows: 0, open: false },
    Book { windows: 16, open: false },
    Book { windows: 16, open: true },
    Book { windows: 64, open: false },
    Book { windows: 64, open: true },
    Book { windows: 256, open: false },
    Book { windows: 256, open: true },
];

fn main() -> ExitCode {
    let arguments: Vec<String> = std::env::args().skip(1).collect();
    let words: Vec<&str> = arguments.iter().map(String::as_str).collect();
    match run(&words) {
        Some(Ok(true)) => ExitCode::SUCCESS,
        Some(Ok(false)) => ExitCode::from(1),
        Some(Err(reason)) => {
            eprintln!("bench: {reason}");
            ExitCode::from(2)
        }
        None => {
            eprint!("{USAGE}");
            ExitCode::from(2)
        }
    }
}

/// Whether all agreed, or why a library cannot be opened; nothing where the words are no command.
fn run(words: &[&str]) -> Option<Result<bool, String>> {
    let agreed = match *words {
        [] => print_ratios(None),
        ["gates"] => print_gates(None),
        ["gates", library] => return Some(load(library).map(|loaded| print_gates(Some(loaded)))),
        ["compare"] => run_compare(Cases { seed: any_seed(), count: CASES, first: 0 }),
        ["compare", seed, count] => {
            run_compare(Cases { seed: seed.parse().ok()?, count: count.parse().ok()?, first: 0 })
        }
        ["compare", seed, count, first] => {
            run_compare(Cases { seed: seed.parse().ok()?, count: count.parse().ok()?, first: first.parse().ok()? })
        }
        ["sets"] => print_sets(),
        ["windows"] => print_windows(),
        ["mirror"] => print_mirror(),
        ["soak"] => run_soak(any_seed(), SOAK_CALLS),
        ["soak", seed, calls] => run_soak(seed.parse().ok()?, calls.parse().ok()?),
        ["help" | "--help"] => return None,
        [library] => return Some(load(library).map(|loaded| print_ratios(Some(loaded)))),
        _ => return None,
    };
    Some(Ok(agreed))
}

/// The second at which it is asked for.
fn any_seed() -> u64 {
    SystemTime::now().duration_since(UNIX_EPOCH).map_or(0, |time| time.as_secs())
}

fn counts(tally: Tally) -> String {
    let Tally { calls, questions, answered, fractions, silent, unheld, hand_ins, accepted, .. } = tally;
    let Tally { lists, listed, sets, hour_questions, hours_answered, open, .. } = tally;
    let answered =
        format!("{answered} answered, {fractions} of these with fraction entries and {silent} with silent experts");
    let questions = format!("{questions} questions, {answered}, {unheld} with nothing to answer from");
    let lists = format!("{lists} lists of cut sets, {listed} answered with {sets} sets");
    let hours =
        format!("{hour_questions} questions at an hour, {hours_answered} answered, {open} of these with a window open");
    let Tally { mirrors, mirrored, lawful, .. } = tally;
    let mirrors = format!("{mirrors} mirrors, {mirrored} answered, {lawful} results of nodes held to their mirror's");
    format!("{calls} calls: {questions}; {hand_ins} hand-ins, {accepted} accepted; {lists}; {hours}; {mirrors}")
}

fn run_compare(cases: Cases) -> bool {
    let Cases { seed, count, first } = cases;
    println!("compare: seed {seed}, {count} cases from case {first} on");
    let start = Instant::now();
    let (tally, outcome) = compare(cases);
    match &outcome {
        Ok(()) => println!("compare: no difference in {} ({} s)", counts(tally), start.elapsed().as_secs()),
        Err(found) => {
            println!("compare: seed {seed}, {}, call {}: {}", found.case, found.call, found.difference.0);
            println!("compare: to run it again alone: bench compare {}", found.case.again(seed));
        }
    }
    outcome.is_ok() && tally.calls > 0
}

fn run_soak(seed: u64, calls: u64) -> bool {
    println!("soak: seed {seed}, {calls} calls");
    let start = Instant::now();
    let (tally, outcome) = soak(seed, calls);
    match &outcome {
        Ok(()) => println!("soak: no difference in {} ({} s)", counts(tally), start.elapsed().as_secs()),
        Err(difference) => println!("soak: seed {seed}, call {}: {}", tally.calls, difference.0),
    }
    outcome.is_ok() && tally.calls > 0
}

/// The proved library, linked or loaded, then another contestant, then the library of another commit.
fn contestants(other: Contestant, loaded: Option<Loaded>) -> Vec<Contestant> {
    match loaded {
        Some(Loaded { capi, before }) => vec![Contestant::Library(capi), other, Contestant::Library(before)],
        None => vec![Contestant::Library(CAPI), other],
    }
}

/// The titles of the last two columns.
fn before_titles(loaded: Option<Loaded>) -> &'static str {
    loaded.map_or("", |_| "    before  capi/before")
}

/// The last two columns.
fn before_columns(cost: &Cost) -> String {
    match (cost.times.get(2), cost.ratios.get(1)) {
        (Some(before), Some(ratio)) => format!(" {before:9.0} {ratio:12.2}"),
        _ => String::new(),
    }
}

/// Each tree with each kind of entries, and the name of these.
fn every_size(trees: &[(Shape, usize)]) -> (Vec<ratios::Size>, Vec<&'static str>) {
    let sizes = ENTRIES.iter().flat_map(|&(entries, name)| {
        trees.iter().map(move |&(shape, nodes)| (ratios::Size { shape, nodes, entries }, name))
    });
    sizes.unzip()
}

/// Figures are for reading: nothing is held to them here.
fn print_ratios(loaded: Option<Loaded>) -> bool {
    let (sizes, names) = every_size(&TREES);
    let costs = ratios::costs(&sizes, &contestants(Contestant::Library(PEER), loaded));
    println!("                              a question, ns              a node, ns");
    println!("entries       nodes events      capi      peer  capi/peer    capi    peer{}", before_titles(loaded));
    for ((size, name), (events, cost)) in sizes.iter().zip(names).zip(costs) {
        let (capi, peer, ratio, nodes) = (cost.times[0], cost.times[1], cost.ratios[0], size.nodes as f64);
        print!("{name:12} {:6} {events:6} {capi:9.0} {peer:9.0} {ratio:10.2}", size.nodes);
        println!(" {:7.1} {:7.1}{}", capi / nodes, peer / nodes, before_columns(&cost));
    }
    true
}

fn print_gates(loaded: Option<Loaded>) -> bool {
    let mut sizes = Vec::new();
    let mut names = Vec::new();
    for (gates, gates_name) in GATES {
        for (nodes, (marks, marks_name)) in GATE_NODES.iter().flat_map(|&nodes| MARKS.map(|marks| (nodes, marks))) {
            sizes.push(gates::Size { gates, nodes, marks });
            names.push((gates_name, marks_name));
        }
    }
    let costs = gates::costs(&sizes, &contestants(Contestant::Reference, loaded));
    println!("                           a question, ns");
    println!("gates   nodes  marks       capi  reference  capi/reference{}", before_titles(loaded));
    for ((size, (gates, marks)), cost) in sizes.iter().zip(names).zip(costs) {
        let (capi, reference, ratio) = (cost.times[0], cost.times[1], cost.ratios[0]);
        print!("{gates:6} {:6}  {marks:6} {capi:9.0} {reference:10.0} {ratio:15.2}", size.nodes);
        println!("{}", before_columns(&cost));
    }
    true
}

fn print_windows() -> bool {
    let mut sizes = Vec::new();
    let mut names = Vec::new();
    for (entries, name) in WINDOW_ENTRIES {
        for ((shape, nodes), book) in FEW_TREES.iter().flat_map(|&tree| BOOKS.map(|book| (tree, book))) {
            sizes.push((ratios::Size { shape, nodes, entries }, book));
            names.push(name);
        }
    }
    let costs = windows::costs(&sizes);
    println!("                                          a question, ns");
    println!("entries       nodes events windows open  at an hour     plain  reference  hour/plain  hour/reference");
    for (((size, book), name), (events, cost)) in sizes.iter().zip(names).zip(costs) {
        let open = if book.open { "all" } else { "none" };
        print!("{name:12} {:6} {events:6} {:7} {open:4}", size.nodes, book.windows);
        print!(" {:11.0} {:9.0} {:10.0}", cost.times[0], cost.times[1], cost.times[2]);
        println!(" {:11.2} {:15.2}", cost.ratios[0], cost.ratios[1]);
    }
    true
}

fn print_mirror() -> bool {
    let (sizes, names) = every_size(&FEW_TREES);
    let contestants = [Contestant::LibraryMirror(CAPI), Contestant::Library(CAPI), Contestant::ReferenceMirror];
    let costs = ratios::costs(&sizes, &contestants);
    println!("                              a mirror or a question, ns");
    println!("entries       nodes events    mirror  question  reference  mirror/question  mirror/reference");
    for ((size, name), (events, cost)) in sizes.iter().zip(names).zip(costs) {
        print!("{name:12} {:6} {events:6}", size.nodes);
        print!(" {:9.0} {:9.0} {:10.0}", cost.times[0], cost.times[1], cost.times[2]);
        println!(" {:16.2} {:17.2}", cost.ratios[0], cost.ratios[1]);
    }
    true
}

fn print_sets() -> bool {
    println!("                  a set, ns");
    println!("    sets  nodes       capi  reference  capi/reference");
    for sets::Cost { nodes, sets, capi, reference, ratio } in sets::costs() {
        println!("{sets:8} {nodes:6} {capi:10.2} {reference:10.2} {ratio:15.2}");
    }
    true
}
