//! A level printer, one at an hour, a node printer, or a mirror of files, that is a program of its own, held to the same
//! here on generated cases.

use crate::cases::{is_input, kind_name, write_case, Kind};
use crate::hours::print_hours;
use crate::levels::print_levels;
use crate::mirror_files::print_mirror;
use crate::node_lines::print_nodes;
use crate::tree_file;
use std::io::{self, Write};
use std::process::{Command, Stdio};

/// A printer by its word, and what it prints: a text, or mirrored files.
pub type Printer = (&'static str, fn(&[u8]) -> Vec<u8>);

/// The printer that the cases of a kind are for, or nothing for lists of calls and lone trees.
pub fn printer_of(kind: Kind) -> Option<Printer> {
    match kind {
        Kind::Windows => Some(("hours", |input| print_hours(input).into_bytes())),
        Kind::Mirrors => Some(("mirror", print_mirror)),
        Kind::Nodes => Some(("nodes", |input| print_nodes(input).into_bytes())),
        _ if is_input(kind) => Some(("levels", |input| print_levels(input).into_bytes())),
        _ => None,
    }
}

/// Whether it is mirrored files and no text.
fn is_files(printed: &[u8]) -> bool {
    printed.starts_with(tree_file::LETTERS)
}

/// The first `count` cases of a kind and a seed, for a printer.
#[derive(Clone, Copy)]
pub struct Cases {
    pub seed: u64,
    pub count: u64,
    pub kind: Kind,
    pub printer: Printer,
}

/// How many cases had each outcome here, and those where the program did otherwise.
#[derive(Default)]
pub struct Comparison {
    pub answered: u64,
    pub refused: u64,
    pub input: u64,
    pub differences: Vec<Difference>,
}

pub struct Difference {
    pub index: u64,
    pub expected: Vec<u8>,
    pub run: Run,
}

/// What a run printed, and whether it ended with status 0.
pub struct Run {
    pub printed: Vec<u8>,
    pub ended_well: bool,
}

pub fn compare(cases: Cases, program: &[&str]) -> io::Result<Comparison> {
    let mut comparison = Comparison::default();
    for index in 0..cases.count {
        let case = write_case(cases.kind, cases.seed, index);
        let expected = (cases.printer.1)(&case);
        match expected.split(|byte| b" \n".contains(byte)).next() {
            _ if is_files(&expected) => comparison.answered += 1,
            Some(b"tree") => comparison.answered += 1,
            Some(b"refused") => comparison.refused += 1,
            _ => comparison.input += 1,
        }
        let run = run(program, &case)?;
        if !run.ended_well || run.printed != expected {
            comparison.differences.push(Difference { index, expected, run });
        }
    }
    Ok(comparison)
}

/// A pipe holds the longest text, so the program may write before it has read all, or end before it has.
fn run(program: &[&str], case: &[u8]) -> io::Result<Run> {
    let mut child =
        Command::new(program[0]).args(&program[1..]).stdin(Stdio::piped()).stdout(Stdio::piped()).spawn()?;
    if let Some(mut stdin) = child.stdin.take() {
        match stdin.write_all(case) {
            Err(error) if error.kind() != io::ErrorKind::BrokenPipe => return Err(error),
            _ => {}
        }
    }
    let output = child.wait_with_output()?;
    Ok(Run { printed: output.stdout, ended_well: output.status.success() })
}

/// Differences written out in full; of the rest only the number is told.
const SHOWN: usize = 5;

/// The counts, or the first differences, each with the commands that run its case alone.
pub fn report(cases: Cases, program: &[&str], own_name: &str, comparison: &Comparison) -> String {
    let Cases { seed, count, kind, printer: (word, _) } = cases;
    let kind = kind_name(kind);
    let Comparison { answered, refused, input, differences } = comparison;
    let mut text = format!("seed {seed}, kind {kind}, {count} cases: ");
    if differences.is_empty() {
        text.push_str(&format!("{answered} answered, {refused} refused, {input} not an input; no difference\n"));
        return text;
    }
    text.push_str(&format!("{} DIFFER\n", differences.len()));
    for Difference { index, expected, run } in differences.iter().take(SHOWN) {
        text.push_str(&format!("difference: seed {seed}, kind {kind}, case {index}\n"));
        text.push_str(&first_difference(expected, run));
        for printer in [program.join(" "), format!("{own_name} {word}")] {
            text.push_str(&format!("  alone: {own_name} case {seed} {index} {kind} | {printer}\n"));
        }
    }
    text
}

/// Files that differ are told by their first byte that does, all else by lines.
fn first_difference(expected: &[u8], run: &Run) -> String {
    let mut text = String::new();
    if !run.ended_well {
        text.push_str("  the program did not end with status 0\n");
    }
    if is_files(expected) && is_files(&run.printed) {
        return text + &different_part("byte", 0, expected, &run.printed, |byte| format!("{byte:02x}"));
    }
    let (ours, theirs) = (lines(expected), lines(&run.printed));
    text + &different_part("line", 1, &ours, &theirs, |line| shown(line))
}

/// The first part in which the two differ, counted from `first`; nothing where there is none.
fn different_part<T: PartialEq>(
    name: &str,
    first: usize,
    ours: &[T],
    theirs: &[T],
    shown: impl Fn(&T) -> String,
) -> String {
    let part_of = |parts: &[T], index: usize| parts.get(index).map_or(format!("no {name}"), &shown);
    match (0..ours.len().max(theirs.len())).find(|&index| ours.get(index) != theirs.get(index)) {
        Some(index) => {
            let (ours, theirs) = (part_of(ours, index), part_of(theirs, index));
            format!("  {name} {}: {ours} here, {theirs} from the program\n", first + index)
        }
        None => String::new(),
    }
}

/// Each line keeps its line feed, so that a missing one is seen.
fn lines(text: &[u8]) -> Vec<&[u8]> {
    text.split_inclusive(|&byte| byte == b'\n').collect()
}

/// The start of a line in quotes, whatever bytes it has.
fn shown(line: &[u8]) -> String {
    format!("\"{}\"", line[..line.len().min(LONGEST_SHOWN)].escape_ascii())
}

const LONGEST_SHOWN: usize = 100;
