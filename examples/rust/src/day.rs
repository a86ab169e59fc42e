//! Prints a level of a tree file and an opinion sheet for each hour of a day, by a book of work windows:
//! day TREE SHEET BOOK K N FIRST
//!
//! There is a line for each of the 24 hours from FIRST on, counted since commissioning: the hour, the lower end in
//! billionths and its mark, the upper end and its mark, where = is exact and ~ is not. A refusal is printed with its
//! number and place. Exit status: 0 answered, 1 refused, 2 the arguments are wrong or a file can't be read, 3 the lines
//! could not be written.
//!
//! Run at the repository's root, after `tools/staticlib.sh`:
//!     cargo run --release --offline --manifest-path examples/rust/Cargo.toml --bin day -- TREE SHEET BOOK K N FIRST

mod words;

use std::ffi::OsString;
use std::process::ExitCode;
use words::{ends_text, hold_pair, print_text, read_file, read_number, report, Failure};

const USAGE: &str = "day TREE SHEET BOOK K N FIRST, where TREE, SHEET and BOOK are files, level K of N is asked, and \
    FIRST is the first of 24 hours";
const HOURS: u32 = 24;

fn main() -> ExitCode {
    report("day", USAGE, print_day(std::env::args_os().skip(1).collect()))
}

/// Holds both files and questions the level hour by hour.
fn print_day(words: Vec<OsString>) -> Result<(), Failure> {
    let [tree, sheet, book, k, n, first] = <[OsString; 6]>::try_from(words).map_err(|_| Failure::Usage)?;
    let (k, n, first) = (read_number(&k)?, read_number(&n)?, read_number(&first)?);
    let last = first.checked_add(HOURS - 1).ok_or(Failure::Usage)?;
    let (tree, sheet, book) = (read_file(tree)?, read_file(sheet)?, read_file(book)?);
    let mut monitor = hold_pair(&tree, &sheet)?;
    let mut lines = String::new();
    for hour in first..=last {
        let level = monitor.question_at_hour(&book, k, n, hour);
        let level = level.map_err(|refusal| Failure::Refused("hour", refusal))?;
        lines += &format!("{hour} {}\n", ends_text(level));
    }
    print_text(&lines)
}
