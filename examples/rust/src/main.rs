//! Prints one level of a tree file and an opinion sheet: level TREE SHEET K N
//!
//! The line is that of the level printer: k, the lower end in billionths and its mark, the upper end and its mark,
//! where = is exact and ~ is not. A refusal is printed with its number and place. Exit status: 0 answered, 1 refused,
//! 2 the arguments are wrong or a file can't be read, 3 the line could not be written.
//!
//! Run at the repository's root, after `tools/staticlib.sh`:
//!     cargo run --release --offline --manifest-path examples/rust/Cargo.toml -- TREE SHEET K N

mod words;

use std::ffi::OsString;
use std::process::ExitCode;
use words::{ends_text, hold_pair, print_text, read_file, read_number, report, Failure};

const USAGE: &str = "level TREE SHEET K N, where TREE and SHEET are files and level K of N is asked";

fn main() -> ExitCode {
    report("level", USAGE, print_level(std::env::args_os().skip(1).collect()))
}

/// Holds both files and questions one level.
fn print_level(words: Vec<OsString>) -> Result<(), Failure> {
    let [tree, sheet, k, n] = <[OsString; 4]>::try_from(words).map_err(|_| Failure::Usage)?;
    let (k, n) = (read_number(&k)?, read_number(&n)?);
    let (tree, sheet) = (read_file(tree)?, read_file(sheet)?);
    let mut monitor = hold_pair(&tree, &sheet)?;
    let level = monitor.question(k, n).map_err(|refusal| Failure::Refused("level", refusal))?;
    print_text(&format!("{k} {}\n", ends_text(level)))
}
