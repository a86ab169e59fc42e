//! Mirrors a tree file and an opinion sheet, and prints one level of both sides: mirror TREE SHEET K N
//!
//! The first line is "fails", k, the lower end in billionths and its mark, the upper end and its mark, where = is exact
//! and ~ is not: the probability of the top event. The second line is "works" and the same of the mirrored pair: the
//! probability that the top event does not happen. Each of its ends is 1000000000 minus the other end of the first
//! line, with that end's mark. A refusal is printed with its number and place. Exit status: 0 answered, 1 refused, 2
//! the arguments are wrong or a file can't be read, 3 the lines could not be written.
//!
//! Run at the repository's root, after `tools/staticlib.sh`:
//!     cargo run --release --offline --manifest-path examples/rust/Cargo.toml --bin mirror -- TREE SHEET K N

mod words;

use std::ffi::OsString;
use std::process::ExitCode;
use words::{ends_text, hold_pair, print_text, read_file, read_number, report, Failure};

const USAGE: &str = "mirror TREE SHEET K N, where TREE and SHEET are files and level K of N is asked";

fn main() -> ExitCode {
    report("mirror", USAGE, print_both(std::env::args_os().skip(1).collect()))
}

/// Holds both files, mirrors them, and questions a level of the held pair and of the mirrored one.
fn print_both(words: Vec<OsString>) -> Result<(), Failure> {
    let [tree, sheet, k, n] = <[OsString; 4]>::try_from(words).map_err(|_| Failure::Usage)?;
    let (k, n) = (read_number(&k)?, read_number(&n)?);
    let (tree, sheet) = (read_file(tree)?, read_file(sheet)?);
    let held = hold_pair(&tree, &sheet)?;
    let mirrored = held.mirror().map_err(|refusal| Failure::Refused("mirror", refusal))?;
    let mut lines = String::new();
    for (side, mut monitor) in [("fails", held), ("works", mirrored)] {
        let level = monitor.question(k, n).map_err(|refusal| Failure::Refused("level", refusal))?;
        lines += &format!("{side} {k} {}\n", ends_text(level));
    }
    print_text(&lines)
}
