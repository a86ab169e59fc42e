//! Prints the minimal cut sets of a tree file: cut_sets TREE
//!
//! The first line is "cut sets COUNT"; then a line for each set: the numbers of its basic events, rising, parted by one
//! space. The lines are in the order of the library, which is left open. A refusal is printed with its number and
//! place. Exit status: 0 answered, 1 refused, 2 the arguments are wrong, the file can't be read or there are more sets
//! than are listed here, 3 the lines could not be written.
//!
//! Run at the repository's root, after `tools/staticlib.sh`:
//!     cargo run --release --offline --manifest-path examples/rust/Cargo.toml --bin cut_sets -- TREE

use nekbrod::{Monitor, Refusal};
use std::ffi::OsString;
use std::io::{self, BufWriter, Write};
use std::process::ExitCode;

/// More sets than these are counted and not listed.
const MOST_SETS: u64 = 1_000_000;

/// What kept the sets from being printed; a refusal is of the tree or of its cut sets.
enum Failure {
    Refused(&'static str, Refusal),
    Usage,
    Unreadable(OsString),
    TooMany(u64),
    Unwritten(io::Error),
}

fn main() -> ExitCode {
    match print_sets(std::env::args_os().skip(1).collect()) {
        Ok(()) => ExitCode::SUCCESS,
        Err(failure) => report(failure),
    }
}

/// Holds the file and lists its sets.
fn print_sets(words: Vec<OsString>) -> Result<(), Failure> {
    let [name] = <[OsString; 1]>::try_from(words).map_err(|_| Failure::Usage)?;
    let tree = std::fs::read(&name).map_err(|_| Failure::Unreadable(name))?;
    let mut monitor = Monitor::new();
    monitor.hand_in_tree(&tree).map_err(|refusal| Failure::Refused("tree", refusal))?;
    let refused = |refusal| Failure::Refused("cut sets", refusal);
    let count = monitor.count_cut_sets().map_err(refused)?;
    if count > MOST_SETS {
        return Err(Failure::TooMany(count));
    }
    write_sets(&monitor.cut_sets().map_err(refused)?).map_err(Failure::Unwritten)
}

fn write_sets(sets: &[u64]) -> io::Result<()> {
    let mut out = BufWriter::new(io::stdout().lock());
    writeln!(out, "cut sets {}", sets.len())?;
    for set in sets {
        let events: Vec<String> =
            (0..64).filter(|event| set >> event & 1 == 1).map(|event| event.to_string()).collect();
        writeln!(out, "{}", events.join(" "))?;
    }
    out.flush()
}

fn report(failure: Failure) -> ExitCode {
    let (status, text) = match failure {
        Failure::Refused(what, refusal) => (1, format!("{what}: refused {} at {}", refusal.number, refusal.place)),
        Failure::Usage => (2, "usage: cut_sets TREE, where TREE is a tree file".to_string()),
        Failure::Unreadable(name) => (2, format!("cut_sets: can't read {}", name.display())),
        Failure::TooMany(count) => (2, format!("cut_sets: no room for {count} sets")),
        Failure::Unwritten(error) => (3, format!("cut_sets: can't write: {error}")),
    };
    let _ = writeln!(io::stderr(), "{text}");
    ExitCode::from(status)
}
