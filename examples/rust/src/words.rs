//! What the programs of a level share: reading their words and files, holding a pair, printing its ends, and telling
//! what kept the lines from being printed.

use nekbrod::{End, Level, Monitor, Refusal};
use std::ffi::OsString;
use std::io::{self, Write};
use std::process::ExitCode;

/// What kept the lines from being printed; a refusal is of the tree, the sheet or the question.
pub enum Failure {
    Refused(&'static str, Refusal),
    Usage,
    Unreadable(OsString),
    Unwritten(io::Error),
}

/// Both ends, each with its mark.
pub fn ends_text(level: Level) -> String {
    format!("{} {}", end_text(level.lower), end_text(level.upper))
}

fn end_text(end: End) -> String {
    format!("{} {}", end.billionths, if end.exact { '=' } else { '~' })
}

/// A monitor that holds both files.
pub fn hold_pair(tree: &[u8], sheet: &[u8]) -> Result<Monitor, Failure> {
    let mut monitor = Monitor::new();
    monitor.hand_in_tree(tree).map_err(|refusal| Failure::Refused("tree", refusal))?;
    monitor.hand_in_sheet(sheet).map_err(|refusal| Failure::Refused("sheet", refusal))?;
    Ok(monitor)
}

/// Decimal digits alone, for a number of 32 bits.
pub fn read_number(word: &OsString) -> Result<u32, Failure> {
    let digits = word.to_str().filter(|word| word.bytes().all(|byte| byte.is_ascii_digit()));
    digits.and_then(|digits| digits.parse().ok()).ok_or(Failure::Usage)
}

pub fn read_file(name: OsString) -> Result<Vec<u8>, Failure> {
    std::fs::read(&name).map_err(|_| Failure::Unreadable(name))
}

/// Standard output gets the whole text.
pub fn print_text(text: &str) -> Result<(), Failure> {
    let mut out = io::stdout().lock();
    out.write_all(text.as_bytes()).and_then(|()| out.flush()).map_err(Failure::Unwritten)
}

/// The exit status, after a line on standard error where there was a failure.
pub fn report(program: &str, usage: &str, outcome: Result<(), Failure>) -> ExitCode {
    let (status, text) = match outcome {
        Ok(()) => return ExitCode::SUCCESS,
        Err(Failure::Refused(what, refusal)) => (1, format!("{what}: refused {} at {}", refusal.number, refusal.place)),
        Err(Failure::Usage) => (2, format!("usage: {usage}")),
        Err(Failure::Unreadable(name)) => (2, format!("{program}: can't read {}", name.display())),
        Err(Failure::Unwritten(error)) => (3, format!("{program}: can't write: {error}")),
    };
    let _ = writeln!(io::stderr(), "{text}");
    ExitCode::from(status)
}
