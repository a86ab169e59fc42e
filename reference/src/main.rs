//! The commands; `reference` alone lists them.

use reference::calls::run_calls;
use reference::cases::fractions::FRACTION_CASES;
use reference::cases::large_damage::LARGE_DAMAGES;
use reference::cases::limits::LIMITS;
use reference::cases::mirror_list::mirror_list;
use reference::cases::mirrors::MIRROR_CASES;
use reference::cases::vector_list::{parse_family, vector_list, FAMILIES};
use reference::cases::windows::WINDOW_CASES;
use reference::cases::{file_name, parse_kind, write_case, Kind};
use reference::compare::{compare, printer_of, report, Cases};
use reference::examples::{example, Example};
use reference::framing::{frame, split_frames};
use reference::hours::{hour_input, print_hours};
use reference::levels::{print_levels, printer_input};
use reference::mirror_calls::{mirror_stream_text, write_mirror_stream};
use reference::mirror_files::print_mirror;
use reference::node_lines::print_nodes;
use reference::set_lines::print_sets;
use reference::vectors::{stream_text, write_stream};
use reference::work_windows::Plan;
use std::io::{self, Read, Write};
use std::path::Path;
use std::process::ExitCode;

const USAGE: &str = "\
reference levels < input                       the level printer
reference hours < input                        the level printer at an hour, with a book of work windows
reference nodes < input                        every node of a tree file and a sheet at a level
reference mirror < input                       the mirror of a tree file and a sheet, both behind each other
reference cut-sets < tree                      the minimal cut sets of a tree file, as lines in no promised order
reference calls < list                         a list of calls (src/calls.rs says the format)
reference each levels|hours|nodes|mirror|cut-sets|calls < stream
    the same for each framed case; the answers are framed alike
reference vectors families                     the families of stored calls, one a line
reference vectors stream FAMILY                the calls of a family as bytes (src/vectors.rs says the format)
reference vectors text < stream                what crates/FAMILY_vectors must print for such bytes
reference mirror-vectors stream                stored calls of the mirror as bytes (src/mirror_calls.rs says the format)
reference mirror-vectors text < stream         what crates/mirror_vectors must print for such bytes
reference cases SEED COUNT KIND DIR|-          cases as files in DIR, or framed to standard output
    KIND: valid limits damaged changed mixed calls sets trees large fractions windows silence mirrors nodes
reference case SEED INDEX KIND                 one of these cases to standard output
reference limits                               how many limits there are: so many cases of that kind have all
reference large                                the same of the faults in large files
reference fractions                            the same of the limits and faults of fraction entries
reference windows                              the same of the limits and faults of a book
reference mirrors                              the same of the limits and faults of a pair to be mirrored
reference compare SEED COUNT KIND PROGRAM [WORD...]
    such cases given to a level printer, one run each; status 1 where it prints anything else than `levels` here, or,
    of windows, than `hours`, of mirrors, than `mirror`, and of nodes, than `nodes`
reference example NAME tree|sheet|book         a file of an example
reference example NAME input N [HOUR]          the printer's input for an example with N levels, alone or at an hour
    NAME: road_trip container_seal fuel_supply cooling_pumps
";

/// Usage: no such command. Broken: a line of the list is no call, or the stream ends inside a case.
/// Differs: the program printed something else.
enum Failure {
    Usage,
    Broken,
    Differs,
    Io(io::Error),
}

impl From<io::Error> for Failure {
    fn from(error: io::Error) -> Failure {
        Failure::Io(error)
    }
}

fn main() -> ExitCode {
    let arguments: Vec<String> = std::env::args_os().skip(1).map(|word| word.to_string_lossy().into_owned()).collect();
    let words: Vec<&str> = arguments.iter().map(String::as_str).collect();
    match run(&words) {
        Ok(()) => ExitCode::SUCCESS,
        Err(Failure::Broken | Failure::Differs) => ExitCode::from(1),
        Err(Failure::Usage) => {
            let _ = io::stderr().write_all(USAGE.as_bytes());
            ExitCode::from(2)
        }
        Err(Failure::Io(error)) => {
            let _ = writeln!(io::stderr(), "{error}");
            ExitCode::from(3)
        }
    }
}

fn run(words: &[&str]) -> Result<(), Failure> {
    match *words {
        ["levels"] => Ok(write_out(print_levels(&read_in()?).as_bytes())?),
        ["hours"] => Ok(write_out(print_hours(&read_in()?).as_bytes())?),
        ["nodes"] => Ok(write_out(print_nodes(&read_in()?).as_bytes())?),
        ["mirror"] => Ok(write_out(&print_mirror(&read_in()?))?),
        ["cut-sets"] => Ok(write_out(print_sets(&read_in()?).as_bytes())?),
        ["calls"] => {
            let (text, understood) = answer_list(&read_in()?);
            write_out(text.as_bytes())?;
            if understood {
                Ok(())
            } else {
                Err(Failure::Broken)
            }
        }
        ["each", "levels"] => answer_each(print_levels),
        ["each", "hours"] => answer_each(print_hours),
        ["each", "nodes"] => answer_each(print_nodes),
        ["each", "mirror"] => answer_each(print_mirror),
        ["each", "cut-sets"] => answer_each(print_sets),
        ["each", "calls"] => answer_each(|case| answer_list(case).0),
        ["vectors", "families"] => Ok(write_out(FAMILIES.map(|(name, _)| format!("{name}\n")).concat().as_bytes())?),
        ["vectors", "stream", family] => {
            let calls = vector_list(parse_family(family).ok_or(Failure::Usage)?);
            Ok(write_out(&write_stream(&calls))?)
        }
        ["vectors", "text"] => {
            let text = stream_text(&read_in()?).ok_or(Failure::Broken)?;
            Ok(write_out(text.as_bytes())?)
        }
        ["mirror-vectors", "stream"] => Ok(write_out(&write_mirror_stream(&mirror_list()))?),
        ["mirror-vectors", "text"] => {
            let text = mirror_stream_text(&read_in()?).ok_or(Failure::Broken)?;
            Ok(write_out(text.as_bytes())?)
        }
        ["cases", seed, count, kind, target] => write_cases(number(seed)?, number(count)?, any_kind(kind)?, target),
        ["case", seed, index, kind] => Ok(write_out(&write_case(any_kind(kind)?, number(seed)?, number(index)?))?),
        [kind @ ("limits" | "large" | "fractions" | "windows" | "mirrors")] => {
            Ok(write_out(format!("{}\n", whole_round(kind)).as_bytes())?)
        }
        ["compare", seed, count, kind, ref program @ ..] if !program.is_empty() => {
            let kind = any_kind(kind)?;
            let printer = printer_of(kind).ok_or(Failure::Usage)?;
            compare_cases(Cases { seed: number(seed)?, count: number(count)?, kind, printer }, program)
        }
        ["example", name, ref part @ ..] => write_example(&example(name).ok_or(Failure::Usage)?, part),
        _ => Err(Failure::Usage),
    }
}

/// So many cases of the kind have every limit and every fault.
fn whole_round(kind: &str) -> u64 {
    match kind {
        "limits" => LIMITS.len() as u64,
        "large" => LARGE_DAMAGES as u64,
        "fractions" => FRACTION_CASES,
        "windows" => WINDOW_CASES,
        _ => MIRROR_CASES,
    }
}

/// A file of the example, or the printer's input.
fn write_example(example: &Example, part: &[&str]) -> Result<(), Failure> {
    let (tree, sheet, book) = (example.tree(), example.sheet(), example.book());
    let bytes = match *part {
        ["tree"] => tree,
        ["sheet"] => sheet,
        ["book"] => book,
        ["input", n] => printer_input(small_number(n)?, &tree, &sheet),
        ["input", n, hour] => {
            hour_input(small_number(n)?, &tree, &sheet, Plan { book: &book, hour: small_number(hour)? })
        }
        _ => return Err(Failure::Usage),
    };
    Ok(write_out(&bytes)?)
}

fn number(word: &str) -> Result<u64, Failure> {
    word.parse().map_err(|_| Failure::Usage)
}

/// A number that is no wider than its field.
fn small_number<T: TryFrom<u64>>(word: &str) -> Result<T, Failure> {
    number(word)?.try_into().map_err(|_| Failure::Usage)
}

fn any_kind(word: &str) -> Result<Kind, Failure> {
    parse_kind(word).ok_or(Failure::Usage)
}

/// No case shows no difference.
fn compare_cases(cases: Cases, program: &[&str]) -> Result<(), Failure> {
    if cases.count == 0 {
        return Err(Failure::Usage);
    }
    let outcome = compare(cases, program)?;
    let own_name = std::env::args().next().unwrap_or_default();
    write_out(report(cases, program, &own_name, &outcome).as_bytes())?;
    if outcome.differences.is_empty() {
        Ok(())
    } else {
        Err(Failure::Differs)
    }
}

/// Bytes that are no text become signs that no line of a list has.
fn answer_list(list: &[u8]) -> (String, bool) {
    run_calls(&String::from_utf8_lossy(list))
}

fn answer_each<T: AsRef<[u8]>>(answer: impl Fn(&[u8]) -> T) -> Result<(), Failure> {
    let stream = read_in()?;
    let mut out = io::BufWriter::new(io::stdout().lock());
    for case in split_frames(&stream).ok_or(Failure::Broken)? {
        out.write_all(&frame(answer(case).as_ref()))?;
    }
    Ok(out.flush()?)
}

fn write_cases(seed: u64, count: u64, kind: Kind, target: &str) -> Result<(), Failure> {
    if target == "-" {
        let mut out = io::BufWriter::new(io::stdout().lock());
        for index in 0..count {
            out.write_all(&frame(&write_case(kind, seed, index)))?;
        }
        return Ok(out.flush()?);
    }
    std::fs::create_dir_all(target)?;
    for index in 0..count {
        std::fs::write(Path::new(target).join(file_name(kind, index)), write_case(kind, seed, index))?;
    }
    Ok(())
}

fn read_in() -> io::Result<Vec<u8>> {
    let mut input = Vec::new();
    io::stdin().lock().read_to_end(&mut input)?;
    Ok(input)
}

fn write_out(bytes: &[u8]) -> io::Result<()> {
    let mut out = io::stdout().lock();
    out.write_all(bytes)?;
    out.flush()
}
