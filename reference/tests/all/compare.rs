//! Comparison with a program: the same printer has no difference, and a wrong one is found and told.

use reference::cases::{Kind, KINDS};
use reference::compare::{compare, printer_of, report, Cases};

const OWN: &str = env!("CARGO_BIN_EXE_reference");

fn cases(kind: Kind, count: u64) -> Cases {
    Cases { seed: 3, count, kind, printer: printer_of(kind).unwrap() }
}

/// The printer with its text changed by a command of sed.
fn altered(edit: &str) -> Vec<String> {
    ["sh", "-c", &format!("'{OWN}' levels | sed '{edit}'")].map(str::to_string).to_vec()
}

/// The cases that differ, and the report.
fn compared(program: &[&str]) -> (Vec<u64>, String) {
    let cases = cases(Kind::Mixed, 120);
    let comparison = compare(cases, program).unwrap();
    let text = report(cases, program, "reference", &comparison);
    (comparison.differences.iter().map(|difference| difference.index).collect(), text)
}

#[test]
fn the_same_printer() {
    let (differing, text) = compared(&[OWN, "levels"]);
    assert_eq!(differing, []);
    assert!(text.starts_with("seed 3, kind mixed, 120 cases: "), "{text}");
    assert!(text.ends_with("; no difference\n"), "{text}");
}

/// An unmarked 0 printed as exact: only some of the answered cases have one.
#[test]
fn a_wrong_mark() {
    let program = altered("s/ 0 ~/ 0 =/");
    let (differing, text) = compared(&program.iter().map(String::as_str).collect::<Vec<_>>());
    assert!(!differing.is_empty() && differing.len() < 60, "{text}");
    let first = differing[0];
    assert!(text.contains(&format!("\ndifference: seed 3, kind mixed, case {first}\n  line ")), "{text}");
    assert!(text.contains(&format!("\n  alone: reference case 3 {first} mixed | sh -c ")), "{text}");
    assert!(text.contains(&format!("\n  alone: reference case 3 {first} mixed | reference levels\n")), "{text}");
}

/// The last line of each answer is left out, which no other line shows.
#[test]
fn a_line_too_few() {
    let program = altered("/^0 /d");
    let (differing, text) = compared(&program.iter().map(String::as_str).collect::<Vec<_>>());
    assert!(differing.len() > 20, "{text}");
    assert!(text.contains(" here, no line from the program\n"), "{text}");
}

/// Ends before it has read its input, and prints nothing.
#[test]
fn a_silent_program() {
    assert_eq!(compared(&["true"]).0.len(), 120);
}

/// The right text with a wrong status.
#[test]
fn a_failing_program() {
    let (differing, text) = compared(&["sh", "-c", &format!("'{OWN}' levels; exit 3")]);
    assert_eq!(differing.len(), 120);
    assert!(text.contains("\n  the program did not end with status 0\n  alone: "), "{text}");
}

/// The inputs at an hour go to the printer at an hour, those of nodes to theirs, pairs to the mirror, and lists and trees
/// to none.
#[test]
fn each_kind_has_its_printer() {
    for (name, kind) in KINDS {
        let word = printer_of(kind).map(|(word, _)| word);
        let wanted = match name {
            "windows" => Some("hours"),
            "mirrors" => Some("mirror"),
            "nodes" => Some("nodes"),
            "calls" | "sets" | "trees" => None,
            _ => Some("levels"),
        };
        assert_eq!(word, wanted, "{name}");
    }
    let cases = cases(Kind::Windows, 64);
    assert!(compare(cases, &[OWN, "hours"]).unwrap().differences.is_empty());
    let differences =
        compare(cases, &["sh", "-c", &format!("'{OWN}' hours | sed 's/^refused 29/refused 30/'")]).unwrap();
    let text = report(cases, &["other"], "reference", &differences);
    let first = differences.differences[0].index;
    assert!(text.contains(&format!("\n  alone: reference case 3 {first} windows | reference hours\n")), "{text}");
}

/// The mirror, with the last byte of files made an x; a line stays.
fn with_last_byte(work: &str) -> Vec<String> {
    let script = format!(
        "'{OWN}' mirror >'{work}'; if head -c 3 '{work}' | grep -q FTF; then head -c -1 '{work}'; printf x; \
         else cat '{work}'; fi; rm '{work}'"
    );
    vec!["sh".to_string(), "-c".to_string(), script]
}

/// Files are compared to the byte, and the first one that differs is told.
#[test]
fn mirrored_files() {
    let cases = cases(Kind::Mirrors, 48);
    let same = compare(cases, &[OWN, "mirror"]).unwrap();
    assert!(same.differences.is_empty() && same.answered > 9 && same.refused > 9 && same.input > 3);
    assert_eq!(same.answered + same.refused + same.input, 48);
    let work = std::env::temp_dir().join(format!("mirrored_files.{}", std::process::id()));
    let program = with_last_byte(work.to_str().unwrap());
    let program: Vec<&str> = program.iter().map(String::as_str).collect();
    let differing = compare(cases, &program).unwrap();
    assert_eq!(differing.differences.len() as u64, same.answered);
    let text = report(cases, &program, "reference", &differing);
    let first = &differing.differences[0];
    let (place, byte) = (first.expected.len() - 1, first.expected[first.expected.len() - 1]);
    assert!(text.contains(&format!("\n  byte {place}: {byte:02x} here, 78 from the program\n")), "{text}");
    assert!(text.contains(&format!("\n  alone: reference case 3 {} mirrors | reference mirror\n", first.index)));
    let cut_off = compare(cases, &["sh", "-c", &format!("'{OWN}' mirror | head -c 5")]).unwrap();
    let text = report(cases, &["other"], "reference", &cut_off);
    assert!(text.contains(" here, no byte from the program\n"), "{text}");
}
