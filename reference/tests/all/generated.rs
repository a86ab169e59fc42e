//! Generated cases: known outcomes are met, every refusal occurs, and nothing fails.

use reference::calls::run_calls;
use reference::cases::case::{Case, Outcome};
use reference::cases::damaged::{damaged_case, DAMAGES};
use reference::cases::large_damage::{large_case, LARGE_DAMAGES};
use reference::cases::limits::{limit_case, LIMITS};
use reference::cases::valid::valid_case;
use reference::cases::{write_case, Kind, KINDS};
use reference::framing::{frame, split_frames};
use reference::levels::print_levels;
use reference::random::Random;
use reference::set_lines::print_sets;
use std::collections::BTreeSet;

pub fn check(case: &Case, index: u64) {
    outcome_met(case, print_levels(&case.bytes).as_bytes(), "tree ", index);
}

/// What is printed says what the maker of the case knows; an answer has its own start.
pub fn outcome_met(case: &Case, printed: &[u8], answer: &str, index: u64) {
    let met = match case.outcome {
        Outcome::Input => printed == b"input\n",
        Outcome::Refused(number, place) => printed == format!("refused {number} at {place}\n").as_bytes(),
        Outcome::Answered => printed.starts_with(answer.as_bytes()),
    };
    assert!(met, "case {index} is \"{}\" and not {:?}", printed.escape_ascii(), case.outcome);
}

#[test]
fn valid_cases_are_answered() {
    for index in 0..300 {
        check(&valid_case(&mut Random::for_case(3, index), index), index);
    }
}

#[test]
fn limit_cases_meet_their_outcome() {
    for index in 0..LIMITS.len() as u64 {
        check(&limit_case(&mut Random::for_case(5, index), index), index);
    }
}

#[test]
fn damaged_cases_meet_their_outcome() {
    for index in 0..40 * DAMAGES as u64 {
        check(&damaged_case(&mut Random::for_case(7, index), index), index);
    }
}

#[test]
fn large_cases_meet_their_outcome() {
    for index in 0..2 * LARGE_DAMAGES as u64 {
        check(&large_case(&mut Random::for_case(9, index), index), index);
    }
}

/// Numbers and places of the largest tree with 960 events and of its sheet, worked out from document 01: record i at
/// 9 + 5 × i, link j at 5,129 + 2 × j, entry i at 26 + 17 × i, its term j one byte and j behind.
#[test]
fn large_cases_reach_the_last_places() {
    let outcomes: Vec<Outcome> =
        (0..LARGE_DAMAGES as u64).map(|index| large_case(&mut Random::for_case(9, index), index).outcome).collect();
    let records = [(6, 9), (6, 2_569), (6, 5_124), (7, 9), (7, 2_409), (7, 4_804), (7, 4_809), (7, 5_124), (7, 5_129)];
    let links = [(8, 5_129), (8, 6_151), (8, 7_173), (9, 5_131), (9, 6_153), (9, 7_173), (5, 7_174)];
    let scores = [(7, 10), (7, 25), (5, 16_345), (5, 16_347)];
    let entries = [(6, 26), (6, 8_186), (6, 16_329), (10, 26), (10, 8_186), (10, 16_329), (12, 26), (12, 16_329)];
    let terms = [(11, 27), (11, 35), (11, 42), (11, 8_187), (11, 16_330), (11, 16_338), (11, 16_345)];
    for (number, place) in [&records[..], &links[..], &scores[..], &entries[..], &terms[..]].concat() {
        assert!(outcomes.contains(&Outcome::Refused(number, place)), "{number} at {place}");
    }
}

/// The numbers of all refusals in a text.
pub fn refusals(text: &str) -> BTreeSet<u32> {
    let lines = text.lines().filter_map(|line| line.strip_prefix("refused "));
    lines.map(|rest| rest.split(' ').next().unwrap().parse().unwrap()).collect()
}

#[test]
fn damaged_cases_have_every_refusal_of_the_printer() {
    let mut seen = BTreeSet::new();
    for index in 0..DAMAGES as u64 {
        seen.extend(refusals(&print_levels(&write_case(Kind::Damaged, 11, index))));
    }
    assert_eq!(seen, BTreeSet::from([1, 2, 3, 4, 5, 6, 7, 8, 9, 10, 11, 12, 13, 24, 28]));
}

/// The refusals of so many lists of calls, all of which are understood.
fn list_refusals(kind: Kind, count: u64) -> BTreeSet<u32> {
    let mut seen = BTreeSet::new();
    for index in 0..count {
        let list = String::from_utf8(write_case(kind, 13, index)).unwrap();
        let (text, understood) = run_calls(&list);
        assert!(understood, "{list}");
        seen.extend(refusals(&text));
    }
    seen
}

#[test]
fn call_lists_have_every_refusal() {
    assert_eq!(list_refusals(Kind::Calls, 1_500), (1..=13).chain(20..=25).chain([28]).collect());
}

#[test]
fn set_lists_have_every_refusal_of_theirs() {
    let seen = list_refusals(Kind::Sets, 500);
    assert!([21, 23, 26, 27].iter().all(|number| seen.contains(number)), "{seen:?}");
    assert!(![13, 22, 24, 25].iter().any(|number| seen.contains(number)), "{seen:?}");
}

/// Few sets and many, above 10^9 too, and faults.
#[test]
fn tree_cases_have_counts_of_every_size() {
    let mut sizes = BTreeSet::new();
    let mut seen = BTreeSet::new();
    for index in 0..1_000 {
        let text = print_sets(&write_case(Kind::Trees, 15, index));
        seen.extend(refusals(&text));
        let count = text.lines().next().unwrap().split_once(" cut sets ").map(|(_, count)| count.len());
        sizes.extend(count);
    }
    assert_eq!(seen, (1..=9).chain([26]).collect());
    assert_eq!(sizes, (1..=10).collect());
}

#[test]
fn changed_cases_are_answered_or_refused() {
    let (mut answered, mut refused) = (0, 0);
    for index in 0..3_000 {
        let text = print_levels(&write_case(Kind::Changed, 17, index));
        answered += text.starts_with("tree ") as u32;
        refused += text.starts_with("refused ") as u32;
    }
    assert!(answered > 300 && refused > 300);
}

/// Every single byte of a small input set to some values.
#[test]
fn single_bytes() {
    let input = write_case(Kind::Valid, 19, 5);
    for place in 0..input.len() {
        for byte in [0, 1, 2, 3, 7, 8, 16, 17, 100, 101, 127, 128, 255] {
            let mut changed = input.clone();
            changed[place] = byte;
            assert!(print_levels(&changed).ends_with('\n'));
        }
    }
}

#[test]
fn bytes_of_no_meaning() {
    for index in 0..500 {
        let random = &mut Random::for_case(23, index);
        let bytes: Vec<u8> = (0..random.below(200)).map(|_| random.below(256) as u8).collect();
        assert!(print_levels(&bytes).ends_with('\n'));
        run_calls(&String::from_utf8_lossy(&bytes));
    }
}

#[test]
fn cases_repeat_and_frames_split() {
    for (_, kind) in KINDS {
        let cases: Vec<Vec<u8>> = (0..20).map(|index| write_case(kind, 29, index)).collect();
        let again: Vec<Vec<u8>> = (0..20).rev().map(|index| write_case(kind, 29, index)).collect();
        assert!(cases.iter().eq(again.iter().rev()));
        let stream: Vec<u8> = cases.iter().flat_map(|case| frame(case)).collect();
        assert!(split_frames(&stream).unwrap().iter().eq(cases.iter()));
        assert!(split_frames(&stream[..stream.len() - 1]).is_none());
    }
}
