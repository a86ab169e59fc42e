//! Generated cases with fraction entries: known outcomes are met, every fault comes to every place, and there are
//! answers, refusals and fraction entries enough.

use crate::generated::{check, refusals};
use reference::calls::run_calls;
use reference::cases::call_lists::fraction_list;
use reference::cases::case::Outcome;
use reference::cases::fraction_damage::{faulty_sheet, large_fault, small_fault, FRACTION_FAULTS, LARGE_FAULTS};
use reference::cases::fraction_limits::{fraction_limit, FRACTION_LIMITS};
use reference::cases::fractions::{answered_fractions, fraction_case, FRACTION_CASES};
use reference::cases::{write_case, Kind};
use reference::levels::print_levels;
use reference::opinion_sheet::{entry_place, FRACTIONS};
use reference::random::Random;
use reference::sheet_judge::judge_sheet;
use std::collections::BTreeSet;

#[test]
fn limits_meet_their_outcome() {
    for index in 0..FRACTION_LIMITS.len() as u64 {
        check(&fraction_limit(&mut Random::for_case(31, index), index), index);
    }
}

#[test]
fn faults_meet_their_outcome() {
    for index in 0..60 * FRACTION_FAULTS.len() as u64 {
        check(&small_fault(&mut Random::for_case(33, index), index), index);
    }
    for index in 0..2 * LARGE_FAULTS as u64 {
        check(&large_fault(&mut Random::for_case(35, index), index), index);
    }
}

#[test]
fn answered_cases_are_answered() {
    for index in 0..300 {
        check(&answered_fractions(&mut Random::for_case(37, index), index), index);
    }
}

/// Entry i stands at 26 + 17 × i: the first, middle and last of 960 and of 1,024, each for every fault.
#[test]
fn large_faults_come_to_every_place() {
    let cases = (0..LARGE_FAULTS as u64).map(|index| large_fault(&mut Random::for_case(35, index), index).outcome);
    let outcomes: Vec<Outcome> = cases.collect();
    for (place, faults) in [(26, 22), (8_186, 11), (16_329, 11), (8_730, 11), (17_417, 11)] {
        let found = outcomes.iter().filter(|outcome| **outcome == Outcome::Refused(28, place)).count();
        assert_eq!(found, faults, "{place}");
    }
}

/// Each fault is one by itself: the sheet with that entry alone is refused.
#[test]
fn faulty_sheets_are_refused() {
    for index in 0..1_000 {
        let sheet = faulty_sheet(&mut Random::for_case(39, index));
        let refusal = judge_sheet(&sheet).unwrap_err();
        assert_eq!(refusal.number, 28);
        assert_eq!(sheet[refusal.place], FRACTIONS);
    }
}

/// A whole round has answers, 28, what comes before and behind it, and blind changes that stay acceptable.
#[test]
fn a_round_has_every_outcome() {
    let mut seen = BTreeSet::new();
    let (mut answered, mut changed) = (0, 0);
    for index in 0..FRACTION_CASES {
        let text = print_levels(&write_case(Kind::Fractions, 41, index));
        seen.extend(refusals(&text));
        let is_answered = text.starts_with("tree ");
        answered += is_answered as u64;
        changed += (is_answered && index % 16 >= 13) as u64;
    }
    assert!([5, 6, 10, 11, 12, 24, 28].iter().all(|number| seen.contains(number)), "{seen:?}");
    assert!(4 * answered > FRACTION_CASES && answered < FRACTION_CASES * 3 / 4, "{answered}");
    assert!(changed > 40, "{changed}");
}

/// Most inputs that are answered have an entry of kind 2.
#[test]
fn cases_have_fraction_entries() {
    let with_fractions = |index: &u64| {
        let input = fraction_case(&mut Random::for_case(43, *index), *index);
        let tree = u16::from_le_bytes([input[2], input[3]]) as usize;
        let sheet = &input[6 + tree..];
        (0..).map(entry_place).take_while(|&place| place < sheet.len()).any(|place| sheet[place] == FRACTIONS)
    };
    assert!((0..320).filter(with_fractions).count() > 280);
}

#[test]
fn lists_have_28_and_answers() {
    let mut seen = BTreeSet::new();
    let mut answered = 0;
    for index in 0..200 {
        let list = fraction_list(&mut Random::for_case(45, index));
        let (text, understood) = run_calls(&list);
        assert!(understood, "{list}");
        seen.extend(refusals(&text));
        answered += text.lines().filter(|line| line.starts_with("lower ") && line.contains(" upper ")).count();
    }
    assert!([13, 20, 21, 22, 23, 24, 25, 28].iter().all(|number| seen.contains(number)), "{seen:?}");
    assert!(answered > 200, "{answered}");
}
