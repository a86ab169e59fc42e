//! Generated inputs of the level printer at an hour: known outcomes are met, every fault comes to every place, and
//! there are answers and refusals enough.

use crate::generated::{outcome_met, refusals};
use reference::cases::books::{bad_book, WINDOW_FAULTS};
use reference::cases::case::{Case, Outcome};
use reference::cases::damaged::DAMAGES;
use reference::cases::windows::{
    answered_windows, before_the_book, no_input, window_fault, window_limit, WINDOW_CASES, WINDOW_LIMITS,
};
use reference::cases::{write_case, Kind};
use reference::examples::example;
use reference::hours::{hour_input, print_hours};
use reference::random::Random;
use reference::work_windows::Plan;
use std::collections::BTreeSet;

fn check(case: &Case, index: u64) {
    outcome_met(case, print_hours(&case.bytes).as_bytes(), "tree ", index);
}

#[test]
fn limits_meet_their_outcome() {
    for index in 0..2 * WINDOW_LIMITS.len() as u64 {
        check(&window_limit(&mut Random::for_case(61, index), index), index);
    }
}

#[test]
fn faults_meet_their_outcome() {
    for index in 0..60 * WINDOW_FAULTS.len() as u64 {
        check(&window_fault(&mut Random::for_case(63, index), index), index);
    }
}

#[test]
fn earlier_faults_meet_their_outcome() {
    for index in 0..5 * DAMAGES as u64 {
        check(&before_the_book(&mut Random::for_case(65, index), index), index);
    }
}

#[test]
fn bytes_that_are_no_input() {
    for index in 0..600 {
        check(&no_input(&mut Random::for_case(67, index), index), index);
    }
}

#[test]
fn answered_cases_are_answered() {
    for index in 0..300 {
        check(&answered_windows(&mut Random::for_case(69, index), index), index);
    }
}

/// A whole round has answers, all that is named before the book, 29, and blind changes that stay acceptable.
#[test]
fn a_round_has_every_outcome() {
    let mut seen = BTreeSet::new();
    let (mut answered, mut changed, mut input) = (0, 0, 0);
    for index in 0..WINDOW_CASES {
        let text = print_hours(&write_case(Kind::Windows, 71, index));
        seen.extend(refusals(&text));
        answered += text.starts_with("tree ") as u64;
        changed += (text.starts_with("tree ") && index % 8 == 7) as u64;
        input += (text == "input\n") as u64;
    }
    assert!([1, 2, 3, 4, 5, 6, 7, 8, 9, 29].iter().all(|number| seen.contains(number)), "{seen:?}");
    assert!(3 * answered > WINDOW_CASES && answered < WINDOW_CASES * 3 / 4, "{answered}");
    assert!(changed > 5 && input >= WINDOW_CASES / 8, "{changed} {input}");
}

/// The event and the end of the first, a middle and the last window of a full book, and lengths.
#[test]
fn faults_come_to_every_place() {
    let limits = (0..WINDOW_LIMITS.len() as u64).map(|index| window_limit(&mut Random::for_case(73, index), index));
    let faults =
        (0..60 * WINDOW_FAULTS.len() as u64).map(|index| window_fault(&mut Random::for_case(73, index), index));
    let outcomes: Vec<Outcome> = limits.chain(faults).map(|case| case.outcome).collect();
    for place in [0, 6, 10, 16, 1_280, 1_286, 2_550, 2_556, 1, 9, 11, 2_559, 2_561, 2_570, 65_530, 65_535] {
        assert!(outcomes.contains(&Outcome::Refused(29, place)), "{place}");
    }
}

#[test]
fn bad_books_are_refused() {
    let example = example("road_trip").unwrap();
    for index in 0..1_000 {
        let book = bad_book(&mut Random::for_case(75, index), example.entries.len());
        let input = hour_input(1, &example.tree(), &example.sheet(), Plan { book: &book, hour: 5 });
        let text = print_hours(&input);
        assert!(text.starts_with("refused 29 at "), "{text}");
    }
}
