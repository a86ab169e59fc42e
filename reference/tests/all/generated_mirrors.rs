//! Generated pairs to be mirrored: known outcomes are met, and a round has every refusal and answers enough.

use crate::generated::{outcome_met, refusals};
use reference::cases::case::Case;
use reference::cases::damaged::DAMAGES;
use reference::cases::mirrors::{
    damaged_pair, file_limit, fraction_fault, mirror_limit, mirrored_pair, MIRROR_CASES, MIRROR_LIMITS,
};
use reference::cases::{write_case, Kind};
use reference::levels::pair_input;
use reference::mirror_files::print_mirror;
use reference::random::Random;
use std::collections::BTreeSet;

fn check(case: &Case, index: u64) {
    outcome_met(case, &print_mirror(&case.bytes), "FTF", index);
}

#[test]
fn limits_meet_their_outcome() {
    for index in 0..2 * MIRROR_LIMITS.len() as u64 {
        check(&mirror_limit(&mut Random::for_case(91, index), index), index);
    }
    for index in 0..200 {
        check(&file_limit(&mut Random::for_case(93, index), index), index);
    }
}

#[test]
fn faults_meet_their_outcome() {
    for index in 0..10 * DAMAGES as u64 {
        check(&damaged_pair(&mut Random::for_case(95, index), index), index);
    }
    for index in 0..300 {
        check(&fraction_fault(&mut Random::for_case(97, index), index), index);
    }
}

#[test]
fn pairs_are_mirrored() {
    for index in 0..300 {
        check(&mirrored_pair(&mut Random::for_case(99, index), index), index);
    }
}

/// A whole round has every refusal of either file, 24, and blind changes that stay acceptable.
#[test]
fn a_round_has_every_outcome() {
    let mut seen = BTreeSet::new();
    let (mut mirrored, mut changed, mut input) = (0, 0, 0);
    for index in 0..MIRROR_CASES {
        let printed = print_mirror(&write_case(Kind::Mirrors, 101, index));
        let is_mirrored = printed.starts_with(b"FTF");
        if !is_mirrored {
            seen.extend(refusals(&String::from_utf8(printed.clone()).unwrap()));
        }
        mirrored += is_mirrored as u64;
        changed += (is_mirrored && index % 8 == 7) as u64;
        input += (printed == b"input\n") as u64;
    }
    assert_eq!(seen, (1..=12).chain([24, 28]).collect());
    assert!(3 * mirrored > MIRROR_CASES && mirrored < MIRROR_CASES * 3 / 4, "{mirrored}");
    assert!(changed > 5 && input > 20, "{changed} {input}");
}

/// What is printed is a pair that is mirrored again, to a tree with the first one's bytes.
#[test]
fn printed_files_are_a_pair() {
    for index in 0..MIRROR_CASES {
        let case = write_case(Kind::Mirrors, 103, index);
        let printed = print_mirror(&case);
        if printed.starts_with(b"FTF") {
            let tree_length = usize::from(case[0]) + 256 * usize::from(case[1]);
            let (tree, sheet) = printed.split_at(tree_length);
            let again = print_mirror(&pair_input(tree, sheet));
            assert_eq!(again[..tree_length], case[4..4 + tree_length], "case {index}");
        }
    }
}
