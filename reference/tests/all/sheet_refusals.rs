//! Refusals 1 to 7 and 10 to 12 of an opinion sheet, each with its place; the desk sees that nothing changes.

use crate::altered::{with_16, with_32, with_byte};
use crate::desk::{refusal, Desk};
use reference::describe::{same, sheet_bytes, Entry};
use reference::end::U;

/// Two experts, an entry of each kind at 26 and 43: 60 bytes.
fn sample() -> Vec<u8> {
    sheet_bytes(7, &[2, 1], &[Entry::Four([1, 2, 3, 4]), Entry::Opinions(vec![2, 3])])
}

fn check(file: &[u8], number: u32, place: usize) {
    let mut desk = Desk::roomy();
    assert_eq!(desk.sheet(&sample()), Ok(()));
    assert_eq!(desk.sheet(file), refusal(number, place));
}

#[test]
fn r1_shorter_than_header() {
    for length in 0..26 {
        check(&sample()[..length], 1, length);
    }
}

#[test]
fn r2_wrong_letters() {
    for place in 0..3 {
        check(&with_byte(sample(), place, b'X'), 2, 0);
    }
    check(&with_byte(sample(), 2, b'F'), 2, 0);
}

#[test]
fn r3_version() {
    for version in [0, 2, 256, 257] {
        check(&with_16(sample(), 3, version), 3, 3);
    }
}

#[test]
fn r4_counts() {
    for events in [0, 1_025, 65_535] {
        check(&with_16(sample(), 7, events), 4, 7);
    }
    for experts in [17, 255] {
        check(&with_byte(sample(), 9, experts), 4, 9);
    }
    check(&with_byte(with_16(sample(), 7, 0), 9, 17), 4, 7);
}

#[test]
fn r4_experts_before_length() {
    let mut longer = with_byte(sample(), 9, 17);
    longer.push(0);
    check(&longer, 4, 9);
}

#[test]
fn r5_length() {
    for length in 26..60 {
        check(&sample()[..length], 5, length);
    }
    let mut longer = sample();
    longer.push(0);
    check(&longer, 5, 61);
    check(&with_16(sample(), 7, 1), 5, 60);
}

#[test]
fn r6_unknown_kind() {
    for place in [26, 43] {
        for kind in [3, 4, 128, 255] {
            check(&with_byte(sample(), place, kind), 6, place);
        }
    }
}

#[test]
fn r7_scores() {
    for score in [0, 101, 255] {
        check(&with_byte(sample(), 10, score), 7, 10);
        check(&with_byte(sample(), 11, score), 7, 11);
    }
    for place in 12..26 {
        check(&with_byte(sample(), place, 1), 7, place);
    }
}

#[test]
fn r7_scores_before_entries() {
    check(&with_byte(with_byte(sample(), 26, 9), 25, 1), 7, 25);
}

#[test]
fn r10_order_and_unit() {
    check(&with_32(sample(), 27, 3), 10, 26);
    check(&with_32(sample(), 31, 4), 10, 26);
    check(&with_32(sample(), 35, 5), 10, 26);
    check(&with_32(sample(), 39, 2), 10, 26);
    check(&with_32(sample(), 39, U + 1), 10, 26);
    check(&with_32(sample(), 39, u32::MAX), 10, 26);
    check(&sheet_bytes(7, &[], &[same(U), same(U + 1)]), 10, 43);
}

#[test]
fn r10_equal_numbers_pass() {
    assert_eq!(Desk::roomy().sheet(&sheet_bytes(7, &[], &[same(0), same(U), Entry::Four([0, 0, U, U])])), Ok(()));
}

#[test]
fn r11_terms() {
    for term in [8, 9, 255] {
        check(&with_byte(sample(), 44, term), 11, 44);
        check(&with_byte(sample(), 45, term), 11, 45);
        check(&with_byte(sample(), 59, term), 11, 59);
    }
    for place in 46..60 {
        check(&with_byte(sample(), place, 1), 11, place);
    }
    check(&with_byte(with_byte(sample(), 50, 1), 45, 8), 11, 45);
    check(&with_byte(with_byte(sample(), 50, 8), 46, 1), 11, 46);
}

#[test]
fn r12_nobody_spoke() {
    let silent = with_16(sample(), 44, 0);
    check(&silent, 12, 43);
    check(&with_byte(silent, 59, 1), 11, 59);
}

#[test]
fn no_experts() {
    check(&sheet_bytes(7, &[], &[Entry::Opinions(vec![])]), 12, 26);
    check(&sheet_bytes(7, &[], &[Entry::Opinions(vec![1])]), 11, 27);
    assert_eq!(Desk::roomy().sheet(&sheet_bytes(7, &[], &[same(5)])), Ok(()));
}

#[test]
fn entries_rising() {
    check(&sheet_bytes(7, &[1], &[Entry::Opinions(vec![]), Entry::Four([2, 1, 1, 1])]), 12, 26);
    check(&sheet_bytes(7, &[1], &[Entry::Four([2, 1, 1, 1]), Entry::Opinions(vec![])]), 10, 26);
}
