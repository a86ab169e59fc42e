//! Refusal 28 of document 02 and its place, at every limit of a fraction entry; the desk sees that nothing changes.

use crate::altered::{with_24, with_byte};
use crate::desk::{refusal, Desk};
use reference::describe::{fractions, sheet_bytes, Entry};

/// Each number has a value of its own: 1,250 starts with 1 to 6 failures.
fn good() -> Entry {
    fractions(1_250, [1, 3, 4, 6])
}

fn silent() -> Entry {
    Entry::Opinions(vec![])
}

/// One expert, and fractions at 26, 43 and 60 among other entries: 94 bytes.
fn sample() -> Vec<u8> {
    sheet_bytes(7, &[2], &[good(), good(), good(), Entry::Opinions(vec![2])])
}

/// Places of an entry's numbers: the denominator, then a, b, c and d; the last byte stands behind them.
const DENOMINATOR: usize = 1;
const A: usize = 4;
const B: usize = 7;
const C: usize = 10;
const D: usize = 13;
const LAST: usize = 16;

const ENTRIES: [usize; 3] = [26, 43, 60];

fn check(file: &[u8], number: u32, place: usize) {
    let mut desk = Desk::roomy();
    assert_eq!(desk.sheet(&sample()), Ok(()));
    assert_eq!(desk.sheet(file), refusal(number, place));
}

fn accepted(file: &[u8]) {
    assert_eq!(Desk::roomy().sheet(file), Ok(()));
}

/// The number at that offset of each entry in turn is refused by 28, at the entry's kind byte.
fn check_number(offset: usize, number: u32) {
    for entry in ENTRIES {
        check(&with_24(sample(), entry + offset, number), 28, entry);
    }
}

fn accepted_number(offset: usize, number: u32) {
    for entry in ENTRIES {
        accepted(&with_24(sample(), entry + offset, number));
    }
}

fn check_entry(denominator: u32, numerators: [u32; 4], last: u8) {
    check(&sheet_bytes(7, &[], &[Entry::Fractions { denominator, numerators, last }]), 28, 26);
}

/// Three bytes a number, low byte first, and a byte of 0: by document 02.
#[test]
fn layout() {
    let file = sheet_bytes(7, &[], &[fractions(1_250, [1, 3, 0x01_0203, 999_999])]);
    assert_eq!(file[26..], [2, 0xe2, 0x04, 0, 1, 0, 0, 3, 0, 0, 3, 2, 1, 0x3f, 0x42, 0x0f, 0]);
}

#[test]
fn denominators() {
    for denominator in [0, 1_000_001, 1_048_576, 0x80_0000, 16_777_215] {
        check_number(DENOMINATOR, denominator);
        check_entry(denominator, [0; 4], 0);
    }
    for denominator in [6, 7, 255, 256, 65_535, 65_536, 999_999, 1_000_000] {
        accepted_number(DENOMINATOR, denominator);
    }
    accepted(&sheet_bytes(7, &[], &[fractions(1, [0; 4]), fractions(1, [0, 0, 1, 1]), fractions(1, [1; 4])]));
}

/// With a denominator of 0 not even numerators of 0 pass.
#[test]
fn nothing_over_nothing() {
    check_entry(0, [0; 4], 0);
    check_entry(0, [0, 0, 0, 1], 0);
}

#[test]
fn numerators_that_fall() {
    for (offset, next) in [(A, 3), (B, 4), (C, 6)] {
        accepted_number(offset, next);
        check_number(offset, next + 1);
    }
    for (offset, before) in [(B, 1), (C, 3), (D, 4)] {
        accepted_number(offset, before);
        check_number(offset, before - 1);
    }
}

#[test]
fn numerators_above_the_denominator() {
    accepted_number(D, 1_250);
    for d in [1_251, 65_536, 1_000_000, 16_777_215] {
        check_number(D, d);
    }
    accepted_number(DENOMINATOR, 6);
    check_number(DENOMINATOR, 5);
    accepted(&sheet_bytes(7, &[], &[fractions(1_000_000, [1_000_000; 4])]));
    check_entry(1_000_000, [1_000_001; 4], 0);
}

#[test]
fn last_bytes() {
    for last in 1..=255 {
        for entry in ENTRIES {
            check(&with_byte(sample(), entry + LAST, last), 28, entry);
        }
    }
}

/// Numbers that fall in their middle or high byte alone.
#[test]
fn every_byte_is_compared() {
    for low in [0x00_00ff, 0x00_ffff] {
        let high = low + 1;
        accepted(&sheet_bytes(7, &[], &[fractions(1_000_000, [low, high, high, high])]));
        check_entry(1_000_000, [high, low, high, high], 0);
        check_entry(1_000_000, [0, high, low, high], 0);
        check_entry(1_000_000, [0, 0, high, low], 0);
        accepted(&sheet_bytes(7, &[], &[fractions(high, [0, 0, 0, low])]));
        check_entry(low, [0, 0, 0, high], 0);
    }
}

#[test]
fn several_faults_of_one_entry() {
    check_entry(0, [4, 3, 2, 1], 255);
    check_entry(1_000_001, [4, 3, 2, 1_000_002], 1);
    check_entry(5, [6, 5, 5, 6], 0);
}

/// The first entry that is at fault is named, whatever stands behind it.
#[test]
fn entries_rising() {
    let bad = fractions(1_250, [1, 3, 3, 1_251]);
    let four = Entry::Four([2, 1, 1, 1]);
    for other in [good(), bad.clone(), silent(), four.clone()] {
        check(&sheet_bytes(7, &[1], &[bad.clone(), other]), 28, 26);
    }
    check(&sheet_bytes(7, &[1], &[good(), bad.clone()]), 28, 43);
    check(&sheet_bytes(7, &[1], &[silent(), bad.clone()]), 12, 26);
    check(&sheet_bytes(7, &[1], &[four, bad.clone()]), 10, 26);
    check(&sheet_bytes(7, &[1], &[Entry::Opinions(vec![8]), bad]), 11, 27);
}

/// Kind 3 is unknown, whether its bytes would be fractions or not, and 28 comes before or behind it by place alone.
#[test]
fn unknown_kinds() {
    let bad = fractions(1_250, [1, 3, 3, 1_251]);
    for kind in [3, 4, 130, 255] {
        for entry in ENTRIES {
            check(&with_byte(sample(), entry, kind), 6, entry);
        }
        let both = sheet_bytes(7, &[], &[bad.clone(), bad.clone()]);
        check(&with_byte(both.clone(), 26, kind), 6, 26);
        check(&with_byte(both, 43, kind), 28, 26);
        let second = sheet_bytes(7, &[], &[good(), bad.clone()]);
        check(&with_byte(second, 43, kind), 6, 43);
    }
}

/// All that is judged before the entries comes before 28.
#[test]
fn header_and_scores_first() {
    let bad = sheet_bytes(7, &[2], &[fractions(0, [0; 4])]);
    check(&with_byte(bad.clone(), 10, 0), 7, 10);
    check(&with_byte(bad.clone(), 25, 1), 7, 25);
    check(&bad[..42], 5, 42);
    check(&with_byte(bad, 9, 17), 4, 9);
}

/// Bytes of another kind, read as fractions: (1, 2, 3, 4) has b of 0x030000 over 1; terms 2 and 3 are 770 starts with
/// no failure.
#[test]
fn kind_2_over_other_bytes() {
    let other = sheet_bytes(7, &[2, 1], &[Entry::Four([1, 2, 3, 4]), Entry::Opinions(vec![2, 3])]);
    check(&with_byte(other.clone(), 26, 2), 28, 26);
    accepted(&with_byte(other, 43, 2));
}

/// A held entry whose bytes no longer are fractions.
#[test]
fn held_bytes() {
    let mut desk = Desk::roomy();
    assert_eq!(desk.tree(b"FTF\x01\0\x07\0\x01\0\0\0\0\0\0"), Ok(()));
    assert_eq!(desk.sheet(&sheet_bytes(7, &[], &[good()])), Ok(()));
    assert!(desk.judge(1, 2).is_ok());
    for (offset, byte) in [(0, 3), (DENOMINATOR + 2, 0x10), (A, 4), (D + 1, 5), (LAST, 1)] {
        let mut changed = desk.clone();
        changed.sheet_store[26 + offset] = byte;
        assert_eq!(changed.judge(1, 2), refusal(23, 1));
    }
}
