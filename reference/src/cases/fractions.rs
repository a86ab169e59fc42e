//! Inputs with fraction entries: limits, faults of 28 in small sheets and in the largest, answered pairs, and blind
//! changes.

use super::case::Case;
use super::changed::{change_bytes, change_entries, change_numbers};
use super::fraction_damage::{large_fault, small_fault, LARGE_FAULTS};
use super::fraction_entries::{any_denominator, fractions_alone, fractions_beside, lively_fractions};
use super::fraction_limits::fraction_limit;
use super::valid::{shaped_tree, small_tree, SHAPES};
use crate::bytes::{read_24, write_24};
use crate::levels::printer_input;
use crate::opinion_sheet::{self, entry_place, fraction_place, last_place, MOST_EXPERTS};
use crate::random::Random;

/// Cases of a turn: one large fault, and as many of the others as `fraction_case` says.
const TURN: u64 = 16;

/// So many cases have every limit and every fault at every spot.
pub const FRACTION_CASES: u64 = TURN * LARGE_FAULTS as u64;

/// Each part of a turn keeps a count of its own, so that it goes through its whole list.
pub fn fraction_case(random: &mut Random, index: u64) -> Vec<u8> {
    let turn = index / TURN;
    match index % TURN {
        0 => large_fault(random, turn).bytes,
        part @ 1..=3 => fraction_limit(random, 3 * turn + part - 1).bytes,
        part @ 4..=8 => small_fault(random, 5 * turn + part - 4).bytes,
        part @ 9..=12 => answered_fractions(random, 4 * turn + part - 9).bytes,
        _ => changed_fractions(random),
    }
}

/// Shapes and styles are of different number, so that their turns meet in every combination.
const STYLES: u64 = 3;

pub fn answered_fractions(random: &mut Random, index: u64) -> Case {
    let nodes = shaped_tree(random, index % SHAPES);
    let pair = match index % STYLES {
        0 => fractions_alone(random, nodes),
        1 => fractions_beside(random, nodes),
        _ => {
            let experts = random.below(MOST_EXPERTS + 1);
            lively_fractions(random, nodes, experts)
        }
    };
    let n = *random.pick(&[1, 2, 3, 4, 7, 10, 16]);
    pair.answered(n)
}

/// Blind changes of the sheet; what comes of them is left to the judge.
pub fn changed_fractions(random: &mut Random) -> Vec<u8> {
    let nodes = small_tree(random, 24);
    let pair = fractions_beside(random, nodes);
    let mut sheet = pair.sheet();
    for _ in 0..*random.pick(&[1, 1, 1, 2]) {
        match random.below(10) {
            0 => change_bytes(random, &mut sheet),
            1 => change_numbers(random, &mut sheet),
            2 => change_entries(random, &mut sheet),
            3 => change_kind(random, &mut sheet),
            4 => change_last_byte(random, &mut sheet),
            _ => change_fraction(random, &mut sheet),
        }
    }
    printer_input(random.between(1, 4) as u16, &pair.tree(), &sheet)
}

/// An event whose entry an earlier change left whole in the file.
fn any_event(random: &mut Random, sheet: &[u8]) -> Option<usize> {
    let events = sheet.len().saturating_sub(opinion_sheet::HEADER) / opinion_sheet::ENTRY;
    (events > 0).then(|| random.below(events))
}

fn change_kind(random: &mut Random, sheet: &mut [u8]) {
    if let Some(event) = any_event(random, sheet) {
        sheet[entry_place(event)] = random.below(4) as u8;
    }
}

fn change_last_byte(random: &mut Random, sheet: &mut [u8]) {
    if let Some(event) = any_event(random, sheet) {
        sheet[last_place(event)] = *random.pick(&[0, 1, 7, 128]);
    }
}

/// The denominator or a numerator by one, to another of the five, or to any number.
fn change_fraction(random: &mut Random, sheet: &mut [u8]) {
    if let Some(event) = any_event(random, sheet) {
        let place = fraction_place(event, random.below(5));
        let number = match random.below(4) {
            0 => any_denominator(random),
            1 => read_24(sheet, fraction_place(event, random.below(5))),
            _ => read_24(sheet, place) ^ 1,
        };
        write_24(sheet, place, number);
    }
}
