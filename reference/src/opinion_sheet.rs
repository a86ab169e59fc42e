//! The opinion sheet's layout, reading an accepted one, and writing an entry of it.
//! Header of 26 bytes with sixteen scores, then E entries of 17: a kind, then four numbers, sixteen terms, or a
//! denominator with four numerators and a byte of 0.

use crate::bytes::{read_16, read_24, read_32, write_24, write_32};

pub const LETTERS: &[u8] = b"FTS";
pub const VERSION_PLACE: usize = 3;
pub const NUMBER_PLACE: usize = 5;
pub const EVENTS_PLACE: usize = 7;
pub const EXPERTS_PLACE: usize = 9;
pub const SCORES_PLACE: usize = 10;
pub const HEADER: usize = 26;
pub const ENTRY: usize = 17;
pub const MOST_EVENTS: usize = 1_024;
pub const MOST_EXPERTS: usize = 16;
pub const BEST_SCORE: u8 = 100;

pub const FOUR_NUMBERS: u8 = 0;
pub const OPINIONS: u8 = 1;
/// A maker's figures, failures over starts (02, CR 2).
pub const FRACTIONS: u8 = 2;
pub const LARGEST_DENOMINATOR: u32 = 1_000_000;

pub fn entry_place(event: usize) -> usize {
    HEADER + ENTRY * event
}

/// A byte of the sixteen behind the kind: term `offset`, the first byte of number `offset / 4`, or of 3-byte number
/// `offset / 3`.
pub fn inside_entry(event: usize, offset: usize) -> usize {
    entry_place(event) + 1 + offset
}

/// The denominator stands first, then a, b, c and d.
pub fn fraction_place(event: usize, number: usize) -> usize {
    inside_entry(event, 3 * number)
}

/// The byte behind the five numbers of a fraction entry.
pub fn last_place(event: usize) -> usize {
    fraction_place(event, 5)
}

pub fn file_length(events: usize) -> usize {
    entry_place(events)
}

pub fn read_four(file: &[u8], event: usize) -> [u32; 4] {
    [0, 1, 2, 3].map(|number| read_32(file, inside_entry(event, 4 * number)))
}

pub fn write_four(file: &mut [u8], event: usize, numbers: [u32; 4]) {
    file[entry_place(event)] = FOUR_NUMBERS;
    (0..4).for_each(|number| write_32(file, inside_entry(event, 4 * number), numbers[number]));
}

/// Four numerators over one denominator.
#[derive(Clone, Copy, PartialEq, Eq, Debug)]
pub struct Fractions {
    pub denominator: u32,
    pub numerators: [u32; 4],
}

pub fn read_fractions(file: &[u8], event: usize) -> Fractions {
    let number = |number| read_24(file, fraction_place(event, number));
    Fractions { denominator: number(0), numerators: [1, 2, 3, 4].map(number) }
}

/// The denominator and the numerators are below 2 to the 24th.
pub fn write_fractions(file: &mut [u8], event: usize, fractions: Fractions) {
    let [a, b, c, d] = fractions.numerators;
    file[entry_place(event)] = FRACTIONS;
    for (number, value) in [fractions.denominator, a, b, c, d].into_iter().enumerate() {
        write_24(file, fraction_place(event, number), value);
    }
    file[last_place(event)] = 0;
}

/// An opinion sheet that was judged and accepted.
#[derive(Clone, Copy, Debug)]
pub struct Sheet<'a> {
    pub file: &'a [u8],
    /// E of the sheet.
    pub events: usize,
}

pub enum Entry<'a> {
    Four([u32; 4]),
    /// The scores and terms of the listed experts: none of the places after the last.
    Opinions {
        scores: &'a [u8],
        terms: &'a [u8],
    },
    Fractions(Fractions),
}

impl<'a> Sheet<'a> {
    pub fn number(&self) -> u16 {
        read_16(self.file, NUMBER_PLACE)
    }

    pub fn entry(&self, event: usize) -> Entry<'a> {
        let experts = self.file[EXPERTS_PLACE] as usize;
        match self.file[entry_place(event)] {
            FOUR_NUMBERS => Entry::Four(read_four(self.file, event)),
            OPINIONS => Entry::Opinions {
                scores: &self.file[SCORES_PLACE..][..experts],
                terms: &self.file[inside_entry(event, 0)..][..experts],
            },
            _ => Entry::Fractions(read_fractions(self.file, event)),
        }
    }
}
