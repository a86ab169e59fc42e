//! The first fault of an opinion sheet in the order of documents 01 and 02, or the accepted sheet.

use crate::bytes::read_16;
use crate::end::U;
use crate::mean::TERMS;
use crate::opinion_sheet::*;
use crate::refusal::{refuse_if, Refusal};

pub fn judge_sheet(file: &[u8]) -> Result<Sheet<'_>, Refusal> {
    let (events, experts) = judge_header(file)?;
    judge_scores(file, experts)?;
    for event in 0..events {
        judge_entry(file, event, experts)?;
    }
    Ok(Sheet { file, events })
}

/// Refusals 1 to 5; answers E and the number of experts.
fn judge_header(file: &[u8]) -> Result<(usize, usize), Refusal> {
    refuse_if(file.len() < HEADER, 1, file.len())?;
    refuse_if(!file.starts_with(LETTERS), 2, 0)?;
    refuse_if(read_16(file, VERSION_PLACE) != 1, 3, VERSION_PLACE)?;
    let events = read_16(file, EVENTS_PLACE) as usize;
    refuse_if(!(1..=MOST_EVENTS).contains(&events), 4, EVENTS_PLACE)?;
    let experts = file[EXPERTS_PLACE] as usize;
    refuse_if(experts > MOST_EXPERTS, 4, EXPERTS_PLACE)?;
    refuse_if(file.len() != file_length(events), 5, file.len())?;
    Ok((events, experts))
}

/// Refusal 7 of a sheet.
fn judge_scores(file: &[u8], experts: usize) -> Result<(), Refusal> {
    for expert in 0..MOST_EXPERTS {
        let place = SCORES_PLACE + expert;
        let score = file[place];
        let in_rule = if expert < experts { (1..=BEST_SCORE).contains(&score) } else { score == 0 };
        refuse_if(!in_rule, 7, place)?;
    }
    Ok(())
}

fn judge_entry(file: &[u8], event: usize, experts: usize) -> Result<(), Refusal> {
    match file[entry_place(event)] {
        FOUR_NUMBERS => judge_four(file, event),
        OPINIONS => judge_terms(file, event, experts),
        FRACTIONS => judge_fractions(file, event),
        _ => refuse_if(true, 6, entry_place(event)),
    }
}

/// Refusal 10.
fn judge_four(file: &[u8], event: usize) -> Result<(), Refusal> {
    let [a, b, c, d] = read_four(file, event);
    refuse_if(!(a <= b && b <= c && c <= d && d <= U), 10, entry_place(event))
}

/// Refusal 28: numerators that fall or exceed the denominator, a bad denominator, or a last byte that is not 0.
fn judge_fractions(file: &[u8], event: usize) -> Result<(), Refusal> {
    let Fractions { denominator, numerators: [a, b, c, d] } = read_fractions(file, event);
    let in_order = a <= b && b <= c && c <= d && d <= denominator;
    let in_range = (1..=LARGEST_DENOMINATOR).contains(&denominator);
    let ends_with_zero = file[last_place(event)] == 0;
    refuse_if(!(in_order && in_range && ends_with_zero), 28, entry_place(event))
}

/// Refusal 11 over all sixteen terms, then 12.
fn judge_terms(file: &[u8], event: usize, experts: usize) -> Result<(), Refusal> {
    let mut spoke = false;
    for expert in 0..MOST_EXPERTS {
        let place = inside_entry(event, expert);
        let term = file[place];
        let known = term as usize <= TERMS.len();
        refuse_if(!known || (expert >= experts && term != 0), 11, place)?;
        spoke |= term != 0;
    }
    refuse_if(!spoke, 12, entry_place(event))
}
