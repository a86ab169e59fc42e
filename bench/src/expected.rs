//! What the C interface must answer, by what the reference answers.

use crate::capi::{Answer, Listing, Refusal, Reply, SetCount, Standing, State, ONE};
use reference::monitor;
use reference::refusal;

pub fn state(state: monitor::State) -> State {
    State { tree_len: state.tree_length, sheet_len: state.sheet_length }
}

pub fn held(state: State) -> monitor::State {
    monitor::State { tree_length: state.tree_len, sheet_length: state.sheet_len }
}

fn refusal(refusal: refusal::Refusal) -> Refusal {
    Refusal { number: refusal.number as usize, place: refusal.place }
}

pub fn answer((after, verdict): (monitor::State, Result<(), refusal::Refusal>)) -> Answer {
    Answer { state: state(after), refusal: verdict.err().map(refusal).unwrap_or_default() }
}

/// Both sizes are 0 where the level or the pair is refused.
pub fn standing(found: Result<monitor::Counts, refusal::Refusal>) -> Standing {
    match found {
        Ok(counts) => Standing { refusal: Refusal::default(), nodes: counts.nodes, events: counts.events },
        Err(reason) => Standing { refusal: refusal(reason), nodes: 0, events: 0 },
    }
}

/// A refused question's enclosure says nothing.
pub fn reply((after, outcome): (monitor::State, Result<monitor::Answer, refusal::Refusal>)) -> Reply {
    let nothing_said = Reply {
        state: state(after),
        refusal: Refusal::default(),
        lower: 0,
        upper: ONE,
        lower_exact: false,
        upper_exact: false,
        events: 0,
    };
    match outcome {
        Ok(answer) => Reply {
            lower: answer.lower.units,
            upper: answer.upper.units,
            lower_exact: answer.lower.exact,
            upper_exact: answer.upper.exact,
            events: answer.events,
            ..nothing_said
        },
        Err(reason) => Reply { refusal: refusal(reason), ..nothing_said },
    }
}

pub fn set_count(outcome: Result<u64, refusal::Refusal>) -> SetCount {
    match outcome {
        Ok(count) => SetCount { refusal: Refusal::default(), count },
        Err(reason) => SetCount { refusal: refusal(reason), count: 0 },
    }
}

pub fn listing((after, outcome): (monitor::State, Result<u64, refusal::Refusal>)) -> Listing {
    let SetCount { refusal, count } = set_count(outcome);
    Listing { state: state(after), refusal, count }
}
