//! Sea-water cooling of a main engine: a main pump, a standby pump with a changeover valve, and what stops the water
//! whichever pump runs. The system and every number are made up; the form "failures in starts" is document 02's.

use super::Example;
use crate::describe::{fractions, Entry, Node};
use crate::work_windows::Window;

const SILENT: u8 = 0;
const VERY_LOW: u8 = 1;
const LOW: u8 = 2;
const FAIRLY_LOW: u8 = 3;

pub fn cooling_pumps() -> Example {
    Example {
        number: 4,
        nodes: vec![
            Node::Event,             // 0 the main pump stops
            Node::Event,             // 1 the standby pump does not start
            Node::Event,             // 2 the changeover valve sticks
            Node::Event,             // 3 the crew does not turn it by hand in time
            Node::Event,             // 4 the sea strainer is clogged
            Node::Event,             // 5 the sea-water line bursts
            Node::And(vec![2, 3]),   // 6 the valve stays where it is
            Node::Or(vec![1, 6]),    // 7 the standby pump does not take over
            Node::And(vec![0, 7]),   // 8 neither pump delivers
            Node::Or(vec![8, 4, 5]), // 9 no sea water to the coolers
        ],
        scores: vec![10, 7, 5],
        entries: vec![
            Entry::Opinions(vec![LOW, VERY_LOW, LOW]),
            fractions(1_250, [1, 3, 3, 6]),
            fractions(730, [1, 2, 2, 5]),
            Entry::Opinions(vec![LOW, FAIRLY_LOW, SILENT]),
            fractions(3_650, [1, 2, 2, 4]),
            Entry::Four([50_000, 100_000, 100_000, 300_000]),
        ],
        windows: vec![
            Window { event: 0, first: 43_832, end: 43_844 }, // the main pump is overhauled
            Window { event: 2, first: 43_840, end: 43_848 }, // the changeover valve gets new seals
            Window { event: 1, first: 43_880, end: 43_886 }, // the standby pump gets new bearings
        ],
    }
}
