//! The fuel supply of a ship's engine 1 with the opinions of six experts (source 000, section 4).
//! The gates join table 3's cut sequences with their order in time left out: pump 1 fails, and with it one of
//! pump 2, pump 3, valve 1, valve 3, sensor 1 or the controller. Each event stands once.

use super::Example;
use crate::describe::{Entry, Node};

const LOW: u8 = 2;
const FAIRLY_LOW: u8 = 3;
const MEDIUM: u8 = 4;
const FAIRLY_HIGH: u8 = 5;
const HIGH: u8 = 6;
const VERY_HIGH: u8 = 7;

pub fn fuel_supply() -> Example {
    Example {
        number: 3,
        nodes: vec![
            Node::Event,                      // 0 P1, pump 1
            Node::Event,                      // 1 P2, pump 2
            Node::Event,                      // 2 P3, pump 3
            Node::Event,                      // 3 V1, valve 1
            Node::Event,                      // 4 V3, valve 3
            Node::Event,                      // 5 S1, flowmeter sensor 1
            Node::Event,                      // 6 CF, the controller
            Node::Or(vec![1, 2, 3, 4, 5, 6]), // 7 nothing takes over from pump 1
            Node::And(vec![0, 7]),            // 8 no fuel to engine 1
        ],
        // Weighting scores of the six experts (000, table 4).
        scores: vec![15, 12, 10, 12, 5, 8],
        // Opinions of experts E1 to E6 on each event (000, table 6); the terms' numbers are table 5.
        entries: [
            [HIGH, FAIRLY_HIGH, HIGH, MEDIUM, HIGH, MEDIUM], // P1; P11 and P12 of document 01
            [HIGH, FAIRLY_HIGH, HIGH, MEDIUM, HIGH, MEDIUM], // P2
            [HIGH, HIGH, VERY_HIGH, HIGH, VERY_HIGH, HIGH],  // P3
            [FAIRLY_HIGH, MEDIUM, FAIRLY_HIGH, HIGH, VERY_HIGH, MEDIUM], // V1
            [MEDIUM, FAIRLY_HIGH, HIGH, FAIRLY_LOW, HIGH, MEDIUM], // V3
            [FAIRLY_HIGH, MEDIUM, HIGH, HIGH, MEDIUM, FAIRLY_HIGH], // S1
            [FAIRLY_LOW, FAIRLY_HIGH, FAIRLY_LOW, FAIRLY_HIGH, MEDIUM, LOW], // CF
        ]
        .map(|terms| Entry::Opinions(terms.to_vec()))
        .to_vec(),
        windows: vec![],
    }
}
