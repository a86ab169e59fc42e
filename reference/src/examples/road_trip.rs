//! Source 004, figure 3 and example 4: a road trip fails when the phone and the car fail, the car when its engine
//! or its battery does. P8 of document 01.

use super::Example;
use crate::describe::{same, Node};

pub fn road_trip() -> Example {
    Example {
        number: 1,
        nodes: vec![
            Node::Event,           // 0 a, the phone
            Node::Event,           // 1 b, the engine
            Node::Event,           // 2 c, the battery
            Node::Or(vec![1, 2]),  // 3 the car
            Node::And(vec![0, 3]), // 4 the road trip
        ],
        scores: vec![],
        // Example 4: p(a) = 0.8, p(b) = 0.1, p(c) = 0.4. The figure is lost: which of b and c is which is assumed.
        entries: vec![same(800_000_000), same(100_000_000), same(400_000_000)],
        windows: vec![],
    }
}
