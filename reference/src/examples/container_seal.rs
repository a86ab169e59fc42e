//! The container seal design of the Fault Tree Handbook with Aerospace Applications, as source 004 uses it.
//! Known from 004, section 7: six basic events e1 to e6, four AND and OR gates, the probabilities, and the
//! triangle from 0.2 p over p to 1.8 p. Assumed: the gates, the events' names and which event stands where.

use super::Example;
use crate::describe::{Entry, Node};

pub fn container_seal() -> Example {
    Example {
        number: 2,
        nodes: vec![
            Node::Event,              // 0 e1, the tape seal leaks
            Node::Event,              // 1 e2, one cause takes all seals at once
            Node::Event,              // 2 e3, first compression seal, first way to leak
            Node::Event,              // 3 e4, first compression seal, second way
            Node::Event,              // 4 e5, second compression seal, first way
            Node::Event,              // 5 e6, second compression seal, second way
            Node::Or(vec![2, 3]),     // 6 the first compression seal leaks
            Node::Or(vec![4, 5]),     // 7 the second compression seal leaks
            Node::And(vec![0, 6, 7]), // 8 all seals leak one by one
            Node::Or(vec![1, 8]),     // 9 the container leaks
        ],
        scores: vec![],
        // 0.1, 1e-5 and four times 1e-3 in units (004, section 7).
        entries: [100_000_000, 10_000, 1_000_000, 1_000_000, 1_000_000, 1_000_000].map(triangle).to_vec(),
        windows: vec![],
    }
}

/// 0.2 p, p, p, 1.8 p (004, section 7); each p here is a multiple of 5 units, so nothing is dropped.
fn triangle(p: u32) -> Entry {
    Entry::Four([p / 5, p, p, p / 5 * 9])
}
