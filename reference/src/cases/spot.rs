//! Which of several places.

#[derive(Clone, Copy, PartialEq, Eq, Debug)]
pub enum Spot {
    First,
    Middle,
    Last,
}

pub const SPOTS: [Spot; 3] = [Spot::First, Spot::Middle, Spot::Last];

impl Spot {
    /// Below `count`, which is above 0.
    pub fn of(self, count: usize) -> usize {
        match self {
            Spot::First => 0,
            Spot::Middle => count / 2,
            Spot::Last => count - 1,
        }
    }
}
