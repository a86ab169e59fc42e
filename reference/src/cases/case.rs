//! An input of the printer with what its maker knows of the outcome.

use crate::levels::printer_input;

#[derive(Clone, PartialEq, Eq, Debug)]
pub enum Outcome {
    /// The printer says `input`.
    Input,
    /// Number and place.
    Refused(u32, usize),
    Answered,
}

#[derive(Clone, Debug)]
pub struct Case {
    pub bytes: Vec<u8>,
    pub outcome: Outcome,
}

pub fn input_case(n: u16, tree: &[u8], sheet: &[u8], outcome: Outcome) -> Case {
    Case { bytes: printer_input(n, tree, sheet), outcome }
}
