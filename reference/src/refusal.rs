//! A refusal: the number and place of documents 01 and 02.

#[derive(Clone, Copy, PartialEq, Eq, Debug)]
pub struct Refusal {
    pub number: u32,
    /// An offset in bytes in the file handed in, or the number that document 01 gives.
    pub place: usize,
}

pub fn refused(number: u32, place: usize) -> Refusal {
    Refusal { number, place }
}

/// Answers `Err` where the rule is broken.
pub fn refuse_if(broken: bool, number: u32, place: usize) -> Result<(), Refusal> {
    if broken {
        Err(refused(number, place))
    } else {
        Ok(())
    }
}
