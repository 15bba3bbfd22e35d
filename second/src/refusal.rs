//! Why a call is turned down: 01, "When a call is turned down", and 02.

/// What is wrong, each under its number.
#[derive(Clone, Copy, Debug, PartialEq, Eq)]
pub enum Refusal {
    Name = 1,
    PartyOrCode = 2,
    Turn = 3,
    Length = 4,
    Room = 5,
    Label = 6,
    Number = 7,
    Range = 8,
    EqualKeys = 9,
    Block = 10,
    Content = 11,
    Sum = 12,
    Marks = 13,
    Table = 14,
    Gap = 15,
    Overlap = 16,
}

impl Refusal {
    /// The call is turned down unless this test is passed.
    pub fn unless(self, passed: bool) -> Result<(), Refusal> {
        match passed {
            true => Ok(()),
            false => Err(self),
        }
    }
}

/// The number of an answer, 0 for a call that is not turned down.
pub fn number<T>(answer: &Result<T, Refusal>) -> u32 {
    match answer {
        Ok(_) => 0,
        Err(refusal) => *refusal as u32,
    }
}
