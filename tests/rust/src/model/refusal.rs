//! Causes and numbers (document 01, and document 02, requests 4, 5 and 7): why a call is refused, and what it returns then.

#[derive(Clone, Copy, PartialEq, Eq, Debug)]
#[repr(u8)]
pub enum Cause {
    UnderTrailer = 1,
    Classes = 2,
    StationCount = 3,
    Distance = 4,
    RowsMissing = 5,
    CheckWord = 6,
    NamesBeyond = 7,
    NamesItself = 8,
    NotMutual = 9,
    NoChain = 10,
    OutOfForm = 11,
    OutOfRange = 12,
    NotAllowed = 13,
    NothingAllowed = 14,
    BufferTooSmall = 15,
    OddDraws = 16,
    InputTooLong = 17,
    LotTooLong = 18,
    Desk = 19,
    OtherMap = 20,
    Unreported = 21,
}

impl Cause {
    /// The number alone.
    pub fn alone(self) -> Refusal {
        Refusal { number: self as u8, value: None }
    }

    /// The number with the station (7 to 10) or the length needed (15).
    pub fn with(self, value: u32) -> Refusal {
        Refusal { number: self as u8, value: Some(value) }
    }
}

/// What a refused call returns.
#[derive(Clone, Copy, PartialEq, Eq, Debug)]
pub struct Refusal {
    pub number: u8,
    pub value: Option<u32>,
}

/// Document 01's number for a result: 0 where the call is accepted.
pub fn number<T>(result: &Result<T, Refusal>) -> u8 {
    result.as_ref().err().map_or(0, |refusal| refusal.number)
}

/// An event or a step goes 11, 12, 13; each test may rely on those before it.
pub fn admit(
    well_formed: bool,
    in_range: impl FnOnce() -> bool,
    allowed: impl FnOnce() -> bool,
) -> Result<(), Refusal> {
    if !well_formed {
        Err(Cause::OutOfForm.alone())
    } else if !in_range() {
        Err(Cause::OutOfRange.alone())
    } else if !allowed() {
        Err(Cause::NotAllowed.alone())
    } else {
        Ok(())
    }
}
