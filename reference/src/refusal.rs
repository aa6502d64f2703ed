//! "Refused inputs": the numbered table.

/// The rows of the table and of the requests after it, by their numbers.
#[derive(Clone, Copy, Debug, PartialEq, Eq)]
pub enum Refusal {
    Size = 1,
    Count = 2,
    Reference = 3,
    SamplesLength = 4,
    VectorsLength = 5,
    OutputLength = 6,
    WorkLength = 7,
    NoiseValue = 8,
    NoiseLimit = 9,
    Strength = 10,
    Sample = 11,
    Vector = 12,
    FirstLine = 13,
    ValueLine = 14,
    FileEnd = 15,
    BytesLength = 16,
    Pgm = 17,
    BlackLevel = 18,
    DngOutside = 19,
    DngTags = 20,
    DngValue = 21,
    Side = 22,
    RowLength = 23,
    Spatial = 24,
    SpatialSide = 25,
    Range = 26,
}

impl Refusal {
    pub fn number(self) -> u64 {
        self as u64
    }
}

/// Passes where `holds`, else refuses.
pub fn require(holds: bool, otherwise: Refusal) -> Result<(), Refusal> {
    if holds {
        Ok(())
    } else {
        Err(otherwise)
    }
}

/// "Acceptance is number 0."
pub fn number<T>(result: &Result<T, Refusal>) -> u64 {
    match result {
        Ok(_) => 0,
        Err(refusal) => refusal.number(),
    }
}
