//! Why a call is refused: the number, and for five of them the place.

#[derive(Clone, Copy, Debug, PartialEq, Eq)]
pub enum Refusal {
    /// m is not 2, 4 or 8, or a slip's field code is 3.
    Field,
    /// r is 0 or above 8.
    Depth,
    /// The point list is empty, longer than the field, or the row would be too long.
    Points,
    /// k is 0 or above n.
    MessageLength,
    /// The point at this index is no element of the field.
    PointHigh(usize),
    /// The point at this index equals an earlier one.
    PointTwice(usize),
    /// A length is wrong or a buffer too short.
    Length,
    /// The symbol at this index is no element of the field.
    SymbolHigh(usize),
    /// No message has a row within the radius.
    TooFar,
    /// The slip ends before its header or before its size.
    SlipShort,
    /// The slip, or the one that is to be written, is of an edition that there is not, or that is not to be turned.
    Edition,
    /// The slip goes on behind its size.
    SlipLong,
    /// A bit of the slip that holds nothing is not 0.
    SlipBits,
    /// The row is too long for edition 1.
    RowLong,
    /// This line of a text is not a level as it must be written.
    LevelLine(usize),
    /// The level in this line is q^r or more.
    LevelHigh(usize),
}

impl Refusal {
    pub fn number(self) -> u8 {
        match self {
            Refusal::Field => 1,
            Refusal::Depth => 2,
            Refusal::Points => 3,
            Refusal::MessageLength => 4,
            Refusal::PointHigh(_) => 5,
            Refusal::PointTwice(_) => 6,
            Refusal::Length => 7,
            Refusal::SymbolHigh(_) => 8,
            Refusal::TooFar => 9,
            Refusal::SlipShort => 10,
            Refusal::Edition => 11,
            Refusal::SlipLong => 12,
            Refusal::SlipBits => 13,
            Refusal::RowLong => 15,
            Refusal::LevelLine(_) => 17,
            Refusal::LevelHigh(_) => 18,
        }
    }

    /// The index that the refusal speaks of, 0 where it speaks of none.
    pub fn place(self) -> usize {
        match self {
            Refusal::PointHigh(place)
            | Refusal::PointTwice(place)
            | Refusal::SymbolHigh(place)
            | Refusal::LevelLine(place)
            | Refusal::LevelHigh(place) => place,
            _ => 0,
        }
    }
}
