//! Why a call was refused.

use std::error::Error;
use std::fmt;

/// Why a call was refused. Each reason has a [number](Refusal::number); indices and lines count from 0.
///
/// ```
/// use plq::{encode, Code, Refusal};
///
/// let code = Code { m: 2, r: 1, k: 1, points: &[0, 1, 1] };
/// let refusal = encode(code, &[3], &mut [0; 3]).unwrap_err();
/// assert_eq!(refusal, Refusal::PointTwice { index: 2 });
/// assert_eq!((refusal.number(), refusal.detail()), (6, 2));
/// assert_eq!(refusal.to_string(), "point 2 equals an earlier one");
/// ```
#[derive(Clone, Copy, Debug, PartialEq, Eq, Hash)]
#[non_exhaustive]
pub enum Refusal {
    /// 1: m is not 2, 4 or 8, or a slip's field code is 3.
    Field,
    /// 2: r is 0 or above 8.
    Depth,
    /// 3: there are no points, more than 2^m, or n is above [`MAX_ROW`](crate::MAX_ROW); for a slip of edition 1, above 128.
    Points,
    /// 4: k is 0 or above n.
    MessageLength,
    /// 5: a point is 2^m or more.
    PointHigh {
        /// The first such point.
        index: usize,
    },
    /// 6: a point equals an earlier one.
    PointTwice {
        /// The first such point.
        index: usize,
    },
    /// 7: a length is wrong or a buffer too short.
    Length,
    /// 8: a symbol of the message or row is 2^m or more.
    SymbolHigh {
        /// The first such symbol.
        index: usize,
    },
    /// 9: no message has a row within floor((n - k) / 2).
    TooFar,
    /// 10: the slip is shorter than 3 bytes, its header or its own size.
    SlipShort,
    /// 11: the edition of the slip, or the one asked for, is neither 1 nor 2; for [`to_new`](crate::to_new) it is not 1, for
    /// [`to_old`](crate::to_old) not 2.
    SlipEdition,
    /// 12: the slip is longer than its own size.
    SlipLong,
    /// 13: a zero or fill bit of the slip is not 0.
    SlipBits,
    /// 15: n is above 128, so edition 1 has no room for the row.
    RowLong,
    /// 17: a line of a text is no level as it must be written.
    LevelLine {
        /// The first line that is wrong; all those before it are good.
        line: usize,
    },
    /// 18: a level of a text is q^r or more.
    LevelHigh {
        /// The first line that is wrong; all those before it are good.
        line: usize,
    },
    /// A number that this crate does not know: the archive is newer than the crate.
    Unknown {
        /// The number of the answer: 14, 16, or above 18.
        number: u8,
        /// What the answer has for a detail.
        detail: usize,
    },
}

impl Refusal {
    /// The refusal with this number and detail, or none for number 0.
    pub(crate) fn new(number: u8, detail: usize) -> Option<Refusal> {
        let [index, line] = [detail; 2];
        Some(match number {
            0 => return None,
            1 => Refusal::Field,
            2 => Refusal::Depth,
            3 => Refusal::Points,
            4 => Refusal::MessageLength,
            5 => Refusal::PointHigh { index },
            6 => Refusal::PointTwice { index },
            7 => Refusal::Length,
            8 => Refusal::SymbolHigh { index },
            9 => Refusal::TooFar,
            10 => Refusal::SlipShort,
            11 => Refusal::SlipEdition,
            12 => Refusal::SlipLong,
            13 => Refusal::SlipBits,
            15 => Refusal::RowLong,
            17 => Refusal::LevelLine { line },
            18 => Refusal::LevelHigh { line },
            _ => Refusal::Unknown { number, detail },
        })
    }

    /// The number of the refusal, as the C functions and the program slipread give it.
    pub fn number(self) -> u8 {
        match self {
            Refusal::Field => 1,
            Refusal::Depth => 2,
            Refusal::Points => 3,
            Refusal::MessageLength => 4,
            Refusal::PointHigh { .. } => 5,
            Refusal::PointTwice { .. } => 6,
            Refusal::Length => 7,
            Refusal::SymbolHigh { .. } => 8,
            Refusal::TooFar => 9,
            Refusal::SlipShort => 10,
            Refusal::SlipEdition => 11,
            Refusal::SlipLong => 12,
            Refusal::SlipBits => 13,
            Refusal::RowLong => 15,
            Refusal::LevelLine { .. } => 17,
            Refusal::LevelHigh { .. } => 18,
            Refusal::Unknown { number, .. } => number,
        }
    }

    /// The index of numbers 5, 6 and 8, the line of 17 and 18, what came with an unknown number, and 0 for all others.
    pub fn detail(self) -> usize {
        match self {
            Refusal::PointHigh { index }
            | Refusal::PointTwice { index }
            | Refusal::SymbolHigh { index } => index,
            Refusal::LevelLine { line } | Refusal::LevelHigh { line } => line,
            Refusal::Unknown { detail, .. } => detail,
            _ => 0,
        }
    }
}

impl fmt::Display for Refusal {
    fn fmt(&self, out: &mut fmt::Formatter) -> fmt::Result {
        match self {
            Refusal::Field => write!(out, "m is not 2, 4 or 8"),
            Refusal::Depth => write!(out, "r is not 1 to 8"),
            Refusal::Points => write!(out, "there are no points or too many"),
            Refusal::MessageLength => write!(out, "k is not 1 to n"),
            Refusal::PointHigh { index } => write!(out, "point {index} is 2^m or more"),
            Refusal::PointTwice { index } => write!(out, "point {index} equals an earlier one"),
            Refusal::Length => write!(out, "a length is wrong or a buffer too short"),
            Refusal::SymbolHigh { index } => write!(out, "symbol {index} is 2^m or more"),
            Refusal::TooFar => write!(out, "no message is near enough"),
            Refusal::SlipShort => write!(out, "the slip is too short"),
            Refusal::SlipEdition => write!(out, "the edition is none that the call takes"),
            Refusal::SlipLong => write!(out, "the slip is too long"),
            Refusal::SlipBits => write!(out, "a zero or fill bit of the slip is not 0"),
            Refusal::RowLong => write!(out, "the row is too long for edition 1"),
            Refusal::LevelLine { line } => write!(out, "line {line} is no level"),
            Refusal::LevelHigh { line } => write!(out, "the level in line {line} is too high"),
            Refusal::Unknown { number, detail } => {
                write!(out, "the unknown number {number}, detail {detail}")
            }
        }
    }
}

impl Error for Refusal {}
