//! Codes with chunks of depth r, and the slips that store their rows.
//!
//! A message of k symbols becomes a row of n symbols. If the row arrives damaged, and the damage is not deeper than
//! floor((n - k) / 2) in all, [`decode`] gives the message back and says how deep each chunk was damaged.
//!
//! ```
//! use plq::{decode, encode, Code};
//!
//! let code = Code { m: 2, r: 2, k: 4, points: &[0, 1, 2, 3] };
//! let mut row = [0; 8];
//! encode(code, &[1, 2, 2, 1], &mut row)?;
//! assert_eq!(row, [1, 2, 0, 3, 2, 1, 2, 0]);
//!
//! row[1] = 3; // the last symbol of chunk 0: depth 1
//! row[5] = 3; // the last symbol of chunk 2: depth 1
//! let (mut message, mut depths) = ([0; 4], [0; 4]);
//! let total = decode(code, &row, &mut message, &mut depths)?;
//! assert_eq!((message, depths, total), ([1, 2, 2, 1], [1, 0, 1, 0], 2));
//! # Ok::<(), plq::Refusal>(())
//! ```
//!
//! # Distance
//!
//! A row has a chunk of r symbols for each point. Two chunks agree to the depth at which their symbols first differ:
//! one whose first symbol is wrong is damaged to depth r, one whose last alone is wrong to depth 1. The distance of
//! two rows is the sum over their chunks.
//!
//! # Editions
//!
//! A slip stores a code and a row. There are two layouts: edition 1 holds rows of at most 128 symbols, edition 2 of at most 240.
//! [`slip_write`] is told which one to write; [`slip_read`] says which one it found, and [`slips`] takes both, also mixed.
//! [`to_new`] and [`to_old`] turn a slip of one edition into the same slip of the other.
//!
//! # Levels
//!
//! A tone bench exports a row as a text, with one whole number to a line: the level of a chunk, its symbols read as digits to the
//! base 2^m. [`levels_read`] reads such a text into a row, and [`levels_write`] writes it.
//!
//! # Calls
//!
//! The functions here are the proved functions of the archive `libplq.a`, on slices. Nothing need be checked before a
//! call, no call panics on any input, and a refused call leaves every buffer as it was. An answer of a newer archive that
//! this crate does not know is a refusal too, [`Refusal::Unknown`]. Where several refusals hold, the one that is tried first is
//! given, and each call says its order by their [numbers](Refusal::number).
//! No call allocates memory or has state, and all may be made from any number of threads.

#![deny(missing_docs)]

mod archive;
mod levels;
mod refusal;
mod roll;
mod turn;
mod word;

pub use levels::{levels_read, levels_write};
pub use refusal::Refusal;
pub use roll::{slips, Slips};
pub use turn::{to_new, to_old};

use archive::c;
use word::{done, header};

/// The most symbols that a row has.
pub const MAX_ROW: usize = 240;
/// The most bytes that a slip has.
pub const MAX_SLIP: usize = 484;
/// The most bytes that a line has, with its newline.
pub const MAX_LINE: usize = 1448;
/// The most bytes that the text of a row's levels has: three digits and a newline for each of 240 symbols.
pub const MAX_LEVELS: usize = 960;

/// A code, as every call takes it; the call checks it.
///
/// ```
/// let code = plq::Code { m: 8, r: 2, k: 6, points: &[10, 20, 30, 40] };
/// assert_eq!(code.row_len(), 8);
/// ```
#[derive(Clone, Copy, Debug, PartialEq, Eq)]
pub struct Code<'a> {
    /// Bits of a symbol: 2, 4 or 8. Symbols and points are the bytes below 2^m.
    pub m: usize,
    /// Symbols in a chunk, 1 to 8.
    pub r: usize,
    /// Symbols in a message, 1 to n.
    pub k: usize,
    /// Different symbols, one for each chunk: at least one, and at most 2^m.
    pub points: &'a [u8],
}

impl Code<'_> {
    /// n, the symbols in a row: r for each point. A code with more than [`MAX_ROW`] is refused by every call.
    pub fn row_len(&self) -> usize {
        self.r.saturating_mul(self.points.len())
    }
}

/// What stands in the header of a slip.
#[derive(Clone, Copy, Debug, PartialEq, Eq)]
pub struct Header {
    /// The edition of the slip, 1 or 2.
    pub edition: usize,
    /// Bits of a symbol.
    pub m: usize,
    /// Symbols in a chunk.
    pub r: usize,
    /// Symbols in a message.
    pub k: usize,
    /// The number of points, and so of chunks.
    pub count: usize,
}

/// Writes the row of `message`, which has k symbols, to `row`, which has n.
///
/// # Errors
///
/// Numbers 1 to 8, tried in this order; `row` is then as it was.
///
/// ```
/// use plq::{encode, Code, Refusal};
///
/// let code = Code { m: 2, r: 3, k: 3, points: &[1] };
/// let mut row = [9; 3];
/// assert_eq!(encode(code, &[0, 4, 1], &mut row), Err(Refusal::SymbolHigh { index: 1 }));
/// assert_eq!(row, [9, 9, 9]);
/// assert_eq!(encode(code, &[0, 0, 1], &mut row), Ok(()));
/// assert_eq!(row, [1, 0, 1]);
/// ```
pub fn encode(code: Code, message: &[u8], row: &mut [u8]) -> Result<(), Refusal> {
    // SAFETY: each pointer comes with the length of the slice it was taken from; `row` is borrowed alone.
    let answer = unsafe {
        c::plq_encode(
            code.m,
            code.r,
            code.k,
            code.points.as_ptr(),
            code.points.len(),
            message.as_ptr(),
            message.len(),
            row.as_mut_ptr(),
            row.len(),
        )
    };
    done(answer).map(|_| ())
}

/// Finds the message whose row lies within floor((n - k) / 2) of `row`, which has n symbols. There is at most one.
///
/// Writes it to `message`, which has k bytes, and the depth of damage in each chunk to `depths`, which has a byte for
/// each point. Gives the sum of the depths.
///
/// # Errors
///
/// Numbers 1 to 9, tried in this order; both buffers are then as they were.
///
/// ```
/// use plq::{decode, Code, Refusal};
///
/// let code = Code { m: 2, r: 3, k: 1, points: &[0] };
/// let (mut message, mut depths) = ([9], [9]);
/// assert_eq!(decode(code, &[2, 1, 0], &mut message, &mut depths), Err(Refusal::TooFar));
/// assert_eq!((message, depths), ([9], [9]));
/// assert_eq!(decode(code, &[2, 0, 1], &mut message, &mut depths), Ok(1));
/// assert_eq!((message, depths), ([2], [1]));
/// ```
pub fn decode(
    code: Code,
    row: &[u8],
    message: &mut [u8],
    depths: &mut [u8],
) -> Result<usize, Refusal> {
    // SAFETY: each pointer comes with the length of the slice it was taken from; both buffers are borrowed alone.
    let answer = unsafe {
        c::plq_decode(
            code.m,
            code.r,
            code.k,
            code.points.as_ptr(),
            code.points.len(),
            row.as_ptr(),
            row.len(),
            message.as_mut_ptr(),
            message.len(),
            depths.as_mut_ptr(),
            depths.len(),
        )
    };
    done(answer)
}

/// The distance of two rows with chunks of `r` symbols. The symbols may be any bytes.
///
/// # Errors
///
/// Number 2, then 7 if the lengths differ, are 0, are no multiple of r or are above [`MAX_ROW`].
///
/// ```
/// assert_eq!(plq::distance(2, &[0, 1], &[2, 1]), Ok(2));
/// assert_eq!(plq::distance(2, &[0, 1], &[0, 2]), Ok(1));
/// assert_eq!(plq::distance(2, &[0, 1, 2], &[0, 1, 2]), Err(plq::Refusal::Length));
/// ```
pub fn distance(r: usize, a: &[u8], b: &[u8]) -> Result<usize, Refusal> {
    // SAFETY: each pointer comes with the length of the slice it was taken from.
    done(unsafe { c::plq_distance(r, a.as_ptr(), a.len(), b.as_ptr(), b.len()) })
}

/// Writes a code and a row of n symbols as a slip of `edition` to the front of `bytes`, and gives the slip's size.
///
/// Edition 1 takes codes with n at most 128. The size is ceil((n' + n) m / 8) for n' points and the header's 3 bytes in edition 1,
/// 4 in edition 2; at most [`MAX_SLIP`]. Bytes behind the slip are kept.
///
/// # Errors
///
/// Number 11 on the edition, then 1 to 8, tried in this order; `bytes` is then as it was.
///
/// ```
/// use plq::{slip_write, Code, Refusal};
///
/// let code = Code { m: 2, r: 2, k: 4, points: &[0, 1, 2, 3] };
/// let row = [1, 3, 0, 3, 2, 3, 2, 0];
/// let mut bytes = [0; plq::MAX_SLIP];
/// let size = slip_write(1, code, &row, &mut bytes)?;
/// assert_eq!(bytes[..size], [0x10, 0x83, 0x06, 0x1b, 0x73, 0xb8]);
/// let size = slip_write(2, code, &row, &mut bytes)?;
/// assert_eq!(bytes[..size], [0x20, 0x81, 0x81, 0x80, 0x1b, 0x73, 0xb8]);
/// assert_eq!(slip_write(3, code, &row, &mut bytes), Err(Refusal::SlipEdition));
/// # Ok::<(), plq::Refusal>(())
/// ```
pub fn slip_write(
    edition: usize,
    code: Code,
    row: &[u8],
    bytes: &mut [u8],
) -> Result<usize, Refusal> {
    // SAFETY: each pointer comes with the length of the slice it was taken from; `bytes` is borrowed alone.
    let answer = unsafe {
        c::plq_slip_write(
            edition,
            code.m,
            code.r,
            code.k,
            code.points.as_ptr(),
            code.points.len(),
            row.as_ptr(),
            row.len(),
            bytes.as_mut_ptr(),
            bytes.len(),
        )
    };
    done(answer)
}

/// Reads the slip in `bytes`, of either edition, which must end where the slip ends. The row is not decoded.
///
/// One code and one row have one slip in each edition: bytes that are read are those that [`slip_write`] makes from what was read.
///
/// Writes the points and the row to the fronts of the two buffers; bytes behind them are kept.
/// [`MAX_ROW`] bytes are enough for either.
///
/// # Errors
///
/// Tried in this order: fewer than 3 bytes 10, then 11, edition 2 and fewer than 4 bytes 10, then 1, 3, 4, shorter than its size
/// 10, then 12, 13, 6, 7. Both buffers are then as they were.
///
/// ```
/// use plq::{slip_read, Header, Refusal, MAX_ROW};
///
/// let mut slip = [0x10, 0x83, 0x06, 0x1b, 0x73, 0xb8];
/// let (mut points, mut row) = ([0; MAX_ROW], [0; MAX_ROW]);
/// let header = slip_read(&slip, &mut points, &mut row)?;
/// assert_eq!(header, Header { edition: 1, m: 2, r: 2, k: 4, count: 4 });
/// assert_eq!(points[..header.count], [0, 1, 2, 3]);
/// assert_eq!(row[..header.r * header.count], [1, 3, 0, 3, 2, 3, 2, 0]);
/// assert_eq!(slip_read(&slip[..5], &mut points, &mut row), Err(Refusal::SlipShort));
///
/// slip[2] |= 1; // the spare bit, last of the header
/// assert_eq!(slip_read(&slip, &mut points, &mut row), Err(Refusal::SlipBits));
///
/// let same = [0x20, 0x81, 0x81, 0x80, 0x1b, 0x73, 0xb8];
/// assert_eq!(slip_read(&same, &mut points, &mut row)?, Header { edition: 2, ..header });
/// # Ok::<(), plq::Refusal>(())
/// ```
pub fn slip_read(bytes: &[u8], points: &mut [u8], row: &mut [u8]) -> Result<Header, Refusal> {
    // SAFETY: each pointer comes with the length of the slice it was taken from; both buffers are borrowed alone.
    let answer = unsafe {
        c::plq_slip_read(
            bytes.as_ptr(),
            bytes.len(),
            points.as_mut_ptr(),
            points.len(),
            row.as_mut_ptr(),
            row.len(),
        )
    };
    header(answer)
}

/// Reads a slip, decodes its row, and writes the line that the program slipread prints to the front of `text`.
///
/// The line is `0 TOTAL | MESSAGE | DEPTHS`, or `NUMBER DETAIL` where reading or decoding is refused, and a newline.
/// Gives its length. Bytes behind it are kept, and [`MAX_LINE`] bytes are always enough.
///
/// # Errors
///
/// [`Refusal::Length`] if `text` is too short for the line; it is then as it was.
///
/// ```
/// let slip = [0x10, 0x83, 0x06, 0x1b, 0x73, 0xb8];
/// let mut text = [0; plq::MAX_LINE];
/// let length = plq::line(&slip, &mut text)?;
/// assert_eq!(&text[..length], b"0 2 | 1 2 2 1 | 1 0 1 0\n");
/// let length = plq::line(&slip[..5], &mut text)?;
/// assert_eq!(&text[..length], b"10 0\n");
/// # Ok::<(), plq::Refusal>(())
/// ```
pub fn line(slip: &[u8], text: &mut [u8]) -> Result<usize, Refusal> {
    // SAFETY: each pointer comes with the length of the slice it was taken from; `text` is borrowed alone.
    done(unsafe { c::plq_line(slip.as_ptr(), slip.len(), text.as_mut_ptr(), text.len()) })
}
