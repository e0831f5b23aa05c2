//! A row as the text of its levels.

use crate::archive::c;
use crate::word::done;
use crate::Refusal;

/// Reads a text of levels, as a tone bench exports it, into `row`.
///
/// The level of a chunk is the sum of symbol j times q^(r - 1 - j), with q = 2^m. The text has a line for each chunk of the row: the
/// level in decimal, with no leading zero unless it is 0 itself, and a newline. `row` has the row's length, a positive multiple of
/// r and at most [`MAX_ROW`](crate::MAX_ROW). A text that is read is the one that [`levels_write`] makes of the row.
///
/// # Errors
///
/// Tried in this order: 1, 2, then 7 on the length of `row`, then the lines, surplus ones too, where the first bad one decides: 17
/// for one that is not written so, 18 for a level of q^r or more. Then 7 for a wrong number of lines. `row` is then as it was.
/// The line is the one that was found for every text below 2^57 bytes.
///
/// ```
/// use plq::{levels_read, Refusal};
///
/// let mut row = [0; 4];
/// levels_read(2, 2, b"7\n3\n", &mut row)?;
/// assert_eq!(row, [1, 3, 0, 3]);
/// let high = Refusal::LevelHigh { line: 1 };
/// assert_eq!(levels_read(2, 2, b"7\n16\n", &mut row), Err(high));
/// let unended = Refusal::LevelLine { line: 1 };
/// assert_eq!(levels_read(2, 2, b"7\n3", &mut row), Err(unended));
/// assert_eq!(levels_read(2, 2, b"7\n", &mut row), Err(Refusal::Length));
/// # Ok::<(), Refusal>(())
/// ```
pub fn levels_read(m: usize, r: usize, text: &[u8], row: &mut [u8]) -> Result<(), Refusal> {
    // SAFETY: each pointer comes with the length of the slice it was taken from; `row` is borrowed alone.
    let answer =
        unsafe { c::plq_levels_read(m, r, text.as_ptr(), text.len(), row.as_mut_ptr(), row.len()) };
    done(answer).map(|_| ())
}

/// Writes the levels of `row`, one to a line, to the front of `text`, and gives the length of what was written.
///
/// [`levels_read`] reads it back into the same row. `row` has a positive multiple of r symbols, at most
/// [`MAX_ROW`](crate::MAX_ROW). Bytes behind the text are kept, and [`MAX_LEVELS`](crate::MAX_LEVELS) bytes are always enough.
///
/// # Errors
///
/// Tried in this order: 1, 2, then 7 on the length of `row`, then 8, then 7 for a short `text`, which is then as it was.
///
/// ```
/// use plq::{levels_write, Refusal, MAX_LEVELS};
///
/// let mut text = [0; MAX_LEVELS];
/// let size = levels_write(2, 2, &[1, 3, 0, 3], &mut text)?;
/// assert_eq!(&text[..size], b"7\n3\n");
/// let size = levels_write(8, 8, &[255; 8], &mut text)?;
/// assert_eq!(&text[..size], b"18446744073709551615\n");
/// assert_eq!(levels_write(2, 2, &[1, 3, 0], &mut text), Err(Refusal::Length));
/// # Ok::<(), Refusal>(())
/// ```
pub fn levels_write(m: usize, r: usize, row: &[u8], text: &mut [u8]) -> Result<usize, Refusal> {
    // SAFETY: each pointer comes with the length of the slice it was taken from; `text` is borrowed alone.
    let answer = unsafe {
        c::plq_levels_write(m, r, row.as_ptr(), row.len(), text.as_mut_ptr(), text.len())
    };
    done(answer)
}
