//! A slip turned into the same slip of the other edition.

use crate::archive::c;
use crate::word::done;
use crate::Refusal;

/// Turns a slip of edition 1 into one of edition 2, at the front of `bytes`, and gives its size: a byte more than `slip` has.
///
/// The code and the row stay as they are, and so do the [`line`](crate::line) and every answer of [`decode`](crate::decode).
/// [`to_old`] gives the first bytes again. With room it is done for every slip of edition 1 that
/// [`slip_read`](crate::slip_read) reads. Bytes behind the new slip are kept, and [`MAX_SLIP`](crate::MAX_SLIP) bytes are always enough.
///
/// # Errors
///
/// Tried in this order: fewer than 3 bytes 10, another edition than 1 11, then 1, 3, 4, shorter than its size 10, then 12, 13, 6, 7.
/// `bytes` is then as it was.
///
/// ```
/// use plq::{to_new, to_old, Refusal, MAX_SLIP};
///
/// let slip = [0x10, 0x83, 0x06, 0x1b, 0x73, 0xb8];
/// let mut new = [0; MAX_SLIP];
/// let size = to_new(&slip, &mut new)?;
/// assert_eq!(new[..size], [0x20, 0x81, 0x81, 0x80, 0x1b, 0x73, 0xb8]);
///
/// let mut old = [0; 6];
/// assert_eq!(to_old(&new[..size], &mut old), Ok(6));
/// assert_eq!(old, slip);
/// assert_eq!(to_new(&new[..size], &mut old), Err(Refusal::SlipEdition));
/// # Ok::<(), Refusal>(())
/// ```
pub fn to_new(slip: &[u8], bytes: &mut [u8]) -> Result<usize, Refusal> {
    // SAFETY: each pointer comes with the length of the slice it was taken from; `bytes` is borrowed alone.
    done(unsafe { c::plq_to_new(slip.as_ptr(), slip.len(), bytes.as_mut_ptr(), bytes.len()) })
}

/// And back: turns a slip of edition 2 into one of edition 1, at the front of `bytes`, and gives its size: a byte less than `slip` has.
///
/// The code and the row stay as they are, and so do the [`line`](crate::line) and every answer of [`decode`](crate::decode).
/// [`to_new`] gives the first bytes again. With room it is done for every slip of edition 2 that
/// [`slip_read`](crate::slip_read) reads and whose n is at most 128. Bytes behind the new slip are kept, and
/// [`MAX_SLIP`](crate::MAX_SLIP) bytes are always enough.
///
/// # Errors
///
/// Tried in this order: fewer than 3 bytes 10, another edition than 2 11, fewer than 4 bytes 10, then 1, 3, 4, shorter than its size
/// 10, then 12, 13, 6, n above 128 15, then 7. `bytes` is then as it was.
///
/// ```
/// use plq::{slip_write, to_old, Code, Refusal, MAX_SLIP};
///
/// let points: Vec<u8> = (0..129).collect();
/// let code = Code { m: 8, r: 1, k: 64, points: &points };
/// let (mut slip, mut bytes) = ([0; MAX_SLIP], [0; MAX_SLIP]);
/// let size = slip_write(2, code, &[7; 129], &mut slip)?;
/// assert_eq!(to_old(&slip[..size], &mut bytes), Err(Refusal::RowLong));
///
/// let code = Code { points: &points[..128], ..code };
/// let size = slip_write(2, code, &[7; 128], &mut slip)?;
/// assert_eq!(to_old(&slip[..size], &mut bytes), Ok(size - 1));
/// # Ok::<(), Refusal>(())
/// ```
pub fn to_old(slip: &[u8], bytes: &mut [u8]) -> Result<usize, Refusal> {
    // SAFETY: each pointer comes with the length of the slice it was taken from; `bytes` is borrowed alone.
    done(unsafe { c::plq_to_old(slip.as_ptr(), slip.len(), bytes.as_mut_ptr(), bytes.len()) })
}
