//! A roll: slips one behind another.

use crate::archive::c;
use crate::word::done;
use crate::Refusal;
use std::iter::FusedIterator;

/// The slips of a roll, slips saved one behind another, in their order.
///
/// Each slip is a part of the roll. Where one is refused, the refusal is the last item, and [`Slips::rest`] is what stands
/// from there on. An empty roll has no slips. Slips of both editions may be mixed. Zero bits, points, row and fill are not looked at:
/// [`slip_read`](crate::slip_read) and [`line`](crate::line) take each slip found, and may refuse it for another reason,
/// such as 13 or 6.
///
/// # Errors
///
/// Tried at each slip in this order: fewer than 3 bytes 10, then 11, edition 2 and fewer than 4 bytes 10, then 1, 3, 4, shorter
/// than its size 10. Never 12.
///
/// ```
/// let slip = [0x10, 0x83, 0x06, 0x1b, 0x73, 0xb8];
/// let day = [slip, slip].concat();
/// assert_eq!(plq::slips(&day).collect::<Result<Vec<_>, _>>(), Ok(vec![&slip[..], &slip[..]]));
///
/// let mut cut = plq::slips(&day[..10]);
/// assert_eq!(cut.next(), Some(Ok(&slip[..])));
/// assert_eq!(cut.next(), Some(Err(plq::Refusal::SlipShort)));
/// assert_eq!((cut.next(), cut.rest()), (None, &slip[..4]));
/// ```
pub fn slips(roll: &[u8]) -> Slips<'_> {
    Slips {
        rest: roll,
        is_over: false,
    }
}

/// The slips of a roll, as [`slips`] gives them.
#[derive(Clone, Debug)]
pub struct Slips<'a> {
    rest: &'a [u8],
    is_over: bool,
}

impl<'a> Slips<'a> {
    /// What stands behind the slips found so far: the whole of what was refused, once it was.
    pub fn rest(&self) -> &'a [u8] {
        self.rest
    }
}

impl<'a> Iterator for Slips<'a> {
    type Item = Result<&'a [u8], Refusal>;

    fn next(&mut self) -> Option<Self::Item> {
        if self.is_over {
            return None;
        }
        // SAFETY: the pointer comes with the length of the slice it was taken from.
        let found = done(unsafe { c::plq_roll_first(self.rest.as_ptr(), self.rest.len()) });
        let size = found.unwrap_or(0).min(self.rest.len());
        let (slip, rest) = self.rest.split_at(size);
        self.rest = rest;
        self.is_over = size == 0;
        match found {
            Ok(_) if self.is_over => None,
            found => Some(found.map(|_| slip)),
        }
    }
}

impl FusedIterator for Slips<'_> {}
