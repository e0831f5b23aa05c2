//! Where the numbers of a slip's header stand, in bits, so that one of them can be looked at or changed alone.

use crate::call::Header;

/// The first bit of a number, and how many it has.
#[derive(Clone, Copy, Debug, PartialEq, Eq)]
pub struct Place {
    pub at: usize,
    pub width: usize,
}

/// Both editions begin alike.
pub const EDITION: Place = Place { at: 0, width: 4 };
pub const FIELD: Place = Place { at: 4, width: 2 };
pub const DEPTH: Place = Place { at: 6, width: 3 };

/// What an edition has behind them, and the longest row that it holds.
pub struct Layout {
    pub count: Place,
    pub dimension: Place,
    pub zeros: Place,
    pub longest_row: usize,
}

/// The editions that there are.
pub const EDITIONS: [usize; 2] = [1, 2];

static OLD: Layout = Layout {
    count: Place { at: 9, width: 7 },
    dimension: Place { at: 16, width: 7 },
    zeros: Place { at: 23, width: 1 },
    longest_row: 128,
};

static NEW: Layout = Layout {
    count: Place { at: 9, width: 8 },
    dimension: Place { at: 17, width: 8 },
    zeros: Place { at: 25, width: 7 },
    longest_row: 240,
};

/// The layout of an edition that there is.
pub fn layout(edition: usize) -> &'static Layout {
    match edition {
        1 => &OLD,
        2 => &NEW,
        _ => panic!("there is no edition {edition}"),
    }
}

impl Place {
    /// The bit behind its last one.
    pub fn end(self) -> usize {
        self.at + self.width
    }

    /// The bits of a symbol, counted from the first point on.
    pub fn of_symbol(header: Header, place: usize) -> Place {
        let first = layout(header.edition).zeros.end();
        Place {
            at: first + place * header.m,
            width: header.m,
        }
    }

    /// The number that stands there, if the bytes reach so far.
    pub fn read(self, bytes: &[u8]) -> Option<usize> {
        (self.at..self.end()).try_fold(0, |number, bit| {
            let byte = usize::from(*bytes.get(bit / 8)?);
            Some(2 * number + (byte >> (7 - bit % 8) & 1))
        })
    }

    /// Overwrites what stands there; bits behind the last byte are left out.
    pub fn write(self, bytes: &mut [u8], number: usize) {
        for place in 0..self.width {
            let bit = self.at + place;
            let Some(byte) = bytes.get_mut(bit / 8) else {
                return;
            };
            let mask = 0x80 >> (bit % 8);
            *byte &= !mask;
            if number >> (self.width - 1 - place) & 1 == 1 {
                *byte |= mask;
            }
        }
    }
}

/// The bit behind the last symbol of a slip.
pub fn end(header: Header) -> usize {
    Place::of_symbol(header, header.count + header.r * header.count).at
}

/// The bytes of a slip.
pub fn size(header: Header) -> usize {
    end(header).div_ceil(8)
}

/// What a header of an edition that there is says, fit for a code or not; m is 0 for field code 3.
pub fn told(bytes: &[u8]) -> Option<Header> {
    let edition = EDITION.read(bytes)?;
    if !EDITIONS.contains(&edition) {
        return None;
    }
    let layout = layout(edition);
    Some(Header {
        edition,
        m: [2, 4, 8, 0][FIELD.read(bytes)?],
        r: DEPTH.read(bytes)? + 1,
        count: layout.count.read(bytes)? + 1,
        k: layout.dimension.read(bytes)? + 1,
    })
}

#[cfg(test)]
mod tests {
    use super::*;
    use crate::generate::slips;
    use crate::random::Random;
    use crate::reference::slip::pack;

    #[test]
    fn a_header_that_was_written_says_what_it_was_written_from() {
        let mut random = Random::new(13);
        for _ in 0..500 {
            let slip = slips::written(&mut random);
            let bytes = pack(&slip);
            assert_eq!(told(&bytes), Some(slip.header));
            assert_eq!(size(slip.header), bytes.len());
        }
    }
}
