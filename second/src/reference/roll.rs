//! A roll, slips one behind another: where the first one ends, and the walk over all of them.
//!
//! No formula for a size is used. The end is found by going over the symbols that the header promises, one at a time, and
//! then to the end of the byte.

use super::refusal::Refusal;

/// The bits of a header that are left to read; those that were read are shifted out at its front.
struct Bits(u32);

impl Bits {
    fn next(&mut self, width: u32) -> u32 {
        let number = self.0 >> (32 - width);
        self.0 <<= width;
        number
    }
}

/// What a header promises: symbols of so many bits from this bit on, a point and a chunk for each place.
struct Promise {
    from: usize,
    bits: u32,
    places: u32,
    depth: u32,
}

impl Promise {
    /// Something for each symbol of the row.
    fn row(&self) -> impl Iterator<Item = u32> {
        let depth = self.depth;
        (0..self.places).flat_map(move |place| (0..depth).map(move |_| place))
    }
}

/// 10, 11, 10, 1, 3 and 4 in that order.
fn promise(roll: &[u8]) -> Result<Promise, Refusal> {
    let &[a, b, c, ..] = roll else {
        return Err(Refusal::SlipShort);
    };
    let fourth = roll.get(3).copied();
    let mut header = Bits(u32::from_be_bytes([a, b, c, fourth.unwrap_or(0)]));
    let (width, longest_row, from) = match (header.next(4), fourth) {
        (1, _) => (7, 128, 24),
        (2, Some(_)) => (8, 240, 32),
        (2, None) => return Err(Refusal::SlipShort),
        _ => return Err(Refusal::Edition),
    };
    let bits = match header.next(2) {
        0 => 2,
        1 => 4,
        2 => 8,
        _ => return Err(Refusal::Field),
    };
    let depth = header.next(3) + 1;
    let places = header.next(width) + 1;
    let longer = header.next(width) as usize;
    let promise = Promise {
        from,
        bits,
        places,
        depth,
    };
    let n = promise.row().count();
    if places > 1 << bits || n > longest_row {
        return Err(Refusal::Points);
    }
    if longer >= n {
        return Err(Refusal::MessageLength);
    }
    Ok(promise)
}

/// The size of the first slip, 0 for an empty roll.
pub fn first(roll: &[u8]) -> Result<usize, Refusal> {
    if roll.is_empty() {
        return Ok(0);
    }
    let promise = promise(roll)?;
    let mut at = promise.from;
    let mut bits = roll.iter().flat_map(|_| 0..8).skip(at);
    for _ in promise.row().chain(0..promise.places) {
        for _ in 0..promise.bits {
            bits.next().ok_or(Refusal::SlipShort)?;
            at += 1;
        }
    }
    while at % 8 != 0 {
        at += 1;
    }
    Ok(at / 8)
}

/// The sizes of the slips found, and the refusal that ended the walk, if any.
pub fn walk(roll: &[u8]) -> (Vec<usize>, Option<Refusal>) {
    let mut sizes = Vec::new();
    let mut rest = roll;
    loop {
        match first(rest) {
            Ok(0) => return (sizes, None),
            Ok(size) => {
                sizes.push(size);
                rest = &rest[size..];
            }
            Err(refusal) => return (sizes, Some(refusal)),
        }
    }
}

#[cfg(test)]
mod tests {
    use super::*;
    use crate::generate::rolls;
    use crate::random::Random;
    use crate::reference::slip;

    /// The shortest front that the slip reader does not call short decides, whatever it says of its loose bits and points.
    fn by_the_reader(roll: &[u8]) -> Result<usize, Refusal> {
        if roll.is_empty() {
            return Ok(0);
        }
        for size in 0..=roll.len().min(484) {
            match slip::unpack(&roll[..size]) {
                Err(Refusal::SlipShort) => (),
                Ok(_) | Err(Refusal::SlipBits | Refusal::PointTwice(_)) => return Ok(size),
                Err(refusal) => return Err(refusal),
            }
        }
        Err(Refusal::SlipShort)
    }

    #[test]
    fn the_reader_finds_the_same_end() {
        let mut random = Random::new(8);
        for _ in 0..2000 {
            let roll = rolls::roll(&mut random).bytes;
            assert_eq!(first(&roll), by_the_reader(&roll), "{roll:?}");
        }
    }

    #[test]
    fn joined_slips_are_found_again() {
        let mut random = Random::new(9);
        for _ in 0..500 {
            let slips = rolls::written(&mut random);
            let sizes = slips.iter().map(Vec::len).collect();
            assert_eq!(walk(&slips.concat()), (sizes, None));
        }
    }

    #[test]
    fn loose_bits_do_not_change_the_walk() {
        let mut random = Random::new(12);
        for _ in 0..500 {
            let mut slips = rolls::written(&mut random);
            let before = walk(&slips.concat());
            for slip in &mut slips {
                rolls::loosen(&mut random, slip);
            }
            assert_eq!(walk(&slips.concat()), before);
        }
    }
}
