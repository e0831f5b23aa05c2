//! A slip turned into one of the other edition, by its bits: no number, point or symbol is put together again.
//!
//! Behind the header nothing moves. In the header n' - 1 and k - 1 get a 0 in front or lose it, and the zero bits follow.

use super::refusal::Refusal;
use super::slip::unpack;

/// The bits of a header that do not change: field and r - 1.
const SAME: std::ops::Range<usize> = 4..9;

/// Edition 1 has no room for longer rows.
const LONGEST_OLD_ROW: usize = 128;

/// A slip of edition 1 as one of edition 2, at the front of `bytes`.
pub fn to_new(slip: &[u8], bytes: &mut [u8]) -> Result<usize, Refusal> {
    own(1, slip)?;
    unpack(slip)?;
    let (header, rest) = split(slip, 3);
    let [points, dimension] = [&header[9..16], &header[16..23]];
    let header = format!("0010{}0{points}0{dimension}0000000", &header[SAME]);
    put(&header, rest, bytes)
}

/// And back.
pub fn to_old(slip: &[u8], bytes: &mut [u8]) -> Result<usize, Refusal> {
    own(2, slip)?;
    if unpack(slip)?.row.len() > LONGEST_OLD_ROW {
        return Err(Refusal::RowLong);
    }
    let (header, rest) = split(slip, 4);
    let [(first, points), (second, dimension)] =
        [&header[9..17], &header[17..25]].map(|number| number.split_at(1));
    assert_eq!(
        [first, second],
        ["0", "0"],
        "128 points and symbols need 7 bits"
    );
    let header = format!("0001{}{points}{dimension}0", &header[SAME]);
    put(&header, rest, bytes)
}

/// A slip that is long enough to say its edition must say this one.
fn own(edition: u8, slip: &[u8]) -> Result<(), Refusal> {
    match slip {
        [first, _, _, ..] if first >> 4 == edition => Ok(()),
        [_, _, _, ..] => Err(Refusal::Edition),
        _ => Err(Refusal::SlipShort),
    }
}

/// The bits of a header of so many bytes, and the bytes behind it.
fn split(slip: &[u8], count: usize) -> (String, &[u8]) {
    let (header, rest) = slip.split_at(count);
    (
        header.iter().map(|byte| format!("{byte:08b}")).collect(),
        rest,
    )
}

/// Writes a header, given in bits, and the bytes behind it.
fn put(header: &str, rest: &[u8], bytes: &mut [u8]) -> Result<usize, Refusal> {
    let byte = |place| u8::from_str_radix(&header[place..place + 8], 2).expect("eight bits");
    let header: Vec<u8> = (0..header.len()).step_by(8).map(byte).collect();
    let turned = [&header, rest].concat();
    let room = bytes.get_mut(..turned.len()).ok_or(Refusal::Length)?;
    room.copy_from_slice(&turned);
    Ok(turned.len())
}

#[cfg(test)]
mod tests {
    use super::*;
    use crate::call::fresh;
    use crate::generate::slips;
    use crate::random::Random;
    use crate::reference::slip::{pack, Slip};

    /// Reading and writing again is the other way to turn a slip.
    #[test]
    fn moved_bits_are_what_the_writer_makes() {
        let mut random = Random::new(14);
        for _ in 0..3000 {
            let slip = slips::written(&mut random);
            let bytes = pack(&slip);
            let mut room = fresh(bytes.len() + 1);
            let (edition, turned) = match slip.header.edition {
                1 => (2, to_new(&bytes, &mut room)),
                _ => (1, to_old(&bytes, &mut room)),
            };
            if edition == 1 && slip.row.len() > 128 {
                assert_eq!(
                    (turned, room),
                    (Err(Refusal::RowLong), fresh(bytes.len() + 1))
                );
                continue;
            }
            let mut same = Slip { ..slip.clone() };
            same.header.edition = edition;
            let expected = pack(&same);
            assert_eq!(turned, Ok(expected.len()));
            assert_eq!(room[..expected.len()], expected);
            assert_eq!(
                room[expected.len()..],
                fresh(bytes.len() + 1 - expected.len())
            );
        }
    }
}
