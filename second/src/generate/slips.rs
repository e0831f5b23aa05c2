//! Slips: as the writer makes them, then changed, cut or extended, and bytes that no writer made.

use super::codes::{self, Sizes};
use super::damage;
use super::header::{end, layout, size, Place, DEPTH, EDITION, EDITIONS, FIELD};
use crate::call::Header;
use crate::random::Random;
use crate::reference::slip::{pack, Slip};

/// No slip drawn here is longer.
pub const MOST_BYTES: usize = 600;

/// Bytes for the reader, and how they came about.
pub struct Drawn {
    pub bytes: Vec<u8>,
    pub change: Change,
}

/// What was done to a written slip.
#[derive(Clone, Copy, Debug, PartialEq, Eq)]
pub enum Change {
    /// Nothing, or there was none.
    None,
    /// One bit that holds nothing was changed, and nothing else.
    Loose(Loose),
    /// Anything else.
    Any,
}

/// A bit of a slip that holds nothing.
#[derive(Clone, Copy, Debug, PartialEq, Eq, PartialOrd, Ord)]
pub enum Loose {
    /// The spare bit of edition 1.
    Spare,
    /// One of the seven zero bits of edition 2, counted from 0.
    Zero(usize),
    /// A bit behind the last symbol, in this edition.
    Fill(usize),
}

/// Of either edition.
pub fn slip(random: &mut Random) -> Drawn {
    drawn_from(random, written)
}

/// Of this edition, but for what is changed or was never written.
pub fn slip_in(random: &mut Random, edition: usize) -> Drawn {
    drawn_from(random, |random| written_in(random, edition))
}

fn drawn_from(random: &mut Random, written: impl Fn(&mut Random) -> Slip) -> Drawn {
    if random.percent(8) {
        return Drawn {
            bytes: unwritten(random),
            change: Change::None,
        };
    }
    let slip = written(random);
    let mut bytes = pack(&slip);
    let before = bytes.clone();
    let change = match random.below(100) {
        0..66 => {
            for _ in 0..random.between(1, 2) {
                change(random, &slip, &mut bytes);
            }
            Change::Any
        }
        66..78 => Change::Loose(loosen(random, slip.header, &mut bytes)),
        _ => Change::None,
    };
    Drawn {
        change: if bytes == before {
            Change::None
        } else {
            change
        },
        bytes,
    }
}

/// Changes one bit of a slip that holds nothing: in most cases one of the fill, where there is any, else one of the header.
pub fn loosen(random: &mut Random, header: Header, bytes: &mut [u8]) -> Loose {
    let loose = loose_bits(header);
    let zeros = layout(header.edition).zeros.width;
    let place = if random.percent(60) && loose.len() > zeros {
        random.between(zeros, loose.len() - 1)
    } else {
        random.below(zeros)
    };
    flip(bytes, loose[place]);
    which(header, loose[place])
}

/// The bits that hold nothing: the last ones of the header, and those behind the last symbol.
pub fn loose_bits(header: Header) -> Vec<usize> {
    let zeros = layout(header.edition).zeros;
    let fill = end(header)..8 * size(header);
    (zeros.at..zeros.end()).chain(fill).collect()
}

/// Which one it is of the bits that hold nothing.
pub fn which(header: Header, bit: usize) -> Loose {
    let zeros = layout(header.edition).zeros;
    match header.edition {
        edition if bit >= zeros.end() => Loose::Fill(edition),
        1 => Loose::Spare,
        _ => Loose::Zero(bit - zeros.at),
    }
}

/// Changes a bit, counted from the front.
pub fn flip(bytes: &mut [u8], bit: usize) {
    bytes[bit / 8] ^= 0x80 >> (bit % 8);
}

/// What the writer would make a slip of, of either edition.
pub fn written(random: &mut Random) -> Slip {
    let edition = random.pick(&EDITIONS);
    written_in(random, edition)
}

fn written_in(random: &mut Random, edition: usize) -> Slip {
    let code = codes::code(random, Sizes::MostlyShort, layout(edition).longest_row);
    Slip {
        header: codes::header(edition, &code),
        row: damage::received(random, &code).row,
        points: code.points,
    }
}

/// Random bytes, half of them behind a first byte that a slip could have.
pub fn unwritten(random: &mut Random) -> Vec<u8> {
    let count = match random.below(3) {
        0 => random.between(0, 4),
        1 => random.between(0, 60),
        _ => random.between(0, MOST_BYTES),
    };
    let mut bytes = random.bytes(count);
    if random.percent(50) {
        EDITION.write(&mut bytes, random.pick(&EDITIONS));
    }
    bytes
}

fn change(random: &mut Random, slip: &Slip, bytes: &mut Vec<u8>) {
    let header = slip.header;
    let layout = layout(header.edition);
    let n = slip.row.len();
    let mut set = |place: Place, number: usize| place.write(bytes, number);
    let any = |random: &mut Random, place: Place| random.below(1 << place.width);
    match random.below(19) {
        0 => set(EDITION, any(random, EDITION)),
        1 => set(EDITION, random.pick(&EDITIONS)),
        2 => set(FIELD, 3),
        3 => set(FIELD, any(random, FIELD)),
        4 => set(DEPTH, any(random, DEPTH)),
        5 => set(layout.count, any(random, layout.count)),
        6 => set(layout.count, header.count), // one more
        7 => set(layout.dimension, any(random, layout.dimension)),
        8 => set(layout.dimension, n), // one more than n
        9 => set(layout.zeros, any(random, layout.zeros)),
        10 => around_a_limit(random, header.edition, bytes),
        11 => set_fill(random, header, bytes),
        12 => change_symbol(random, header, bytes),
        13 => repeat_point(random, slip, bytes),
        14 => flip_bits(random, bytes),
        15 => cut(random, bytes),
        16 => cut_to_the_header(random, bytes),
        17 => extend(random, bytes),
        _ => change_byte(random, bytes),
    }
}

/// Has the header say a row whose length is around a limit, and k = 1, n or n + 1, as far as it can say them.
pub fn around_a_limit(random: &mut Random, edition: usize, bytes: &mut [u8]) {
    let layout = layout(edition);
    let (m, r, count) = loop {
        let n = codes::around_limits(random, 1, usize::MAX);
        let size = codes::of_length(random, n);
        if size.2 <= 1 << layout.count.width {
            break size;
        }
    };
    let n = r * count;
    FIELD.write(bytes, m.ilog2() as usize - 1);
    DEPTH.write(bytes, r - 1);
    layout.count.write(bytes, count - 1);
    layout.dimension.write(bytes, random.pick(&[0, n - 1, n]));
}

/// Fills the bits behind the last symbol at random.
fn set_fill(random: &mut Random, header: Header, bytes: &mut [u8]) {
    let end = end(header);
    let fill = Place {
        at: end,
        width: 8 * size(header) - end,
    };
    fill.write(bytes, random.below(1 << fill.width));
}

fn change_symbol(random: &mut Random, header: Header, bytes: &mut [u8]) {
    let symbol = random.below(header.r * header.count);
    let place = Place::of_symbol(header, header.count + symbol);
    place.write(bytes, random.below(1 << header.m));
}

fn repeat_point(random: &mut Random, slip: &Slip, bytes: &mut [u8]) {
    let point = random.pick(&slip.points);
    let place = random.below(slip.points.len());
    Place::of_symbol(slip.header, place).write(bytes, point.into());
}

fn flip_bits(random: &mut Random, bytes: &mut [u8]) {
    for _ in 0..random.between(1, 4) {
        if !bytes.is_empty() {
            let place = random.below(bytes.len());
            bytes[place] ^= 1 << random.below(8);
        }
    }
}

fn cut(random: &mut Random, bytes: &mut Vec<u8>) {
    let length = if random.percent(50) {
        bytes.len().saturating_sub(1)
    } else {
        random.below(bytes.len() + 1)
    };
    bytes.truncate(length);
}

/// What is left is a header of either edition, or less.
pub fn cut_to_the_header(random: &mut Random, bytes: &mut Vec<u8>) {
    bytes.truncate(random.pick(&[0, 1, 2, 3, 3, 4]));
}

fn extend(random: &mut Random, bytes: &mut Vec<u8>) {
    let room = MOST_BYTES - bytes.len();
    let more = match random.below(3) {
        0 => 1,
        1 => random.between(1, 8.min(room.max(1))),
        _ => random.between(1, room.max(1)),
    };
    let more = random.bytes(more.min(room));
    bytes.extend(more);
}

fn change_byte(random: &mut Random, bytes: &mut [u8]) {
    if !bytes.is_empty() {
        let place = random.below(bytes.len());
        bytes[place] = random.byte();
    }
}
