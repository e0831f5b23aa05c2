//! Rolls: slips joined as the office saves them, then cut, with noise before, between or behind them, or with bits changed
//! that hold nothing.

use super::header::{layout, DEPTH, EDITION, FIELD};
use super::slips;
use crate::random::Random;
use crate::reference::slip::{pack, unpack};

/// The most slips that a roll drawn here has.
pub const MOST_SLIPS: usize = 40;

/// What was done to the joined slips.
#[derive(Clone, Copy, Debug, PartialEq, Eq, PartialOrd, Ord)]
pub enum Way {
    Good,
    Cut,
    NoiseBefore,
    NoiseBetween,
    NoiseBehind,
    LooseBits,
}

impl Way {
    pub const ALL: [Way; 6] = [
        Way::Good,
        Way::Cut,
        Way::NoiseBefore,
        Way::NoiseBetween,
        Way::NoiseBehind,
        Way::LooseBits,
    ];

    pub fn name(self) -> &'static str {
        match self {
            Way::Good => "good",
            Way::Cut => "cut",
            Way::NoiseBefore => "with noise before it",
            Way::NoiseBetween => "with noise between its slips",
            Way::NoiseBehind => "with noise behind it",
            Way::LooseBits => "with zero and fill bits changed",
        }
    }
}

pub struct Drawn {
    pub bytes: Vec<u8>,
    pub slips: usize,
    pub way: Way,
}

/// 0 to 40 slips as the writer makes them, of both editions; short rolls are more frequent.
pub fn written(random: &mut Random) -> Vec<Vec<u8>> {
    let most = random.pick(&[1, 2, 4, MOST_SLIPS]);
    let count = random.between(0, most);
    (0..count).map(|_| pack(&slips::written(random))).collect()
}

pub fn roll(random: &mut Random) -> Drawn {
    let mut slips = written(random);
    let count = slips.len();
    let way = drawn_way(random, count);
    match way {
        Way::Good => (),
        Way::Cut => {
            // a slip that is cut has bits that hold nothing, too
            if random.percent(50) {
                slips.iter_mut().for_each(|slip| loosen(random, slip));
            }
            return cut(random, &slips);
        }
        Way::NoiseBefore => slips.insert(0, noise(random)),
        Way::NoiseBetween => slips.insert(random.between(1, count - 1), noise(random)),
        Way::NoiseBehind => slips.push(noise(random)),
        Way::LooseBits => slips.iter_mut().for_each(|slip| loosen(random, slip)),
    }
    Drawn {
        bytes: slips.concat(),
        slips: count,
        way,
    }
}

/// Changes some of the bits of a written slip that hold nothing.
pub fn loosen(random: &mut Random, slip: &mut [u8]) {
    let header = unpack(slip).expect("a written slip").header;
    for bit in slips::loose_bits(header) {
        if random.percent(50) {
            slips::flip(slip, bit);
        }
    }
}

/// One of the ways; there is no place between fewer than two slips.
fn drawn_way(random: &mut Random, count: usize) -> Way {
    match random.pick(&Way::ALL) {
        Way::NoiseBetween if count < 2 => Way::NoiseBehind,
        way => way,
    }
}

/// Cut anywhere, in most cases within the first slip or right behind it: there the answer changes.
fn cut(random: &mut Random, slips: &[Vec<u8>]) -> Drawn {
    let mut bytes = slips.concat();
    let first = slips.first().map_or(0, Vec::len);
    match random.below(5) {
        0 => bytes.truncate(first),
        1 => bytes.truncate(first.saturating_sub(random.between(1, 3))),
        2 => bytes.truncate(random.between(0, first)),
        3 => slips::cut_to_the_header(random, &mut bytes),
        _ => bytes.truncate(random.between(0, bytes.len())),
    };
    Drawn {
        bytes,
        slips: slips.len(),
        way: Way::Cut,
    }
}

/// Bytes that no writer made: a few, or a header that is wrong in one place and something behind it.
fn noise(random: &mut Random) -> Vec<u8> {
    if random.percent(40) {
        return slips::unwritten(random);
    }
    let slip = slips::written(random);
    let mut bytes = pack(&slip);
    let edition = slip.header.edition;
    let behind = layout(edition);
    match random.below(10) {
        0..3 => slips::around_a_limit(random, edition, &mut bytes),
        3 => behind.dimension.write(&mut bytes, slip.row.len()), // one more than n
        _ => {
            let place = random.pick(&[EDITION, FIELD, DEPTH, behind.count, behind.dimension]);
            place.write(&mut bytes, random.below(1 << place.width));
        }
    }
    bytes
}
