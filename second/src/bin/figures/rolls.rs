//! A walk over a roll, slip after slip: how its time grows with the roll.

use crate::measure::in_turns;
use second::archive::{self, CodeRef};
use std::hint::black_box;

/// A roll of this many bytes, its slips, and the microseconds of a walk over all of them.
pub struct Walk {
    pub bytes: usize,
    pub slip: usize,
    pub slips: usize,
    pub time: f64,
    /// The time as a multiple of that for half of the roll.
    pub ratio: f64,
}

/// The size of the longest slip.
pub const LONGEST_SLIP: usize = 484;

/// The longest roll that is measured; the others have a half, a quarter and an eighth of it.
const LONGEST: usize = 65_536;

/// Rolls of the shortest slips and of the longest, in either edition.
pub fn walks() -> Vec<Walk> {
    let slips = [
        slip(1, 2, 1),
        slip(1, 8, 128),
        slip(2, 2, 1),
        slip(2, 8, 240),
    ];
    let sizes = [LONGEST / 8, LONGEST / 4, LONGEST / 2, LONGEST];
    slips
        .iter()
        .flat_map(|slip| sizes.map(|bytes| measure(slip, bytes)))
        .collect()
}

/// A slip with one symbol at each of the first points.
fn slip(edition: usize, m: usize, count: usize) -> Vec<u8> {
    let points: Vec<u8> = (0..count).map(|point| point as u8).collect();
    let code = CodeRef {
        m,
        r: 1,
        k: 1,
        points: &points,
    };
    let mut bytes = [0; LONGEST_SLIP];
    let answer = archive::slip_write(edition, code, &vec![1; count], &mut bytes);
    assert_eq!(answer as u8, 0, "a fine slip is written");
    bytes[..(answer >> 8) as usize].to_vec()
}

/// As many whole slips as have room in so many bytes.
fn roll(slip: &[u8], bytes: usize) -> Vec<u8> {
    slip.repeat(bytes / slip.len())
}

fn measure(slip: &[u8], bytes: usize) -> Walk {
    let (whole, half) = (roll(slip, bytes), roll(slip, bytes / 2));
    let mut walk_whole = || _ = black_box(walk(&whole));
    let mut walk_half = || _ = black_box(walk(&half));
    let figure = in_turns(1, &mut walk_whole, &mut walk_half);
    Walk {
        bytes: whole.len(),
        slip: slip.len(),
        slips: walk(&whole),
        time: figure.first,
        ratio: figure.ratio,
    }
}

/// The number of slips found.
fn walk(roll: &[u8]) -> usize {
    let (mut rest, mut found) = (roll, 0);
    loop {
        let size = (archive::roll_first(rest) >> 8) as usize;
        if size == 0 {
            return found;
        }
        found += 1;
        rest = &rest[size..];
    }
}
