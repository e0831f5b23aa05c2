//! Slips turned into the other edition: their outcomes were worked by hand too.
//!
//! Points, symbols and fill are the same bytes in both; headers are written out bit by bit.

use crate::call::{fresh, Call, Outcome, BEFORE};
use crate::editions::{FIVE_BYTES, SEVEN_BYTES};
use crate::worked::{Worked, FOUR_BYTES, SIX_BYTES};

pub fn all() -> Vec<Worked> {
    let mut cases = over_and_back();
    cases.extend(longest());
    cases.extend(other_editions());
    cases.extend(refused());
    cases.extend(in_order());
    cases
}

/// `from` is turned into `to`: into a buffer of that size, into one that is longer, and not into one that is a byte too short.
fn turns(name: &'static str, edition: usize, from: &[u8], to: &[u8]) -> [Worked; 3] {
    let size = to.len();
    let worked = |room, outcome| Worked {
        name,
        call: Call::turn(edition, from.to_vec(), fresh(room)),
        outcome,
    };
    let longer = [to, &[BEFORE; 3]].concat();
    [
        worked(size, Outcome::plain(0, size, vec![to.to_vec()])),
        worked(size + 3, Outcome::plain(0, size, vec![longer])),
        worked(size - 1, Outcome::plain(7, 0, vec![fresh(size - 1)])),
    ]
}

/// The call that turns slips of this edition refuses these bytes, with no room and with enough.
fn refuses(name: &'static str, edition: usize, slip: &[u8], answer: (u8, usize)) -> [Worked; 2] {
    [0, slip.len() + 1].map(|room| Worked {
        name,
        call: Call::turn(edition, slip.to_vec(), fresh(room)),
        outcome: Outcome::plain(answer.0, answer.1, vec![fresh(room)]),
    })
}

fn over_and_back() -> Vec<Worked> {
    [
        turns("the six bytes", 1, &SIX_BYTES, &SEVEN_BYTES),
        turns("the seven bytes", 2, &SEVEN_BYTES, &SIX_BYTES),
        turns("the four bytes", 1, &FOUR_BYTES, &FIVE_BYTES),
        turns("the five bytes", 2, &FIVE_BYTES, &FOUR_BYTES),
    ]
    .into_iter()
    .flatten()
    .collect()
}

/// With m 8 and r 1 each point and symbol is a byte: points count up from 0, and the symbols are all 7.
fn flat(header: &[u8], count: u8) -> Vec<u8> {
    let points: Vec<u8> = (0..count).collect();
    [header, &points, &vec![7; count.into()]].concat()
}

/// n is 127 and 128 where it fits, and 129, 239 and 240 where it does not.
fn longest() -> Vec<Worked> {
    // 0001 10 000 1111110 1111110 0 and 0010 10 000 01111110 01111110 0000000
    let [old, new] = [
        flat(&[0x18, 0x7E, 0xFC], 127),
        flat(&[0x28, 0x3F, 0x3F, 0x00], 127),
    ];
    // 0001 10 000 1111111 1111111 0 and 0010 10 000 01111111 01111111 0000000
    let [old_most, new_most] = [
        flat(&[0x18, 0x7F, 0xFE], 128),
        flat(&[0x28, 0x3F, 0xBF, 0x80], 128),
    ];
    let fits = [
        turns("127 to new", 1, &old, &new),
        turns("127 to old", 2, &new, &old),
        turns("128 to new", 1, &old_most, &new_most),
        turns("128 to old", 2, &new_most, &old_most),
    ];
    // 0010 10 000 10000000, 11101110 and 11101111, then 00000000 0000000: k is 1
    let long = [
        ([0x28, 0x40, 0, 0], 129),
        ([0x28, 0x77, 0, 0], 239),
        ([0x28, 0x77, 0x80, 0], 240),
    ];
    let long =
        long.map(|(header, count)| refuses("a row too long", 2, &flat(&header, count), (15, 0)));
    fits.into_iter()
        .flatten()
        .chain(long.into_iter().flatten())
        .collect()
}

/// 11 for all editions but one. It comes before all but fewer than 3 bytes, so three bytes of edition 2 are 11 here and 10 there.
fn other_editions() -> Vec<Worked> {
    let mut cases = Vec::new();
    for other in (0..16).filter(|edition| *edition != 1) {
        let first = other << 4;
        cases.extend(refuses(
            "another edition to new",
            1,
            &[first | 0xC, 0, 0],
            (11, 0),
        ));
    }
    for other in (0..16).filter(|edition| *edition != 2) {
        let first = other << 4;
        cases.extend(refuses(
            "another edition to old",
            2,
            &[first | 0xC, 0, 0],
            (11, 0),
        ));
    }
    let others = [
        refuses("edition 2 to new", 1, &SEVEN_BYTES, (11, 0)),
        refuses("edition 1 to old", 2, &SIX_BYTES, (11, 0)),
        refuses("two bytes to new", 1, &[0x20, 0], (10, 0)),
        refuses("two bytes to old", 2, &[0x10, 0], (10, 0)),
        refuses("three bytes of edition 2", 2, &[0x2C, 0, 0], (10, 0)),
    ];
    cases.extend(others.into_iter().flatten());
    cases
}

/// What the reader refuses.
fn refused() -> Vec<Worked> {
    [
        refuses("nothing to new", 1, &[], (10, 0)),
        refuses("nothing to old", 2, &[], (10, 0)),
        refuses("field code 3 to new", 1, &[0x1C, 0, 0], (1, 0)),
        refuses("field code 3 to old", 2, &[0x2C, 0, 0, 0], (1, 0)),
        refuses("five points of four to new", 1, &[0x10, 4, 0], (3, 0)),
        refuses("five points of four to old", 2, &[0x20, 2, 0, 0], (3, 0)),
        // 43 chunks of 3 in edition 1, 241 points in edition 2
        refuses("n 129 to new", 1, &[0x19, 0x2A, 0], (3, 0)),
        refuses("n 241 to old", 2, &[0x28, 0x78, 0, 0], (3, 0)),
        refuses("k 2 and n 1 to new", 1, &[0x10, 0, 2], (4, 0)),
        refuses("k 2 and n 1 to old", 2, &[0x20, 0, 0, 0x80], (4, 0)),
        refuses("the six bytes less one", 1, &SIX_BYTES[..5], (10, 0)),
        refuses("the seven bytes less one", 2, &SEVEN_BYTES[..6], (10, 0)),
        refuses("the four bytes and one", 1, &[0x10, 0, 0, 0x10, 0], (12, 0)),
        refuses(
            "the five bytes and one",
            2,
            &[0x20, 0, 0, 0, 0x10, 0],
            (12, 0),
        ),
        refuses("the spare bit", 1, &[0x10, 0, 1, 0x10], (13, 0)),
        refuses("the last of the seven", 2, &[0x20, 0, 0, 1, 0x10], (13, 0)),
        refuses("the fill to new", 1, &[0x10, 0, 0, 0x11], (13, 0)),
        refuses("the fill to old", 2, &[0x20, 0, 0, 0, 0x11], (13, 0)),
        refuses("points 1 1 to new", 1, &[0x10, 1, 0, 0x50], (6, 1)),
        refuses("points 1 1 to old", 2, &[0x20, 0, 0x80, 0, 0x50], (6, 1)),
    ]
    .into_iter()
    .flatten()
    .collect()
}

/// 15 comes behind all that the reader tries, and before 7: `refuses` has no room at all in one of its calls.
fn in_order() -> Vec<Worked> {
    let long = |last_of_header| flat(&[0x28, 0x40, 0x00, last_of_header], 129);
    let mut twice = long(0);
    twice[4 + 128] = 0;
    let [short, longer] = [long(0)[..261].to_vec(), [&long(1)[..], &[0]].concat()];
    [
        refuses("n 129, short of its size", 2, &short, (10, 0)),
        refuses("n 129, a zero bit and a byte more", 2, &longer, (12, 0)),
        refuses("n 129 and a zero bit", 2, &long(1), (13, 0)),
        refuses("n 129 and a point twice", 2, &twice, (6, 128)),
    ]
    .into_iter()
    .flatten()
    .collect()
}
