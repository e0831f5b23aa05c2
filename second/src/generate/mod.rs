//! Random calls with all their inputs: valid ones, damaged rows, changed slips, and every fault, alone and together.

pub mod codes;
pub mod damage;
mod faults;
pub mod header;
pub mod levels;
pub mod rolls;
pub mod slips;

use crate::call::{Call, Kind, RawCode};
use crate::random::Random;
use crate::reference::code::{DEEPEST, LONGEST_ROW};
use crate::reference::{line, slip};
use codes::Sizes;
use header::{layout, EDITIONS};

/// What is known of a call from the way it was made.
#[derive(Clone, Copy, Debug, PartialEq, Eq)]
pub enum Origin {
    Any,
    /// A fine decode call whose row is a sent one damaged to one more than the radius.
    JustBeyond,
    /// A slip, and what was done to it since it was written.
    Slip(slips::Change),
    /// A roll of so many slips, joined in this way.
    Roll(usize, rolls::Way),
}

pub struct Made {
    pub call: Call,
    pub origin: Origin,
}

/// A buffer with room for every line: 240 symbols of three digits and 240 depths with their spaces.
const ROOMY_TEXT: usize = 1500;

/// How many of 145 cases are of each kind.
const SHARES: [(Kind, usize); Kind::ALL.len()] = [
    (Kind::Encode, 12),
    (Kind::Decode, 24),
    (Kind::Distance, 7),
    (Kind::SlipWrite, 12),
    (Kind::SlipRead, 12),
    (Kind::Line, 36),
    (Kind::RollFirst, 10),
    (Kind::ToNew, 8),
    (Kind::ToOld, 8),
    (Kind::LevelsRead, 9),
    (Kind::LevelsWrite, 7),
];

/// Case `index` of the run with this seed.
pub fn case(seed: u64, index: u64) -> Made {
    let mut random = Random::for_case(seed, index);
    let mut place = random.below(SHARES.iter().map(|(_, share)| share).sum());
    for (kind, share) in SHARES {
        if place < share {
            return of_kind(&mut random, kind);
        }
        place -= share;
    }
    unreachable!("a place is below the sum of the shares")
}

fn of_kind(random: &mut Random, kind: Kind) -> Made {
    match kind {
        Kind::Encode | Kind::Decode | Kind::SlipWrite => with_code(random, kind),
        Kind::Distance => Made {
            call: distance(random),
            origin: Origin::Any,
        },
        Kind::SlipRead => slip_read(random),
        Kind::Line => line_call(random),
        Kind::RollFirst => roll_first(random),
        Kind::ToNew => turn(random, 1),
        Kind::ToOld => turn(random, 2),
        Kind::LevelsRead => Made {
            call: levels::read(random),
            origin: Origin::Any,
        },
        Kind::LevelsWrite => Made {
            call: levels::write(random),
            origin: Origin::Any,
        },
    }
}

/// A call that takes a code: fine in most cases, else with one fault, two, or more.
fn with_code(random: &mut Random, kind: Kind) -> Made {
    let faults = match random.below(100) {
        0..62 => 0,
        62..82 => 1,
        82..94 => 2,
        94..97 => random.between(3, 5),
        _ => {
            return Made {
                call: wild(random, kind),
                origin: Origin::Any,
            }
        }
    };
    let mut made = fine(random, kind);
    if faults > 0 {
        faults::put_in(random, &mut made.call, faults);
        made.origin = Origin::Any;
    }
    made
}

fn fine(random: &mut Random, kind: Kind) -> Made {
    match kind {
        Kind::Encode => fine_encode(random),
        Kind::Decode => fine_decode(random),
        _ => fine_write(random),
    }
}

fn fine_encode(random: &mut Random) -> Made {
    let code = codes::code(random, Sizes::Even, LONGEST_ROW);
    let message = damage::message(random, &code);
    let row = random.bytes(code.row_length());
    Made {
        call: Call::encode(codes::raw(&code), message, row),
        origin: Origin::Any,
    }
}

fn fine_decode(random: &mut Random) -> Made {
    let sizes = if random.percent(2) {
        Sizes::EachLength
    } else {
        Sizes::MostlyShort
    };
    let code = codes::code(random, sizes, LONGEST_ROW);
    let received = damage::received(random, &code);
    let message = random.bytes(code.k);
    let depths = random.bytes(code.points.len());
    let origin = if received.just_beyond {
        Origin::JustBeyond
    } else {
        Origin::Any
    };
    Made {
        call: Call::decode(codes::raw(&code), received.row, message, depths),
        origin,
    }
}

fn fine_write(random: &mut Random) -> Made {
    let edition = random.pick(&EDITIONS);
    let code = codes::code(random, Sizes::Even, layout(edition).longest_row);
    let row = random.symbols(code.row_length(), code.field.size());
    let size = header::size(codes::header(edition, &code));
    let room = roomy(random, size);
    Made {
        call: Call::slip_write(edition, codes::raw(&code), row, random.bytes(room)),
        origin: Origin::Any,
    }
}

/// The length of a buffer that may be longer than `needed`.
fn roomy(random: &mut Random, needed: usize) -> usize {
    match random.below(3) {
        0 => needed,
        1 => needed + 1,
        _ => needed + random.below(60),
    }
}

/// Numbers and lengths that have nothing to do with each other.
fn wild(random: &mut Random, kind: Kind) -> Call {
    let code = RawCode {
        m: wild_number(random, 8),
        r: wild_number(random, DEEPEST),
        k: wild_number(random, LONGEST_ROW),
        points: wild_slice(random),
    };
    let [symbols, first, second] = [(); 3].map(|_| wild_slice(random));
    match kind {
        Kind::Encode => Call::encode(code, symbols, first),
        Kind::Decode => Call::decode(code, symbols, first, second),
        _ => Call::slip_write(wild_number(random, 2), code, symbols, first),
    }
}

fn wild_number(random: &mut Random, usual: usize) -> usize {
    match random.below(4) {
        0 => usual,
        1 => faults::extreme(random, usual),
        _ => random.between(0, usual + 2),
    }
}

fn wild_slice(random: &mut Random) -> Vec<u8> {
    let most = random.pick(&[0, 1, 8, 32, 300]);
    let count = random.between(0, most);
    let size = random.pick(&[4, 16, 256]);
    random.symbols(count, size)
}

/// Two rows of any bytes, near each other or not; in some cases r or a length is wrong, or both.
fn distance(random: &mut Random) -> Call {
    let mut r = random.between(1, DEEPEST);
    let mut count = random.between(1, LONGEST_ROW / r);
    if random.percent(10) {
        let n = codes::around_limits(random, 1, usize::MAX);
        (_, r, count) = codes::of_length(random, n);
    }
    let mut a = random.bytes(r * count);
    let mut b = near(random, &a);
    if random.percent(15) {
        r = faults::bad_depth(random, r);
    }
    if random.percent(20) {
        spoil_lengths(random, r, &mut a, &mut b);
    }
    Call::distance(r, a, b)
}

/// A row that differs from `a` in some symbols, or in nearly all.
fn near(random: &mut Random, a: &[u8]) -> Vec<u8> {
    let chance = random.pick(&[0, 5, 30, 100]);
    let change = |symbol: &u8| {
        if random.percent(chance) {
            random.byte()
        } else {
            *symbol
        }
    };
    a.iter().map(change).collect()
}

/// Makes the rows unlike in length, empty, no multiple of r, or too long.
fn spoil_lengths(random: &mut Random, r: usize, a: &mut Vec<u8>, b: &mut Vec<u8>) {
    let lengths = match random.below(4) {
        0 => (a.len(), random.between(0, 250)),
        1 => (0, 0),
        2 => (a.len() + 1, a.len() + 1),
        _ => {
            let long = if (1..=DEEPEST).contains(&r) {
                (LONGEST_ROW / r + random.between(1, 9)) * r
            } else {
                LONGEST_ROW + 1
            };
            (long, long)
        }
    };
    a.resize(lengths.0, 3);
    b.resize(lengths.1, 3);
}

fn slip_read(random: &mut Random) -> Made {
    let drawn = slips::slip(random);
    let needed = match slip::unpack(&drawn.bytes) {
        Ok(slip) => (slip.points.len(), slip.row.len()),
        Err(_) => (random.between(0, 20), random.between(0, 20)),
    };
    let [points, row] = [needed.0, needed.1].map(|needed| {
        if random.percent(12) {
            random.below(needed.max(1))
        } else {
            roomy(random, needed)
        }
    });
    let call = Call::slip_read(drawn.bytes, random.bytes(points), random.bytes(row));
    Made {
        call,
        origin: Origin::Slip(drawn.change),
    }
}

fn line_call(random: &mut Random) -> Made {
    let drawn = slips::slip(random);
    let room = match random.below(10) {
        0..5 => ROOMY_TEXT,
        5..8 => line::text(&drawn.bytes).len(),
        8 => line::text(&drawn.bytes).len() - 1,
        _ => random.between(0, 40),
    };
    Made {
        call: Call::line(drawn.bytes, random.bytes(room)),
        origin: Origin::Slip(drawn.change),
    }
}

fn roll_first(random: &mut Random) -> Made {
    let drawn = rolls::roll(random);
    Made {
        call: Call::roll_first(drawn.bytes),
        origin: Origin::Roll(drawn.slips, drawn.way),
    }
}

/// A call that turns slips of this edition. Some are of the other one. Points, symbols and fill take the same bytes in both, so the
/// room that is needed is a byte more in edition 2 and a byte less in edition 1.
fn turn(random: &mut Random, from: usize) -> Made {
    let edition = if random.percent(90) { from } else { 3 - from };
    let drawn = slips::slip_in(random, edition);
    let needed = match from {
        1 => drawn.bytes.len() + 1,
        _ => drawn.bytes.len().saturating_sub(1),
    };
    let room = match random.below(10) {
        0..8 => roomy(random, needed),
        8 => needed.saturating_sub(1),
        _ => random.between(0, needed),
    };
    Made {
        call: Call::turn(from, drawn.bytes, random.bytes(room)),
        origin: Origin::Slip(drawn.change),
    }
}
