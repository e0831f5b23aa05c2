//! Random codes that pass every check: all fields, all depths, all sizes.

use crate::call::{Header, RawCode};
use crate::random::Random;
use crate::reference::code::{Code, DEEPEST};

/// Lengths of rows on both sides of each limit.
pub const AROUND_LIMITS: [usize; 6] = [127, 128, 129, 239, 240, 241];

/// How the lengths of rows are drawn.
#[derive(Clone, Copy, Debug, PartialEq, Eq)]
pub enum Sizes {
    /// All lengths alike, for calls that take little time.
    Even,
    /// Mostly short rows, for calls that decode.
    MostlyShort,
    /// Each length as often as the other, so that none is left out.
    EachLength,
}

/// A code whose rows have at most `longest` symbols.
pub fn code(random: &mut Random, sizes: Sizes, longest: usize) -> Code {
    let (m, r, count) = match sizes {
        Sizes::EachLength => {
            let n = random.between(1, longest);
            of_length(random, n)
        }
        Sizes::Even | Sizes::MostlyShort => size(random, sizes, longest),
    };
    let k = message_length(random, r * count);
    let points = points(random, m, count);
    Code::check_within(longest, m, r, k, &points).expect("a code drawn within the limits")
}

/// A field, a depth and a number of chunks.
fn size(random: &mut Random, sizes: Sizes, longest: usize) -> (usize, usize, usize) {
    let bound = bound(random, sizes).min(longest);
    let way = random.below(100);
    if way < 50 {
        let n = if way < 6 {
            around_limits(random, 1, longest)
        } else {
            random.between(1, bound)
        };
        of_length(random, n)
    } else {
        by_depth(random, bound)
    }
}

pub fn raw(code: &Code) -> RawCode {
    RawCode {
        m: code.field.bits(),
        r: code.r,
        k: code.k,
        points: code.points.clone(),
    }
}

/// What a slip of this code says in its header.
pub fn header(edition: usize, code: &Code) -> Header {
    Header {
        edition,
        m: code.field.bits(),
        r: code.r,
        count: code.points.len(),
        k: code.k,
    }
}

/// One of the lengths around the limits, if it is from `least` to `most`.
pub fn around_limits(random: &mut Random, least: usize, most: usize) -> usize {
    let fits = |length: &usize| (least..=most).contains(length);
    let lengths: Vec<usize> = AROUND_LIMITS.into_iter().filter(fits).collect();
    random.pick(&lengths)
}

/// In most cases no row drawn is longer.
fn bound(random: &mut Random, sizes: Sizes) -> usize {
    match (sizes, random.below(100)) {
        (Sizes::MostlyShort, 0..60) => 16,
        (Sizes::MostlyShort, 60..82) => 32,
        (Sizes::MostlyShort, 82..93) => 64,
        _ => usize::MAX,
    }
}

/// A field and a depth, then a number of chunks, often the most there can be.
fn by_depth(random: &mut Random, longest: usize) -> (usize, usize, usize) {
    let m = random.pick(&[2, 4, 8]);
    let r = random.between(1, DEEPEST);
    let most = (longest / r).min(1 << m);
    let count = if random.percent(25) {
        most
    } else {
        random.between(1, most)
    };
    (m, r, count)
}

/// One of the fields and depths that have rows of n symbols, so that every length is met.
pub fn of_length(random: &mut Random, n: usize) -> (usize, usize, usize) {
    let sizes = [2, 4, 8]
        .into_iter()
        .flat_map(|m| (1..=DEEPEST).map(move |r| (m, r)));
    let fits = |(m, r): &(usize, usize)| n % r == 0 && n / r <= 1 << m;
    let sizes: Vec<(usize, usize)> = sizes.filter(fits).collect();
    let (m, r) = random.pick(&sizes);
    (m, r, n / r)
}

/// Any length up to n, often one of the ends or the middle.
fn message_length(random: &mut Random, n: usize) -> usize {
    match random.below(10) {
        0 => 1,
        1 => n,
        2 => (n - 1).max(1),
        3 => n.div_ceil(2),
        _ => random.between(1, n),
    }
}

fn points(random: &mut Random, m: usize, count: usize) -> Vec<u8> {
    let mut points: Vec<u8> = (0..1usize << m).map(|point| point as u8).collect();
    if random.percent(80) {
        random.shuffle(&mut points);
    }
    points.truncate(count);
    points
}
