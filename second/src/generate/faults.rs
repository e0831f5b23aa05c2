//! Faults put into a call that takes a code: one for each refusal from 1 to 8, and 11 for one that takes an edition.

use super::codes;
use super::header::layout;
use crate::call::{Call, Kind};
use crate::random::Random;
use crate::reference::code::{DEEPEST, LONGEST_ROW};

/// A fault, in the order in which faults are put in: those found late first, so that each sees what it spoils unspoilt.
#[derive(Clone, Copy, Debug, PartialEq, Eq, PartialOrd, Ord)]
pub enum Fault {
    Symbol,
    Length,
    PointTwice,
    PointHigh,
    MessageLength,
    Points,
    Depth,
    Field,
    Edition,
}

const ALL: [Fault; 9] = [
    Fault::Symbol,
    Fault::Length,
    Fault::PointTwice,
    Fault::PointHigh,
    Fault::MessageLength,
    Fault::Points,
    Fault::Depth,
    Fault::Field,
    Fault::Edition,
];

/// Puts `count` random faults into `call`, which was fine so far.
pub fn put_in(random: &mut Random, call: &mut Call, count: usize) {
    let has_edition = call.kind == Kind::SlipWrite;
    let mut faults = ALL.to_vec();
    faults.retain(|fault| has_edition || *fault != Fault::Edition);
    random.shuffle(&mut faults);
    let chosen = &mut faults[..count];
    chosen.sort();
    for fault in chosen {
        put_one_in(random, call, *fault);
    }
}

fn put_one_in(random: &mut Random, call: &mut Call, fault: Fault) {
    let [m, r, k] = call.code_numbers();
    match fault {
        Fault::Edition => call.numbers[0] = bad_edition(random, call.numbers[0]),
        Fault::Field => call.set_code_numbers([bad_field(random, m), r, k]),
        Fault::Depth => call.set_code_numbers([m, bad_depth(random, r), k]),
        Fault::Points => bad_points(random, call),
        Fault::MessageLength => {
            let n = r * call.inputs[0].len();
            call.set_code_numbers([m, r, bad_message_length(random, n, k)]);
        }
        Fault::PointHigh => raise(random, m, &mut call.inputs[0]),
        Fault::PointTwice => repeat(random, &mut call.inputs[0]),
        Fault::Length => bad_length(random, call),
        Fault::Symbol => raise(random, m, &mut call.inputs[1]),
    }
}

/// A huge number, or one that is `near` in its low bits alone.
pub fn extreme(random: &mut Random, near: usize) -> usize {
    let far = [
        1 << 8,
        1 << 16,
        1 << 31,
        1 << 32,
        1 << 63,
        0xFFFF_FFFF_0000_0000,
    ];
    match random.below(4) {
        0 => usize::MAX,
        1 => usize::MAX - near,
        2 => random.pick(&far),
        _ => random.pick(&far) + near,
    }
}

pub fn bad_depth(random: &mut Random, r: usize) -> usize {
    match random.below(3) {
        0 => 0,
        1 => random.pick(&[DEEPEST + 1, DEEPEST + 2, 16, 255]),
        _ => extreme(random, r),
    }
}

pub fn bad_field(random: &mut Random, m: usize) -> usize {
    if random.percent(50) {
        random.pick(&[0, 1, 3, 5, 6, 7, 9, 10, 12, 16, 32, 64])
    } else {
        extreme(random, m)
    }
}

/// Those that four bits hold, and others.
fn bad_edition(random: &mut Random, edition: usize) -> usize {
    match random.below(16) {
        1 | 2 => extreme(random, edition),
        other => other,
    }
}

fn bad_message_length(random: &mut Random, n: usize, k: usize) -> usize {
    match random.below(4) {
        0 => 0,
        1 => n + 1,
        2 => n + random.between(1, 200),
        _ => extreme(random, k),
    }
}

/// The longest row that the call takes.
fn longest_row(call: &Call) -> usize {
    match call.kind {
        Kind::SlipWrite => layout(call.numbers[0]).longest_row,
        _ => LONGEST_ROW,
    }
}

/// No points, more than the field has, more than the longest row has room for, or a row just beyond a limit.
fn bad_points(random: &mut Random, call: &mut Call) {
    let [m, r, k] = call.code_numbers();
    let longest = longest_row(call);
    let least = match random.below(5) {
        0 => return call.inputs[0].clear(),
        1 => (1 << m) + 1,
        2 => (longest / r).min(1 << m) + 1,
        _ => {
            let n = codes::around_limits(random, longest + 1, usize::MAX);
            let (m, r, count) = codes::of_length(random, n);
            call.set_code_numbers([m, r, k]);
            return call.inputs[0].resize(count, 0);
        }
    };
    let points = &mut call.inputs[0];
    let most = if random.percent(80) {
        least
    } else {
        least + 40
    };
    let count = random.between(least, most);
    // Small fields have no row longer than the limit; the list is then too long for the field alone.
    while points.len() < count {
        points.push(random.below(1 << m) as u8);
    }
}

/// Replaces up to three symbols by bytes outside the field, where there are such bytes.
pub fn raise(random: &mut Random, m: usize, symbols: &mut [u8]) {
    let size = 1 << m;
    if size > 255 || symbols.is_empty() {
        return;
    }
    for _ in 0..random.between(1, 3) {
        let place = random.below(symbols.len());
        let high = [size, size + 1, 255, random.between(size, 255)];
        symbols[place] = random.pick(&high) as u8;
    }
}

/// Makes up to three points equal to others.
fn repeat(random: &mut Random, points: &mut [u8]) {
    for _ in 0..random.between(1, 3) {
        let from = random.below(points.len());
        let to = random.below(points.len());
        points[to] = points[from];
    }
}

/// Changes the length of one slice behind the points to one that is wrong.
fn bad_length(random: &mut Random, call: &mut Call) {
    let which = random.below(1 + call.buffers.len());
    let only_short = call.kind == Kind::SlipWrite && which == 1;
    let slice = match which {
        0 => &mut call.inputs[1],
        buffer => &mut call.buffers[buffer - 1],
    };
    resize_wrongly(random, slice, only_short);
}

fn resize_wrongly(random: &mut Random, slice: &mut Vec<u8>, only_short: bool) {
    let length = slice.len();
    let shorter = [
        0,
        length / 2,
        length.saturating_sub(1),
        random.below(length.max(1)),
    ];
    let longer = [
        length + 1,
        length + 2,
        2 * length + 1,
        length + random.between(1, 100),
    ];
    let changed = if only_short || random.percent(50) {
        random.pick(&shorter)
    } else {
        random.pick(&longer)
    };
    // Symbols added here are small, so that no other fault comes with them.
    slice.resize(changed, 1);
}
