//! Calls whose outcomes were worked by hand: the rows P2 to P12, the limits, two faults at once, the six-byte slip, and rolls.
//!
//! No outcome here was computed by a program. P1 speaks of products and stands with the field's tests, and what slips of
//! edition 2 add stands in `editions`, slips turned over in `turns`, levels in `bench`.

use crate::call::{fresh, Call, Header, Outcome, RawCode, BEFORE};
use crate::{bench, editions, turns};

/// A call, the outcome worked by hand, and what it shows.
pub struct Worked {
    pub name: &'static str,
    pub call: Call,
    pub outcome: Outcome,
}

/// 2 in its low half: a call that cuts numbers to 32 bits takes it for 2.
pub const WIDE: usize = (1 << 32) + 2;

/// P4's row as a slip.
pub const SIX_BYTES: [u8; 6] = [0x10, 0x83, 0x06, 0x1B, 0x73, 0xB8];

pub fn all() -> Vec<Worked> {
    let mut cases = rows();
    cases.extend(decoded());
    cases.extend(distances());
    cases.extend(limits());
    cases.extend(two_at_once());
    cases.extend(slips());
    cases.extend(loose_bits());
    cases.extend(rolls());
    cases.extend(editions::all());
    cases.extend(turns::all());
    cases.extend(bench::all());
    cases
}

pub fn code(m: usize, r: usize, k: usize, points: &[u8]) -> RawCode {
    RawCode {
        m,
        r,
        k,
        points: points.to_vec(),
    }
}

fn encodes(name: &'static str, code: RawCode, message: &[u8], row: &[u8]) -> Worked {
    Worked {
        name,
        call: Call::encode(code, message.to_vec(), fresh(row.len())),
        outcome: Outcome::plain(0, 0, vec![row.to_vec()]),
    }
}

/// A refused encode call: the row buffer of length `room` keeps its bytes.
fn refuses(
    name: &'static str,
    code: RawCode,
    message: &[u8],
    room: usize,
    (number, detail): (u8, usize),
) -> Worked {
    Worked {
        name,
        call: Call::encode(code, message.to_vec(), fresh(room)),
        outcome: Outcome::plain(number, detail, vec![fresh(room)]),
    }
}

fn rows() -> Vec<Worked> {
    let p2 = code(2, 2, 4, &[0, 1, 2, 3]);
    vec![
        encodes("P2", p2, &[1, 2, 2, 1], &[1, 2, 0, 3, 2, 1, 2, 0]),
        encodes("P3", code(2, 3, 3, &[1]), &[0, 0, 1], &[1, 0, 1]),
    ]
}

fn decodes(
    name: &'static str,
    code: RawCode,
    row: &[u8],
    message: &[u8],
    total: usize,
    depths: &[u8],
) -> Worked {
    Worked {
        name,
        call: Call::decode(
            code,
            row.to_vec(),
            fresh(message.len()),
            fresh(depths.len()),
        ),
        outcome: Outcome::plain(0, total, vec![message.to_vec(), depths.to_vec()]),
    }
}

fn too_far(name: &'static str, code: RawCode, row: &[u8]) -> Worked {
    let buffers = vec![fresh(code.k), fresh(code.points.len())];
    let [message, depths] = [buffers[0].clone(), buffers[1].clone()];
    Worked {
        name,
        call: Call::decode(code, row.to_vec(), message, depths),
        outcome: Outcome::plain(9, 0, buffers),
    }
}

fn decoded() -> Vec<Worked> {
    let four = || code(2, 2, 4, &[0, 1, 2, 3]);
    let deep = || code(2, 3, 1, &[0]);
    let p4 = [1, 3, 0, 3, 2, 3, 2, 0];
    let p5 = [1, 0, 0, 1, 0, 0, 0, 0];
    vec![
        decodes("P4", four(), &p4, &[1, 2, 2, 1], 2, &[1, 0, 1, 0]),
        decodes("P5", four(), &p5, &[1, 0, 0, 1], 2, &[0, 0, 1, 1]),
        too_far("P6", four(), &[1, 0, 0, 2, 0, 0, 0, 0]),
        decodes("P7", deep(), &[2, 0, 1], &[2], 1, &[1]),
        too_far("P8", deep(), &[2, 1, 0]),
        decodes("P9", code(2, 1, 2, &[0, 1]), &[1, 3], &[1, 2], 0, &[0, 0]),
        too_far("P10", code(2, 1, 2, &[0, 1, 2]), &[0, 0, 1]),
        decodes("P11", code(2, 1, 1, &[0]), &[3], &[3], 0, &[0]),
    ]
}

fn measures(name: &'static str, r: usize, a: &[u8], b: &[u8], answer: (u8, usize)) -> Worked {
    Worked {
        name,
        call: Call::distance(r, a.to_vec(), b.to_vec()),
        outcome: Outcome::plain(answer.0, answer.1, vec![]),
    }
}

fn distances() -> Vec<Worked> {
    vec![
        measures("P12, first pair", 2, &[0, 1], &[2, 1], (0, 2)),
        measures("P12, second pair", 2, &[0, 1], &[0, 2], (0, 1)),
        measures("any bytes", 1, &[255, 7], &[254, 7], (0, 1)),
        measures("r 9", 9, &[0; 9], &[0; 9], (2, 0)),
        measures("r 9 and two lengths", 9, &[0; 9], &[0; 8], (2, 0)),
        measures("two lengths", 2, &[0; 4], &[0; 2], (7, 0)),
        measures("no symbols", 1, &[], &[], (7, 0)),
        measures("no multiple of r", 2, &[0; 3], &[0; 3], (7, 0)),
        measures("240 symbols", 8, &[1; 240], &[0; 240], (0, 240)),
        measures("241 symbols", 1, &[0; 241], &[0; 241], (7, 0)),
    ]
}

/// A constant message c has the chunk c 0 0 .. at every point.
fn constant_row(c: u8, r: usize, count: usize) -> Vec<u8> {
    let symbol = |place: usize| if place % r == 0 { c } else { 0 };
    (0..r * count).map(symbol).collect()
}

fn limits() -> Vec<Worked> {
    let first = |count: u8| (0..count).collect::<Vec<u8>>();
    let row = |c, r, count| constant_row(c, r, count);
    let sixteen = code(4, 1, 1, &first(16));
    let two = |k| code(2, 1, k, &[0, 1]);
    vec![
        encodes("r 8", code(8, 8, 1, &[5]), &[7], &row(7, 8, 1)),
        refuses("r 9", code(8, 9, 1, &[5]), &[7], 9, (2, 0)),
        encodes("m 4, 16 points", sixteen, &[15], &row(15, 1, 16)),
        refuses(
            "m 4, 17 points",
            code(4, 1, 1, &first(17)),
            &[15],
            17,
            (3, 0),
        ),
        encodes(
            "m 8, r 8, 30 points",
            code(8, 8, 1, &first(30)),
            &[200],
            &row(200, 8, 30),
        ),
        refuses(
            "m 8, r 8, 31 points",
            code(8, 8, 1, &first(31)),
            &[200],
            248,
            (3, 0),
        ),
        encodes(
            "m 8, r 1, 240 points",
            code(8, 1, 1, &first(240)),
            &[200],
            &[200; 240],
        ),
        refuses(
            "m 8, r 1, 241 points",
            code(8, 1, 1, &first(241)),
            &[200],
            241,
            (3, 0),
        ),
        refuses("no points", code(8, 1, 1, &[]), &[1], 0, (3, 0)),
        encodes("k = n", two(2), &[1, 2], &[1, 3]),
        refuses("k = n + 1", two(3), &[1, 2, 0], 2, (4, 0)),
        refuses("k = 0", two(0), &[], 2, (4, 0)),
        refuses("k = 2^32 + 2", two(WIDE), &[1, 2], 2, (4, 0)),
        refuses("k at its largest", two(usize::MAX), &[1, 2], 2, (4, 0)),
        refuses("m = 258", code(258, 1, 1, &[0]), &[1], 1, (1, 0)),
        refuses("m = 2^32 + 2", code(WIDE, 1, 1, &[0]), &[1], 1, (1, 0)),
        refuses(
            "m at its largest",
            code(usize::MAX, 1, 1, &[0]),
            &[1],
            1,
            (1, 0),
        ),
        refuses("r = 2^32 + 2", code(2, WIDE, 1, &[0]), &[1], 1, (2, 0)),
        refuses(
            "r at its largest",
            code(2, usize::MAX, 1, &[0]),
            &[1],
            1,
            (2, 0),
        ),
        refuses("600 points", code(8, 1, 1, &[0; 600]), &[1], 600, (3, 0)),
        refuses("points 0 0", code(2, 1, 1, &[0, 0]), &[1], 2, (6, 1)),
        refuses("point 4", code(2, 1, 1, &[0, 1, 4]), &[1], 3, (5, 2)),
        encodes("symbol 3", two(1), &[3], &[3, 3]),
        refuses("symbol 4", two(1), &[4], 2, (8, 0)),
    ]
}

/// The number tried first is given.
fn two_at_once() -> Vec<Worked> {
    let two = code(2, 1, 1, &[0, 1]);
    vec![
        refuses("r 9 and k 0", code(2, 9, 0, &[0]), &[], 9, (2, 0)),
        refuses(
            "a repeated point and a short buffer",
            code(2, 1, 1, &[0, 1, 1]),
            &[1],
            2,
            (6, 2),
        ),
        refuses("a short buffer and symbol 4", two, &[4], 1, (7, 0)),
    ]
}

fn slips() -> Vec<Worked> {
    let four = code(2, 2, 4, &[0, 1, 2, 3]);
    let row = vec![1, 3, 0, 3, 2, 3, 2, 0];
    let header = Header {
        edition: 1,
        m: 2,
        r: 2,
        count: 4,
        k: 4,
    };
    let mut read = Outcome::plain(0, 0, vec![vec![0, 1, 2, 3], row.clone()]);
    read.answer.header = header;
    let text = b"0 2 | 1 2 2 1 | 1 0 1 0\n".to_vec();
    let kept = |mut bytes: Vec<u8>| {
        bytes.push(BEFORE);
        bytes
    };
    vec![
        Worked {
            name: "the six bytes written",
            call: Call::slip_write(1, four, row, fresh(7)),
            outcome: Outcome::plain(0, 6, vec![kept(SIX_BYTES.to_vec())]),
        },
        Worked {
            name: "the six bytes read",
            call: Call::slip_read(SIX_BYTES.to_vec(), fresh(4), fresh(8)),
            outcome: read,
        },
        Worked {
            name: "the line of the six bytes",
            call: Call::line(SIX_BYTES.to_vec(), fresh(25)),
            outcome: Outcome::plain(0, 24, vec![kept(text)]),
        },
        Worked {
            name: "a text buffer one byte short",
            call: Call::line(SIX_BYTES.to_vec(), fresh(23)),
            outcome: Outcome::plain(7, 0, vec![fresh(23)]),
        },
    ]
}

/// A slip that the reader refuses, whatever its buffers, and the line that says so.
pub fn refuses_slip(name: &'static str, slip: &[u8], number: u8, line: &[u8]) -> [Worked; 2] {
    [
        Worked {
            name,
            call: Call::slip_read(slip.to_vec(), fresh(1), fresh(3)),
            outcome: Outcome::plain(number, 0, vec![fresh(1), fresh(3)]),
        },
        Worked {
            name,
            call: Call::line(slip.to_vec(), fresh(line.len())),
            outcome: Outcome::plain(0, line.len(), vec![line.to_vec()]),
        },
    ]
}

/// Bits that hold nothing. The header's last bit is the spare one. The smallest slip has 4 bits of fill: its last byte is
/// 00 for the point, 01 for the symbol, and the fill. Points 1 1 and symbols 0 0 fill their byte.
fn loose_bits() -> Vec<Worked> {
    let bits = |name, slip: &[u8]| refuses_slip(name, slip, 13, b"13 0\n");
    let long = |name, slip: &[u8]| refuses_slip(name, slip, 12, b"12 0\n");
    [
        bits(
            "the spare bit of the six bytes",
            &[0x10, 0x83, 0x07, 0x1B, 0x73, 0xB8],
        ),
        bits("the first bit of the fill", &[0x10, 0x00, 0x00, 0x18]),
        bits("the last bit of the fill", &[0x10, 0x00, 0x00, 0x11]),
        bits("spare bit and fill", &[0x10, 0x00, 0x01, 0x1F]),
        bits("the spare bit and points 1 1", &[0x10, 0x01, 0x01, 0x50]),
        long(
            "the spare bit and a byte more",
            &[0x10, 0x00, 0x01, 0x10, 0],
        ),
    ]
    .into_iter()
    .flatten()
    .collect()
}

pub fn finds(name: &'static str, parts: &[&[u8]], answer: (u8, usize)) -> Worked {
    Worked {
        name,
        call: Call::roll_first(parts.concat()),
        outcome: Outcome::plain(answer.0, answer.1, vec![]),
    }
}

/// The smallest slip: m 2, r 1, k 1, the point 0 and the symbol 1.
pub const FOUR_BYTES: [u8; 4] = [0x10, 0x00, 0x00, 0x10];

fn rolls() -> Vec<Worked> {
    vec![
        finds("an empty roll", &[], (0, 0)),
        finds("one slip", &[&SIX_BYTES], (0, 6)),
        finds("two slips", &[&SIX_BYTES, &FOUR_BYTES], (0, 6)),
        finds(
            "two slips, the short one first",
            &[&FOUR_BYTES, &SIX_BYTES],
            (0, 4),
        ),
        finds("a slip and noise", &[&FOUR_BYTES, &[0xFF; 9]], (0, 4)),
        finds(
            "a slip with a repeated point",
            &[&[0x10, 0x01, 0x00, 0x00]],
            (0, 4),
        ),
        finds(
            "a slip with spare bit and fill",
            &[&[0x10, 0x00, 0x01, 0x1F], &SIX_BYTES],
            (0, 4),
        ),
        finds("two bytes of a roll", &[&SIX_BYTES[..2]], (10, 0)),
        finds("a slip less a byte", &[&SIX_BYTES[..5]], (10, 0)),
        finds("edition 0", &[&[0x00, 0x83, 0x06], &SIX_BYTES], (11, 0)),
        finds("field code 3", &[&[0x1C, 0x00, 0x00], &SIX_BYTES], (1, 0)),
        finds(
            "five points of four",
            &[&[0x10, 0x04, 0x00], &SIX_BYTES],
            (3, 0),
        ),
        finds("k 2 and n 1", &[&[0x10, 0x00, 0x02], &SIX_BYTES], (4, 0)),
        finds("k 2 and n 1, short too", &[&[0x10, 0x00, 0x02]], (4, 0)),
    ]
}

#[cfg(test)]
mod tests {
    use crate::reference;

    #[test]
    fn the_reference_gives_every_outcome_worked_by_hand() {
        for worked in super::all() {
            let outcome = reference::run(&worked.call);
            assert_eq!(outcome, worked.outcome, "{}", worked.name);
        }
    }
}
