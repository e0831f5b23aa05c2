//! Calls on slips of edition 2, and where the two editions part: their outcomes were worked by hand too.
//!
//! The header of edition 2 has 4 bits for the edition, 2 for the field, 3 for r - 1, 8 for n' - 1, 8 for k - 1 and 7 zero bits.

use crate::call::{fresh, Call, Header, Outcome, RawCode, BEFORE};
use crate::worked::{code, finds, refuses_slip, Worked, FOUR_BYTES, SIX_BYTES, WIDE};

/// P4's row as a slip of edition 2: 0010 00 001 00000011 00000011 0000000, then points and row as in the six bytes.
pub const SEVEN_BYTES: [u8; 7] = [0x20, 0x81, 0x81, 0x80, 0x1B, 0x73, 0xB8];

/// The smallest slip of edition 2: m 2, r 1, k 1, the point 0 and the symbol 1.
pub const FIVE_BYTES: [u8; 5] = [0x20, 0x00, 0x00, 0x00, 0x10];

pub fn all() -> Vec<Worked> {
    let mut cases = worked_row();
    cases.extend(longest_rows());
    cases.extend(other_editions());
    cases.extend(refused());
    cases.extend(zero_bits());
    cases.extend(rolls());
    cases
}

/// The seven bytes are written, read and printed, and the bytes behind them are kept.
fn worked_row() -> Vec<Worked> {
    let row = vec![1, 3, 0, 3, 2, 3, 2, 0];
    let mut read = Outcome::plain(0, 0, vec![vec![0, 1, 2, 3], row.clone()]);
    read.answer.header = Header {
        edition: 2,
        m: 2,
        r: 2,
        count: 4,
        k: 4,
    };
    let line = b"0 2 | 1 2 2 1 | 1 0 1 0\n";
    let code = || code(2, 2, 4, &[0, 1, 2, 3]);
    let kept = [&SEVEN_BYTES[..], &[BEFORE]].concat();
    vec![
        Worked {
            name: "the seven bytes written",
            call: Call::slip_write(2, code(), row.clone(), fresh(8)),
            outcome: Outcome::plain(0, 7, vec![kept]),
        },
        Worked {
            name: "room for six of the seven bytes",
            call: Call::slip_write(2, code(), row, fresh(6)),
            outcome: Outcome::plain(7, 0, vec![fresh(6)]),
        },
        Worked {
            name: "the seven bytes read",
            call: Call::slip_read(SEVEN_BYTES.to_vec(), fresh(4), fresh(8)),
            outcome: read,
        },
        Worked {
            name: "the line of the seven bytes",
            call: Call::line(SEVEN_BYTES.to_vec(), fresh(24)),
            outcome: Outcome::plain(0, 24, vec![line.to_vec()]),
        },
    ]
}

/// With m 8 and r 1 each point and symbol is a byte. Points count up from 0, and the symbols are all 7.
fn flat(k: usize, count: usize) -> (RawCode, Vec<u8>) {
    let points: Vec<u8> = (0..count).map(|point| point as u8).collect();
    (code(8, 1, k, &points), vec![7; count])
}

/// Edition 1 holds rows of 128 symbols, edition 2 rows of 240.
fn longest_rows() -> Vec<Worked> {
    let writes = |name, edition, header: &[u8], k, count| {
        let (code, row) = flat(k, count);
        let slip = [header, &code.points, &row].concat();
        let size = slip.len();
        Worked {
            name,
            call: Call::slip_write(edition, code, row, fresh(size)),
            outcome: Outcome::plain(0, size, vec![slip]),
        }
    };
    let refuses = |name, edition, count| {
        let (code, row) = flat(1, count);
        Worked {
            name,
            call: Call::slip_write(edition, code, row, fresh(500)),
            outcome: Outcome::plain(3, 0, vec![fresh(500)]),
        }
    };
    vec![
        // 0001 10 000 1111111 1111111 0
        writes("128 in edition 1", 1, &[0x18, 0x7F, 0xFE], 128, 128),
        refuses("129 in edition 1", 1, 129),
        refuses("240 in edition 1", 1, 240),
        // 0010 10 000 10000000 00000000 0000000
        writes("129 in edition 2", 2, &[0x28, 0x40, 0x00, 0x00], 1, 129),
        // 0010 10 000 11101111 11101111 0000000
        writes("240 in edition 2", 2, &[0x28, 0x77, 0xF7, 0x80], 240, 240),
        refuses("241 in edition 2", 2, 241),
    ]
}

/// The writer tries 11 first: the code, the row and the buffer are as wrong as they can be.
fn other_editions() -> Vec<Worked> {
    let editions = [0, 3, 15, 16, 17, 18, 257, 258, WIDE - 1, WIDE, usize::MAX];
    let refuses = |edition| Worked {
        name: "another edition",
        call: Call::slip_write(edition, code(3, 9, 0, &[]), vec![4], fresh(1)),
        outcome: Outcome::plain(11, 0, vec![fresh(1)]),
    };
    editions.into_iter().map(refuses).collect()
}

fn refused() -> Vec<Worked> {
    let short = |name, slip: &[u8]| refuses_slip(name, slip, 10, b"10 0\n");
    let points = |name, slip: &[u8]| refuses_slip(name, slip, 3, b"3 0\n");
    let edition = |name, slip: &[u8]| refuses_slip(name, slip, 11, b"11 0\n");
    [
        short("three bytes of edition 2", &FIVE_BYTES[..3]),
        short("three bytes of edition 2, field code 3", &[0x2C, 0, 0]),
        short("two bytes of edition 3", &[0x30, 0]),
        edition("three bytes of edition 3", &[0x30, 0, 0]),
        edition("edition 0", &[0x00, 0x81, 0x81, 0x80, 0x1B, 0x73, 0xB8]),
        edition("edition 15", &[0xF0, 0x81, 0x81, 0x80, 0x1B, 0x73, 0xB8]),
        refuses_slip("field code 3 in edition 2", &[0x2C, 0, 0, 0], 1, b"1 0\n"),
        // 43 chunks of 3: 0001 10 010 0101010 0000000 0 and 0010 10 010 00101010 00000000 0000000
        points("n 129 in edition 1", &[0x19, 0x2A, 0x00]),
        short("n 129 in edition 2", &[0x29, 0x15, 0x00, 0x00]),
        // 0010 10 000 11101111 00000000 0000000 and 0010 10 000 11110000 00000000 0000000
        short("n 240 in edition 2", &[0x28, 0x77, 0x80, 0x00]),
        points("n 241 in edition 2", &[0x28, 0x78, 0x00, 0x00]),
        // 0010 00 000 00000000 00000001 0000000
        refuses_slip("k 2 and n 1", &[0x20, 0, 0, 0x80], 4, b"4 0\n"),
        short("the seven bytes less one", &SEVEN_BYTES[..6]),
        refuses_slip(
            "the five bytes and one",
            &[0x20, 0, 0, 0, 0x10, 0],
            12,
            b"12 0\n",
        ),
    ]
    .into_iter()
    .flatten()
    .collect()
}

/// Each of the seven zero bits alone, and what is tried before and after them. The five bytes have 4 bits of fill.
fn zero_bits() -> Vec<Worked> {
    let bits = |name, slip: &[u8]| refuses_slip(name, slip, 13, b"13 0\n");
    let single = (0..7).map(|bit| bits("one of the seven", &[0x20, 0, 0, 1 << bit, 0x10]));
    let others = [
        bits("all of the seven", &[0x20, 0, 0, 0x7F, 0x10]),
        bits("the fill of edition 2", &[0x20, 0, 0, 0, 0x11]),
        // 0010 00 000 00000001 00000000 0000001, points 1 1, symbols 0 0
        bits("one of the seven and points 1 1", &[0x20, 0, 0x80, 1, 0x50]),
        refuses_slip(
            "one of the seven and a byte more",
            &[0x20, 0, 0, 1, 0x10, 0],
            12,
            b"12 0\n",
        ),
    ];
    single.chain(others).flatten().collect()
}

fn rolls() -> Vec<Worked> {
    let [six, seven]: [&[u8]; 2] = [&SIX_BYTES, &SEVEN_BYTES];
    let [four, five]: [&[u8]; 2] = [&FOUR_BYTES, &FIVE_BYTES];
    vec![
        finds("edition 1 before edition 2", &[six, seven], (0, 6)),
        finds("edition 2 before edition 1", &[seven, six], (0, 7)),
        finds("the smallest slips", &[five, four, five], (0, 5)),
        finds(
            "seven zero bits and fill",
            &[&[0x20, 0, 0, 0x7F, 0x1F], six],
            (0, 5),
        ),
        finds(
            "points 1 1 in edition 2",
            &[&[0x20, 0, 0x80, 0, 0x50], six],
            (0, 5),
        ),
        finds("two bytes of edition 2", &[&five[..2]], (10, 0)),
        finds("three bytes of edition 2", &[&five[..3]], (10, 0)),
        finds("edition 2 less a byte", &[&seven[..6]], (10, 0)),
        finds("edition 3", &[&[0x30, 0, 0], six], (11, 0)),
        finds("field code 3 in edition 2", &[&[0x2C, 0, 0], six], (1, 0)),
        finds(
            "five points of four in edition 2",
            &[&[0x20, 2, 0], six],
            (3, 0),
        ),
        finds("k 2 and n 1 in edition 2", &[&[0x20, 0, 0, 0x80]], (4, 0)),
        finds("n 129 in edition 1", &[&[0x19, 0x2A, 0x00], six], (3, 0)),
    ]
}
