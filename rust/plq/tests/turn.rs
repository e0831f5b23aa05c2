//! Slips turned over and back: the first bytes again, the same code, row and line, and what is refused.

use plq::{
    line, slip_read, slip_write, to_new, to_old, Code, Header, Refusal, MAX_LINE, MAX_ROW, MAX_SLIP,
};

type Turn = fn(&[u8], &mut [u8]) -> Result<usize, Refusal>;
/// Each call, the edition that it turns and the one that it makes, and the call back.
const TURNS: [(Turn, usize, usize, Turn); 2] = [(to_new, 1, 2, to_old), (to_old, 2, 1, to_new)];

/// A slip of r symbols at each of the first `count` points.
fn slip(edition: usize, m: usize, r: usize, k: usize, count: usize) -> Vec<u8> {
    let points: Vec<u8> = (0..count).map(|point| point as u8).collect();
    let code = Code {
        m,
        r,
        k,
        points: &points,
    };
    let row: Vec<u8> = (0..code.row_len()).map(|place| (place % 3) as u8).collect();
    let mut bytes = [0; MAX_SLIP];
    let size = slip_write(edition, code, &row, &mut bytes).expect("a fine code");
    bytes[..size].to_vec()
}

/// The header, the points and the row of a slip, and its line.
fn read(slip: &[u8]) -> (Header, Vec<u8>, Vec<u8>, Vec<u8>) {
    let (mut points, mut row, mut text) = (vec![0; MAX_ROW], vec![0; MAX_ROW], vec![0; MAX_LINE]);
    let header = slip_read(slip, &mut points, &mut row).expect("a fine slip");
    let length = line(slip, &mut text).expect("room for the line");
    points.truncate(header.count);
    row.truncate(header.r * header.count);
    text.truncate(length);
    (header, points, row, text)
}

/// m, r, k and n' of codes with rows of 1 to 128 symbols.
const CODES: [(usize, usize, usize, usize); 7] = [
    (2, 1, 1, 1),
    (2, 2, 4, 4),
    (2, 8, 9, 4),
    (4, 3, 20, 13),
    (8, 1, 128, 128),
    (8, 8, 1, 16),
    (8, 1, 60, 127),
];

#[test]
fn over_and_back_gives_the_first_bytes_and_the_same_row() {
    for (m, r, k, count) in CODES {
        for (turn, from, to, back) in TURNS {
            let first = slip(from, m, r, k, count);
            let size = if to == 2 {
                first.len() + 1
            } else {
                first.len() - 1
            };
            let mut turned = vec![0xEE; size + 2];
            assert_eq!(turn(&first, &mut turned), Ok(size));
            assert_eq!(turned[size..], [0xEE; 2]);
            turned.truncate(size);
            assert_eq!(turned, slip(to, m, r, k, count));
            let (before, after) = (read(&first), read(&turned));
            let edition = to;
            assert_eq!(
                after,
                (
                    Header {
                        edition,
                        ..before.0
                    },
                    before.1,
                    before.2,
                    before.3
                )
            );
            let mut again = vec![0xEE; first.len()];
            assert_eq!(back(&turned, &mut again), Ok(first.len()));
            assert_eq!(again, first);
        }
    }
}

#[test]
fn a_byte_too_few_is_refused_and_the_buffer_is_kept() {
    for (turn, from, to, _) in TURNS {
        let (first, turned) = (slip(from, 4, 2, 3, 5), slip(to, 4, 2, 3, 5));
        for room in 0..turned.len() {
            let mut bytes = vec![0xEE; room];
            assert_eq!(turn(&first, &mut bytes), Err(Refusal::Length));
            assert_eq!(bytes, vec![0xEE; room]);
        }
    }
}

/// 15 comes behind what the reader refuses, and before 7.
#[test]
fn rows_above_128_stay_in_edition_2() {
    for (r, count) in [(1, 129), (3, 43), (1, 239), (8, 30), (1, 240)] {
        let long = slip(2, 8, r, 1, count);
        for room in [0, MAX_SLIP] {
            let mut bytes = vec![0xEE; room];
            assert_eq!(to_old(&long, &mut bytes), Err(Refusal::RowLong));
            let mut loose = long.clone();
            loose[3] |= 1; // the last of the seven zero bits
            assert_eq!(to_old(&loose, &mut bytes), Err(Refusal::SlipBits));
            let mut twice = long.clone();
            twice[5] = twice[4];
            let refusal = Refusal::PointTwice { index: 1 };
            assert_eq!(to_old(&twice, &mut bytes), Err(refusal));
            assert_eq!(bytes, vec![0xEE; room]);
        }
    }
    assert_eq!(Refusal::RowLong.number(), 15);
}

/// What the reader refuses is refused alike, but for a slip of the other edition.
#[test]
fn other_editions_come_before_all_but_three_bytes() {
    let cases = [
        (vec![], Refusal::SlipShort, Refusal::SlipShort),
        (vec![0x20, 0], Refusal::SlipShort, Refusal::SlipShort),
        (vec![0x30, 0, 0], Refusal::SlipEdition, Refusal::SlipEdition),
        (vec![0x2C, 0, 0], Refusal::SlipEdition, Refusal::SlipShort),
        (vec![0x2C, 0, 0, 0], Refusal::SlipEdition, Refusal::Field),
        (vec![0x1C, 0, 0], Refusal::Field, Refusal::SlipEdition),
        (vec![0x10, 4, 0], Refusal::Points, Refusal::SlipEdition),
        (
            vec![0x28, 0x78, 0, 0],
            Refusal::SlipEdition,
            Refusal::Points,
        ),
        (
            vec![0x10, 0, 2],
            Refusal::MessageLength,
            Refusal::SlipEdition,
        ),
        (
            vec![0x20, 0, 0, 0x80],
            Refusal::SlipEdition,
            Refusal::MessageLength,
        ),
        (vec![0x10, 0, 0], Refusal::SlipShort, Refusal::SlipEdition),
        (
            vec![0x20, 0, 0, 0],
            Refusal::SlipEdition,
            Refusal::SlipShort,
        ),
        (
            vec![0x10, 0, 0, 0x10, 0],
            Refusal::SlipLong,
            Refusal::SlipEdition,
        ),
        (
            vec![0x20, 0, 0, 0, 0x10, 0],
            Refusal::SlipEdition,
            Refusal::SlipLong,
        ),
        (
            vec![0x10, 0, 0, 0x11],
            Refusal::SlipBits,
            Refusal::SlipEdition,
        ),
        (
            vec![0x20, 0, 0, 1, 0x10],
            Refusal::SlipEdition,
            Refusal::SlipBits,
        ),
    ];
    for (slip, new, old) in cases {
        let mut bytes = [0xEE; 8];
        assert_eq!(to_new(&slip, &mut bytes), Err(new), "{slip:02x?}");
        assert_eq!(to_old(&slip, &mut bytes), Err(old), "{slip:02x?}");
        assert_eq!(bytes, [0xEE; 8]);
    }
}
