//! Levels read and written: there and back, the limits, each refusal with its line, and that a refused call keeps its buffer.

use plq::{levels_read, levels_write, Refusal, MAX_LEVELS, MAX_ROW};

/// m, r and the row's length.
const SHAPES: [(usize, usize, usize); 7] = [
    (2, 1, 240),
    (2, 8, 8),
    (4, 3, 39),
    (4, 8, 240),
    (8, 1, 240),
    (8, 7, 238),
    (8, 8, 240),
];

#[test]
fn there_and_back_is_the_same() {
    for (m, r, n) in SHAPES {
        let top = (1u32 << m) - 1;
        let rows: [Vec<u8>; 3] = [
            vec![0; n],
            vec![top as u8; n],
            (0..n as u32).map(|i| (i * 37 & top) as u8).collect(),
        ];
        for row in rows {
            let mut text = [0xEE; MAX_LEVELS + 1];
            let size = levels_write(m, r, &row, &mut text).expect("a fine row");
            assert_eq!(text[size], 0xEE);
            assert_eq!(text[..size].iter().filter(|b| **b == b'\n').count(), n / r);
            let mut read = vec![0xEE; n];
            assert_eq!(levels_read(m, r, &text[..size], &mut read), Ok(()));
            assert_eq!(read, row);
            let mut short = vec![0xEE; size - 1];
            assert_eq!(levels_write(m, r, &row, &mut short), Err(Refusal::Length));
            assert_eq!(short, vec![0xEE; size - 1]);
        }
    }
    let longest = levels_write(8, 1, &[255; MAX_ROW], &mut [0; MAX_LEVELS]);
    assert_eq!(longest, Ok(MAX_LEVELS));
}

/// q^r - 1 is read and q^r is not, and neither is a number that a word of 64 bits takes for a small one.
#[test]
fn levels_end_below_q_to_the_r() {
    for (m, r, _) in SHAPES {
        let bound = 1u128 << (m * r);
        let mut row = [0xEE; 8];
        let row = &mut row[..r];
        let read = |level: u128, row: &mut [u8]| {
            let text = format!("{level}\n");
            levels_read(m, r, text.as_bytes(), row)
        };
        for level in [bound, bound + 1, 1 << 64, (1 << 64) + 1, u128::MAX] {
            assert_eq!(read(level, row), Err(Refusal::LevelHigh { line: 0 }));
            assert_eq!(row, vec![0xEE; r]);
        }
        assert_eq!(read(bound - 1, row), Ok(()));
        assert_eq!(row, vec![((1u32 << m) - 1) as u8; r]);
    }
}

fn refusal(text: &[u8]) -> Option<Refusal> {
    let mut row = [0xEE; 4];
    let refusal = levels_read(2, 2, text, &mut row).err();
    assert!(refusal.is_none() || row == [0xEE; 4]);
    refusal
}

#[test]
fn the_first_bad_line_decides() {
    let bad = |line| Some(Refusal::LevelLine { line });
    let high = |line| Some(Refusal::LevelHigh { line });
    let texts: [&[u8]; 11] = [
        b"0\n",
        b"0\n05\n",
        b"0\n5",
        b"0\n5\r\n",
        b"0\n-5\n",
        b"0\n+5\n",
        b"0\n 5\n",
        b"0\n5 \n",
        b"0\n\n",
        b"0\nfive\n",
        b"0\n99999999999999999999999x\n",
    ];
    for text in &texts[1..] {
        assert_eq!(refusal(text), bad(1), "{text:?}");
    }
    assert_eq!(refusal(texts[0]), Some(Refusal::Length));
    assert_eq!(refusal(b""), Some(Refusal::Length));
    assert_eq!(refusal(b"0\n5\n"), None);
    assert_eq!(refusal(b"0\n5\n5\n"), Some(Refusal::Length));
    assert_eq!(refusal(b"0\n5\n\n"), bad(2));
    assert_eq!(refusal(b"0\n5\n16\n"), high(2));
    assert_eq!(refusal(b"16\nx\n"), high(0));
    assert_eq!(refusal(b"x\n16\n"), bad(0));
    assert_eq!(
        [bad(3), high(4)].map(|r| r.map(Refusal::number)),
        [Some(17), Some(18)]
    );
    assert_eq!(
        [bad(3), high(4)].map(|r| r.map(Refusal::detail)),
        [Some(3), Some(4)]
    );
}

#[test]
fn field_depth_and_length_come_first() {
    for n in [0, 1, 3, 241] {
        let mut row = vec![0xEE; n];
        assert_eq!(levels_read(3, 9, b"x", &mut row), Err(Refusal::Field));
        assert_eq!(levels_read(2, 9, b"x", &mut row), Err(Refusal::Depth));
        assert_eq!(levels_read(2, 2, b"x", &mut row), Err(Refusal::Length));
        assert_eq!(row, vec![0xEE; n]);
        let mut text = [0xEE; 9];
        let row = vec![9; n];
        assert_eq!(levels_write(3, 9, &row, &mut text), Err(Refusal::Field));
        assert_eq!(levels_write(2, 9, &row, &mut text), Err(Refusal::Depth));
        assert_eq!(levels_write(2, 2, &row, &mut text), Err(Refusal::Length));
        assert_eq!(text, [0xEE; 9]);
    }
    let high = Refusal::SymbolHigh { index: 1 };
    assert_eq!(levels_write(2, 2, &[3, 4], &mut []), Err(high));
}

/// The word has the whole number of a line that needs more than 24 bits, and goes beyond 32 with it.
#[test]
fn a_line_far_behind_the_row_is_named() {
    let line = (1 << 24) + 3;
    let mut text = b"0\n".repeat(line);
    text.extend(b"4\n");
    let answer = levels_read(2, 1, &text, &mut [0xEE]);
    assert_eq!(answer, Err(Refusal::LevelHigh { line }));
}
