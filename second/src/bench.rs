//! Levels from the bench: texts and rows whose outcomes were worked by hand too.
//!
//! With m 2 and r 2 the level of the chunk a b is 4 a + b, at most 15. With m 8 and r 8 it is at most 2^64 - 1.

use crate::call::{fresh, Call, Outcome, BEFORE};
use crate::worked::{Worked, WIDE};

pub fn all() -> Vec<Worked> {
    let mut cases = both_ways();
    cases.extend(bad_lines());
    cases.extend(high_levels());
    cases.extend(lines_in_order());
    cases.extend(lengths());
    cases.extend(in_order());
    cases.extend(not_written());
    cases
}

fn reads(name: &'static str, (m, r): (usize, usize), text: &[u8], row: &[u8]) -> Worked {
    Worked {
        name,
        call: Call::levels_read(m, r, text.to_vec(), fresh(row.len())),
        outcome: Outcome::plain(0, 0, vec![row.to_vec()]),
    }
}

/// A text that is not read into a row of `room` symbols.
fn refuses(
    name: &'static str,
    (m, r): (usize, usize),
    text: &[u8],
    room: usize,
    (number, detail): (u8, usize),
) -> Worked {
    Worked {
        name,
        call: Call::levels_read(m, r, text.to_vec(), fresh(room)),
        outcome: Outcome::plain(number, detail, vec![fresh(room)]),
    }
}

/// A row that is written into a buffer that is just long enough, into a longer one, and not into one that is a byte too short.
fn writes(name: &'static str, (m, r): (usize, usize), row: &[u8], text: &[u8]) -> [Worked; 3] {
    let size = text.len();
    let worked = |room, outcome| Worked {
        name,
        call: Call::levels_write(m, r, row.to_vec(), fresh(room)),
        outcome,
    };
    let longer = [text, &[BEFORE; 2]].concat();
    [
        worked(size, Outcome::plain(0, size, vec![text.to_vec()])),
        worked(size + 2, Outcome::plain(0, size, vec![longer])),
        worked(size - 1, Outcome::plain(7, 0, vec![fresh(size - 1)])),
    ]
}

/// A row that is not written into a buffer of `room` bytes.
fn keeps(
    name: &'static str,
    (m, r): (usize, usize),
    row: &[u8],
    room: usize,
    (number, detail): (u8, usize),
) -> Worked {
    Worked {
        name,
        call: Call::levels_write(m, r, row.to_vec(), fresh(room)),
        outcome: Outcome::plain(number, detail, vec![fresh(room)]),
    }
}

/// Rows and their texts: each is read and written.
fn both_ways() -> Vec<Worked> {
    let deep = [[0; 8], [1, 0, 0, 0, 0, 0, 0, 0], [128, 0, 0, 0, 0, 0, 0, 0]];
    let words = b"0\n72057594037927936\n9223372036854775808\n";
    let most = b"18446744073709551615\n";
    let pairs: [(&str, (usize, usize), &[u8], &[u8]); 10] = [
        (
            "P2's row",
            (2, 2),
            &[1, 2, 0, 3, 2, 1, 2, 0],
            b"6\n3\n9\n8\n",
        ),
        (
            "P4's row",
            (2, 2),
            &[1, 3, 0, 3, 2, 3, 2, 0],
            b"7\n3\n11\n8\n",
        ),
        ("0", (2, 1), &[0], b"0\n"),
        ("15", (2, 2), &[3, 3], b"15\n"),
        ("15 in a field of 16", (4, 1), &[15], b"15\n"),
        ("255 and 10", (8, 1), &[255, 10], b"255\n10\n"),
        ("65,535 in one chunk of 8", (2, 8), &[3; 8], b"65535\n"),
        ("0, 2^56, 2^63", (8, 8), deep.as_flattened(), words),
        ("2^64 - 1", (8, 8), &[255; 8], most),
        ("4,294,967,295", (4, 8), &[15; 8], b"4294967295\n"),
    ];
    let mut cases = Vec::new();
    for (name, shape, row, text) in pairs {
        cases.push(reads(name, shape, text, row));
        cases.extend(writes(name, shape, row, text));
    }
    cases
}

/// A text of one line for one chunk.
fn bad_lines() -> Vec<Worked> {
    let texts: [&[u8]; 26] = [
        b"\n",
        b"5",
        b"00\n",
        b"05\n",
        b"016\n",
        b"5\r\n",
        b"\r\n",
        b"\r",
        b"+5\n",
        b"-5\n",
        b"-0\n",
        b" 5\n",
        b"5 \n",
        b"\t5\n",
        b"1 0\n",
        b"0x5\n",
        b"5.\n",
        b"5,0\n",
        b"/\n",
        b":\n",
        b"a\n",
        b"\x005\n",
        b"5\x00\n",
        b"\xFF\n",
        b"1e0\n",
        b"18446744073709551616x\n",
    ];
    let refused = |text: &[u8]| refuses("a bad line", (2, 2), text, 2, (17, 0));
    texts.into_iter().map(refused).collect()
}

fn high_levels() -> Vec<Worked> {
    let long = [b"1".as_slice(), &[b'0'; 400], b"\n"].concat();
    let words: [&[u8]; 3] = [
        b"18446744073709551615\n",
        b"18446744073709551616\n",
        b"18446744073709551621\n",
    ];
    let mut cases = vec![
        refuses("16", (2, 2), b"16\n", 2, (18, 0)),
        refuses("4 of 4", (2, 1), b"4\n", 1, (18, 0)),
        refuses("16 of 16", (4, 1), b"16\n", 1, (18, 0)),
        refuses("256 of 256", (8, 1), b"256\n", 1, (18, 0)),
        refuses("65,536", (2, 8), b"65536\n", 8, (18, 0)),
        refuses("2^32", (4, 8), b"4294967296\n", 8, (18, 0)),
        refuses("2^64", (8, 8), words[1], 8, (18, 0)),
        refuses("2^64 + 5", (8, 8), words[2], 8, (18, 0)),
        refuses("10^400", (8, 8), &long, 8, (18, 0)),
    ];
    cases.extend(words.map(|text| refuses("a word", (2, 2), text, 2, (18, 0))));
    cases
}

/// The first bad line decides, a surplus one too; then the number of lines.
fn lines_in_order() -> Vec<Worked> {
    let two = |name, text: &[u8], answer| refuses(name, (2, 2), text, 4, answer);
    vec![
        two("16, then x", b"16\nx\n", (18, 0)),
        two("x, then 16", b"x\n16\n", (17, 0)),
        two("a good line, then x", b"0\nx\n", (17, 1)),
        two("a good line, then 16", b"0\n16\n", (18, 1)),
        two("no newline behind the second", b"0\n15", (17, 1)),
        two("a blank line at the end", b"0\n15\n\n", (17, 2)),
        two("a surplus line that is no level", b"0\n15\n16", (17, 2)),
        two("a surplus level that is too high", b"0\n15\n16\n", (18, 2)),
        two("a surplus line", b"0\n15\n1\n", (7, 0)),
        two("a missing line", b"0\n", (7, 0)),
        two("a missing line, and 16", b"16\n", (18, 0)),
        two("no line", b"", (7, 0)),
    ]
}

/// Row lengths around 0, r and 240.
fn lengths() -> Vec<Worked> {
    let text = |count: usize| b"3\n".repeat(count);
    vec![
        refuses("no row", (2, 2), b"", 0, (7, 0)),
        refuses("a row of r - 1", (2, 2), b"3\n", 1, (7, 0)),
        refuses("a row of r + 1", (2, 2), b"3\n", 3, (7, 0)),
        reads("240 chunks", (2, 1), &text(240), &[3; 240]),
        refuses("241 chunks", (2, 1), &text(241), 241, (7, 0)),
        refuses("248 symbols", (2, 8), &text(31), 248, (7, 0)),
        refuses("a row of r - 1, and a bad line", (2, 2), b"x", 1, (7, 0)),
        refuses("241 chunks, and a bad line", (2, 1), b"x", 241, (7, 0)),
    ]
}

fn in_order() -> Vec<Worked> {
    let mut cases = vec![
        refuses("m 3, and all else", (3, 9), b"x", 0, (1, 0)),
        refuses("r 9, and all else", (2, 9), b"x", 0, (2, 0)),
        refuses("r 0, and all else", (2, 0), b"x", 0, (2, 0)),
        keeps("m 3, and all else", (3, 9), &[], 0, (1, 0)),
        keeps("r 9, and all else", (2, 9), &[], 0, (2, 0)),
        keeps("r 0, and all else", (2, 0), &[], 0, (2, 0)),
    ];
    for wide in [WIDE, usize::MAX, 258] {
        cases.push(refuses("a wide m", (wide, 2), b"0\n", 2, (1, 0)));
        cases.push(refuses("a wide r", (2, wide), b"0\n", 2, (2, 0)));
        cases.push(keeps("a wide m", (wide, 2), &[0; 2], 9, (1, 0)));
        cases.push(keeps("a wide r", (2, wide), &[0; 2], 9, (2, 0)));
    }
    cases
}

fn not_written() -> Vec<Worked> {
    vec![
        keeps("no row", (2, 2), &[], 9, (7, 0)),
        keeps("a row of r - 1", (2, 2), &[0], 9, (7, 0)),
        keeps("a row of r + 1", (2, 2), &[0; 3], 9, (7, 0)),
        keeps("241 symbols", (2, 1), &[0; 241], 600, (7, 0)),
        keeps("248 symbols", (2, 8), &[0; 248], 600, (7, 0)),
        keeps(
            "three symbols, one of them 4",
            (2, 2),
            &[4, 0, 0],
            9,
            (7, 0),
        ),
        keeps("symbol 4", (2, 2), &[0, 3, 4, 9], 9, (8, 2)),
        keeps("symbol 16", (4, 1), &[15, 16], 9, (8, 1)),
        keeps("symbol 4 and no room", (2, 2), &[4, 0], 0, (8, 0)),
        keeps("no room", (2, 2), &[0, 0], 0, (7, 0)),
    ]
}
