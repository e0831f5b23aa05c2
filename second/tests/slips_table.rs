//! The lines of slips: the table that the gate runs through the proved line is the one that is drawn here, and what the
//! reference says of a slip is held to two checks.
//!
//! - Elimination is a second method for the slips that the reader takes. It decodes what the reference's `unpack` read, so
//!   it says nothing of the reading, and nothing of a slip that the reader refuses.
//! - `independent-slips.bin` and `independent-lines.txt` are a second table, made once by a program that shares nothing with
//!   `second`: it drew the slips and gave the lines, by elimination and, for small codes, by trying all messages. That
//!   program is not kept, so the lines are never made anew. In this file they alone check how a slip is read and refused.
//!   It passed over spare bit and fill. Since these must be 0, three lines were changed to `13 0`, and no others: 19 and 209,
//!   whose slips have the spare bit set, and 20, whose slip has the fill set. No other slip with such a bit got past 12.
//!   It knew edition 1 alone. For edition 2 another program was written, in another language, which shares nothing with either
//!   and is not kept: it gave all these lines once more, with four changes, 22, 38, 256 and 275, whose slips begin with a 2 and
//!   had `11 0`; and it drew the slips from 305 on, most of them of edition 2, and gave their lines.

use second::reference::line;
use second::reference::slip::{unpack, Slip};
use second::{plain, table};
use std::fs;

const DRAWN: [&str; 2] = [
    "../crates/slips_table/stdin",
    "../crates/slips_table/stdout",
];
const INDEPENDENT: [&str; 2] = ["tests/independent-slips.bin", "tests/independent-lines.txt"];

/// The slips and the lines of a table.
fn stored(names: [&str; 2]) -> (Vec<u8>, String) {
    let [slips, lines] = names.map(|name| {
        let path = format!("{}/{name}", env!("CARGO_MANIFEST_DIR"));
        fs::read(&path).unwrap_or_else(|error| panic!("{path}: {error}"))
    });
    let lines = String::from_utf8(lines).expect("lines are plain text");
    (slips, lines)
}

/// The slips of the table, each behind its length in two bytes, the lower first.
fn slips(table: &[u8]) -> Vec<&[u8]> {
    let mut slips = Vec::new();
    let mut rest = table;
    while let Some((length, behind)) = rest.split_first_chunk() {
        let (slip, behind) = behind.split_at(u16::from_le_bytes(*length).into());
        slips.push(slip);
        rest = behind;
    }
    assert!(rest.is_empty());
    slips
}

/// The line of a slip that the reader takes, by elimination.
fn line_by_elimination(slip: &Slip) -> String {
    let (header, points) = (slip.header, &slip.points);
    let (mut message, mut depths) = (vec![0; header.k], vec![0; header.count]);
    let (m, r, k) = (header.m, header.r, header.k);
    match plain::decode(m, r, k, points, &slip.row, &mut message, &mut depths) {
        Ok(total) => {
            let spaced = |numbers: &[u8]| numbers.iter().map(u8::to_string).collect::<Vec<_>>();
            let (message, depths) = (spaced(&message).join(" "), spaced(&depths).join(" "));
            format!("0 {total} | {message} | {depths}")
        }
        Err(refused) => format!("{} {}", refused.number, refused.place),
    }
}

#[test]
fn the_stored_table_is_the_one_that_is_drawn() {
    let drawn = table::draw();
    let (slips, lines) = stored(DRAWN);
    assert!(slips == drawn.slips, "draw it with `slips`");
    assert!(lines == drawn.lines);
}

#[test]
fn elimination_gives_the_lines_of_slips_that_are_read() {
    let (table, lines) = stored(DRAWN);
    let slips = slips(&table);
    assert_eq!(slips.len(), lines.lines().count());
    let mut decoded = 0;
    for (slip, expected) in slips.iter().zip(lines.lines()) {
        if let Ok(read) = unpack(slip) {
            assert_eq!(line_by_elimination(&read), expected, "{slip:02x?}");
            decoded += 1;
        }
    }
    assert!(decoded > 100, "{decoded}");
}

#[test]
fn the_reference_gives_the_independent_lines() {
    let (table, lines) = stored(INDEPENDENT);
    let slips = slips(&table);
    assert_eq!((slips.len(), lines.lines().count()), (575, 575));
    for (slip, expected) in slips.iter().zip(lines.split_inclusive('\n')) {
        assert_eq!(line::text(slip), expected, "{slip:02x?}");
    }
    for number in line::NUMBERS {
        let met = |line: &str| line::number(line.as_bytes()) == usize::from(number);
        assert!(lines.lines().any(met), "no line begins with {number}");
    }
}
