//! Calls on levels: good texts and rows, such with faults, and the ways in which a line can be wrong.
//!
//! Numbers are made by machine arithmetic of 128 bits, as nothing in the reference is.

use super::faults::{bad_depth, bad_field, raise};
use super::{codes, roomy};
use crate::call::Call;
use crate::random::Random;
use crate::reference::code::{DEEPEST, LONGEST_ROW};
use crate::reference::field::Field;
use crate::reference::levels::text_of;

/// What is wrong with a line.
#[derive(Clone, Copy, Debug, PartialEq, Eq, PartialOrd, Ord)]
pub enum Flaw {
    /// Nothing stands before the newline.
    Blank,
    /// A zero stands before other digits.
    Zero,
    /// A carriage return stands before the newline.
    Return,
    /// A plus or a minus stands before the digits.
    Sign,
    /// A blank or a tab stands before, between or behind them.
    Space,
    /// Another byte that is no digit stands there.
    Other,
    /// The last line has no newline.
    Unended,
    /// The level is q^r.
    Bound,
    /// It is above q^r, and fits into a word of 64 bits where that is possible.
    Above,
    /// It is a multiple of 2^64 and a good level: in a word of 64 bits only that level is left.
    Wrapped,
    /// It has hundreds of digits.
    Huge,
}

impl Flaw {
    pub const ALL: [Flaw; 11] = [
        Flaw::Blank,
        Flaw::Zero,
        Flaw::Return,
        Flaw::Sign,
        Flaw::Space,
        Flaw::Other,
        Flaw::Unended,
        Flaw::Bound,
        Flaw::Above,
        Flaw::Wrapped,
        Flaw::Huge,
    ];

    /// The number by which a text with such a line is refused.
    pub fn number(self) -> u8 {
        match self {
            Flaw::Bound | Flaw::Above | Flaw::Wrapped | Flaw::Huge => 18,
            _ => 17,
        }
    }

    /// A line like this in the place of the line of `level`, which is below 2^bits.
    pub fn line(self, random: &mut Random, bits: usize, level: u128) -> Vec<u8> {
        let bound = 1u128 << bits;
        match self {
            Flaw::Bound => line_of(bound),
            Flaw::Above => line_of(above(random, bound)),
            Flaw::Wrapped => {
                let multiple = random.pick(&[1, 1, 2, 10, 1 << 20]) * WORD;
                line_of(multiple + random.pick(&[0, level]))
            }
            Flaw::Huge => ended(&huge(random)),
            // A line that is not written well is refused with 17, however large its number is.
            _ if random.percent(25) => {
                let digits = huge(random);
                self.written_badly(random, &digits)
            }
            _ => self.written_badly(random, level.to_string().as_bytes()),
        }
    }

    fn written_badly(self, random: &mut Random, digits: &[u8]) -> Vec<u8> {
        match self {
            Flaw::Blank => b"\n".to_vec(),
            Flaw::Zero => ended(&[&vec![b'0'; random.pick(&[1, 1, 2, 300])], digits].concat()),
            Flaw::Return => ended(&[digits, b"\r"].concat()),
            Flaw::Sign => ended(&[&[random.pick(b"+-")], digits].concat()),
            Flaw::Space => ended(&put_in(random, b' ', b'\t', digits)),
            Flaw::Other => {
                let byte = other(random);
                ended(&put_in(random, byte, byte, digits))
            }
            _ => digits.to_vec(),
        }
    }
}

/// 2^64.
const WORD: u128 = 1 << 64;

fn ended(line: &[u8]) -> Vec<u8> {
    [line, b"\n"].concat()
}

fn line_of(level: u128) -> Vec<u8> {
    ended(level.to_string().as_bytes())
}

/// The next number after the bound, the last one of a machine word, or one between.
fn above(random: &mut Random, bound: u128) -> u128 {
    match random.below(3) {
        0 => bound + 1,
        1 => bound.max(WORD - 1),
        _ => bound + random.between(1, usize::MAX - 1) as u128,
    }
}

/// Hundreds of digits, often such as a sum or product that wraps takes for a small number.
fn huge(random: &mut Random) -> Vec<u8> {
    let count = random.pick(&[100, 257, 300, 511]);
    let rest = random.pick(b"0159");
    let mut digits = vec![rest; count];
    digits[0] = random.pick(b"123456789");
    digits
}

/// A byte that is no digit and no newline; those next to the digits are among them.
fn other(random: &mut Random) -> u8 {
    let any = random.byte();
    let byte = random.pick(&[b'/', b':', b',', b'.', b'x', 0, 0x0B, 0xFF, any, any]);
    if byte.is_ascii_digit() || byte == b'\n' {
        b'/'
    } else {
        byte
    }
}

/// One of two bytes among the digits.
fn put_in(random: &mut Random, first: u8, second: u8, digits: &[u8]) -> Vec<u8> {
    let place = random.between(0, digits.len());
    let byte = random.pick(&[first, second]);
    [&digits[..place], &[byte], &digits[place..]].concat()
}

/// A field, a depth and a number of chunks whose row is short enough.
struct Row {
    field: Field,
    r: usize,
    count: usize,
}

impl Row {
    /// A small field has as long rows as any: the chunks of a row need no points here.
    fn draw(random: &mut Random) -> Row {
        let m = random.pick(&[2, 4, 8]);
        let r = random.between(1, DEEPEST);
        let most = LONGEST_ROW / r;
        let (m, r, count) = match random.below(50) {
            0 => (2, 1, LONGEST_ROW),
            1..6 => {
                let n = codes::around_limits(random, 1, LONGEST_ROW);
                let (_, r, count) = codes::of_length(random, n);
                (m, r, count)
            }
            6..12 => (m, r, 1),
            12..18 => (m, r, most),
            18..40 => (m, r, random.between(1, most.min(12))),
            _ => (m, r, random.between(1, most)),
        };
        let field = Field::of(m).expect("a field");
        Row { field, r, count }
    }

    fn bits(&self) -> usize {
        self.field.bits() * self.r
    }

    /// All symbols 0, the highest, or any, chunk by chunk.
    fn symbols(&self, random: &mut Random) -> Vec<u8> {
        let size = self.field.size();
        let mut chunk = || match random.below(8) {
            0 => vec![0; self.r],
            1 => vec![(size - 1) as u8; self.r],
            _ => random.symbols(self.r, size),
        };
        (0..self.count).flat_map(|_| chunk()).collect()
    }

    /// A level: the limits, a power of ten or one less, one of few digits, or any.
    fn level(&self, random: &mut Random) -> u128 {
        let top = (1u128 << self.bits()) - 1;
        let ten = 10u128.pow(random.below(20) as u32);
        match random.below(10) {
            0 => 0,
            1 => top,
            2 => ten.min(top),
            3 => (ten - 1).min(top),
            4 => random.below(120) as u128 % (top + 1),
            _ => (random.below(usize::MAX) as u128) & top,
        }
    }
}

/// What can be wrong with a call, those found last first, so that each sees what it spoils unspoilt.
#[derive(Clone, Copy, Debug, PartialEq, Eq, PartialOrd, Ord)]
enum Fault {
    /// The number of lines, or the room for the text.
    Count,
    /// A line, or a symbol.
    Line,
    Length,
    Depth,
    Field,
}

const FAULTS: [Fault; 8] = [
    Fault::Count,
    Fault::Line,
    Fault::Line,
    Fault::Line,
    Fault::Line,
    Fault::Length,
    Fault::Depth,
    Fault::Field,
];

/// None in many cases, else one, two or three; some are drawn twice.
fn faults(random: &mut Random) -> Vec<Fault> {
    let count = random.pick(&[0, 0, 0, 0, 1, 1, 1, 1, 2, 3]);
    let mut faults: Vec<Fault> = (0..count).map(|_| random.pick(&FAULTS)).collect();
    faults.sort();
    faults
}

/// A length that no row has, or another one than it has.
fn bad_length(random: &mut Random, row: &Row) -> usize {
    let n = row.r * row.count;
    let choices = [
        0,
        row.r - 1,
        row.r + 1,
        n - 1,
        n + 1,
        n + row.r,
        LONGEST_ROW + 1,
        (LONGEST_ROW / row.r + 1) * row.r,
        random.between(0, 300),
    ];
    random.pick(&choices)
}

pub fn read(random: &mut Random) -> Call {
    let row = Row::draw(random);
    let levels = (0..row.count).map(|_| row.level(random));
    let mut lines: Vec<Vec<u8>> = levels.map(line_of).collect();
    let [mut m, mut r, mut n] = [row.field.bits(), row.r, row.r * row.count];
    for fault in faults(random) {
        match fault {
            Fault::Count => miscount(random, &row, &mut lines),
            Fault::Line => spoil(random, &row, &mut lines),
            Fault::Length => n = bad_length(random, &row),
            Fault::Depth => r = bad_depth(random, row.r),
            Fault::Field => m = bad_field(random, row.field.bits()),
        }
    }
    Call::levels_read(m, r, lines.concat(), random.bytes(n))
}

/// Lines too many or too few, or none; some texts go on far behind the row.
fn miscount(random: &mut Random, row: &Row, lines: &mut Vec<Vec<u8>>) {
    let more = match random.below(6) {
        0 => return lines.clear(),
        1 => return lines.truncate(row.count - 1),
        2 => return lines.truncate(random.below(row.count)),
        3 => 1,
        4 => random.between(1, row.count),
        _ => random.between(256, 2000),
    };
    let level = row.level(random) % 10;
    lines.extend((0..more).map(|_| line_of(level)));
    if random.percent(40) {
        let flaw = random.pick(&Flaw::ALL);
        lines.push(flaw.line(random, row.bits(), level));
    }
}

/// Up to three lines get a flaw; only the last one can be without a newline and be a line.
fn spoil(random: &mut Random, row: &Row, lines: &mut [Vec<u8>]) {
    for _ in 0..random.pick(&[1, 1, 1, 2, 3]) {
        let flaw = random.pick(&Flaw::ALL);
        let level = row.level(random);
        let place = match flaw {
            Flaw::Unended => lines.len().saturating_sub(1),
            _ => random.below(lines.len().max(1)),
        };
        if let Some(line) = lines.get_mut(place) {
            *line = flaw.line(random, row.bits(), level);
        }
    }
}

pub fn write(random: &mut Random) -> Call {
    let row = Row::draw(random);
    let mut symbols = row.symbols(random);
    let needed = text_of(row.field, row.r, &symbols).len();
    let mut room = match random.below(10) {
        0 => 4 * LONGEST_ROW,
        _ => roomy(random, needed),
    };
    let [mut m, mut r] = [row.field.bits(), row.r];
    for fault in faults(random) {
        match fault {
            Fault::Count => room = random.pick(&[0, needed - 1, needed - 1, needed / 2]),
            Fault::Line => raise(random, row.field.bits(), &mut symbols),
            Fault::Length => symbols.resize(bad_length(random, &row), 1),
            Fault::Depth => r = bad_depth(random, row.r),
            Fault::Field => m = bad_field(random, row.field.bits()),
        }
    }
    Call::levels_write(m, r, symbols, random.bytes(room))
}

#[cfg(test)]
mod tests {
    use super::*;
    use crate::call::{fresh, Outcome};
    use crate::reference;

    /// Each flaw alone, in each line of a text, gives the number that it should, and the line's.
    #[test]
    fn a_flaw_is_refused_by_its_number_at_its_line() {
        let mut random = Random::new(16);
        for turn in 0..4000 {
            let row = Row::draw(&mut random);
            let flaw = Flaw::ALL[turn % Flaw::ALL.len()];
            let place = match flaw {
                Flaw::Unended => row.count - 1,
                _ => random.below(row.count),
            };
            let levels: Vec<u128> = (0..row.count).map(|_| row.level(&mut random)).collect();
            let mut lines: Vec<Vec<u8>> = levels.iter().map(|level| line_of(*level)).collect();
            let n = row.r * row.count;
            let [m, r] = [row.field.bits(), row.r];
            let good = Call::levels_read(m, r, lines.concat(), fresh(n));
            assert_eq!(reference::run(&good).answer.number, 0);
            lines[place] = flaw.line(&mut random, row.bits(), levels[place]);
            let bad = Call::levels_read(m, r, lines.concat(), fresh(n));
            let refused = Outcome::plain(flaw.number(), place, vec![fresh(n)]);
            assert_eq!(reference::run(&bad), refused, "{flaw:?}");
        }
    }
}
