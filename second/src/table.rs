//! The table of slips that the gate runs through the proved line: group after group, and the line of each slip.
//!
//! `crates/slips_table` has it as its input, each slip behind its length in two bytes, the lower first, and the lines as
//! what it must print. The lines are the reference's.

use crate::call::{Header, Kind};
use crate::generate::codes::{self, Sizes};
use crate::generate::damage;
use crate::generate::header::{end, layout, size, Place, DEPTH, EDITION, EDITIONS, FIELD};
use crate::generate::slips::{self, flip, loose_bits, Change};
use crate::random::Random;
use crate::reference::code::{Code, DEEPEST};
use crate::reference::line;
use crate::reference::rows::row_of;
use crate::reference::slip::{pack, Slip};
use crate::worked;

const SEED: u64 = 11;
/// No table is longer: the program that runs it has room for so many bytes.
const MOST_BYTES: usize = 65_536;

type Bytes = Vec<u8>;
/// The slips of a group in one edition.
type Group = fn(usize) -> Vec<Bytes>;

/// What the groups hold, in the order in which they stand in the table; each has slips of edition 1 and then of edition 2.
const GROUPS: [(&str, Group); 8] = [
    ("rows worked by hand", by_hand),
    (
        "the row of the six bytes cut and extended, each bit set that holds nothing",
        cuts,
    ),
    ("every other edition, field code 3", editions),
    ("each limit, and one beyond it", limits),
    ("repeated points", repeated),
    ("two faults at once", two_at_once),
    ("the longest line", longest),
    ("drawn at random", drawn),
];

/// The input of the program and what it must print, and how many slips there are.
pub struct Table {
    pub slips: Vec<u8>,
    pub lines: String,
    pub count: usize,
}

pub fn draw() -> Table {
    let mut table = Table {
        slips: Vec::new(),
        lines: String::new(),
        count: 0,
    };
    for (name, group) in GROUPS {
        for edition in EDITIONS {
            let slips = group(edition);
            assert!(!slips.is_empty(), "no slip in: {name}");
            slips.iter().for_each(|slip| table.add(slip));
        }
    }
    assert!(table.slips.len() <= MOST_BYTES, "the table is too long");
    for number in line::NUMBERS {
        let met = |line: &str| line::number(line.as_bytes()) == usize::from(number);
        assert!(table.lines.lines().any(met), "no line begins with {number}");
    }
    table
}

impl Table {
    fn add(&mut self, slip: &[u8]) {
        let length = u16::try_from(slip.len()).expect("slips in the table are short");
        self.slips.extend(length.to_le_bytes());
        self.slips.extend(slip);
        self.lines.push_str(&line::text(slip));
        self.count += 1;
    }
}

/// A slip of any numbers that fit their places; points count up from 0 and start again where the field ends.
fn written(header: Header, symbol: u8) -> Bytes {
    let Header { m, r, count, .. } = header;
    pack(&Slip {
        header,
        points: (0..count).map(|i| (i % (1 << m)) as u8).collect(),
        row: vec![symbol; r * count],
    })
}

/// The bytes with a number of the header, or a symbol, changed.
fn with(mut bytes: Bytes, place: Place, number: usize) -> Bytes {
    place.write(&mut bytes, number);
    bytes
}

/// The bytes with one bit changed.
fn flipped(mut bytes: Bytes, bit: usize) -> Bytes {
    flip(&mut bytes, bit);
    bytes
}

/// The first zero bit of the header is set.
fn loosened(bytes: Bytes, edition: usize) -> Bytes {
    flipped(bytes, layout(edition).zeros.at)
}

fn slip_of(edition: usize, code: &Code, row: Vec<u8>) -> Bytes {
    pack(&Slip {
        header: codes::header(edition, code),
        points: code.points.clone(),
        row,
    })
}

/// P4's row: the six bytes in edition 1.
fn p4(edition: usize) -> Bytes {
    let code = Code::check(2, 2, 4, &[0, 1, 2, 3]).expect("a code within the limits");
    slip_of(edition, &code, vec![1, 3, 0, 3, 2, 3, 2, 0])
}

/// Each row that was encoded or decoded by hand, and that this edition holds.
fn by_hand(edition: usize) -> Vec<Bytes> {
    let slip = |worked: worked::Worked| {
        let row = match (worked.call.kind, worked.outcome.answer.number) {
            (Kind::Decode, 0 | 9) => worked.call.inputs[1].clone(),
            (Kind::Encode, 0) => worked.outcome.buffers[0].clone(),
            _ => return None,
        };
        let [m, r, k] = worked.call.code_numbers();
        let longest = layout(edition).longest_row;
        let code = Code::check_within(longest, m, r, k, &worked.call.inputs[0]).ok()?;
        Some(slip_of(edition, &code, row))
    };
    worked::all().into_iter().filter_map(slip).collect()
}

fn cuts(edition: usize) -> Vec<Bytes> {
    let whole = p4(edition);
    let mut slips: Vec<Bytes> = (0..whole.len())
        .map(|length| whole[..length].to_vec())
        .collect();
    for more in [vec![0], vec![255; 300]] {
        slips.push([whole.clone(), more].concat());
    }
    slips.push(loosened(whole, edition));
    // One point and one symbol of 2 bits leave 4 bits of fill; three points and their symbols of 2 bits do, too.
    for (count, k) in [(1, 1), (3, 2)] {
        let header = Header {
            edition,
            m: 2,
            r: 1,
            count,
            k,
        };
        let good = written(header, 3);
        for bit in loose_bits(header) {
            slips.push(flipped(good.clone(), bit));
        }
        let fill = Place {
            at: end(header),
            width: 8 * size(header) - end(header),
        };
        slips.push(with(good, fill, 15));
    }
    // The longest slip has no fill.
    slips.push(loosened(longest_slip(edition), edition));
    slips
}

/// As many points as the edition holds, with one symbol each.
fn longest_slip(edition: usize) -> Bytes {
    let header = Header {
        edition,
        m: 8,
        r: 1,
        count: layout(edition).longest_row,
        k: 1,
    };
    written(header, 200)
}

fn editions(edition: usize) -> Vec<Bytes> {
    let whole = p4(edition);
    let others = (0..16).filter(|other| *other != edition);
    let mut slips: Vec<Bytes> = others
        .map(|other| with(whole.clone(), EDITION, other))
        .collect();
    slips.push(with(whole.clone(), FIELD, 3));
    slips.push(with(whole[..3].to_vec(), FIELD, 3));
    slips.push(with(whole[..4].to_vec(), FIELD, 3));
    slips
}

fn limits(edition: usize) -> Vec<Bytes> {
    let layout = layout(edition);
    let slip = |m, r, count, k| {
        written(
            Header {
                edition,
                m,
                r,
                count,
                k,
            },
            1,
        )
    };
    let mut slips = vec![longest_slip(edition)];
    for (m, r) in [
        (2, 1),
        (2, DEEPEST),
        (4, 1),
        (4, DEEPEST),
        (8, 1),
        (8, 3),
        (8, DEEPEST),
    ] {
        let most = (1 << m).min(layout.longest_row / r);
        slips.push(slip(m, r, most, 1));
        // A header of edition 1 says no more than 128 points.
        if most < 1 << layout.count.width {
            slips.push(slip(m, r, most + 1, 1));
        }
    }
    for (m, r, count) in [(2, 1, 1), (2, 2, 4), (4, 3, 7), (8, 8, 15)] {
        slips.push(slip(m, r, count, r * count));
        slips.push(slip(m, r, count, r * count + 1));
    }
    slips
}

fn repeated(edition: usize) -> Vec<Bytes> {
    let mut slips = Vec::new();
    for (m, count) in [
        (2, 2),
        (2, 4),
        (4, 16),
        (8, 9),
        (8, layout(edition).longest_row),
    ] {
        let header = Header {
            edition,
            m,
            r: 1,
            count,
            k: 1,
        };
        let slip = written(header, 0);
        slips.push(with(slip.clone(), Place::of_symbol(header, count - 1), 0));
        slips.push(with(slip, Place::of_symbol(header, 1), 0));
    }
    slips
}

/// Neighbours in the order in which the reader and the decoder try.
fn two_at_once(edition: usize) -> Vec<Bytes> {
    let layout = layout(edition);
    let whole = p4(edition);
    let header = Header {
        edition,
        m: 2,
        r: 1,
        count: 3,
        k: 1,
    };
    let one = written(Header { count: 1, ..header }, 0);
    // Points 0 0 2: the second equals the first. The row 0 0 1 is no constant.
    let twice = with(written(header, 0), Place::of_symbol(header, 1), 0);
    let twice = with(twice, Place::of_symbol(header, 5), 1);
    let header_bytes = layout.zeros.end() / 8;
    vec![
        with(whole.clone(), EDITION, 3)[..2].to_vec(),
        with(with(whole.clone(), EDITION, 3), FIELD, 3),
        with(with(with(whole, FIELD, 3), DEPTH, 7), layout.count, 127),
        with(with(one.clone(), layout.count, 4), layout.dimension, 127),
        with(one, layout.dimension, 1)[..header_bytes].to_vec(),
        loosened(twice.clone(), edition)[..header_bytes + 1].to_vec(),
        [&loosened(twice.clone(), edition)[..], &[0]].concat(),
        loosened(twice.clone(), edition),
        flipped(twice.clone(), 8 * twice.len() - 1),
        twice,
    ]
}

/// Every symbol of the message has three digits, and there are as many as this edition holds.
fn longest(edition: usize) -> Vec<Bytes> {
    let length = layout(edition).longest_row;
    let points: Vec<u8> = (0..length as u8).collect();
    let code = Code::check(8, 1, length, &points).expect("a code within the limits");
    let row = row_of(&code, &vec![255; length]);
    vec![slip_of(edition, &code, row)]
}

fn drawn(edition: usize) -> Vec<Bytes> {
    let random = &mut Random::for_case(SEED, edition as u64);
    let mut slips = Vec::new();
    for beyond in [0, 1] {
        slips.extend((0..65).map(|_| damaged(random, edition, 1, beyond)));
    }
    while slips.len() < 200 {
        let drawn = slips::slip(random);
        if drawn.change != Change::None && EDITION.read(&drawn.bytes) == Some(edition) {
            slips.push(drawn.bytes);
        }
    }
    slips.extend((0..40).map(|_| slips::unwritten(random)));
    let long = layout(edition).longest_row - 28;
    slips.extend([0, 1].map(|beyond| damaged(random, edition, long, beyond)));
    slips
}

/// The slip of a row of at least `least` symbols, damaged to the radius and so far beyond it.
fn damaged(random: &mut Random, edition: usize, least: usize, beyond: usize) -> Bytes {
    let code = loop {
        let code = codes::code(random, Sizes::MostlyShort, layout(edition).longest_row);
        if code.row_length() >= least && code.radius() > 0 {
            break code;
        }
    };
    let mut row = row_of(&code, &damage::message(random, &code));
    damage::damage(random, &code, &mut row, code.radius() + beyond);
    slip_of(edition, &code, row)
}
