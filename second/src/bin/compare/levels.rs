//! What is to be seen in calls on levels; and what the archive read and wrote of them, tried further.

use crate::run::agrees;
use crate::tally::Tally;
use crate::what::What;
use second::archive::Archive;
use second::call::{fresh, Call, Kind, Outcome};
use second::generate::levels::Flaw;
use second::random::Random;
use second::reference::code::LONGEST_ROW;
use second::reference::levels::{lines, number_in, Decimal};

/// What decided a call on levels, or what it got through with. Seen from the call alone, not from the way it was made.
#[derive(Clone, Copy, Debug, PartialEq, Eq, PartialOrd, Ord)]
pub enum Mark {
    /// 17 for a line like this.
    Blank,
    Zero,
    Return,
    Sign,
    Space,
    Other,
    Unended,
    /// 17 for a line that also has a number of 100 digits or more.
    HugeToo,
    /// 18 for a level like this.
    Bound,
    WordLess,
    Word,
    Huge,
    /// 17 or 18 in line 256 or behind it.
    Far,
    /// 7 for the number of lines.
    Surplus,
    Missing,
    NoLine,
    /// 7 for a row's length.
    NoRow,
    RowLess,
    RowMore,
    RowLong,
    /// Done, with one chunk, 240 chunks of a field of four, and levels like these.
    OneChunk,
    SmallField,
    Nought,
    Highest,
    HighestWord,
}

impl Mark {
    /// What a call does, and where.
    pub fn words(self) -> (&'static str, &'static str) {
        let bad = "refuses a line";
        let high = "refuses a level";
        let lengths = "refuses a length";
        let levels = "is done with";
        match self {
            Mark::Blank => (bad, "blank"),
            Mark::Zero => (bad, "with a leading zero"),
            Mark::Return => (bad, "with a carriage return"),
            Mark::Sign => (bad, "with a sign"),
            Mark::Space => (bad, "with a space"),
            Mark::Other => (bad, "with another byte"),
            Mark::Unended => (bad, "without a newline"),
            Mark::HugeToo => (bad, "with a huge number"),
            Mark::Bound => (high, "of q^r"),
            Mark::WordLess => (high, "of 2^64 - 1"),
            Mark::Word => (high, "of 2^64"),
            Mark::Huge => (high, "of 100 digits or more"),
            Mark::Far => (bad, "from 256 on"),
            Mark::Surplus => (lengths, "of more lines"),
            Mark::Missing => (lengths, "of fewer lines"),
            Mark::NoLine => (lengths, "of no line"),
            Mark::NoRow => (lengths, "of 0"),
            Mark::RowLess => (lengths, "of r - 1"),
            Mark::RowMore => (lengths, "of no multiple of r"),
            Mark::RowLong => (lengths, "above 240"),
            Mark::OneChunk => (levels, "one chunk"),
            Mark::SmallField => (levels, "240 chunks of m 2"),
            Mark::Nought => (levels, "the level 0"),
            Mark::Highest => (levels, "the level q^r - 1"),
            Mark::HighestWord => (levels, "the level 2^64 - 1"),
        }
    }

    /// Those that are seen in a call that writes, too.
    pub const WRITTEN: [Mark; 9] = [
        Mark::NoRow,
        Mark::RowLess,
        Mark::RowMore,
        Mark::RowLong,
        Mark::OneChunk,
        Mark::SmallField,
        Mark::Nought,
        Mark::Highest,
        Mark::HighestWord,
    ];

    pub const READ: [Mark; 16] = [
        Mark::Blank,
        Mark::Zero,
        Mark::Return,
        Mark::Sign,
        Mark::Space,
        Mark::Other,
        Mark::Unended,
        Mark::HugeToo,
        Mark::Bound,
        Mark::WordLess,
        Mark::Word,
        Mark::Huge,
        Mark::Far,
        Mark::Surplus,
        Mark::Missing,
        Mark::NoLine,
    ];
}

/// Those of a call that agreed.
pub fn marks(call: &Call, outcome: &Outcome) -> Vec<Mark> {
    match (call.kind, outcome.answer.number) {
        (Kind::LevelsRead, 17) => bad_line(call, outcome),
        (Kind::LevelsRead, 18) => high_level(call, outcome),
        (Kind::LevelsRead, 7) => length_or_count(call),
        (Kind::LevelsWrite, 7) => length(call, call.inputs[0].len()).into_iter().collect(),
        (Kind::LevelsRead, 0) => done(call, &call.inputs[0], call.buffers[0].len()),
        (Kind::LevelsWrite, 0) => {
            let text = &outcome.buffers[0][..outcome.answer.detail];
            done(call, text, call.inputs[0].len())
        }
        _ => Vec::new(),
    }
}

/// The line that decided.
fn deciding<'a>(call: &'a Call, outcome: &Outcome) -> (&'a [u8], Option<Mark>) {
    let number = outcome.answer.detail;
    let line = lines(&call.inputs[0]).nth(number);
    let far = (number >= 256).then_some(Mark::Far);
    (line.expect("the text has this line"), far)
}

fn bad_line(call: &Call, outcome: &Outcome) -> Vec<Mark> {
    let (line, far) = deciding(call, outcome);
    let digits = line.iter().filter(|byte| byte.is_ascii_digit()).count();
    // A leading zero makes no number larger.
    let counted = line.iter().skip_while(|byte| **byte == b'0');
    let counted = counted.filter(|byte| byte.is_ascii_digit()).count();
    let huge = (counted >= 100).then_some(Mark::HugeToo);
    let has = |bytes: &[u8]| line.iter().any(|byte| bytes.contains(byte));
    let flaw = match line {
        [.., last] if *last != b'\n' => Mark::Unended,
        b"\n" => Mark::Blank,
        [.., b'\r', b'\n'] => Mark::Return,
        [b'+' | b'-', ..] => Mark::Sign,
        _ if has(b" \t") => Mark::Space,
        _ if digits + 1 == line.len() => Mark::Zero,
        _ => Mark::Other,
    };
    [Some(flaw), huge, far].into_iter().flatten().collect()
}

fn high_level(call: &Call, outcome: &Outcome) -> Vec<Mark> {
    let (line, far) = deciding(call, outcome);
    let level = number_in(line).expect("a line that is written well");
    let is = |mark, number: Decimal| (level == number).then_some(mark);
    let bits = call.numbers[0] * call.numbers[1];
    [
        is(Mark::Bound, Decimal::power_of_two(bits)),
        is(Mark::WordLess, Decimal::of(u64::MAX.to_string().as_bytes())),
        is(Mark::Word, Decimal::power_of_two(64)),
        (line.len() > 100).then_some(Mark::Huge),
        far,
    ]
    .into_iter()
    .flatten()
    .collect()
}

/// 7 for the length of the row, if it is that.
fn length(call: &Call, n: usize) -> Option<Mark> {
    let r = call.numbers[1];
    match n {
        0 => Some(Mark::NoRow),
        n if n > LONGEST_ROW => Some(Mark::RowLong),
        n if n + 1 == r => Some(Mark::RowLess),
        n if n % r != 0 => Some(Mark::RowMore),
        _ => None,
    }
}

fn length_or_count(call: &Call) -> Vec<Mark> {
    let n = call.buffers[0].len();
    let count = lines(&call.inputs[0]).count();
    let mark = length(call, n).unwrap_or_else(|| match count {
        0 => Mark::NoLine,
        count if count > n / call.numbers[1] => Mark::Surplus,
        _ => Mark::Missing,
    });
    vec![mark]
}

fn done(call: &Call, text: &[u8], n: usize) -> Vec<Mark> {
    let [m, r] = [call.numbers[0], call.numbers[1]];
    let top = (1u128 << (m * r)) - 1;
    let has = |level: u128| {
        let level = format!("{level}\n");
        lines(text).any(|line| line == level.as_bytes())
    };
    [
        (n == r, Mark::OneChunk),
        (m == 2 && r == 1 && n == LONGEST_ROW, Mark::SmallField),
        (has(0), Mark::Nought),
        (has(top), Mark::Highest),
        (has(u64::MAX.into()), Mark::HighestWord),
    ]
    .into_iter()
    .filter_map(|(is_met, mark)| is_met.then_some(mark))
    .collect()
}

/// A text that the archive read: from the row it writes the same bytes again.
pub fn writes_again(
    archive: &mut Archive,
    tally: &mut Tally,
    read: &Call,
    found: &Outcome,
) -> bool {
    tally.meet(What::LevelsAgain(read.kind));
    let text = read.inputs[0].clone();
    let size = text.len();
    let [m, r] = [read.numbers[0], read.numbers[1]];
    let write = Call::levels_write(m, r, found.buffers[0].clone(), fresh(size));
    agrees(archive, &write, &Outcome::plain(0, size, vec![text]))
}

/// A text that the archive wrote: it reads the same row again, and refuses the text with a flaw, with a line more and a line less.
pub fn reads_again(
    archive: &mut Archive,
    tally: &mut Tally,
    write: &Call,
    written: &Outcome,
    turn: usize,
) -> bool {
    tally.meet(What::LevelsAgain(write.kind));
    let text = &written.buffers[0][..written.answer.detail];
    let row = &write.inputs[0];
    let [m, r] = [write.numbers[0], write.numbers[1]];
    let mut reads = |text: Vec<u8>, number, detail, row: Vec<u8>| {
        let call = Call::levels_read(m, r, text, fresh(row.len()));
        agrees(archive, &call, &Outcome::plain(number, detail, vec![row]))
    };
    let count = row.len() / r;
    let flaw = Flaw::ALL[turn % Flaw::ALL.len()];
    let place = match flaw {
        Flaw::Unended => count - 1,
        _ => turn / Flaw::ALL.len() % count,
    };
    tally.meet(What::Spoilt(flaw));
    let mut spoilt: Vec<Vec<u8>> = lines(text).map(<[u8]>::to_vec).collect();
    let last = spoilt[count - 1].clone();
    let mut random = Random::new(turn as u64);
    spoilt[place] = flaw.line(&mut random, m * r, 0);
    let less = text[..text.len() - last.len()].to_vec();
    reads(text.to_vec(), 0, 0, row.clone())
        && reads(spoilt.concat(), flaw.number(), place, fresh(row.len()))
        && reads([text, &last].concat(), 7, 0, fresh(row.len()))
        && reads(less, 7, 0, fresh(row.len()))
}
