//! What a run must meet, and how often.

use crate::levels::Mark;
use crate::what::{Dimension, Of, Room, What, Writer};
use second::call::Kind;
use second::generate::codes::AROUND_LIMITS;
use second::generate::header::{layout, EDITIONS};
use second::generate::levels::Flaw;
use second::generate::rolls::{Way, MOST_SLIPS};
use second::generate::slips::Loose;
use second::reference::code::{DEEPEST, LONGEST_ROW};
use second::reference::line;

/// Each call, and line, for which half of the slips are written ones that were changed.
const CALLS: u64 = 20_000;
const LINES: u64 = 100_000;
/// Each number that a call can give, and what else is one of several.
const EACH: u64 = 100;
/// Each limit, from either side.
const AT_A_LIMIT: u64 = 30;
/// What matters most.
const MANY: u64 = 1000;

/// Everything that must be met.
pub fn quotas() -> Vec<(What, u64)> {
    let mut quotas = Vec::new();
    for kind in Kind::ALL {
        calls(kind, &mut quotas);
        limits(kind, &mut quotas);
    }
    for of in [Of::One, Of::Two] {
        let numbers = line::NUMBERS.into_iter().filter(|number| *number != 11);
        quotas.extend(numbers.map(|number| (What::Printed(of, number), EACH)));
        quotas.push((What::Again(of), MANY));
    }
    quotas.push((What::Printed(Of::Other, 11), EACH));
    quotas.push((What::ChangedLine, LINES / 2));
    decoded(&mut quotas);
    rolls(&mut quotas);
    loosened(&mut quotas);
    turned(&mut quotas);
    levels(&mut quotas);
    quotas
}

/// The editions that a call can speak of, that there are, and of which it does not refuse all slips with 11.
fn editions(kind: Kind) -> &'static [Of] {
    match kind {
        Kind::Encode | Kind::Decode | Kind::Distance => &[Of::None],
        Kind::LevelsRead | Kind::LevelsWrite => &[Of::None],
        Kind::SlipWrite | Kind::SlipRead | Kind::Line | Kind::RollFirst => &[Of::One, Of::Two],
        Kind::ToNew => &[Of::One],
        Kind::ToOld => &[Of::Two],
    }
}

/// Both editions as often as the other, each number in each of them, and each other edition.
fn calls(kind: Kind, quotas: &mut Vec<(What, u64)>) {
    let all = if kind == Kind::Line { LINES } else { CALLS };
    let editions = editions(kind);
    quotas.push((What::Call(kind), all));
    for of in editions {
        if *of != Of::None {
            quotas.push((What::CallOf(kind, *of), all * 9 / 20));
        }
        let numbers = kind.answers().iter().filter(|number| **number != 11);
        quotas.extend(numbers.map(|number| (What::Answer(kind, *of, *number), EACH)));
    }
    if editions != [Of::None] {
        let most = if kind == Kind::SlipWrite { 16 } else { 15 };
        let others = (0..=most).filter(|other| !EDITIONS.contains(other));
        quotas.extend(others.map(|other| (What::OtherEdition(kind, other), AT_A_LIMIT)));
    }
    if let Some(from) = kind.turns() {
        quotas.push((What::OtherEdition(kind, 3 - from), MANY));
    }
    if editions.contains(&Of::Two) && kind != Kind::SlipWrite {
        quotas.push((What::ThreeBytes(kind), EACH));
    }
}

/// The longest row that is taken, and a header of edition 1 says at most 128 points.
fn limits(kind: Kind, quotas: &mut Vec<(What, u64)>) {
    for of in editions(kind) {
        let longest = match (kind, of) {
            (Kind::ToOld, _) | (_, Of::One) => layout(1).longest_row,
            _ => LONGEST_ROW,
        };
        let is_told = |n: usize| {
            let told = |r: usize| n % r == 0 && n / r <= 128;
            *of != Of::One || kind == Kind::SlipWrite || (1..=DEEPEST).any(told)
        };
        for n in AROUND_LIMITS.into_iter().filter(|n| is_told(*n)) {
            let what = What::Row {
                kind,
                of: *of,
                n,
                taken: n <= longest,
            };
            quotas.push((what, AT_A_LIMIT));
        }
        let dimensions: &[Dimension] = match kind {
            Kind::Distance | Kind::LevelsRead | Kind::LevelsWrite => &[],
            Kind::Encode | Kind::Decode | Kind::SlipWrite => &[
                Dimension::One,
                Dimension::All,
                Dimension::OneMore,
                Dimension::None,
            ],
            _ => &[Dimension::One, Dimension::All, Dimension::OneMore],
        };
        quotas.extend(dimensions.iter().map(|k| (What::K(kind, *of, *k), EACH)));
    }
}

fn decoded(quotas: &mut Vec<(What, u64)>) {
    for m in [2, 4, 8] {
        quotas.extend((1..=DEEPEST).map(|r| (What::Decoded(m, r), EACH)));
    }
    quotas.extend((1..=LONGEST_ROW).map(|n| (What::Length(n), 1)));
    quotas.push((What::AtTheRadius, MANY));
    quotas.push((What::JustBeyond { accepted: false }, MANY));
}

fn rolls(quotas: &mut Vec<(What, u64)>) {
    quotas.extend(Way::ALL.map(|way| (What::Roll(way), MANY)));
    quotas.extend((0..=MOST_SLIPS).map(|slips| (What::RollOfSo(slips), EACH)));
    quotas.push((What::MixedRoll(Writer::Second), MANY));
    quotas.push((What::WrittenRoll, EACH));
    quotas.push((What::MixedRoll(Writer::Archive), EACH));
}

/// Each of the eight zero bits, and the fill of both editions.
fn loosened(quotas: &mut Vec<(What, u64)>) {
    let zeros = (0..layout(2).zeros.width).map(Loose::Zero);
    let bits = zeros.chain([Loose::Spare, Loose::Fill(1), Loose::Fill(2)]);
    for bit in bits {
        let least = match bit {
            Loose::Spare => MANY,
            Loose::Zero(_) | Loose::Fill(_) => MANY / 2,
        };
        quotas.push((What::Loosened(Writer::Second, bit), least));
        quotas.push((What::Loosened(Writer::Archive, bit), least));
    }
}

/// Slips of either writer turned over and back, the room for them from either side of what they need, and 15 whatever the room.
fn turned(quotas: &mut Vec<(What, u64)>) {
    for kind in [Kind::ToNew, Kind::ToOld] {
        rooms(kind, quotas);
        quotas.extend([0, 7].map(|number| (What::WrittenTurned(kind, number), MANY)));
        quotas.extend(
            [Writer::Second, Writer::Archive].map(|writer| (What::Back(writer, kind), MANY)),
        );
    }
    for n in AROUND_LIMITS {
        let taken = n <= layout(1).longest_row;
        let row = |kind| (What::WrittenRow { kind, n, taken }, AT_A_LIMIT);
        if taken {
            quotas.push(row(Kind::ToNew));
        }
        if n <= LONGEST_ROW {
            quotas.push(row(Kind::ToOld));
        }
    }
    quotas.extend(Room::ALL.map(|room| (What::Room(Kind::ToOld, 15, room), AT_A_LIMIT)));
    quotas.push((What::WrittenTurned(Kind::ToOld, 15), MANY));
}

/// Every flaw of a line, in texts of either writer; levels and lengths at their limits; the room for a text from either side.
fn levels(quotas: &mut Vec<(What, u64)>) {
    let kinds = [Kind::LevelsRead, Kind::LevelsWrite];
    quotas.extend(Mark::READ.map(|mark| (What::Levels(Kind::LevelsRead, mark), EACH)));
    for kind in kinds {
        quotas.extend(Mark::WRITTEN.map(|mark| (What::Levels(kind, mark), EACH)));
        quotas.push((What::LevelsAgain(kind), MANY));
    }
    quotas.extend(Flaw::ALL.map(|flaw| (What::Spoilt(flaw), EACH)));
    rooms(Kind::LevelsWrite, quotas);
}

/// The room for what a call writes, from either side of what it needs.
fn rooms(kind: Kind, quotas: &mut Vec<(What, u64)>) {
    let answered = [
        (0, Room::Exact),
        (0, Room::Longer),
        (7, Room::OneShort),
        (7, Room::Short),
    ];
    quotas.extend(answered.map(|(number, room)| (What::Room(kind, number, room), EACH)));
}
