//! The things that a run counts, and the words for them.

use crate::levels::Mark;
use second::call::{Call, Kind};
use second::generate::header::EDITION;
use second::generate::levels::Flaw;
use second::generate::rolls::Way;
use second::generate::slips::Loose;

/// The edition that a call speaks of: the one asked for, or the one that its bytes begin with.
#[derive(Clone, Copy, Debug, PartialEq, Eq, PartialOrd, Ord)]
pub enum Of {
    /// The call is about no slip, or has no byte of one.
    None,
    One,
    Two,
    Other,
}

impl Of {
    /// The number of the edition, where the call has one.
    pub fn number(call: &Call) -> Option<usize> {
        match call.kind {
            Kind::Encode | Kind::Decode | Kind::Distance => None,
            Kind::LevelsRead | Kind::LevelsWrite => None,
            Kind::SlipWrite => Some(call.numbers[0]),
            Kind::SlipRead | Kind::Line | Kind::RollFirst | Kind::ToNew | Kind::ToOld => {
                EDITION.read(&call.inputs[0])
            }
        }
    }

    pub fn call(call: &Call) -> Of {
        match Of::number(call) {
            None => Of::None,
            Some(1) => Of::One,
            Some(2) => Of::Two,
            Some(_) => Of::Other,
        }
    }

    fn name(self) -> &'static str {
        match self {
            Of::None => "no edition",
            Of::One => "edition 1",
            Of::Two => "edition 2",
            Of::Other => "another edition",
        }
    }

    /// The words with the edition behind them, if there is one.
    fn behind(self, words: &str) -> String {
        match self {
            Of::None => words.into(),
            _ => format!("{words} of {}", self.name()),
        }
    }
}

/// Who wrote a slip.
#[derive(Clone, Copy, Debug, PartialEq, Eq, PartialOrd, Ord)]
pub enum Writer {
    Second,
    Archive,
}

impl Writer {
    fn name(self) -> &'static str {
        match self {
            Writer::Second => "the second program",
            Writer::Archive => "the archive",
        }
    }
}

/// A k at its limits, and what was answered: the first two were taken, the others refused with 4.
#[derive(Clone, Copy, Debug, PartialEq, Eq, PartialOrd, Ord)]
pub enum Dimension {
    One,
    All,
    OneMore,
    None,
}

/// The room for what a call writes.
#[derive(Clone, Copy, Debug, PartialEq, Eq, PartialOrd, Ord)]
pub enum Room {
    Short,
    OneShort,
    Exact,
    Longer,
}

impl Room {
    pub const ALL: [Room; 4] = [Room::Short, Room::OneShort, Room::Exact, Room::Longer];

    pub fn of(needed: usize, call: &Call) -> Room {
        match call.buffers[0].len() {
            room if room + 1 < needed => Room::Short,
            room if room < needed => Room::OneShort,
            room if room == needed => Room::Exact,
            _ => Room::Longer,
        }
    }

    fn name(self) -> &'static str {
        match self {
            Room::Short => "shorter",
            Room::OneShort => "one short",
            Room::Exact => "exact",
            Room::Longer => "longer",
        }
    }
}

/// What can be met.
#[derive(Clone, Copy, Debug, PartialEq, Eq, PartialOrd, Ord)]
pub enum What {
    Call(Kind),
    CallOf(Kind, Of),
    Answer(Kind, Of, u8),
    /// The number that a line begins with.
    Printed(Of, u8),
    /// A line of a slip that was written and then changed.
    ChangedLine,
    /// A row that was decoded, or refused with 9: its m and r, and its length.
    Decoded(usize, usize),
    Length(usize),
    AtTheRadius,
    /// Damaged to one more than the radius; accepted where another message is nearer.
    JustBeyond {
        accepted: bool,
    },
    /// A length around a limit.
    Row {
        kind: Kind,
        of: Of,
        n: usize,
        taken: bool,
    },
    K(Kind, Of, Dimension),
    /// 11 for this edition, the last one for all above 15.
    OtherEdition(Kind, usize),
    /// 10 for three bytes of edition 2.
    ThreeBytes(Kind),
    Roll(Way),
    RollOfSo(usize),
    /// Slips of both editions were found in it.
    MixedRoll(Writer),
    /// A roll of slips that the archive wrote.
    WrittenRoll,
    /// 13 for one bit that holds nothing.
    Loosened(Writer, Loose),
    /// The archive read a slip of this edition and wrote it again.
    Again(Of),
    /// What a call writes has this room, and the call answers 0, 7 or 15.
    Room(Kind, u8, Room),
    /// A slip that the archive turned over and back, by who wrote it and the call that came first.
    Back(Writer, Kind),
    /// A slip that the archive wrote, and what the call that turns it answers; and a length around a limit.
    WrittenTurned(Kind, u8),
    WrittenRow {
        kind: Kind,
        n: usize,
        taken: bool,
    },
    Levels(Kind, Mark),
    /// The archive read a text and wrote it again, or wrote it and read it again.
    LevelsAgain(Kind),
    /// A text that the archive wrote is refused for this flaw.
    Spoilt(Flaw),
}

impl What {
    /// What it belongs to, and which one it is there.
    pub fn words(self) -> (String, String) {
        let of_slips = |kind: Kind, of: Of| of.behind(kind.name());
        match self {
            What::Call(kind) => ("calls".into(), kind.name().into()),
            What::CallOf(kind, of) => (format!("calls of {}", kind.name()), of.name().into()),
            What::Answer(kind, of, number) => {
                let family = format!("{} answers", of_slips(kind, of));
                (family, number.to_string())
            }
            What::Printed(of, number) => {
                let family = format!("{} begin with", of.behind("lines"));
                (family, number.to_string())
            }
            What::ChangedLine => ("lines".into(), "of slips that were changed".into()),
            What::Decoded(m, r) => (format!("rows decoded with m {m} and r"), r.to_string()),
            What::Length(n) => ("rows decoded, by length".into(), n.to_string()),
            What::AtTheRadius => ("rows decoded".into(), "at the radius".into()),
            What::JustBeyond { accepted } => {
                let which = if accepted {
                    "nearer to another message"
                } else {
                    "refused"
                };
                ("rows decoded".into(), format!("just beyond it, {which}"))
            }
            What::Row { kind, of, n, taken } => {
                (rows_of(&of_slips(kind, of), taken), n.to_string())
            }
            What::K(kind, of, dimension) => {
                let k = match dimension {
                    Dimension::One => "takes k = 1",
                    Dimension::All => "takes k = n",
                    Dimension::OneMore => "refuses k = n + 1",
                    Dimension::None => "refuses k = 0",
                };
                (of_slips(kind, of), k.into())
            }
            What::OtherEdition(kind, edition) => {
                let edition = match edition {
                    0..16 => edition.to_string(),
                    _ => "above 15".into(),
                };
                (format!("{} refuses edition", kind.name()), edition)
            }
            What::ThreeBytes(kind) => {
                let family = "three bytes of edition 2 are short for";
                (family.into(), kind.name().into())
            }
            What::Roll(way) => ("rolls".into(), way.name().into()),
            What::RollOfSo(slips) => ("rolls, by slips".into(), slips.to_string()),
            What::WrittenRoll => (rolls_of(Writer::Archive).into(), "in all".into()),
            What::MixedRoll(writer) => (rolls_of(writer).into(), "of both editions".into()),
            What::Loosened(writer, bit) => {
                let family = format!("slips of {} refused for one bit", writer.name());
                (family, loose(bit))
            }
            What::Again(of) => ("slips read and written again".into(), of.name().into()),
            What::Room(kind, number, room) => {
                let family = format!("{} answers {number} with room", kind.name());
                (family, room.name().into())
            }
            What::Back(writer, kind) => {
                let family = format!("slips of {} turned over and back", writer.name());
                (family, format!("first {}", kind.name()))
            }
            What::WrittenTurned(kind, number) => {
                let family = format!("{} of slips of the archive answers", kind.name());
                (family, number.to_string())
            }
            What::WrittenRow { kind, n, taken } => {
                let name = format!("{} of slips of the archive", kind.name());
                (rows_of(&name, taken), n.to_string())
            }
            What::Levels(kind, mark) => {
                let (family, which) = mark.words();
                (format!("{} {family}", kind.name()), which.into())
            }
            What::LevelsAgain(kind) => ("levels there and back".into(), kind.name().into()),
            What::Spoilt(flaw) => {
                let family = "texts of the archive refused for";
                (family.into(), format!("{flaw:?}").to_lowercase())
            }
        }
    }
}

fn rows_of(name: &str, taken: bool) -> String {
    let answer = if taken { "takes" } else { "refuses" };
    format!("{name} {answer} rows of length")
}

fn rolls_of(writer: Writer) -> &'static str {
    match writer {
        Writer::Second => "rolls",
        Writer::Archive => "rolls that the archive wrote",
    }
}

fn loose(bit: Loose) -> String {
    match bit {
        Loose::Spare => "spare".into(),
        Loose::Zero(place) => format!("zero {place}"),
        Loose::Fill(edition) => format!("fill in edition {edition}"),
    }
}
