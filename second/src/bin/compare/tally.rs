//! How often a run has met what it counts, and whether that is enough.

use crate::levels;
use crate::quotas::quotas;
use crate::what::{Dimension, Of, Room, What, Writer};
use second::call::{Call, Header, Kind, Outcome};
use second::generate::codes::AROUND_LIMITS;
use second::generate::header::told;
use second::generate::slips::Change;
use second::generate::{Made, Origin};
use second::reference::code::LONGEST_ROW;
use second::reference::field::Field;
use second::reference::levels::text_of;
use second::reference::line;
use std::collections::BTreeMap;
use std::fmt;

#[derive(Default)]
pub struct Tally {
    met: BTreeMap<What, u64>,
}

impl Tally {
    pub fn meet(&mut self, what: What) {
        *self.met.entry(what).or_insert(0) += 1;
    }

    /// Counts a call that agreed.
    pub fn count(&mut self, made: &Made, outcome: &Outcome) {
        let call = &made.call;
        let (kind, of, number) = (call.kind, Of::call(call), number_for(call, outcome));
        self.meet(What::Call(kind));
        if of != Of::None {
            self.meet(What::CallOf(kind, of));
        }
        self.meet(What::Answer(kind, of, outcome.answer.number));
        if kind == Kind::Line && outcome.answer.number == 0 {
            self.meet(What::Printed(of, number));
        }
        match number {
            11 => self.meet(What::OtherEdition(
                kind,
                Of::number(call).unwrap_or(0).min(16),
            )),
            10 if of == Of::Two && call.inputs[0].len() == 3 => self.meet(What::ThreeBytes(kind)),
            0 | 9 if kind == Kind::Decode => self.count_decode(made, outcome),
            0 | 7 | 15 => {
                if let Some(needed) = needed(call) {
                    self.meet(What::Room(kind, number, Room::of(needed, call)));
                }
            }
            _ => (),
        }
        for mark in levels::marks(call, outcome) {
            self.meet(What::Levels(kind, mark));
        }
        self.count_origin(made, number);
        if let Some(header) = said(call) {
            self.count_limits(kind, of, header, number);
        }
    }

    fn count_origin(&mut self, made: &Made, number: u8) {
        match made.origin {
            Origin::Slip(Change::Loose(bit)) if number == 13 => {
                self.meet(What::Loosened(Writer::Second, bit));
            }
            Origin::Roll(slips, way) => {
                self.meet(What::RollOfSo(slips));
                self.meet(What::Roll(way));
            }
            _ => (),
        }
        let changed = matches!(made.origin, Origin::Slip(Change::Loose(_) | Change::Any));
        if changed && made.call.kind == Kind::Line {
            self.meet(What::ChangedLine);
        }
    }

    fn count_decode(&mut self, made: &Made, outcome: &Outcome) {
        let [m, r, k] = made.call.code_numbers();
        let n = made.call.inputs[1].len();
        self.meet(What::Decoded(m, r));
        self.meet(What::Length(n));
        let accepted = outcome.answer.number == 0;
        let radius = (n - k) / 2;
        // With radius 0 every accepted row lies at it, so those show nothing.
        if accepted && radius > 0 && outcome.answer.detail == radius {
            self.meet(What::AtTheRadius);
        }
        if made.origin == Origin::JustBeyond {
            self.meet(What::JustBeyond { accepted });
        }
    }

    /// Counts where the row's length or k, which a call or a header says, is at a limit and decides.
    fn count_limits(&mut self, kind: Kind, of: Of, header: Header, number: u8) {
        let Header { m, r, count, k, .. } = header;
        let Some(n) = r.checked_mul(count) else {
            return;
        };
        let taken = matches!(number, 0 | 9);
        let refused = match kind {
            Kind::Distance | Kind::LevelsRead | Kind::LevelsWrite => number == 7 && n > LONGEST_ROW,
            _ => number == 15 || number == 3 && count <= 1 << m,
        };
        if AROUND_LIMITS.contains(&n) && (taken || refused) {
            self.meet(What::Row { kind, of, n, taken });
        }
        let dimensions = [
            (Dimension::One, taken && k == 1),
            (Dimension::All, taken && k == n),
            (Dimension::OneMore, number == 4 && k == n + 1),
            (Dimension::None, number == 4 && k == 0),
        ];
        for (dimension, is_met) in dimensions {
            if is_met {
                self.meet(What::K(kind, of, dimension));
            }
        }
    }

    /// A complaint for each count that was not reached.
    pub fn missing(&self) -> Vec<String> {
        let complaint = |(what, least): (What, u64)| {
            let met = self.met.get(&what).copied().unwrap_or(0);
            let (family, which) = what.words();
            (met < least).then(|| format!("{family}: {which} met {met} times, not {least}"))
        };
        let mut missing: Vec<String> = quotas().into_iter().filter_map(complaint).collect();
        missing.extend(Kind::ALL.into_iter().filter_map(|kind| self.uneven(kind)));
        missing
    }

    /// A complaint where a call met one edition more often than the other, by more than a tenth. A call that turns slips of one
    /// edition meets that one.
    fn uneven(&self, kind: Kind) -> Option<String> {
        if kind.turns().is_some() {
            return None;
        }
        let met = |of: Of| self.met.get(&What::CallOf(kind, of)).copied().unwrap_or(0);
        let (one, two) = (met(Of::One), met(Of::Two));
        let is_even = one * 10 >= two * 9 && two * 10 >= one * 9;
        (!is_even).then(|| format!("{kind:?}: edition 1 met {one} times, edition 2 {two} times"))
    }
}

/// The number that the outcome has for the call's slip: in a line that was written the one that it begins with.
fn number_for(call: &Call, outcome: &Outcome) -> u8 {
    match (call.kind, outcome.answer.number) {
        (Kind::Line, 0) => line::number(&outcome.buffers[0]) as u8,
        (_, number) => number,
    }
}

/// The bytes that a call that turns a slip, or that writes levels, has to write, where nothing else is wrong with it.
fn needed(call: &Call) -> Option<usize> {
    let input = &call.inputs[0];
    match (call.kind, &call.numbers[..]) {
        (Kind::ToNew, _) => Some(input.len() + 1),
        (Kind::ToOld, _) => Some(input.len() - 1),
        (Kind::LevelsWrite, &[m, r])
            if !input.is_empty() && input.len() <= LONGEST_ROW && input.len() % r == 0 =>
        {
            Some(text_of(Field::of(m)?, r, input).len())
        }
        _ => None,
    }
}

/// The code that the call or its slip's header speaks of, checked by nobody. Of two rows, their length.
fn said(call: &Call) -> Option<Header> {
    match call.kind {
        Kind::Encode | Kind::Decode | Kind::SlipWrite => Some(call.header()),
        Kind::SlipRead | Kind::Line | Kind::RollFirst | Kind::ToNew | Kind::ToOld => {
            told(&call.inputs[0])
        }
        Kind::Distance => {
            let (r, [a, b]) = (
                call.numbers[0],
                [0, 1].map(|row: usize| call.inputs[row].len()),
            );
            rows_said(r, a).filter(|_| a == b)
        }
        Kind::LevelsRead => rows_said(call.numbers[1], call.buffers[0].len()),
        Kind::LevelsWrite => rows_said(call.numbers[1], call.inputs[0].len()),
    }
}

/// Rows of n symbols with chunks of r.
fn rows_said(r: usize, n: usize) -> Option<Header> {
    let fits = (1..=8).contains(&r) && n % r == 0;
    fits.then(|| Header {
        r,
        count: n / r,
        ..Header::default()
    })
}

/// Most families are one line: each of their counts. A large one shows how many were met, and the least count.
const SHOWN: usize = 20;

impl fmt::Display for Tally {
    fn fmt(&self, out: &mut fmt::Formatter) -> fmt::Result {
        let mut families: Vec<(String, Vec<(String, u64)>)> = Vec::new();
        for (what, count) in &self.met {
            let (family, which) = what.words();
            match families.iter_mut().find(|(name, _)| *name == family) {
                Some((_, counts)) => counts.push((which, *count)),
                None => families.push((family, vec![(which, *count)])),
            }
        }
        for (family, counts) in families {
            write!(out, "{family}:")?;
            if counts.len() > SHOWN {
                let least = counts.iter().map(|(_, count)| count).min();
                writeln!(
                    out,
                    " {} met, each {} times or more",
                    counts.len(),
                    least.unwrap_or(&0)
                )?;
                continue;
            }
            for (which, count) in counts {
                write!(out, " {which}: {count};")?;
            }
            writeln!(out)?;
        }
        Ok(())
    }
}
