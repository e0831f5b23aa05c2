//! What the archive wrote and read, tried further: its slips are read back, refused once a bit is changed that holds nothing,
//! joined to rolls and turned over; what it read is written again, and what it turned over is turned back.

use crate::levels;
use crate::run::{agrees, is_mixed, walk_of_archive};
use crate::tally::Tally;
use crate::turned::{back_again, turns};
use crate::what::{Of, What, Writer};
use second::archive::Archive;
use second::call::{fresh, Call, Header, Kind, Outcome, RawCode};
use second::generate::header::layout;
use second::generate::rolls::MOST_SLIPS;
use second::generate::slips::{flip, loose_bits, which};

/// The line of a slip with a bit that should be 0.
const LINE: &[u8] = b"13 0\n";

/// How many slips, rolls and texts were tried, and the slips of the next roll, as they are and with loose bits changed.
#[derive(Default)]
pub struct Written {
    loosened: usize,
    rolls: usize,
    texts: usize,
    slips: Vec<Vec<u8>>,
    loose: Vec<Vec<u8>>,
}

impl Written {
    /// Goes on from a call that agreed. Says false where the archive then gives something else than it should.
    pub fn follow(
        &mut self,
        archive: &mut Archive,
        tally: &mut Tally,
        call: &Call,
        outcome: &Outcome,
    ) -> bool {
        match (call.kind, outcome.answer.number) {
            (Kind::SlipWrite, 0) => {
                let slip = &outcome.buffers[0][..outcome.answer.detail];
                reads_back(archive, call, slip)
                    && self.refuses_loosened(archive, tally, call, slip)
                    && self.takes_apart(tally, call, slip)
                    && turns(archive, tally, call, slip, self.loosened)
            }
            (Kind::SlipRead, 0) => {
                tally.meet(What::Again(Of::call(call)));
                writes_again(archive, call, outcome)
            }
            (Kind::ToNew | Kind::ToOld, 0) => back_again(archive, tally, call, outcome),
            (Kind::LevelsRead, 0) => levels::writes_again(archive, tally, call, outcome),
            (Kind::LevelsWrite, 0) => {
                self.texts += 1;
                levels::reads_again(archive, tally, call, outcome, self.texts)
            }
            _ => true,
        }
    }

    /// One bit that holds nothing is changed: reader and line refuse with 13, and a roll does not care.
    fn refuses_loosened(
        &mut self,
        archive: &mut Archive,
        tally: &mut Tally,
        write: &Call,
        slip: &[u8],
    ) -> bool {
        let bit = self.next_loose(write.header());
        let mut changed = slip.to_vec();
        flip(&mut changed, bit);
        tally.meet(What::Loosened(Writer::Archive, which(write.header(), bit)));
        let read = read_call(write, &changed);
        let line = Call::line(changed.clone(), fresh(LINE.len()));
        let roll = Call::roll_first(changed);
        agrees(archive, &read, &Outcome::plain(13, 0, read.buffers.clone()))
            && agrees(
                archive,
                &line,
                &Outcome::plain(0, LINE.len(), vec![LINE.to_vec()]),
            )
            && agrees(archive, &roll, &Outcome::plain(0, slip.len(), vec![]))
    }

    /// A bit of the fill and one of the header by turns, where there is any fill; each of them in its turn.
    fn next_loose(&mut self, header: Header) -> usize {
        let loose = loose_bits(header);
        let (zeros, fill) = loose.split_at(layout(header.edition).zeros.width);
        self.loosened += 1;
        let bits = if self.loosened % 2 == 0 && !fill.is_empty() {
            fill
        } else {
            zeros
        };
        bits[self.loosened / 2 % bits.len()]
    }

    /// Slips are joined to a roll until there are enough. It is taken apart into them, and so it is with all bits changed
    /// that hold nothing.
    fn takes_apart(&mut self, tally: &mut Tally, write: &Call, slip: &[u8]) -> bool {
        let mut changed = slip.to_vec();
        for bit in loose_bits(write.header()) {
            flip(&mut changed, bit);
        }
        self.slips.push(slip.to_vec());
        self.loose.push(changed);
        if self.slips.len() <= self.rolls % MOST_SLIPS {
            return true;
        }
        self.rolls += 1;
        tally.meet(What::WrittenRoll);
        let sizes: Vec<usize> = self.slips.iter().map(Vec::len).collect();
        if is_mixed(&self.slips.concat(), &sizes) {
            tally.meet(What::MixedRoll(Writer::Archive));
        }
        let rolls = [&mut self.slips, &mut self.loose].map(std::mem::take);
        let found = |slips: &Vec<Vec<u8>>| walk_of_archive(&slips.concat());
        let same = rolls.iter().all(|slips| found(slips) == (sizes.clone(), 0));
        if !same {
            eprintln!(
                "compare: a roll of slips that the archive wrote is not taken apart into them"
            );
        }
        same
    }
}

/// The archive's writer makes the bytes that its reader took, in the edition that it found.
fn writes_again(archive: &mut Archive, read: &Call, found: &Outcome) -> bool {
    let Header {
        edition,
        m,
        r,
        count,
        k,
    } = found.answer.header;
    let points = found.buffers[0][..count].to_vec();
    let row = found.buffers[1][..r * count].to_vec();
    let slip = read.inputs[0].clone();
    let code = RawCode { m, r, k, points };
    let write = Call::slip_write(edition, code, row, fresh(slip.len()));
    agrees(archive, &write, &Outcome::plain(0, slip.len(), vec![slip]))
}

/// The archive reads the code and the row that it wrote.
fn reads_back(archive: &mut Archive, write: &Call, slip: &[u8]) -> bool {
    let mut expected = Outcome::plain(0, 0, write.inputs.clone());
    expected.answer.header = write.header();
    agrees(archive, &read_call(write, slip), &expected)
}

/// A call that reads `slip` into buffers that are just long enough for what was written.
fn read_call(write: &Call, slip: &[u8]) -> Call {
    let [points, row] = [0, 1].map(|input: usize| fresh(write.inputs[input].len()));
    Call::slip_read(slip.to_vec(), points, row)
}
