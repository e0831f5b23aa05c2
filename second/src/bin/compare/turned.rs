//! Slips that the archive turned over, tried further: turned back they are the first bytes again, and both are read alike.

use crate::run::agrees;
use crate::tally::Tally;
use crate::what::{What, Writer};
use second::archive::Archive;
use second::call::{fresh, hex, Call, Outcome};
use second::generate::codes::AROUND_LIMITS;
use second::reference;
use second::reference::code::LONGEST_ROW;

/// No line is longer.
const LONGEST_LINE: usize = 1448;
/// Above the edition of a slip the reader's word has nothing.
const BELOW_EDITION: u64 = (1 << 48) - 1;

/// A slip that the archive wrote is turned over, with a byte too few for it, just enough and more by turns.
pub fn turns(
    archive: &mut Archive,
    tally: &mut Tally,
    write: &Call,
    slip: &[u8],
    place: usize,
) -> bool {
    let from = write.header().edition;
    let needed = if from == 1 {
        slip.len() + 1
    } else {
        slip.len() - 1
    };
    let room = [needed - 1, needed, needed + place % 10][place % 3];
    let call = Call::turn(from, slip.to_vec(), fresh(room));
    let outcome = reference::run(&call);
    count(tally, write, &call, &outcome);
    agrees(archive, &call, &outcome)
        && (outcome.answer.number != 0 || back(archive, tally, Writer::Archive, &call, &outcome))
}

/// Counts what is answered for a slip of the archive, and where the length of its row is around a limit and decides.
fn count(tally: &mut Tally, write: &Call, call: &Call, outcome: &Outcome) {
    let (kind, number) = (call.kind, outcome.answer.number);
    tally.meet(What::WrittenTurned(kind, number));
    let n = write.inputs[1].len();
    if AROUND_LIMITS.contains(&n) && number != 7 {
        let taken = number == 0;
        tally.meet(What::WrittenRow { kind, n, taken });
    }
}

/// Goes on from a slip of the second program that was turned over: also its line is the same.
pub fn back_again(
    archive: &mut Archive,
    tally: &mut Tally,
    call: &Call,
    outcome: &Outcome,
) -> bool {
    let line = |archive: &mut Archive, slip: &[u8]| {
        let line = archive.run(&Call::line(slip.to_vec(), fresh(LONGEST_LINE)));
        (line.answer, line.buffers)
    };
    let [slip, turned] = both(call, outcome);
    let first = line(archive, slip);
    let same = first.0 & 0xFF == 0 && first == line(archive, turned);
    if !same {
        eprintln!(
            "compare: the line changes where this is turned over: {}",
            hex(slip)
        );
    }
    same && back(archive, tally, Writer::Second, call, outcome)
}

/// The slip and what it was turned into.
fn both<'a>(call: &'a Call, outcome: &'a Outcome) -> [&'a [u8]; 2] {
    let size = outcome.answer.detail;
    [&call.inputs[0], &outcome.buffers[0][..size]]
}

/// Back to the first bytes; and the archive reads the same numbers, points and symbols in both.
fn back(
    archive: &mut Archive,
    tally: &mut Tally,
    writer: Writer,
    call: &Call,
    outcome: &Outcome,
) -> bool {
    tally.meet(What::Back(writer, call.kind));
    let [slip, turned] = both(call, outcome);
    let other = 3 - call.kind.turns().expect("a call that turns slips");
    let back = Call::turn(other, turned.to_vec(), fresh(slip.len()));
    let first = Outcome::plain(0, slip.len(), vec![slip.to_vec()]);
    let found = read(archive, slip);
    let same = found.0 & 0xFF == 0 && found == read(archive, turned);
    if !same {
        eprintln!(
            "compare: what is read changes where this is turned over: {}",
            hex(slip)
        );
    }
    same && agrees(archive, &back, &first)
}

/// What the archive reads in a slip, but for its edition.
fn read(archive: &mut Archive, slip: &[u8]) -> (u64, Vec<Vec<u8>>) {
    let room = || fresh(LONGEST_ROW);
    let read = archive.run(&Call::slip_read(slip.to_vec(), room(), room()));
    (read.answer & BELOW_EDITION, read.buffers)
}
