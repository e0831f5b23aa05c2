//! The codes, rows and slips written from their description alone: every check, every refusal, every answer.
//!
//! Nothing here is shared with the proved crates, and the decoder finds a message by other means than they do:
//! it tries all messages of a small code, and interpolates and divides (Euclid's algorithm) for a larger one.

pub mod code;
pub mod decode;
pub mod euclid;
pub mod field;
pub mod levels;
pub mod line;
pub mod poly;
pub mod refusal;
pub mod roll;
pub mod rows;
pub mod search;
pub mod slip;
pub mod turn;

use crate::call::{Answer, Call, Kind, Outcome};
use refusal::Refusal;

/// The outcome that the description gives for `call`.
pub fn run(call: &Call) -> Outcome {
    let mut buffers = call.buffers.clone();
    let answer = match call.kind {
        Kind::SlipRead => read_answer(call, &mut buffers),
        _ => plain_answer(call, &mut buffers),
    };
    Outcome { answer, buffers }
}

fn read_answer(call: &Call, buffers: &mut [Vec<u8>]) -> Answer {
    let [points, row] = buffers else {
        panic!("the slip reader takes two buffers");
    };
    match slip::read(&call.inputs[0], points, row) {
        Ok(header) => Answer {
            header,
            ..Answer::default()
        },
        Err(refusal) => refused(refusal),
    }
}

fn plain_answer(call: &Call, buffers: &mut [Vec<u8>]) -> Answer {
    match detail(call, buffers) {
        Ok(detail) => Answer::plain(0, detail),
        Err(refusal) => refused(refusal),
    }
}

fn detail(call: &Call, buffers: &mut [Vec<u8>]) -> Result<usize, Refusal> {
    match (call.kind, &call.numbers[..], &call.inputs[..], buffers) {
        (Kind::Encode, &[m, r, k], [points, message], [row]) => {
            rows::encode(m, r, k, points, message, row)
        }
        (Kind::Decode, &[m, r, k], [points, row], [message, depths]) => {
            decode::decode(m, r, k, points, row, message, depths)
        }
        (Kind::Distance, &[r], [a, b], []) => rows::distance(r, a, b),
        (Kind::SlipWrite, &[edition, m, r, k], [points, row], [bytes]) => {
            slip::write(edition, m, r, k, points, row, bytes)
        }
        (Kind::Line, [], [slip], [text]) => line::line(slip, text),
        (Kind::RollFirst, [], [roll], []) => roll::first(roll),
        (Kind::ToNew, [], [slip], [bytes]) => turn::to_new(slip, bytes),
        (Kind::ToOld, [], [slip], [bytes]) => turn::to_old(slip, bytes),
        (Kind::LevelsRead, &[m, r], [text], [row]) => levels::read(m, r, text, row),
        (Kind::LevelsWrite, &[m, r], [row], [text]) => levels::write(m, r, row, text),
        _ => panic!("a {} call has another shape", call.kind.name()),
    }
}

fn refused(refusal: Refusal) -> Answer {
    Answer::plain(refusal.number(), refusal.place())
}
