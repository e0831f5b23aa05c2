//! The call decode: the message whose row lies within the radius, or none.

use super::code::Code;
use super::refusal::Refusal;
use super::rows::{chunk_distances, row_of};
use super::{euclid, search};

/// A message within the radius of a row, and the depth of damage in each chunk.
pub struct Found {
    pub message: Vec<u8>,
    pub depths: Vec<usize>,
}

impl Found {
    pub fn total(&self) -> usize {
        self.depths.iter().sum()
    }
}

/// What the decoder finds for a checked code and a checked row.
pub fn find(code: &Code, row: &[u8]) -> Option<Found> {
    let message = if search::is_small(code) {
        search::nearest(code, row)?
    } else {
        euclid::candidate(code, row)?
    };
    measure(code, row, message)
}

/// The message with its depths of damage, if their sum is at most the radius.
pub fn measure(code: &Code, row: &[u8], message: Vec<u8>) -> Option<Found> {
    let depths = chunk_distances(code.r, &row_of(code, &message), row).collect();
    let found = Found { message, depths };
    (found.total() <= code.radius()).then_some(found)
}

/// The call decode.
pub fn decode(
    m: usize,
    r: usize,
    k: usize,
    points: &[u8],
    row: &[u8],
    message: &mut [u8],
    depths: &mut [u8],
) -> Result<usize, Refusal> {
    let code = Code::check(m, r, k, points)?;
    let lengths = (row.len(), message.len(), depths.len());
    if lengths != (code.row_length(), k, points.len()) {
        return Err(Refusal::Length);
    }
    code.check_symbols(row)?;
    let found = find(&code, row).ok_or(Refusal::TooFar)?;
    message.copy_from_slice(&found.message);
    for (place, depth) in depths.iter_mut().zip(&found.depths) {
        *place = *depth as u8;
    }
    Ok(found.total())
}
