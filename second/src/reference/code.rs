//! A checked code, and the checks with numbers 1 to 6 in their order.

use super::field::Field;
use super::refusal::Refusal;

/// No row is longer.
pub const LONGEST_ROW: usize = 240;
/// No chunk is deeper.
pub const DEEPEST: usize = 8;

/// A code whose numbers and points have been checked.
#[derive(Clone, Debug)]
pub struct Code {
    pub field: Field,
    pub r: usize,
    pub k: usize,
    pub points: Vec<u8>,
}

impl Code {
    /// Tries 1 to 6 in that order, each over the whole input.
    pub fn check(m: usize, r: usize, k: usize, points: &[u8]) -> Result<Code, Refusal> {
        Code::check_within(LONGEST_ROW, m, r, k, points)
    }

    /// The same where no row may be longer than `longest`.
    pub fn check_within(
        longest: usize,
        m: usize,
        r: usize,
        k: usize,
        points: &[u8],
    ) -> Result<Code, Refusal> {
        let field = Field::of(m).ok_or(Refusal::Field)?;
        if r == 0 || r > DEEPEST {
            return Err(Refusal::Depth);
        }
        let n = r * points.len();
        if points.is_empty() || points.len() > field.size() || n > longest {
            return Err(Refusal::Points);
        }
        if k == 0 || k > n {
            return Err(Refusal::MessageLength);
        }
        match points.iter().position(|point| !field.contains(*point)) {
            Some(place) => return Err(Refusal::PointHigh(place)),
            None => check_distinct(points)?,
        }
        Ok(Code {
            field,
            r,
            k,
            points: points.to_vec(),
        })
    }

    /// n, the length of a row.
    pub fn row_length(&self) -> usize {
        self.r * self.points.len()
    }

    /// t, the distance up to which a row is decoded.
    pub fn radius(&self) -> usize {
        (self.row_length() - self.k) / 2
    }

    /// Refuses a message or row with a symbol that is no element of the field.
    pub fn check_symbols(&self, symbols: &[u8]) -> Result<(), Refusal> {
        let high = |symbol: &u8| !self.field.contains(*symbol);
        match symbols.iter().position(high) {
            Some(place) => Err(Refusal::SymbolHigh(place)),
            None => Ok(()),
        }
    }
}

/// Refuses the first point that equals an earlier one.
pub fn check_distinct(points: &[u8]) -> Result<(), Refusal> {
    match (0..points.len()).find(|i| points[..*i].contains(&points[*i])) {
        Some(place) => Err(Refusal::PointTwice(place)),
        None => Ok(()),
    }
}
