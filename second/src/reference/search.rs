//! Decoding a small code by trying every message.

use super::code::Code;
use super::rows::{row_distance, row_of};

/// A code is small if it has at most this many messages.
const MOST_MESSAGES: usize = 4096;

/// Whether all messages of the code can be tried.
pub fn is_small(code: &Code) -> bool {
    code.field.bits() * code.k <= MOST_MESSAGES.ilog2() as usize
}

/// The message whose row lies within the radius of `row`.
///
/// All messages are tried, so two within the radius, which theorem 6 excludes, would stop the program.
pub fn nearest(code: &Code, row: &[u8]) -> Option<Vec<u8>> {
    let mut search = Search {
        code,
        received: row,
        terms: term_rows(code),
        message: vec![0; code.k],
        rows: vec![vec![0; row.len()]; code.k + 1],
        found: None,
    };
    search.try_from(0);
    search.found
}

/// The row of c x^j, for every coefficient c of every power x^j below x^k.
fn term_rows(code: &Code) -> Vec<Vec<Vec<u8>>> {
    let row = |power: usize, coefficient: usize| {
        let mut message = vec![0; code.k];
        message[power] = coefficient as u8;
        row_of(code, &message)
    };
    let rows = |power| (0..code.field.size()).map(|c| row(power, c)).collect();
    (0..code.k).map(rows).collect()
}

struct Search<'a> {
    code: &'a Code,
    received: &'a [u8],
    terms: Vec<Vec<Vec<u8>>>,
    message: Vec<u8>,
    /// At each place the row of the coefficients below it.
    rows: Vec<Vec<u8>>,
    found: Option<Vec<u8>>,
}

impl Search<'_> {
    /// Tries every choice of the coefficients from `place` on.
    fn try_from(&mut self, place: usize) {
        if place == self.code.k {
            self.measure();
            return;
        }
        for coefficient in 0..self.code.field.size() {
            self.message[place] = coefficient as u8;
            self.add_term(place, coefficient);
            self.try_from(place + 1);
        }
    }

    /// The row of a sum is the sum of the rows, so each choice adds the row of one term.
    fn add_term(&mut self, place: usize, coefficient: usize) {
        let (below, above) = self.rows.split_at_mut(place + 1);
        let terms = below[place].iter().zip(&self.terms[place][coefficient]);
        for (sum, (row, term)) in above[0].iter_mut().zip(terms) {
            *sum = row ^ term;
        }
    }

    fn measure(&mut self) {
        let distance = row_distance(self.code.r, &self.rows[self.code.k], self.received);
        if distance <= self.code.radius() {
            assert!(self.found.is_none(), "two messages within the radius");
            self.found = Some(self.message.clone());
        }
    }
}
