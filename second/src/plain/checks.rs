//! The checks of the plain calls, in the order of their numbers.

use super::tables::Tables;
use super::DEEPEST;

/// No row is longer.
const LONGEST_ROW: usize = 240;

/// A refusal: its number and the place it speaks of, or 0.
#[derive(Clone, Copy, Debug, PartialEq, Eq)]
pub struct Refused {
    pub number: u8,
    pub place: usize,
}

impl Refused {
    pub const LENGTH: Refused = Refused::new(7, 0);
    pub const TOO_FAR: Refused = Refused::new(9, 0);

    const fn new(number: u8, place: usize) -> Refused {
        Refused { number, place }
    }
}

/// What the calls need of a checked code.
pub struct Checked {
    pub tables: &'static Tables,
    pub n: usize,
    size: usize,
}

impl Checked {
    pub fn new(m: usize, r: usize, k: usize, points: &[u8]) -> Result<Checked, Refused> {
        let tables = Tables::of(m).ok_or(Refused::new(1, 0))?;
        if r == 0 || r > DEEPEST {
            return Err(Refused::new(2, 0));
        }
        let size = 1 << m;
        let n = r * points.len();
        if points.is_empty() || points.len() > size || n > LONGEST_ROW {
            return Err(Refused::new(3, 0));
        }
        if k == 0 || k > n {
            return Err(Refused::new(4, 0));
        }
        let code = Checked { tables, n, size };
        code.check_points(points)?;
        Ok(code)
    }

    fn check_points(&self, points: &[u8]) -> Result<(), Refused> {
        if let Some(place) = self.first_high(points) {
            return Err(Refused::new(5, place));
        }
        let mut seen = [false; 256];
        for (place, point) in points.iter().enumerate() {
            if std::mem::replace(&mut seen[usize::from(*point)], true) {
                return Err(Refused::new(6, place));
            }
        }
        Ok(())
    }

    pub fn check_symbols(&self, symbols: &[u8]) -> Result<(), Refused> {
        match self.first_high(symbols) {
            Some(place) => Err(Refused::new(8, place)),
            None => Ok(()),
        }
    }

    fn first_high(&self, symbols: &[u8]) -> Option<usize> {
        let size = self.size;
        symbols
            .iter()
            .position(|symbol| usize::from(*symbol) >= size)
    }
}
