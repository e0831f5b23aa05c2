//! Rows by formula (2), depths of agreement and distances, and the calls encode and distance.

use super::code::{Code, DEEPEST, LONGEST_ROW};
use super::field::Field;
use super::refusal::Refusal;

/// Binomials modulo 2 for upper numbers up to the longest row and lower numbers below the deepest chunk.
static PARITIES: [[u8; DEEPEST]; LONGEST_ROW + 1] = pascal();

/// Pascal's rule, one row from the row above it.
const fn pascal() -> [[u8; DEEPEST]; LONGEST_ROW + 1] {
    let mut rows = [[0; DEEPEST]; LONGEST_ROW + 1];
    rows[0][0] = 1;
    let mut upper = 1;
    while upper <= LONGEST_ROW {
        rows[upper][0] = 1;
        let mut lower = 1;
        while lower < DEEPEST {
            rows[upper][lower] = rows[upper - 1][lower - 1] ^ rows[upper - 1][lower];
            lower += 1;
        }
        upper += 1;
    }
    rows
}

/// Symbol j of the chunk at `point`: the sum over j' >= j of f_j' point^(j' - j) C(j', j).
pub fn symbol(field: Field, coefficients: &[u8], point: u8, j: usize) -> u8 {
    let mut power = 1;
    let mut sum = 0;
    for (upper, coefficient) in coefficients.iter().enumerate().skip(j) {
        sum ^= field.mul(*coefficient, power) * PARITIES[upper][j];
        power = field.mul(power, point);
    }
    sum
}

/// The row of `message`, chunk after chunk.
pub fn row_of(code: &Code, message: &[u8]) -> Vec<u8> {
    let chunk = |point: &u8| {
        let point = *point;
        (0..code.r).map(move |j| symbol(code.field, message, point, j))
    };
    code.points.iter().flat_map(chunk).collect()
}

/// r less the depth to which two chunks agree.
fn chunk_distance(a: &[u8], b: &[u8]) -> usize {
    let agreement = a.iter().zip(b).take_while(|(x, y)| x == y).count();
    a.len() - agreement
}

/// The distance in each chunk of two rows of one length.
pub fn chunk_distances<'a>(r: usize, a: &'a [u8], b: &'a [u8]) -> impl Iterator<Item = usize> + 'a {
    let pairs = a.chunks(r).zip(b.chunks(r));
    pairs.map(|(x, y)| chunk_distance(x, y))
}

/// The distance of two rows of one length.
pub fn row_distance(r: usize, a: &[u8], b: &[u8]) -> usize {
    chunk_distances(r, a, b).sum()
}

/// The call encode.
pub fn encode(
    m: usize,
    r: usize,
    k: usize,
    points: &[u8],
    message: &[u8],
    row: &mut [u8],
) -> Result<usize, Refusal> {
    let code = Code::check(m, r, k, points)?;
    if message.len() != k || row.len() != code.row_length() {
        return Err(Refusal::Length);
    }
    code.check_symbols(message)?;
    row.copy_from_slice(&row_of(&code, message));
    Ok(0)
}

/// The call distance. Its symbols are any bytes.
pub fn distance(r: usize, a: &[u8], b: &[u8]) -> Result<usize, Refusal> {
    if r == 0 || r > DEEPEST {
        return Err(Refusal::Depth);
    }
    if a.len() != b.len() || a.is_empty() || a.len() % r != 0 || a.len() > LONGEST_ROW {
        return Err(Refusal::Length);
    }
    Ok(row_distance(r, a, b))
}

#[cfg(test)]
mod tests {
    use super::*;

    /// The number itself, by products: upper / 1, then times (upper - 1) / 2, and so on. No division leaves a rest.
    fn binomial(upper: usize, lower: usize) -> u128 {
        let factor = |below: usize| upper.saturating_sub(below) as u128;
        (0..lower).fold(1, |product, below| {
            product * factor(below) / (below as u128 + 1)
        })
    }

    #[test]
    fn parities_are_those_of_the_binomials() {
        assert_eq!(
            [binomial(8, 3), binomial(240, 2), binomial(2, 3)],
            [56, 28_680, 0]
        );
        for (upper, parities) in PARITIES.iter().enumerate() {
            for (lower, parity) in parities.iter().enumerate() {
                assert_eq!(u128::from(*parity), binomial(upper, lower) % 2);
            }
        }
    }
}
