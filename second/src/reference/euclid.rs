//! Decoding by interpolation and Euclid's algorithm.
//!
//! Let W be the polynomial of degree below n whose chunks are those of the received row, and G the product of
//! all (x - P)^r. If f is a message within the radius t and V the product of (x - P)^d over the chunks with their
//! depths of damage d, then f V = W V modulo G, deg V <= t and deg(f V) < floor((n + k) / 2). Euclid's algorithm
//! on G and W gives R = W V' modulo G at the first remainder R of degree below floor((n + k) / 2); then
//! deg V' <= n - floor((n + k) / 2), and f V V' = R V modulo G with both degrees below n. So f = R / V'.

use super::code::Code;
use super::field::Field;
use super::poly::Poly;
use super::rows::symbol;

/// The one message that can lie within the radius, if the quotient is a message. The caller measures its distance.
pub fn candidate(code: &Code, row: &[u8]) -> Option<Vec<u8>> {
    let field = code.field;
    let (through, vanishing) = interpolate(code, row);
    let bound = (code.row_length() + code.k) / 2;
    let (above, below) = reconstruct(field, vanishing, through, bound);
    let (quotient, remainder) = above.divide(field, &below);
    if !remainder.is_zero() || quotient.length() > code.k {
        return None;
    }
    let mut message = quotient.coefficients().to_vec();
    message.resize(code.k, 0);
    Some(message)
}

/// W and G: the polynomial of degree below n through all symbols of `row`, and the one that vanishes at them all.
///
/// Newton's way: each symbol is met by adding a multiple of the product that vanishes at all symbols before it.
pub fn interpolate(code: &Code, row: &[u8]) -> (Poly, Poly) {
    let field = code.field;
    let mut through = Poly::zero();
    let mut vanishing = Poly::one();
    for (place, wanted) in row.iter().enumerate() {
        let point = code.points[place / code.r];
        let depth = place % code.r;
        let missing = wanted ^ symbol(field, through.coefficients(), point, depth);
        let unit = symbol(field, vanishing.coefficients(), point, depth);
        let scalar = field.mul(missing, field.inverse(unit));
        through = through.plus_multiple(field, scalar, 0, &vanishing);
        vanishing = vanishing.times_root(field, point);
    }
    (through, vanishing)
}

/// The first remainder of Euclid's algorithm with fewer than `bound` + 1 coefficients, and its cofactor of `second`.
fn reconstruct(field: Field, first: Poly, second: Poly, bound: usize) -> (Poly, Poly) {
    let (mut before, mut remainder) = (first, second);
    let (mut cofactor_before, mut cofactor) = (Poly::zero(), Poly::one());
    while remainder.length() > bound {
        let (quotient, next) = before.divide(field, &remainder);
        let next_cofactor = cofactor_before.plus(field, &quotient.times(field, &cofactor));
        (before, remainder) = (remainder, next);
        (cofactor_before, cofactor) = (cofactor, next_cofactor);
    }
    (remainder, cofactor)
}

#[cfg(test)]
mod tests {
    use super::super::rows::row_of;
    use super::*;

    #[test]
    fn the_interpolated_polynomial_has_the_row_it_was_made_from() {
        let code = Code::check(8, 3, 5, &[7, 0, 200, 33]).unwrap();
        let row: Vec<u8> = (0..12).map(|i| 37u8.wrapping_mul(i) ^ 11).collect();
        let (through, vanishing) = interpolate(&code, &row);
        assert!(through.length() <= 12);
        assert_eq!(row_of(&code, through.coefficients()), row);
        assert_eq!(vanishing.length(), 13);
        assert_eq!(row_of(&code, vanishing.coefficients()), [0; 12]);
    }
}
