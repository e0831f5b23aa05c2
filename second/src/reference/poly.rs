//! Polynomials over a field: coefficients, lowest power first, without zeros at the top.

use super::field::Field;

#[derive(Clone, Debug, PartialEq, Eq)]
pub struct Poly {
    coefficients: Vec<u8>,
}

impl Poly {
    pub fn new(mut coefficients: Vec<u8>) -> Poly {
        while coefficients.last() == Some(&0) {
            coefficients.pop();
        }
        Poly { coefficients }
    }

    pub fn zero() -> Poly {
        Poly::new(Vec::new())
    }

    pub fn one() -> Poly {
        Poly::new(vec![1])
    }

    pub fn is_zero(&self) -> bool {
        self.coefficients.is_empty()
    }

    pub fn coefficients(&self) -> &[u8] {
        &self.coefficients
    }

    /// One more than the degree, and 0 for the zero polynomial.
    pub fn length(&self) -> usize {
        self.coefficients.len()
    }

    /// The polynomial plus `scalar` x^`shift` times `other`.
    pub fn plus_multiple(&self, field: Field, scalar: u8, shift: usize, other: &Poly) -> Poly {
        let length = self.length().max(other.length() + shift);
        let mut sum = self.coefficients.clone();
        sum.resize(length, 0);
        for (place, coefficient) in other.coefficients.iter().enumerate() {
            sum[place + shift] ^= field.mul(scalar, *coefficient);
        }
        Poly::new(sum)
    }

    /// The polynomial times (x - point); adding and subtracting are the same here.
    pub fn times_root(&self, field: Field, point: u8) -> Poly {
        let shifted = Poly::zero().plus_multiple(field, 1, 1, self);
        shifted.plus_multiple(field, point, 0, self)
    }

    pub fn times(&self, field: Field, other: &Poly) -> Poly {
        let terms = self.coefficients.iter().enumerate();
        terms.fold(Poly::zero(), |sum, (shift, coefficient)| {
            sum.plus_multiple(field, *coefficient, shift, other)
        })
    }

    pub fn plus(&self, field: Field, other: &Poly) -> Poly {
        self.plus_multiple(field, 1, 0, other)
    }

    /// Quotient and remainder by `divisor`, which is not zero.
    pub fn divide(&self, field: Field, divisor: &Poly) -> (Poly, Poly) {
        let top = divisor.coefficients.last().expect("the divisor is not 0");
        let inverse = field.inverse(*top);
        let mut remainder = self.coefficients.clone();
        let count = (self.length() + 1).saturating_sub(divisor.length());
        let mut quotient = vec![0; count];
        for shift in (0..count).rev() {
            let scalar = field.mul(remainder[shift + divisor.length() - 1], inverse);
            quotient[shift] = scalar;
            for (place, coefficient) in divisor.coefficients.iter().enumerate() {
                remainder[shift + place] ^= field.mul(scalar, *coefficient);
            }
        }
        (Poly::new(quotient), Poly::new(remainder))
    }
}

#[cfg(test)]
mod tests {
    use super::*;

    #[test]
    fn quotient_times_divisor_plus_remainder_is_the_first() {
        let field = Field::of(8).unwrap();
        let first = Poly::new(vec![9, 0, 200, 31, 7, 255]);
        let divisor = Poly::new(vec![4, 1, 93]);
        let (quotient, remainder) = first.divide(field, &divisor);
        assert!(remainder.length() < divisor.length());
        assert_eq!(quotient.length(), 4);
        let product = quotient.times(field, &divisor);
        assert_eq!(product.plus(field, &remainder), first);
    }

    #[test]
    fn a_product_of_roots_vanishes_at_each_of_them() {
        let field = Field::of(4).unwrap();
        let product = Poly::one().times_root(field, 5).times_root(field, 11);
        for point in 0..16 {
            let value = super::super::rows::symbol(field, product.coefficients(), point, 0);
            assert_eq!(value == 0, point == 5 || point == 11);
        }
    }

    #[test]
    fn a_longer_divisor_leaves_the_whole() {
        let field = Field::of(2).unwrap();
        let first = Poly::new(vec![1, 2, 0]);
        let (quotient, remainder) = first.divide(field, &Poly::new(vec![0, 0, 3]));
        assert!(quotient.is_zero());
        assert_eq!(remainder, first);
    }
}
