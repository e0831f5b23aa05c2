//! The fields of 4, 16 and 256 elements: products by shifting and reducing. Each is worked out once and then looked up.

use std::sync::OnceLock;

/// A product for each pair of bytes; those outside the field are not asked for.
type Products = Box<[[u8; 256]; 256]>;

/// The field of 2^m elements, the numbers below 2^m read as polynomials in x.
#[derive(Clone, Copy, Debug, PartialEq, Eq)]
pub struct Field {
    m: usize,
    modulus: u32,
}

impl Field {
    /// The field for m, if m is 2, 4 or 8.
    pub fn of(m: usize) -> Option<Field> {
        let modulus = match m {
            2 => 0b111,
            4 => 0b1_0011,
            8 => 0b1_0001_1101,
            _ => return None,
        };
        Some(Field { m, modulus })
    }

    /// m, the number of bits of an element.
    pub fn bits(self) -> usize {
        self.m
    }

    /// 2^m, the number of elements.
    pub fn size(self) -> usize {
        1 << self.m
    }

    pub fn contains(self, symbol: u8) -> bool {
        usize::from(symbol) < self.size()
    }

    pub fn mul(self, a: u8, b: u8) -> u8 {
        static PRODUCTS: [OnceLock<Products>; 3] = [const { OnceLock::new() }; 3];
        let place = self.m.trailing_zeros() as usize - 1;
        let products = PRODUCTS[place].get_or_init(|| self.products());
        products[usize::from(a)][usize::from(b)]
    }

    fn products(self) -> Products {
        let mut products = Box::new([[0; 256]; 256]);
        let elements = 0..=(self.size() - 1) as u8;
        for a in elements.clone() {
            for b in elements.clone() {
                products[usize::from(a)][usize::from(b)] = self.product(a, b);
            }
        }
        products
    }

    /// Shifts of a are added up for the bits of b.
    fn product(self, a: u8, b: u8) -> u8 {
        let mut product = 0;
        for bit in 0..self.m {
            product ^= (u32::from(a) << bit) * u32::from(b >> bit & 1);
        }
        self.reduce(product)
    }

    /// The remainder of a product of two elements by the modulus, from its highest bit down.
    fn reduce(self, mut product: u32) -> u8 {
        for bit in (self.m..2 * self.m - 1).rev() {
            product ^= (self.modulus << (bit - self.m)) * (product >> bit & 1);
        }
        product as u8
    }

    /// a to the power `exponent`; the zeroth power is 1 for every a, 0 too.
    pub fn power(self, a: u8, exponent: usize) -> u8 {
        (0..exponent).fold(1, |power, _| self.mul(power, a))
    }

    /// The b with a b = 1. Every nonzero a has a^(2^m - 1) = 1, so b is the power before that one.
    pub fn inverse(self, a: u8) -> u8 {
        assert_ne!(a, 0, "zero has no inverse");
        self.power(a, self.size() - 2)
    }
}

#[cfg(test)]
mod tests {
    use super::*;

    fn product(m: usize, a: u8, b: u8) -> u8 {
        Field::of(m).unwrap().mul(a, b)
    }

    #[test]
    fn products_and_inverses_worked_by_hand() {
        assert_eq!(
            [product(2, 2, 2), product(2, 2, 3), product(2, 3, 3)],
            [3, 1, 2]
        );
        assert_eq!([product(4, 8, 2), product(8, 128, 2)], [3, 29]);
        assert_eq!(Field::of(4).unwrap().inverse(2), 9);
        assert_eq!(Field::of(8).unwrap().inverse(2), 142);
    }

    #[test]
    fn there_are_three_fields() {
        for m in (0..300).chain([usize::MAX, (1 << 32) + 2]) {
            assert_eq!(Field::of(m).is_some(), [2, 4, 8].contains(&m));
        }
    }

    #[test]
    fn two_generates_all_nonzero_elements() {
        for m in [2, 4, 8] {
            let field = Field::of(m).unwrap();
            let mut powers: Vec<u8> = (0..field.size() - 1).map(|e| field.power(2, e)).collect();
            powers.sort();
            let nonzero: Vec<u8> = (1..=(field.size() - 1) as u8).collect();
            assert_eq!(powers, nonzero);
        }
    }

    #[test]
    fn products_distribute_and_inverses_invert() {
        for m in [2, 4, 8] {
            let field = Field::of(m).unwrap();
            let elements = 0..=(field.size() - 1) as u8;
            for a in elements.clone() {
                assert!(a == 0 || field.mul(a, field.inverse(a)) == 1);
                assert_eq!(field.power(a, 0), 1);
                for b in elements.clone() {
                    assert_eq!(field.mul(a, b), field.mul(b, a));
                    assert_eq!(field.mul(a, b ^ 1), field.mul(a, b) ^ a);
                }
            }
        }
    }
}
