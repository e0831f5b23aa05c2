//! All products of a field in one table, made on first use.

use std::sync::OnceLock;

/// Every row of products is 256 long in every field, so that a byte indexes it without a check.
pub struct Tables {
    products: Box<[[u8; 256]; 256]>,
    inverses: [u8; 256],
}

impl Tables {
    /// The tables for m, if m is 2, 4 or 8.
    pub fn of(m: usize) -> Option<&'static Tables> {
        static TABLES: [OnceLock<Tables>; 3] = [const { OnceLock::new() }; 3];
        let (slot, modulus) = match m {
            2 => (0, 7),
            4 => (1, 19),
            8 => (2, 285),
            _ => return None,
        };
        Some(TABLES[slot].get_or_init(|| Tables::build(1 << m, modulus)))
    }

    /// The products of one scalar with every element.
    pub fn products_of(&self, scalar: u8) -> &[u8; 256] {
        &self.products[usize::from(scalar)]
    }

    pub fn inverse(&self, element: u8) -> u8 {
        self.inverses[usize::from(element)]
    }

    /// Products by adding logarithms: 2 generates all nonzero elements.
    fn build(size: usize, modulus: usize) -> Tables {
        let order = size - 1;
        let mut powers = vec![1usize; order];
        for exponent in 1..order {
            let double = powers[exponent - 1] << 1;
            powers[exponent] = if double >= size {
                double ^ modulus
            } else {
                double
            };
        }
        let mut products = Box::new([[0; 256]; 256]);
        let mut inverses = [0; 256];
        for (i, a) in powers.iter().enumerate() {
            for (j, b) in powers.iter().enumerate() {
                products[*a][*b] = powers[(i + j) % order] as u8;
            }
            inverses[*a] = powers[(order - i) % order] as u8;
        }
        Tables { products, inverses }
    }
}
