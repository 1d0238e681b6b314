//! The field of 256 elements.
//!
//! Document 01: "Bytes are elements of the field of 256 with polynomial
//! 0x11D; + is exclusive or." The product is the carry-less product of the two
//! bytes, then its remainder by the polynomial; the inverse is searched for.

use std::sync::OnceLock;

const POLYNOMIAL: u16 = 0x11D;

/// The product of two polynomials over the bits, not reduced: at most 15 bits.
fn carry_less(a: u8, b: u8) -> u16 {
    (0..8)
        .filter(|bit| b >> bit & 1 == 1)
        .fold(0, |sum, bit| sum ^ (u16::from(a) << bit))
}

/// The remainder of a polynomial of at most 15 bits by 0x11D, by long division.
fn remainder(mut dividend: u16) -> u8 {
    for degree in (8..15).rev() {
        if dividend >> degree & 1 == 1 {
            dividend ^= POLYNOMIAL << (degree - 8);
        }
    }
    dividend as u8
}

/// All products, worked out once by the two functions above.
fn products() -> &'static [[u8; 256]; 256] {
    static PRODUCTS: OnceLock<Box<[[u8; 256]; 256]>> = OnceLock::new();
    PRODUCTS.get_or_init(|| {
        let mut all = Box::new([[0; 256]; 256]);
        for (a, row) in all.iter_mut().enumerate() {
            for (b, product) in row.iter_mut().enumerate() {
                *product = remainder(carry_less(a as u8, b as u8));
            }
        }
        all
    })
}

/// The product of two bytes.
pub fn multiply(a: u8, b: u8) -> u8 {
    products()[usize::from(a)][usize::from(b)]
}

/// The byte whose product with this one is 1; 0 for 0, which has none.
pub fn inverse(a: u8) -> u8 {
    (0..=255).find(|b| multiply(a, *b) == 1).unwrap_or(0)
}

/// The quotient, 0 where the divisor is 0.
pub fn quotient(a: u8, b: u8) -> u8 {
    multiply(a, inverse(b))
}

#[cfg(test)]
mod tests {
    use super::*;

    #[test]
    fn every_byte_but_zero_has_one_inverse() {
        for a in 1..=255 {
            let inverses = (0..=255).filter(|b| multiply(a, *b) == 1).count();
            assert_eq!(inverses, 1);
            assert_eq!(inverse(inverse(a)), a);
        }
        assert_eq!(quotient(7, 0), 0);
    }

    #[test]
    fn the_product_distributes_over_exclusive_or() {
        for a in 0..=255 {
            for b in 0..=255 {
                assert_eq!(multiply(a, b), multiply(b, a));
                assert_eq!(multiply(a, b ^ 0x5A), multiply(a, b) ^ multiply(a, 0x5A));
            }
        }
    }
}
