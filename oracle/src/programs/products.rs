//! `products`: every product, every quotient and the coefficients.

use super::{hex, line, spaced};
use crate::field::{multiply, quotient};
use crate::group::coefficient;

/// The whole output.
pub fn output() -> String {
    let mut out = String::new();
    for a in 0..=255 {
        let row: Vec<u8> = (0..=255).map(|b| multiply(a, b)).collect();
        line!(out, "product {:02x} {}", a, hex(&row));
    }
    for b in 0..=255 {
        let row: Vec<u8> = (0..=255).map(|a| quotient(a, b)).collect();
        line!(out, "quotient {:02x} {}", b, hex(&row));
    }
    for i in 0..3 {
        let row: Vec<u64> = (0..16).map(|j| coefficient(i, j).into()).collect();
        line!(out, "coefficients {} {}", i, spaced(&row));
    }
    out
}
