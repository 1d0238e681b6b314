//! The field of 256 with polynomial 0x11D, by a table of all products, and the parity coefficients.

const fn doubled(x: u8) -> u8 {
    (x << 1) ^ if x > 127 { 0x1d } else { 0 }
}

const fn all_products() -> [[u8; 256]; 256] {
    let mut table = [[0; 256]; 256];
    let mut a = 1;
    while a < 256 {
        let mut b = 0;
        while b < 256 {
            table[a][b] = doubled(table[a / 2][b]) ^ if a % 2 == 1 { b as u8 } else { 0 };
            b += 1;
        }
        a += 1;
    }
    table
}

static PRODUCTS: [[u8; 256]; 256] = all_products();

pub fn product(a: u8, b: u8) -> u8 {
    PRODUCTS[a as usize][b as usize]
}

pub fn inverse(a: u8) -> u8 {
    (1..=255).find(|&b| product(a, b) == 1).expect("0 has no inverse")
}

const fn slow_product(mut a: u8, mut b: u8) -> u8 {
    let mut sum = 0;
    while b > 0 {
        if b % 2 == 1 {
            sum ^= a;
        }
        a = doubled(a);
        b /= 2;
    }
    sum
}

const fn slow_inverse(a: u8) -> u8 {
    let mut b = 1;
    while slow_product(a, b) != 1 {
        b += 1;
    }
    b
}

const fn all_coefficients() -> [[u8; 16]; 3] {
    let mut table = [[0; 16]; 3];
    let mut i = 0;
    while i < 3 {
        let mut j = 0;
        while j < 16 {
            let over = slow_product(32 ^ j as u8, 32 + i as u8);
            let under = slow_product((32 + i as u8) ^ j as u8, 32);
            table[i][j] = slow_product(over, slow_inverse(under));
            j += 1;
        }
        i += 1;
    }
    table
}

/// `COEFFICIENTS[i][j]`: what parity i takes of data unit j.
pub static COEFFICIENTS: [[u8; 16]; 3] = all_coefficients();

/// Adds `factor` times `from` to `to`, byte by byte.
pub fn add_multiple(to: &mut [u8], factor: u8, from: &[u8]) {
    match factor {
        0 => {}
        1 => to.iter_mut().zip(from).for_each(|(t, f)| *t ^= f),
        _ => {
            let row = &PRODUCTS[factor as usize];
            to.iter_mut().zip(from).for_each(|(t, f)| *t ^= row[*f as usize]);
        }
    }
}
