//! The contents of one group: encoding and rebuilding.
//!
//! Document 01: "Parity i of a group, at each byte position, is the sum over j
//! of a(i,j)·D_j with a(i,j) = ((32⊕j)·((32+i)⊕0)) / (((32+i)⊕j)·32), products
//! and quotients in the field." "Rebuild takes (N+K)·U bytes and a set of
//! missing units (a unit ≥ N+K is 4, here and in a look; one named twice counts
//! once). It uses the N lowest present units, fills the missing ones and
//! changes nothing else, also where the present ones disagree."

use crate::field::{inverse, multiply, quotient};
use crate::layout::Layout;

/// The bytes of a unit, or any run of them.
pub type Bytes = Vec<u8>;

/// The coefficient a(i,j) of parity i and data unit j.
pub fn coefficient(i: usize, j: usize) -> u8 {
    let (row, column) = (32 + i as u8, j as u8);
    quotient(multiply(32 ^ column, row), multiply(row ^ column, 32))
}

/// A content as a sum over the N data units: its N coefficients.
pub fn coefficients(n: usize, content: usize) -> Vec<u8> {
    if content < n {
        (0..n).map(|j| u8::from(j == content)).collect()
    } else {
        (0..n).map(|j| coefficient(content - n, j)).collect()
    }
}

/// target += factor · source, byte by byte.
fn add_scaled(target: &mut [u8], factor: u8, source: &[u8]) {
    if factor != 0 {
        for (to, from) in target.iter_mut().zip(source) {
            *to ^= multiply(factor, *from);
        }
    }
}

/// One content worked out from the N data units.
pub fn encoded(data: &[Bytes], content: usize) -> Bytes {
    let mut sum = vec![0; data[0].len()];
    for (factor, unit) in coefficients(data.len(), content).iter().zip(data) {
        add_scaled(&mut sum, *factor, unit);
    }
    sum
}

/// Solves rows · x = rights by Gaussian elimination over the whole system.
fn solved(mut rows: Vec<Vec<u8>>, mut rights: Vec<Bytes>) -> Vec<Bytes> {
    for column in 0..rows.len() {
        let pivot = (column..rows.len())
            .find(|row| rows[*row][column] != 0)
            .expect("any N contents determine the data");
        rows.swap(column, pivot);
        rights.swap(column, pivot);
        let scale = inverse(rows[column][column]);
        rows[column]
            .iter_mut()
            .for_each(|a| *a = multiply(scale, *a));
        rights[column]
            .iter_mut()
            .for_each(|b| *b = multiply(scale, *b));
        let (pivot_row, pivot_right) = (rows[column].clone(), rights[column].clone());
        for other in (0..rows.len()).filter(|row| *row != column) {
            let factor = rows[other][column];
            add_scaled(&mut rows[other], factor, &pivot_row);
            add_scaled(&mut rights[other], factor, &pivot_right);
        }
    }
    rights
}

/// The N data units that agree with these N different contents, each given
/// with its number.
pub fn data_from(given: &[(usize, Bytes)]) -> Vec<Bytes> {
    let n = given.len();
    let rows = given.iter().map(|(c, _)| coefficients(n, *c)).collect();
    solved(rows, given.iter().map(|(_, unit)| unit.clone()).collect())
}

/// The N data units that agree with the N lowest present contents.
/// `contents` has N+K entries, `None` where missing.
pub fn data_of(n: usize, contents: &[Option<Bytes>]) -> Vec<Bytes> {
    let present = contents.iter().enumerate();
    let given = present.filter_map(|(c, unit)| Some((c, unit.clone()?)));
    data_from(&given.take(n).collect::<Vec<_>>())
}

/// Public call: sets the K parity units of a buffer of (N+K)·U bytes from its
/// N data units; refusals 1, 5.
pub fn encode(layout: &Layout, buffer: &mut [u8]) -> u64 {
    if layout.refusal() != 0 {
        return 1;
    }
    if buffer.len() as u64 != layout.contents() * layout.u {
        return 5;
    }
    let (n, u) = (layout.n as usize, layout.u as usize);
    let data: Vec<Bytes> = buffer.chunks(u).take(n).map(<[u8]>::to_vec).collect();
    for (content, unit) in buffer.chunks_mut(u).enumerate().skip(n) {
        unit.copy_from_slice(&encoded(&data, content));
    }
    0
}

fn rebuild_refusal(layout: &Layout, length: u64, missing: &[u64]) -> u64 {
    if layout.refusal() != 0 {
        return 1;
    }
    if missing.iter().any(|unit| *unit >= layout.contents()) {
        return 4;
    }
    if length != layout.contents() * layout.u {
        return 5;
    }
    let named = (0..layout.contents()).filter(|unit| missing.contains(unit));
    if named.count() as u64 > layout.k {
        return 8;
    }
    0
}

/// Public call: fills the missing units of a buffer of (N+K)·U bytes;
/// refusals 1, 4, 5, 8.
pub fn rebuild(layout: &Layout, buffer: &mut [u8], missing: &[u64]) -> u64 {
    let refusal = rebuild_refusal(layout, buffer.len() as u64, missing);
    if refusal != 0 {
        return refusal;
    }
    let (n, u) = (layout.n as usize, layout.u as usize);
    let is_missing = |content: usize| missing.contains(&(content as u64));
    let contents: Vec<Option<Bytes>> = buffer
        .chunks(u)
        .enumerate()
        .map(|(content, unit)| (!is_missing(content)).then(|| unit.to_vec()))
        .collect();
    let data = data_of(n, &contents);
    for (content, unit) in buffer.chunks_mut(u).enumerate() {
        if is_missing(content) {
            unit.copy_from_slice(&encoded(&data, content));
        }
    }
    0
}

#[cfg(test)]
mod tests {
    use super::*;
    use crate::draws::Draws;
    use crate::layout::layout;

    #[test]
    fn row_and_column_zero_are_ones() {
        assert!((0..16).all(|j| coefficient(0, j) == 1));
        assert!((0..3).all(|i| coefficient(i, 0) == 1));
    }

    #[test]
    fn any_n_contents_give_back_the_rest() {
        let mut draws = Draws::new(1);
        for (n, k) in [(1, 3), (4, 2), (16, 3), (9, 1)] {
            let shape = layout(n, k, n + 2 * k, 3, 1, 0);
            let mut whole = vec![0; ((n + k) * 3) as usize];
            draws.fill(&mut whole);
            assert_eq!(encode(&shape, &mut whole), 0);
            for first in 0..n + k {
                for second in 0..n + k {
                    let missing = if k == 1 {
                        vec![first]
                    } else {
                        vec![first, second]
                    };
                    let mut damaged = whole.clone();
                    for unit in &missing {
                        let at = (unit * 3) as usize;
                        draws.fill(&mut damaged[at..at + 3]);
                    }
                    assert_eq!(rebuild(&shape, &mut damaged, &missing), 0);
                    assert_eq!(damaged, whole);
                }
            }
        }
    }

    #[test]
    fn refusals_change_nothing() {
        let shape = layout(2, 1, 4, 2, 1, 0);
        let mut buffer = vec![1, 2, 3, 4, 5, 6];
        let before = buffer.clone();
        assert_eq!(rebuild(&shape, &mut buffer, &[0, 1]), 8);
        assert_eq!(rebuild(&shape, &mut buffer, &[0, 1, 3]), 4);
        assert_eq!(rebuild(&shape, &mut buffer[..5], &[0, 1]), 5);
        assert_eq!(encode(&shape, &mut buffer[..5]), 5);
        assert_eq!(encode(&layout(0, 1, 4, 2, 1, 0), &mut buffer), 1);
        assert_eq!(buffer, before);
    }
}
