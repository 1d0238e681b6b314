//! Parity of one group, and what its missing units hold.

use crate::field::{add_multiple, inverse, product, COEFFICIENTS};

/// Sets `parity` to parity unit i of the data units.
pub fn parity_of<'a>(i: usize, data: impl Iterator<Item = &'a [u8]>, parity: &mut [u8]) {
    parity.fill(0);
    for (j, unit) in data.enumerate() {
        add_multiple(parity, COEFFICIENTS[i][j], unit);
    }
}

pub fn encode(n: usize, k: usize, u: usize, group: &mut [u8]) {
    let (data, parity) = group.split_at_mut(n * u);
    for (i, unit) in parity.chunks_exact_mut(u).enumerate().take(k) {
        parity_of(i, data.chunks_exact(u), unit);
    }
}

/// The inverse of a matrix of `size` rows, at most 3, by Gauss and Jordan. Every matrix that comes here has one.
fn inverted(mut m: [[u8; 3]; 3], size: usize) -> [[u8; 3]; 3] {
    let mut out = [[1, 0, 0], [0, 1, 0], [0, 0, 1]];
    for column in 0..size {
        let pivot = (column..size).find(|&r| m[r][column] != 0).expect("a row");
        m.swap(pivot, column);
        out.swap(pivot, column);
        let factor = inverse(m[column][column]);
        for x in 0..3 {
            m[column][x] = product(factor, m[column][x]);
            out[column][x] = product(factor, out[column][x]);
        }
        for r in (0..size).filter(|&r| r != column) {
            let factor = m[r][column];
            for x in 0..3 {
                m[r][x] ^= product(factor, m[column][x]);
                out[r][x] ^= product(factor, out[column][x]);
            }
        }
    }
    out
}

/// What the missing data units hold, lowest first. `held[c]` is what content c holds, None where it is missing.
pub fn missing_data(n: usize, held: &[Option<&[u8]>], length: usize) -> Vec<Vec<u8>> {
    let lost: Vec<usize> = (0..n).filter(|&j| held[j].is_none()).collect();
    let rows: Vec<usize> =
        (0..held.len() - n).filter(|&i| held[n + i].is_some()).take(lost.len()).collect();
    let mut system = [[0; 3]; 3];
    let mut sums = Vec::new();
    for (r, &i) in rows.iter().enumerate() {
        let mut sum = held[n + i].expect("a parity that is there").to_vec();
        for j in 0..n {
            match held[j] {
                Some(unit) => add_multiple(&mut sum, COEFFICIENTS[i][j], unit),
                None => {
                    system[r][lost.iter().position(|&l| l == j).expect("lost")] = COEFFICIENTS[i][j]
                }
            }
        }
        sums.push(sum);
    }
    let solution = inverted(system, lost.len());
    (0..lost.len())
        .map(|l| {
            let mut unit = vec![0; length];
            sums.iter()
                .enumerate()
                .for_each(|(r, sum)| add_multiple(&mut unit, solution[l][r], sum));
            unit
        })
        .collect()
}

/// Parity unit i, of data some of which are lost and were rebuilt, lowest first.
fn lost_parity(
    i: usize,
    n: usize,
    held: &[Option<&[u8]>],
    lost_data: &[Vec<u8>],
    length: usize,
) -> Vec<u8> {
    let mut next_lost = lost_data.iter();
    let data = held[..n].iter().map(|h| h.unwrap_or_else(|| next_lost.next().expect("rebuilt")));
    let mut unit = vec![0; length];
    parity_of(i, data, &mut unit);
    unit
}

/// What the missing contents hold, lowest first: the data, then the parity of data that are whole by then.
pub fn missing_contents(n: usize, held: &[Option<&[u8]>], length: usize) -> Vec<Vec<u8>> {
    let mut lost = missing_data(n, held, length);
    let data = lost.len();
    for i in (0..held.len() - n).filter(|&i| held[n + i].is_none()) {
        lost.push(lost_parity(i, n, held, &lost[..data], length));
    }
    lost
}

/// What one missing content holds.
pub fn missing_content(n: usize, held: &[Option<&[u8]>], c: usize, length: usize) -> Vec<u8> {
    let mut lost_data = missing_data(n, held, length);
    if c < n {
        lost_data.swap_remove(held[..c].iter().filter(|h| h.is_none()).count())
    } else {
        lost_parity(c - n, n, held, &lost_data, length)
    }
}

pub fn rebuild(n: usize, u: usize, missing: &[u64], group: &mut [u8]) {
    let named = |c: usize| missing.contains(&(c as u64));
    let held: Vec<Option<&[u8]>> = group
        .chunks_exact(u)
        .enumerate()
        .map(|(c, unit)| if named(c) { None } else { Some(unit) })
        .collect();
    let rebuilt = missing_contents(n, &held, u);
    let lost = group.chunks_exact_mut(u).enumerate().filter(|(c, _)| named(*c));
    for ((_, unit), bytes) in lost.zip(rebuilt) {
        unit.copy_from_slice(&bytes);
    }
}
