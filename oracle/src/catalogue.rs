//! The catalogue of component objects.
//!
//! Document 01: "A lent slice of records (device, file, cob), each a 64-bit
//! number, the first n strictly rising by device and then file." Document 02,
//! order 5, of file and cob: "The outside design says 128 for both; only the
//! device number is 64. Use two 64-bit words, the first the more significant,
//! and order files by the pair. Insert, lookup, delete, listing and number 9
//! read by the new order".

/// A file or cob identifier. The derived order is that of the pair: the first
/// words decide, and the second ones where those are equal.
#[derive(Clone, Copy, Debug, Default, PartialEq, Eq, PartialOrd, Ord)]
pub struct Wide {
    /// The more significant word.
    pub first: u64,
    pub second: u64,
}

/// One record of the catalogue.
#[derive(Clone, Copy, Debug, Default, PartialEq, Eq)]
pub struct Record {
    pub device: u64,
    pub file: Wide,
    pub cob: Wide,
}

impl Record {
    fn key(&self) -> (u64, Wide) {
        (self.device, self.file)
    }
}

/// The answer of a listing.
#[derive(Clone, Copy, Debug, Default, PartialEq, Eq)]
pub struct Listed {
    /// How many cobs were written.
    pub count: u64,
    /// Whether more remain.
    pub more: bool,
    /// The file number of the first that remains, (0,0) if none remain.
    pub next: Wide,
}

/// Refusal 9: "catalogue bad: count above the slice, or keys not strictly
/// rising", else 0.
pub fn refusal(records: &[Record], n: u64) -> u64 {
    let bad = n > records.len() as u64
        || records[..n as usize]
            .windows(2)
            .any(|pair| pair[0].key() >= pair[1].key());
    if bad {
        9
    } else {
        0
    }
}

fn find(records: &[Record], n: u64, key: (u64, Wide)) -> Option<usize> {
    records[..n as usize].iter().position(|r| r.key() == key)
}

/// Public call: "Lookup gives the cob or 11"; refusals 9, 11, and then the cob
/// is (0,0).
pub fn lookup(records: &[Record], n: u64, device: u64, file: Wide) -> (u64, Wide) {
    if refusal(records, n) != 0 {
        return (9, Wide::default());
    }
    match find(records, n, (device, file)) {
        Some(at) => (0, records[at].cob),
        None => (11, Wide::default()),
    }
}

/// Public call: refusal (9, 10) and the count afterwards. "Insert replaces the
/// cob of an equal key." After a refusal the count is the old one.
pub fn insert(records: &mut [Record], n: u64, device: u64, file: Wide, cob: Wide) -> (u64, u64) {
    if refusal(records, n) != 0 {
        return (9, n);
    }
    if let Some(at) = find(records, n, (device, file)) {
        records[at].cob = cob;
        return (0, n);
    }
    if n == records.len() as u64 {
        return (10, n);
    }
    let mut model = records[..n as usize].to_vec();
    model.push(Record { device, file, cob });
    model.sort_by_key(Record::key);
    records[..model.len()].copy_from_slice(&model);
    (0, n + 1)
}

/// Public call: refusal (9, 11) and the count afterwards. "Delete needs all
/// three to match, else 11; the slot it frees at the end becomes three zeros":
/// the zero of a file or cob is (0,0), so all five words. After a refusal the
/// count is the old one.
pub fn delete(records: &mut [Record], n: u64, device: u64, file: Wide, cob: Wide) -> (u64, u64) {
    if refusal(records, n) != 0 {
        return (9, n);
    }
    let wanted = Record { device, file, cob };
    let mut model = records[..n as usize].to_vec();
    let Some(at) = model.iter().position(|r| *r == wanted) else {
        return (11, n);
    };
    model.remove(at);
    model.push(Record::default());
    records[..model.len()].copy_from_slice(&model);
    (0, n - 1)
}

/// Public call: refusal (9, and then the output is all zeros) and the report.
///
/// Document 01: "it writes the cobs of that device with file ≥ first, in file
/// order, as many as fit, leaves the rest of the output, and answers the count,
/// whether more remain and the next file number". Document 02, order 5: "the
/// next file number of a listing becomes a pair, (0,0) if none remain."
pub fn listing(
    records: &[Record],
    n: u64,
    device: u64,
    first: Wide,
    out: &mut [Wide],
) -> (u64, Listed) {
    if refusal(records, n) != 0 {
        out.fill(Wide::default());
        return (9, Listed::default());
    }
    let wanted: Vec<Record> = records[..n as usize]
        .iter()
        .filter(|r| r.device == device && r.file >= first)
        .copied()
        .collect();
    let count = wanted.len().min(out.len());
    for (to, record) in out.iter_mut().zip(&wanted) {
        *to = record.cob;
    }
    let listed = Listed {
        count: count as u64,
        more: wanted.len() > count,
        next: wanted.get(count).map_or(Wide::default(), |r| r.file),
    };
    (0, listed)
}

#[cfg(test)]
mod tests {
    use super::*;

    const ONES: u64 = u64::MAX;

    fn wide(first: u64, second: u64) -> Wide {
        Wide { first, second }
    }

    fn record(device: u64, file: Wide, cob: Wide) -> Record {
        Record { device, file, cob }
    }

    fn page(count: u64, more: bool, next: Wide) -> (u64, Listed) {
        (0, Listed { count, more, next })
    }

    /// Slots of one device, in use, with its files in this order.
    fn of_files(files: &[Wide]) -> Vec<Record> {
        let slots = files.iter().map(|file| record(3, *file, wide(8, 9)));
        slots.collect()
    }

    #[test]
    fn calls_in_turn() {
        let (low, high, cob) = (wide(0, 5), wide(1, 2), wide(6, 7));
        let mut slots = [Record::default(); 3];
        assert_eq!(insert(&mut slots, 0, 2, high, cob), (0, 1));
        assert_eq!(insert(&mut slots, 1, 2, low, wide(4, 4)), (0, 2));
        assert_eq!(insert(&mut slots, 2, 1, wide(9, 9), cob), (0, 3));
        assert_eq!(insert(&mut slots, 3, 2, low, wide(4, 5)), (0, 3));
        let (first, last) = (record(1, wide(9, 9), cob), record(2, high, cob));
        assert_eq!(slots, [first, record(2, low, wide(4, 5)), last]);
        assert_eq!(insert(&mut slots, 3, 2, wide(1, 3), cob), (10, 3));
        assert_eq!(lookup(&slots, 3, 2, low), (0, wide(4, 5)));
        assert_eq!(lookup(&slots, 3, 2, wide(5, 0)), (11, wide(0, 0)));
        assert_eq!(delete(&mut slots, 3, 2, low, wide(4, 4)), (11, 3));
        assert_eq!(delete(&mut slots, 3, 2, low, wide(3, 5)), (11, 3));
        assert_eq!(delete(&mut slots, 3, 2, low, wide(4, 5)), (0, 2));
        assert_eq!(slots, [first, last, Record::default()]);
        assert_eq!(insert(&mut slots, 4, 1, low, cob), (9, 4));
        assert_eq!(lookup(&slots, 3, 2, high), (9, wide(0, 0)));
    }

    #[test]
    fn listings() {
        let (a, b, c) = (wide(0, ONES), wide(1, 0), wide(ONES, 0));
        let slots = of_files(&[a, b, c]);
        let mut out = [wide(1, 1); 2];
        let answer = listing(&slots, 3, 3, wide(0, 0), &mut out[..1]);
        assert_eq!((answer, out), (page(1, true, b), [wide(8, 9), wide(1, 1)]));
        assert_eq!(listing(&slots, 3, 3, b, &mut []), page(0, true, b));
        assert_eq!(
            listing(&slots, 3, 3, wide(0, 0), &mut out),
            page(2, true, c)
        );
        out = [wide(1, 1); 2];
        let answer = listing(&slots, 3, 3, wide(1, 1), &mut out);
        let none = wide(0, 0);
        assert_eq!(
            (answer, out),
            (page(1, false, none), [wide(8, 9), wide(1, 1)])
        );
        let answer = listing(&slots, 4, 3, none, &mut out);
        assert_eq!((answer, out), ((9, Listed::default()), [none; 2]));
        assert_eq!(
            listing(&of_files(&[none]), 1, 3, none, &mut []),
            page(0, true, none)
        );
    }

    #[test]
    fn the_order_is_that_of_the_number_of_128_bits() {
        let words = [0, 1, 2, 1 << 63, ONES - 1, ONES];
        let pairs = words.map(|first| words.map(|second| wide(first, second)));
        let pairs = pairs.as_flattened();
        let number = |w: &Wide| u128::from(w.first) << 64 | u128::from(w.second);
        assert_eq!(refusal(&of_files(pairs), 36), 0);
        for (a, b) in pairs.iter().flat_map(|a| pairs.iter().map(move |b| (a, b))) {
            let wanted = if number(a) < number(b) { 0 } else { 9 };
            assert_eq!(refusal(&of_files(&[*a, *b]), 2), wanted, "{a:?} {b:?}");
        }
    }
}
