//! Each refusal is provoked once in the library and met under its name, number and words.
use crate::sources::{file, in_lower_case};
use crate::HEADER;
use splicebell::{Catalogue, Entry, Key, Layout, Pool, Record, Refusal};

const LAYOUT: Layout = Layout { n: 1, k: 1, p: 4, u: 4, t: 1, cookie: 0, edition: 1 };
const IMAGE_LENGTH: usize = 48;

/// The names and numbers as the C program prints those of the header.
pub fn as_c_names() -> Vec<String> {
    let accepted = "SPLICEBELL_ACCEPTED 0".to_string();
    let named = |refusal: Refusal| {
        let name = in_lower_case(&format!("{refusal:?}")).to_uppercase();
        format!("SPLICEBELL_{name} {}", refusal.number())
    };
    [accepted].into_iter().chain(Refusal::ALL.map(named)).collect()
}

fn on_a_pool<T>(record: Record, call: impl Fn(&mut Pool) -> Result<T, Refusal>) -> Option<Refusal> {
    let mut image = [0; IMAGE_LENGTH];
    call(&mut Pool::with_record(LAYOUT, record, &mut image)).err()
}

fn on_a_full_catalogue<T>(call: impl Fn(&mut Catalogue) -> Result<T, Refusal>) -> Option<Refusal> {
    let mut slots = [Entry::new(1, 1, 1)];
    call(&mut Catalogue::new(&mut slots, 1)).err()
}

/// What the library says to a call of each kind, in the order of the numbers.
fn provoked() -> [Option<Refusal>; 17] {
    let nothing_failed = Record::default();
    let one_failed = Record { failed: [2, 0, 0], k: 1, q: 0, waiting: 2 };
    let repaired_unfailed = Record { q: 1, ..nothing_failed };
    let one_waits_unfailed = Record { waiting: 1, ..nothing_failed };
    let of_edition_2 = b"02 01 01 04 0004 000001 0000000000000000 02\n";
    [
        Layout { p: 65, ..LAYOUT }.measure().err(),
        Pool::new(LAYOUT, &mut [0; IMAGE_LENGTH - 1]).write(0, &[1]).err(),
        on_a_pool(repaired_unfailed, |pool| pool.repair()),
        on_a_pool(nothing_failed, |pool| pool.read(16, &mut [1])),
        on_a_pool(nothing_failed, |pool| pool.look(0, 0, &mut [1; 5]).map(|_| ())),
        on_a_pool(one_failed, |pool| pool.fail(2)),
        on_a_pool(one_failed, |pool| pool.fail(3)),
        LAYOUT.rebuild(&[0, 1], &mut [0; 8]).err(),
        Catalogue::new(&mut [], 1).lookup(Key::default()).err(),
        on_a_full_catalogue(|catalogue| catalogue.insert(Entry::new(2, 1, 1))),
        on_a_full_catalogue(|catalogue| catalogue.delete(Entry::new(1, 1, 2))),
        LAYOUT.read_text(b"", &mut [0; IMAGE_LENGTH]).err().map(Refusal::from),
        Layout::from_first_line(b"").err(),
        on_a_pool(one_waits_unfailed, |pool| pool.audit()),
        on_a_pool(one_failed, |pool| pool.repair_by(&[])),
        on_a_pool(one_failed, |pool| pool.swap(2)),
        Layout::from_settings_old(of_edition_2).err().map(Refusal::from),
    ]
}

#[test]
fn the_library_answers_each_number() {
    assert_eq!(provoked(), Refusal::ALL.map(Some));
}

#[test]
fn numbers_lead_back_to_their_refusal() {
    for (refusal, number) in Refusal::ALL.into_iter().zip(1..) {
        assert_eq!(refusal.number(), number);
        assert_eq!(Refusal::from_number(number), Some(refusal));
    }
    assert_eq!(Refusal::from_number(0), None);
    assert_eq!(Refusal::from_number(18), None);
}

/// docs/TRACE.md quotes document 01's table as `number: words`. What document 02 adds stands behind `; `.
#[test]
fn the_words_are_document_01s() {
    let trace = file("docs/TRACE.md");
    for refusal in Refusal::ALL.into_iter().filter(|refusal| refusal.number() <= 11) {
        let words = refusal.to_string();
        let of_the_table = words.split("; ").next().unwrap_or_default();
        let quoted = format!(" {}: {of_the_table}", refusal.number());
        assert!(trace.contains(&quoted), "docs/TRACE.md does not say{quoted}");
    }
}

/// Document 02 gives its numbers no row of a table, so the words are the header's.
#[test]
fn the_words_of_later_numbers_are_the_headers() {
    let header = file(HEADER);
    for refusal in Refusal::ALL.into_iter().filter(|refusal| refusal.number() > 11) {
        assert_eq!(said_of(refusal.number(), &header), Some(refusal.to_string()));
    }
}

/// The comment behind a number of the header's enum, over as many lines as it takes.
fn said_of(number: u64, header: &str) -> Option<String> {
    let (_, behind) = header.split_once(&format!(" = {number}"))?;
    let (_, comment) = behind.split_once("/* ")?;
    let (words, _) = comment.split_once(" */")?;
    let lines = words.lines().map(|line| line.trim_start().trim_start_matches("* "));
    Some(lines.collect::<Vec<_>>().join(" "))
}
