//! Runs of calls on one catalogue: what a call leaves in the slots is what the next one finds.

use crate::bench::{Bench, Trial};
use crate::catalogue_draws::{listed_from, Catalogue};
use crate::catalogue_kinds::Asked;
use crate::catalogue_rules::Library;
use crate::lent::Lent;
use crate::tally::Call;
use oracle::catalogue::{self, Listed, Record, Wide};
use splicebell::raw::{splicebell_changed, splicebell_entry, splicebell_key, splicebell_wide};

type LibraryChange =
    fn(Library, &Lent<splicebell_entry>, usize, splicebell_entry) -> splicebell_changed;
type ModelChange = fn(&mut [Record], u64, u64, Wide, Wide) -> (u64, u64);

fn pair(w: &Wide) -> splicebell_wide {
    splicebell_wide { first: w.first, second: w.second }
}

fn entry(r: &Record) -> splicebell_entry {
    splicebell_entry { device: r.device, file: pair(&r.file), cob: pair(&r.cob) }
}

fn entries(slots: &[Record]) -> Vec<splicebell_entry> {
    slots.iter().map(entry).collect()
}

/// Compares a pair of the answer word by word; `names` are those of its words.
fn compare(trial: &mut Trial, names: [&str; 2], answered: splicebell_wide, expected: Wide) {
    trial.number(names[0], answered.first, expected.first);
    trial.number(names[1], answered.second, expected.second);
}

/// Calls on one catalogue.
pub fn round(bench: &mut Bench) {
    let mut catalogue = Catalogue::drawn(&mut bench.draws);
    for _ in 0..bench.draws.between(5, 50) {
        if bench.draws.one_in(6) {
            let other = catalogue.damaged(&mut bench.draws);
            call(bench, &other);
        } else if let Some(after) = call(bench, &catalogue) {
            catalogue = after;
        }
    }
}

/// Makes one call; what it leaves, for calls that change the slots.
fn call(bench: &mut Bench, before: &Catalogue) -> Option<Catalogue> {
    let asked = before.asked(&mut bench.draws);
    match bench.draws.below(5) {
        0 => lookup(bench, before, asked),
        1 | 2 => return Some(insert(bench, before, asked)),
        3 => return Some(delete(bench, before, asked)),
        _ => listing(bench, before, asked),
    }
    None
}

fn lookup(bench: &mut Bench, before: &Catalogue, asked: Record) {
    let inputs = || format!("{} key {} {:?}", before.told(), asked.device, asked.file);
    let mut trial = bench.begin(Call::Lookup, &inputs);
    let lent = entries(&before.slots);
    let slots = bench.lend(&lent);
    let key = splicebell_key { device: asked.device, file: pair(&asked.file) };
    let answer = Library::of(bench).lookup(&slots, before.n as usize, key);
    let (refusal, cob) = catalogue::lookup(&before.slots, before.n, asked.device, asked.file);
    trial.number("refusal", answer.refusal, refusal);
    compare(&mut trial, ["cob.first", "cob.second"], answer.cob, cob);
    trial.buffer("slots", &slots, &lent);
    bench.end(trial, refusal);
    bench.tally.add_catalogue(&Asked { call: Call::Lookup, before, asked, refusal, listed: None });
}

/// Insert and delete take and answer the same. Answers what the model says the catalogue is afterwards.
fn change(
    bench: &mut Bench,
    call: Call,
    before: &Catalogue,
    asked: Record,
    library: LibraryChange,
    model: ModelChange,
) -> Catalogue {
    let inputs = || format!("{} record {asked:?}", before.told());
    let mut trial = bench.begin(call, &inputs);
    let slots = bench.lend_mut(&entries(&before.slots));
    let answer = library(Library::of(bench), &slots, before.n as usize, entry(&asked));
    let mut after = before.clone();
    let (refusal, count) = model(&mut after.slots, before.n, asked.device, asked.file, asked.cob);
    after.n = count;
    trial.number("refusal", answer.refusal, refusal);
    trial.number("count", answer.count as u64, count);
    trial.buffer("slots", &slots, &entries(&after.slots));
    bench.end(trial, refusal);
    bench.tally.add_catalogue(&Asked { call, before, asked, refusal, listed: None });
    after
}

fn insert(bench: &mut Bench, before: &Catalogue, asked: Record) -> Catalogue {
    change(bench, Call::Insert, before, asked, Library::insert, catalogue::insert)
}

fn delete(bench: &mut Bench, before: &Catalogue, asked: Record) -> Catalogue {
    change(bench, Call::Delete, before, asked, Library::delete, catalogue::delete)
}

fn listing(bench: &mut Bench, before: &Catalogue, mut asked: Record) {
    asked.file = listed_from(&mut bench.draws, asked.file);
    let room = bench.draws.pick(&[0, 0, 1, 2, 5, before.slots.len(), before.slots.len() + 3]);
    let mut expected: Vec<Wide> =
        (0..room).map(|_| Wide { first: bench.draws.word(), second: bench.draws.word() }).collect();
    let written: Vec<splicebell_wide> = expected.iter().map(pair).collect();
    let inputs =
        || format!("{} from {} {:?} out {written:?}", before.told(), asked.device, asked.file);
    let mut trial = bench.begin(Call::Listing, &inputs);
    let lent = entries(&before.slots);
    let (slots, out) = (bench.lend(&lent), bench.lend_mut(&written));
    let from = splicebell_key { device: asked.device, file: pair(&asked.file) };
    let answer = Library::of(bench).listing(&slots, before.n as usize, from, &out);
    let (refusal, listed) =
        catalogue::listing(&before.slots, before.n, asked.device, asked.file, &mut expected);
    let Listed { count, more, next } = listed;
    trial.number("refusal", answer.refusal, refusal);
    trial.number("count", answer.count as u64, count);
    trial.flag("more", &answer.more, more);
    compare(&mut trial, ["next.first", "next.second"], answer.next, next);
    trial.buffer("slots", &slots, &lent);
    trial.buffer("out", &out, &expected.iter().map(pair).collect::<Vec<_>>());
    bench.end(trial, refusal);
    let listed = Some((room, listed));
    bench.tally.add_catalogue(&Asked { call: Call::Listing, before, asked, refusal, listed });
}
