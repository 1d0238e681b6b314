//! Document 01's checked examples, starred or not, and of document 02 the order
//! that order 5 gives to files, the count of order 6, the plans of order 7, the
//! editions of order 8, the moves of order 9, the swapped drives of order 10 and
//! the settings of order 11, as checks of this library.

use crate::catalogue::{listing, lookup, refusal, Listed, Record as Entry, Wide};
use crate::draws::Draws;
use crate::field::multiply;
use crate::group::{coefficient, encode, encoded, rebuild};
use crate::hexline::hex_line;
use crate::layout::{layout, range_refusal, Layout};
use crate::permutation::{advance, begin, inverse, permutation, start};
use crate::place::{file_byte, image_byte, place, step, unit_at, unit_targets, Cursor, Step};
use crate::pool::{fail, homes, prepare, read, repair, show, write, Record};
use crate::pool_count::{audit, missing_units, most_missing, panel, Counts, WRONG_COUNT};
use crate::pool_list::write_list;
use crate::pool_move::{move_edition, other_edition};
use crate::pool_plan::{check_plan, draw_plan, repair_by, BAD_PLAN};
use crate::pool_swap::{swap, NOT_REPAIRED};
use crate::pool_text::{read_text, write_text};
use crate::replay::{first_line, play_line, replay, Event};
use crate::settings::{self, newest, newest_old, Settings, UNKNOWN_EDITION};

/// One example: the words of the documents and whether this library agrees.
pub type Check = (&'static str, fn() -> bool);

/// All of them.
pub const CHECKS: [Check; 54] = [
    ("N=4 K=2 P=20: W=8, B=40, L=2, C=5", wide_layout),
    ("N=1 K=0 P=1: L=1, C=1", least_layout),
    ("N=16 K=3: P=22 accepted, P=21 refused 1", tight_layout),
    ("Cookie 0, tile 0: P=3 gives 1,2,0", three_targets),
    ("Cookie 0, tile 0: P=4 gives 2,1,3,0", four_targets),
    ("First three states", three_states),
    ("N=1 K=1 P=4 U=4 T=1 cookie 0: L=3, C=4", example_layout),
    ("places of groups 0 to 3", example_places),
    (
        "Offset 9 is group 2, unit 0, byte 1, image byte 41",
        offset_nine,
    ),
    (
        "Offset 16 with length 0 is accepted, with length 1 refused 4",
        offset_sixteen,
    ),
    ("Failing target 3 makes two contents missing", failing_three),
    ("new homes (2,2) and (2,0)", homes_of_failing_three),
    ("2·142 = 1, 2·128 = 29", two_products),
    ("N=2 K=2: a(1,1)=232", one_coefficient),
    ("N=2 K=2: data 0,2 give parity 2,205", two_parities),
    (
        "list [a,d] or [d,a] puts the data on e; [e,a] puts it on d",
        spare_choices,
    ),
    ("the three lines of the pool that holds 41 42", three_lines),
    (
        "the whole pool in order is those lines, and back",
        lines_and_back,
    ),
    (
        "dividing by the spares too puts offset 9 on group 0, unit 2",
        slip,
    ),
    (
        "order 5: files that differ in the first word alone rise by it",
        first_words,
    ),
    (
        "order 5: files that differ in the second word alone rise by it",
        second_words,
    ),
    (
        "order 5: the first word is the more significant, at both ends of 64 bits",
        both_ends,
    ),
    (
        "order 5: the next file number is a pair, (0,0) if none remain",
        next_pairs,
    ),
    (
        "order 6: failing target 3 raises the count by 2, repair sets it to 0",
        count_of_failing_three,
    ),
    (
        "order 6: a count above T·C·(N+K), or raised above it, is 3",
        count_at_the_bound,
    ),
    (
        "order 6: an audit answers 14 if the stored count differs, the panel shows it",
        audit_of_each_count,
    ),
    (
        "order 6: from a true count every call keeps it true",
        counts_stay_true,
    ),
    (
        "order 7: failing target 3, our planner's plan is 2 0 1 3 1 0",
        plan_of_failing_three,
    ),
    (
        "order 7: of all two entries that plan is accepted, and the other way round",
        plans_of_failing_three,
    ),
    (
        "order 7: either leaves the image and record of plain repair",
        repairs_of_failing_three,
    ),
    (
        "order 7: where present units disagree, the ones named decide",
        named_unit_decides,
    ),
    (
        "order 7: nothing missing, the empty plan alone is accepted",
        plans_of_nothing,
    ),
    (
        "order 8: edition 2, cookie 0: tiles 0, 1 of P=3 give 0,2,1 and 1,2,0, of P=4 2,0,3,1 and 3,2,1,0",
        second_edition,
    ),
    (
        "order 8: four extra advances, then the exchanges go with the fifth state on",
        fifth_state,
    ),
    (
        "order 8: an edition of 0, 3 or 2^64 − 1 is 1 in every call",
        other_editions,
    ),
    (
        "order 8: the replay is edition 1, a line goes by the layout that it is lent",
        replayed_edition,
    ),
    (
        "order 9: the row of the examples in edition 2, unit by unit",
        example_moved,
    ),
    (
        "order 9: target 3 failed, repaired or not, the new image is the same",
        moves_of_failing_three,
    ),
    (
        "order 9: there and back mends spares and parity, and nothing else",
        there_and_back,
    ),
    (
        "order 9: reads agree over the whole capacity, spares are zero, whatever failed",
        reads_agree,
    ),
    (
        "order 9: a refused move is the lowest of 1, 2, 3 and leaves zeros",
        refused_moves,
    ),
    (
        "order 10: target 3 failed, repaired and taken back, the row is as before",
        swap_of_failing_three,
    ),
    (
        "order 10: list [d,a] has the data on e, and on d once d is back",
        data_goes_to_a_lower_spare,
    ),
    (
        "order 10: list [a,b] has contents 0, 1 on d, e, and content 1 on d once a is back",
        one_home_is_anothers_old_one,
    ),
    (
        "order 10: the others stay in order, the freed entry is 0, count and later entries stay",
        records_of_swaps,
    ),
    (
        "order 10: over the years every content is what encoding the file afresh gives",
        years,
    ),
    (
        "order 10: a refused swap is the lowest of 1, 2, 3, 4, 11, 16 and changes nothing",
        refused_swaps,
    ),
    (
        "order 11: 41 bytes in version 1, 44 in version 2, one line behind the other",
        lines_added,
    ),
    (
        "order 11: the newest record is shown, of version 1 as edition 1",
        newest_last,
    ),
    (
        "order 11: edition 2 as the newest is 17 to the old reader, else it shows the same",
        old_readers,
    ),
    (
        "order 11: a malformed line anywhere is 12 with its number",
        malformed_lines,
    ),
    (
        "order 11: another version, or numbers outside the bounds, make a line malformed",
        lines_out_of_bounds,
    ),
    (
        "order 11: a used length above the buffer is 5, no record 11, the rest is not read",
        used_lengths,
    ),
    (
        "order 11: a refused add is the lowest of 1, 5, 10 and changes nothing",
        refused_adds,
    ),
];

/// The names of the examples that fail.
pub fn failures() -> Vec<&'static str> {
    let failing = CHECKS.iter().filter(|(_, check)| !check());
    failing.map(|(name, _)| *name).collect()
}

fn example() -> Layout {
    layout(1, 1, 4, 4, 1, 0)
}

fn wide_layout() -> bool {
    let d = layout(4, 2, 20, 1, 1, 0).derived();
    (d.w, d.b, d.l, d.c) == (8, 40, 2, 5)
}

fn least_layout() -> bool {
    let d = layout(1, 0, 1, 1, 1, 0).derived();
    (d.l, d.c) == (1, 1)
}

fn tight_layout() -> bool {
    let refusal = |p| layout(16, 3, p, 1, 1, 0).refusal();
    (refusal(22), refusal(21)) == (0, 1)
}

fn three_targets() -> bool {
    let (refusal, entries) = permutation(&layout(1, 1, 3, 1, 1, 0), 0);
    refusal == 0 && entries[..4] == [1, 2, 0, 3]
}

fn four_targets() -> bool {
    let (refusal, entries) = permutation(&example(), 0);
    refusal == 0 && entries[..5] == [2, 1, 3, 0, 4]
}

fn three_states() -> bool {
    let first = advance(start(0, 0));
    let second = advance(first);
    [first, second, advance(second)]
        == [
            1_442_695_040_888_963_407,
            1_876_011_003_808_476_466,
            11_166_244_414_315_200_793,
        ]
}

fn example_layout() -> bool {
    let d = example().derived();
    (d.l, d.c, d.capacity) == (3, 4, 16)
}

fn example_places() -> bool {
    let wanted = [
        [(0, 2), (0, 1), (0, 3)],
        [(0, 0), (1, 2), (1, 1)],
        [(1, 3), (1, 0), (2, 2)],
        [(2, 1), (2, 3), (2, 0)],
    ];
    let lies = |group: usize, unit: usize| {
        let at = place(&example(), group as u64, unit as u64).1;
        (at.frame, at.target) == wanted[group][unit]
    };
    (0..4).all(|group| (0..3).all(|unit| lies(group, unit)))
}

fn offset_nine() -> bool {
    let (refusal, at) = file_byte(&example(), 9);
    let (refused_back, back) = image_byte(&example(), 41);
    (refusal, at.group, at.unit, at.byte, at.image) == (0, 2, 0, 1, 41)
        && (refused_back, back.group, back.unit, back.byte, back.offset) == (0, 2, 0, 1, Some(9))
}

fn offset_sixteen() -> bool {
    let shape = example();
    let (image, record) = ([0; 48], Record::default());
    let ranges = (range_refusal(&shape, 16, 0), range_refusal(&shape, 16, 1));
    let reads = (
        read(&shape, &record, &image, 16, &mut []),
        read(&shape, &record, &image, 16, &mut [9]),
    );
    ranges == (0, 4) && reads == (0, 4)
}

fn failing_three() -> bool {
    let shape = example();
    let mut image = [0; 48];
    let (refusal, record) = fail(&shape, &Record::default(), &image, 3);
    let (repaired, after, missing) = repair(&shape, &record, &mut image);
    (refusal, repaired, missing, after.k, after.q) == (0, 0, 2, 1, 1)
}

fn homes_of_failing_three() -> bool {
    let shape = example();
    let home = |group, content: usize| {
        let unit = homes(2, &unit_targets(&shape, group), &[3])[content];
        let at = place(&shape, group, unit as u64).1;
        (at.frame, at.target)
    };
    home(2, 0) == (2, 2) && home(3, 1) == (2, 0)
}

fn two_products() -> bool {
    (multiply(2, 142), multiply(2, 128)) == (1, 29)
}

fn one_coefficient() -> bool {
    coefficient(1, 1) == 232
}

fn two_parities() -> bool {
    let mut buffer = [0, 2, 0, 0];
    encode(&layout(2, 2, 6, 1, 1, 0), &mut buffer) == 0 && buffer == [0, 2, 2, 205]
}

fn spare_choices() -> bool {
    let targets: [u64; 5] = [10, 11, 12, 13, 14];
    let data_on = |list: [u64; 2]| targets[homes(3, &targets, &list)[0]];
    (data_on([10, 13]), data_on([13, 10]), data_on([14, 10])) == (14, 14, 13)
}

fn three_lines() -> bool {
    let shape = layout(1, 1, 3, 2, 1, 0);
    let mut image = [0; 6];
    if write(&shape, &Record::default(), &mut image, 0, &[0x41, 0x42]) != 0 {
        return false;
    }
    let wanted = ["00 000000 0000\n", "01 000000 4142\n", "02 000000 4142\n"];
    (0..3).all(|target| {
        let mut line = [1; 15];
        let refusal = hex_line(&shape, &image, target, 0, &mut line);
        refusal == 0 && line == wanted[target as usize].as_bytes()
    })
}

fn lines_and_back() -> bool {
    let shape = layout(1, 1, 3, 2, 1, 0);
    let lines = b"00 000000 0000\n01 000000 4142\n02 000000 4142\n";
    let (mut image, mut text) = ([7; 6], [1; 45]);
    read_text(&shape, lines, &mut image) == (0, 0)
        && image == [0, 0, 0x41, 0x42, 0x41, 0x42]
        && write_text(&shape, &image, &mut text) == 0
        && text == *lines
}

fn slip() -> bool {
    let wrong = example().u * example().derived().w;
    (9 / wrong, 9 % wrong / example().u) == (0, 2)
}

/// Slots of one device, all in use, whose files are these pairs. The cobs tell
/// them apart.
fn of_files(files: &[(u64, u64)]) -> Vec<Entry> {
    let record = |(at, (first, second)): (usize, &(u64, u64))| Entry {
        device: 5,
        file: pair(*first, *second),
        cob: pair(at as u64, 7),
    };
    files.iter().enumerate().map(record).collect()
}

fn pair(first: u64, second: u64) -> Wide {
    Wide { first, second }
}

/// Whether the files rise as they stand, each is found, and no two exchanged
/// neighbours or equal ones rise.
fn rise(files: &[(u64, u64)]) -> bool {
    let (slots, n) = (of_files(files), files.len() as u64);
    let found = |slot: &Entry| lookup(&slots, n, 5, slot.file) == (0, slot.cob);
    let falls = |two: &[(u64, u64)]| refusal(&of_files(&[two[1], two[0]]), 2) == 9;
    let repeats = |file: &(u64, u64)| refusal(&of_files(&[*file, *file]), 2) == 9;
    refusal(&slots, n) == 0
        && slots.iter().all(found)
        && files.windows(2).all(falls)
        && files.iter().all(repeats)
}

fn first_words() -> bool {
    rise(&[0, 1, 1 << 63, u64::MAX - 1, u64::MAX].map(|first| (first, 4)))
}

fn second_words() -> bool {
    rise(&[0, 1, 1 << 63, u64::MAX - 1, u64::MAX].map(|second| (4, second)))
}

fn both_ends() -> bool {
    let pairs = [0, 1, u64::MAX].map(|first| [(first, 0), (first, u64::MAX)]);
    rise(pairs.as_flattened())
}

fn next_pairs() -> bool {
    let slots = of_files(&[(0, u64::MAX), (1, 0), (u64::MAX, 0)]);
    let listed = |from: Wide, room: usize| {
        let mut out = vec![pair(9, 9); room];
        let (refusal, Listed { count, more, next }) = listing(&slots, 3, 5, from, &mut out);
        (refusal, count, more, next)
    };
    listed(pair(0, 0), 1) == (0, 1, true, pair(1, 0))
        && listed(pair(1, 0), 1) == (0, 1, true, pair(u64::MAX, 0))
        && listed(pair(0, u64::MAX), 0) == (0, 0, true, pair(0, u64::MAX))
        && listed(pair(1, 1), 1) == (0, 1, false, pair(0, 0))
        && listed(pair(u64::MAX, 1), 0) == (0, 0, false, pair(0, 0))
}

fn count_of_failing_three() -> bool {
    let shape = example();
    let mut image = [0; 48];
    let one = fail(&shape, &Record::default(), &image, 3).1;
    let mended = repair(&shape, &one, &mut image).1;
    (one.waiting, mended.waiting) == (2, 0)
}

/// A record of no failures with this count.
fn counted(waiting: u64) -> Record {
    Record {
        waiting,
        ..Record::default()
    }
}

fn count_at_the_bound() -> bool {
    let (shape, image) = (example(), [0; 48]);
    let failed = |waiting| fail(&shape, &counted(waiting), &image, 3);
    let shown = |waiting| panel(&shape, &counted(waiting), &image).0;
    most_missing(&shape) == 8
        && (failed(6).0, failed(6).1.waiting) == (0, 8)
        && (failed(7), failed(8)) == ((3, counted(7)), (3, counted(8)))
        && (shown(8), shown(9), shown(u64::MAX)) == (0, 3, 3)
}

fn audit_of_each_count() -> bool {
    let (shape, image) = (example(), [0; 48]);
    let one = fail(&shape, &Record::default(), &image, 3).1;
    (0..=8).all(|waiting| {
        let record = Record { waiting, ..one };
        let shown = Counts {
            waiting,
            failed: 1,
            repaired: 0,
        };
        let wanted = if waiting == 2 { 0 } else { WRONG_COUNT };
        audit(&shape, &record, &image) == wanted && panel(&shape, &record, &image) == (0, shown)
    })
}

/// Runs of the calls that hand a record back, from no failures on: after each,
/// refused or not, the count is that of the missing units.
fn counts_stay_true() -> bool {
    let mut draws = Draws::new(66);
    (0..40).all(|_| {
        let (n, k) = (1 + draws.draw(4), draws.draw(4));
        let p = n + 2 * k + draws.draw(4);
        let shape = layout(n, k, p, 1 + draws.draw(3), 1 + draws.draw(3), draws.high())
            .in_edition(1 + draws.draw(2));
        let mut image = vec![0; shape.derived().image as usize];
        let mut record = Record::default();
        (0..20).all(|_| {
            record = after_a_call(&mut draws, &shape, &record, &mut image);
            record.waiting == missing_units(&shape, &record)
        })
    })
}

fn after_a_call(draws: &mut Draws, shape: &Layout, record: &Record, image: &mut [u8]) -> Record {
    let target = draws.draw(shape.p + 1);
    let line = match draws.draw(8) {
        0 => return repair(shape, record, image).1,
        1..=3 => return fail(shape, record, image, target).1,
        6 | 7 => return swap(shape, record, image, record.failed[0]).1,
        4 => Event::Fail {
            target: target as u8,
        },
        _ => Event::Repair,
    };
    let room = 24 + 2 * image.len();
    play_line(shape, record, image, line.line().as_bytes(), room).record
}

/// The image of the row of the examples that holds the file `0123456789abcdef`.
fn example_stored() -> [u8; 48] {
    let mut image = [0; 48];
    write(
        &example(),
        &Record::default(),
        &mut image,
        0,
        b"0123456789abcdef",
    );
    image
}

/// The row with target 3 failed, and that image, but for target 3, which has
/// other bytes by now.
fn three_failed() -> (Layout, Record, [u8; 48]) {
    let (shape, mut image) = (example(), example_stored());
    let record = fail(&shape, &Record::default(), &image, 3).1;
    image[36..].fill(0xee);
    (shape, record, image)
}

/// What is missing is group 2's data and group 3's parity, and with N = 1 each
/// has one other content that may be its source.
const RISING: [u64; 6] = [2, 0, 1, 3, 1, 0];
const FALLING: [u64; 6] = [3, 1, 0, 2, 0, 1];

fn plan_of_failing_three() -> bool {
    let (shape, record, image) = three_failed();
    let (mut room, mut short) = ([9; 7], [9; 5]);
    draw_plan(&shape, &record, &image, &mut room) == (0, 6)
        && (&room[..6], room[6]) == (&RISING[..], 9)
        && draw_plan(&shape, &record, &image, &mut short) == (5, 0)
        && short == [9; 5]
}

/// All entries of a group up to 4, a content and a source up to 2: one more than
/// the row has of each.
fn all_entries() -> Vec<[u64; 3]> {
    let entry = |at: u64| [at / 9, at / 3 % 3, at % 3];
    (0..45).map(entry).collect()
}

fn plans_of_failing_three() -> bool {
    let (shape, record, image) = three_failed();
    all_entries().iter().all(|first| {
        all_entries().iter().all(|second| {
            let plan = [*first, *second].concat();
            let wanted = if plan == RISING || plan == FALLING {
                0
            } else {
                BAD_PLAN
            };
            check_plan(&shape, &record, &image, &plan) == wanted
        })
    })
}

/// The data of group 2, file bytes 8 to 11, goes to frame 2 of target 2, the
/// parity of group 3, with N = 1 its file bytes 12 to 15, to frame 2 of target 0.
fn repairs_of_failing_three() -> bool {
    let (shape, record, image) = three_failed();
    let (mut wanted, mut plain) = (image, image);
    wanted[32..36].copy_from_slice(b"89ab");
    wanted[8..12].copy_from_slice(b"cdef");
    let answer = repair(&shape, &record, &mut plain);
    let by = |plan: &[u64]| {
        let mut after = image;
        let (refusal, record, count) = repair_by(&shape, &record, &mut after, plan);
        (refusal, record, count) == answer && after == wanted
    };
    let (refusal, after, count) = answer;
    plain == wanted
        && (refusal, after.q, after.waiting, count) == (0, 1, 0, 2)
        && by(&RISING)
        && by(&FALLING)
}

/// N=1 K=2 with units on targets a b c d e, the data lost with a: its home
/// becomes d, and it is the first parity's or the second's byte, as is named.
fn named_unit_decides() -> bool {
    let shape = layout(1, 2, 5, 1, 1, 0);
    let begins = |unit| place(&shape, 0, unit).1.begins as usize;
    let mut image = [0; 5];
    for unit in 0..5 {
        image[begins(unit)] = b"abcde"[unit as usize];
    }
    let a = unit_targets(&shape, 0)[0];
    let record = fail(&shape, &Record::default(), &image, a).1;
    let by = |source| {
        let mut after = image;
        repair_by(&shape, &record, &mut after, &[0, 0, source]);
        [0, 1, 2, 3, 4].map(|unit| after[begins(unit)])
    };
    [0, 1, 2, 3].map(by) == [*b"abcde", *b"abcbe", *b"abcce", *b"abcde"]
}

fn plans_of_nothing() -> bool {
    let (shape, record, mut image) = three_failed();
    let repaired = repair(&shape, &record, &mut image).1;
    let empty = |record: &Record| check_plan(&shape, record, &image, &[]);
    let is_none = |entry: &[u64; 3]| check_plan(&shape, &repaired, &image, entry) == BAD_PLAN;
    (empty(&Record::default()), empty(&repaired), empty(&record)) == (0, 0, BAD_PLAN)
        && all_entries().iter().all(is_none)
}

fn second_edition() -> bool {
    let gives = |p, tile, wanted: &[u64]| {
        let shape = layout(1, 1, p, 1, 2, 0).in_edition(2);
        permutation(&shape, tile).1[..p as usize] == *wanted
    };
    gives(3, 0, &[0, 2, 1])
        && gives(3, 1, &[1, 2, 0])
        && gives(4, 0, &[2, 0, 3, 1])
        && gives(4, 1, &[3, 2, 1, 0])
}

/// The state that the first exchange goes with.
fn fifth_state() -> bool {
    let first = |edition| advance(begin(edition, 0, 0));
    (first(1), first(2)) == (1_442_695_040_888_963_407, 7_076_646_890_315_895_283)
}

/// What the calls without a record answer, with arguments that the row of the
/// examples takes.
fn answers_of_places(shape: &Layout) -> Vec<u64> {
    let (mut image, mut text) = ([0; 48], [0; 228]);
    let from = Cursor {
        target: 0,
        frame: 0,
    };
    let walked = match step(shape, from) {
        Step::Refused(number, _) => number,
        Step::At(..) | Step::Done(_) => 0,
    };
    vec![
        shape.numbers().0,
        permutation(shape, 0).0,
        inverse(shape, 0).0,
        place(shape, 0, 0).0,
        unit_at(shape, 0, 0).0,
        file_byte(shape, 0).0,
        image_byte(shape, 0).0,
        walked,
        encode(shape, &mut [0; 8]),
        rebuild(shape, &mut [0; 8], &[1]),
        hex_line(shape, &image, 0, 0, &mut [0; 19]),
        write_text(shape, &image, &mut text),
        read_text(shape, &text, &mut image).0,
        settings::add(2, shape, &mut [0; 44], 0).0,
    ]
}

/// And those with one, each from no failures on, but for a swap.
fn answers_of_pools(shape: &Layout) -> Vec<u64> {
    let (none, mut image, mut unit) = (Record::default(), [0; 48], [0; 4]);
    let mended = listed([3, 0, 0], 1);
    vec![
        read(shape, &none, &image, 0, &mut [9]),
        write(shape, &none, &mut image, 0, &[9]),
        write_list(shape, &none, &mut image, &[(0, 1)], &[9]).0,
        fail(shape, &none, &image, 3).0,
        repair(shape, &none, &mut image).0,
        prepare(shape, &none, &image, 0, 0, &mut unit),
        show(shape, &none, &image, &unit, 0, 0).0,
        panel(shape, &none, &image).0,
        audit(shape, &none, &image),
        check_plan(shape, &none, &image, &[]),
        repair_by(shape, &none, &mut image, &[]).0,
        draw_plan(shape, &none, &image, &mut []).0,
        move_edition(shape, &none, &image, &mut [9; 48]),
        swap(shape, &mended, &mut image, 3).0,
    ]
}

/// And a line of each event: the number that its answer begins with.
fn answers_of_lines(shape: &Layout) -> Vec<u64> {
    let lines: [&[u8]; 4] = [
        b"01 0000000000000000 41\n",
        b"02 03\n",
        b"03\n",
        b"04 0000000000000000 0000000000000001\n",
    ];
    let number = |line| {
        let answer = played(shape, &[line]);
        let word = answer.split_whitespace().next();
        word.and_then(|word| word.parse().ok()).expect("a number")
    };
    lines.into_iter().map(number).collect()
}

fn other_editions() -> bool {
    let all_are = |edition, wanted| {
        let shape = example().in_edition(edition);
        let answers = [
            answers_of_places(&shape),
            answers_of_pools(&shape),
            answers_of_lines(&shape),
        ];
        answers.concat().iter().all(|answer| *answer == wanted)
    };
    all_are(1, 0) && all_are(2, 0) && [0, 3, u64::MAX].iter().all(|e| all_are(*e, 1))
}

/// What these lines answer one after the other, on an image of zeros.
fn played(shape: &Layout, lines: &[&[u8]]) -> String {
    let length = shape.in_edition(1).derived().image;
    let (mut image, mut record) = (vec![0; length as usize], Record::default());
    let room = 24 + 2 * image.len();
    let mut answers = Vec::new();
    for line in lines {
        let played = play_line(shape, &record, &mut image, line, room);
        record = played.record;
        answers.extend(played.answer);
    }
    String::from_utf8(answers).expect("answers are ASCII")
}

/// Of a row of three targets, target 0 holds the spare in edition 1, where its
/// repair finds nothing missing, and the data in edition 2.
fn replayed_edition() -> bool {
    let first: &[u8] = b"01 01 03 0001 000001 0000000000000000\n";
    let events: [&[u8]; 2] = [b"02 00\n", b"03\n"];
    let row = layout(1, 1, 3, 1, 1, 0);
    first_line(first).layout == row
        && replay(&[first, events[0], events[1]].concat()) == b"0\n0 0\n"
        && played(&row, &events) == "0\n0 0\n"
        && played(&row.in_edition(2), &events) == "0\n0 1\n"
}

/// The image that a move leaves, where it is accepted: before, it held no zero.
fn moved(shape: &Layout, record: &Record, old: &[u8]) -> Option<Vec<u8>> {
    let mut new = vec![7; old.len()];
    (move_edition(shape, record, old, &mut new) == 0).then_some(new)
}

/// The file `0123456789abcdef` in edition 2, where P=4 gives 2,0,3,1: the three
/// frames of each target.
const MOVED: [[u8; 12]; 4] = [
    *b"0123\0\0\0\0cdef",
    *b"456789ab\0\0\0\0",
    *b"01234567\0\0\0\0",
    *b"\0\0\0\089abcdef",
];

fn example_moved() -> bool {
    let (first, none) = (example_stored(), Record::default());
    let (new, second) = (MOVED.as_flattened(), example().in_edition(2));
    moved(&example(), &none, &first).as_deref() == Some(new)
        && moved(&second, &none, new).as_deref() == Some(&first)
}

fn moves_of_failing_three() -> bool {
    let (shape, record, mut image) = three_failed();
    let unrepaired = moved(&shape, &record, &image);
    let mended = repair(&shape, &record, &mut image).1;
    let repaired = moved(&shape, &mended, &image);
    let is_same = |new: &Option<Vec<u8>>| new.as_deref() == Some(MOVED.as_flattened());
    is_same(&unrepaired) && is_same(&repaired)
}

/// From an image with one other byte, of each of its units in turn: a move shows
/// it in the data that it is of, and not at all where it is of a spare or of
/// parity, which is worked out afresh.
fn there_and_back() -> bool {
    let (first, none) = (example_stored(), Record::default());
    (0..48).all(|at| {
        let mut image = first;
        image[at] ^= 1;
        let new = moved(&example(), &none, &image).expect("the image has its length");
        let back = moved(&example().in_edition(2), &none, &new).expect("so has the new one");
        match image_byte(&example(), at as u64).1.offset {
            Some(_) => new != MOVED.as_flattened() && back[at] == image[at],
            None => new == MOVED.as_flattened() && back == first,
        }
    })
}

/// A drawn layout, and an image of it that holds a drawn file, or drawn bytes.
fn drawn_image(draws: &mut Draws) -> (Layout, Vec<u8>) {
    let (n, k) = (1 + draws.draw(4), draws.draw(4));
    let p = n + 2 * k + draws.draw(4);
    let shape = layout(n, k, p, 1 + draws.draw(3), 1 + draws.draw(3), draws.high())
        .in_edition(1 + draws.draw(2));
    let mut image = vec![0; shape.derived().image as usize];
    if draws.draw(3) == 0 {
        draws.fill(&mut image);
    } else {
        let mut file = vec![0; shape.derived().capacity as usize];
        draws.fill(&mut file);
        write(&shape, &Record::default(), &mut image, 0, &file);
    }
    (shape, image)
}

/// Pools from no failures on by fails and repairs, moved after each call.
fn reads_agree() -> bool {
    let mut draws = Draws::new(99);
    (0..40).all(|_| {
        let (shape, mut image) = drawn_image(&mut draws);
        let mut record = Record::default();
        (0..8).all(|_| {
            record = after_a_call(&mut draws, &shape, &record, &mut image);
            let length = image.len() / shape.p as usize;
            for target in record.listed() {
                draws.fill(&mut image[*target as usize * length..][..length]);
            }
            is_moved(&shape, &record, &image)
        })
    })
}

/// Whether the pool and what a move of it leaves show the same file, and every
/// spare there is zero.
fn is_moved(shape: &Layout, record: &Record, image: &[u8]) -> bool {
    let numbers = shape.derived();
    let (there, none) = (other_edition(shape), Record::default());
    let Some(new) = moved(shape, record, image) else {
        return false;
    };
    let [mut before, mut after] = [7, 8].map(|byte| vec![byte; numbers.capacity as usize]);
    let reads = (
        read(shape, record, image, 0, &mut before),
        read(&there, &none, &new, 0, &mut after),
    );
    let is_zero = |group, unit| {
        let begins = place(&there, group, unit).1.begins as usize;
        new[begins..begins + shape.u as usize]
            .iter()
            .all(|byte| *byte == 0)
    };
    let are_zero = |group| (shape.contents()..numbers.w).all(|unit| is_zero(group, unit));
    reads == (0, 0) && before == after && (0..numbers.groups).all(are_zero)
}

fn refused_moves() -> bool {
    let bad = Record {
        k: 2,
        ..Record::default()
    };
    let answers = |shape: &Layout, record: &Record, lengths: [usize; 2], wanted| {
        let [old, mut new] = lengths.map(|length| vec![7; length]);
        let refusal = move_edition(shape, record, &old, &mut new);
        refusal == wanted && new == vec![0; lengths[1]] && old == vec![7; lengths[0]]
    };
    let (good, flat) = (example(), Layout { u: 0, ..example() });
    answers(&flat, &bad, [47, 49], 1)
        && answers(&good.in_edition(0), &Record::default(), [48, 48], 1)
        && answers(&good, &bad, [48, 47], 2)
        && answers(&good, &bad, [49, 48], 2)
        && answers(&good, &Record::default(), [49, 49], 2)
        && answers(&good, &counted(0), [48, 0], 2)
        && answers(&good, &bad, [48, 48], 3)
        && answers(&good, &counted(9), [48, 48], 3)
}

/// A record of k failed targets, all repaired.
fn listed(failed: [u64; 3], k: u64) -> Record {
    Record {
        failed,
        k,
        q: k,
        waiting: 0,
    }
}

/// What lay on target 3 comes back to it; the spares that stood in keep what
/// they hold, since they are no new homes.
fn swap_of_failing_three() -> bool {
    let (shape, record, mut image) = three_failed();
    let mended = repair(&shape, &record, &mut image).1;
    let mut wanted = example_stored();
    wanted[32..36].copy_from_slice(b"89ab");
    wanted[8..12].copy_from_slice(b"cdef");
    // Frame 0 of target 3 is a spare that no content needs.
    wanted[36..40].fill(0x55);
    image[36..].fill(0x55);
    let (refusal, after) = swap(&shape, &mended, &mut image, 3);
    (refusal, after) == (0, Record::default()) && image == wanted
}

/// One group of N=1 K=2 with units on targets a b c d e, its units written `abcde`,
/// each a byte, as all of them stand after a swap under a list of two units'
/// targets, the unit of the target that comes back last.
fn units_after(list: [usize; 2], back: usize) -> [u8; 5] {
    let shape = layout(1, 2, 5, 1, 1, 0);
    let begins = |unit| place(&shape, 0, unit).1.begins as usize;
    let targets = unit_targets(&shape, 0);
    let mut image = [0; 5];
    for unit in 0..5 {
        image[begins(unit)] = b"abcde"[unit as usize];
    }
    let record = listed([targets[list[0]], targets[list[1]], 0], 2);
    swap(&shape, &record, &mut image, targets[back]);
    [0, 1, 2, 3, 4].map(|unit| image[begins(unit)])
}

fn data_goes_to_a_lower_spare() -> bool {
    units_after([3, 0], 3) == *b"abcee" && units_after([3, 0], 0) == *b"ebcde"
}

/// Content 0 comes home from d, and content 1 goes to d from e.
fn one_home_is_anothers_old_one() -> bool {
    units_after([0, 1], 0) == *b"dbcee"
        && units_after([0, 1], 1) == *b"aecde"
        && units_after([1, 0], 1) == *b"adcee"
}

fn records_of_swaps() -> bool {
    let shape = layout(1, 3, 7, 1, 1, 0);
    let after = |record: Record, target| swap(&shape, &record, &mut [7; 7], target);
    let with_3 = |record| Record {
        waiting: 3,
        ..record
    };
    let full = listed([5, 6, 4], 3);
    after(full, 5) == (0, listed([6, 4, 0], 2))
        && after(full, 6) == (0, listed([5, 4, 0], 2))
        && after(full, 4) == (0, listed([5, 6, 0], 2))
        && after(listed([5, 6, u64::MAX], 2), 5) == (0, listed([6, 0, u64::MAX], 1))
        && after(with_3(listed([5, 9, 5], 1)), 5) == (0, with_3(listed([0, 9, 5], 0)))
}

/// A row beside the file that it should hold.
struct Beside {
    shape: Layout,
    record: Record,
    image: Vec<u8>,
    file: Vec<u8>,
}

impl Beside {
    fn drawn(draws: &mut Draws) -> Beside {
        let (n, k) = (1 + draws.draw(4), 1 + draws.draw(3));
        let p = n + 2 * k + draws.draw(4);
        let shape = layout(n, k, p, 1 + draws.draw(3), 1 + draws.draw(2), draws.high())
            .in_edition(1 + draws.draw(2));
        Beside {
            shape,
            record: Record::default(),
            image: vec![0; shape.derived().image as usize],
            file: vec![0; shape.derived().capacity as usize],
        }
    }

    /// A write, drives that die up to K, a repair, and some of the list taken
    /// back in any order, with other bytes on every drive of it before.
    fn year(&mut self, draws: &mut Draws) {
        let at = draws.draw(self.file.len() as u64) as usize;
        draws.fill(&mut self.file[at..]);
        let (shape, bytes) = (&self.shape, &self.file[at..]);
        write(shape, &self.record, &mut self.image, at as u64, bytes);
        for _ in 0..1 + draws.draw(shape.k) {
            self.record = fail(shape, &self.record, &self.image, draws.draw(shape.p)).1;
        }
        self.record = repair(shape, &self.record, &mut self.image).1;
        let length = self.image.len() / shape.p as usize;
        for _ in 0..1 + draws.draw(self.record.k) {
            for target in self.record.listed() {
                draws.fill(&mut self.image[*target as usize * length..][..length]);
            }
            let back = self.record.listed()[draws.draw(self.record.k) as usize];
            self.record = swap(shape, &self.record, &mut self.image, back).1;
        }
    }

    /// Whether every content, at its home, is what encoding the file afresh gives.
    fn is_afresh(&self) -> bool {
        let (shape, u) = (&self.shape, self.shape.u as usize);
        let groups = self.file.chunks(shape.n as usize * u);
        (0..).zip(groups).all(|(group, file)| {
            let data: Vec<Vec<u8>> = file.chunks(u).map(<[u8]>::to_vec).collect();
            let contents = shape.contents() as usize;
            let homes = homes(contents, &unit_targets(shape, group), self.record.listed());
            (0..contents).all(|content| {
                let begins = place(shape, group, homes[content] as u64).1.begins as usize;
                self.image[begins..begins + u] == encoded(&data, content)
            })
        })
    }
}

fn years() -> bool {
    let mut draws = Draws::new(1010);
    (0..60).all(|_| {
        let mut row = Beside::drawn(&mut draws);
        (0..12).all(|_| {
            row.year(&mut draws);
            row.is_afresh() && audit(&row.shape, &row.record, &row.image) == 0
        })
    })
}

fn refused_swaps() -> bool {
    let shape = layout(1, 2, 5, 1, 1, 0);
    let answers = |shape: &Layout, record: &Record, length: usize, target, wanted| {
        let mut image = vec![7; length];
        let answer = swap(shape, record, &mut image, target);
        answer == (wanted, *record) && image == vec![7; length]
    };
    let (flat, waits) = (
        Layout { u: 0, ..shape },
        Record {
            q: 1,
            ..listed([3, 0, 2], 2)
        },
    );
    let bad = Record { q: 3, ..waits };
    answers(&flat, &bad, 4, 5, 1)
        && answers(&shape, &bad, 4, 5, 2)
        && answers(&shape, &bad, 5, 5, 3)
        && answers(&shape, &waits, 5, 5, 4)
        && answers(&shape, &waits, 5, 2, 11)
        && answers(&shape, &listed([3, 0, 2], 2), 5, 2, 11)
        && answers(&shape, &Record::default(), 5, 0, 11)
        && answers(&shape, &waits, 5, 3, NOT_REPAIRED)
        && answers(&shape, &waits, 5, 0, NOT_REPAIRED)
}

/// Lines of the row of the examples in version 1, and in version 2 in each
/// edition.
const OLD_LINE: &str = "01 01 01 04 0004 000001 0000000000000000\n";
const NEW_LINE: &str = "02 01 01 04 0004 000001 0000000000000000 01\n";
const SECOND_LINE: &str = "02 01 01 04 0004 000001 0000000000000000 02\n";

/// What the reader and the old reader say of lines one after the other.
fn read_lines(lines: &[&str]) -> [Settings; 2] {
    let text = lines.concat();
    [newest, newest_old].map(|reader| reader(text.as_bytes(), text.len()))
}

fn told(layout: Layout) -> Settings {
    Settings {
        layout,
        ..Settings::default()
    }
}

/// A refused answer: no number of the layout is left.
fn untold(refusal: u64, line: u64) -> Settings {
    Settings {
        refusal,
        line,
        ..Settings::default()
    }
}

fn lines_added() -> bool {
    let mut buffer = [b'.'; 144];
    let mut add = |version, y: &Layout, used| settings::add(version, y, &mut buffer, used);
    let answers = [
        add(1, &example(), 0),
        add(2, &example(), 41),
        add(2, &example().in_edition(2), 85),
    ];
    let text = [OLD_LINE, NEW_LINE, SECOND_LINE, "..............."].concat();
    answers == [(0, 41), (0, 85), (0, 129)] && buffer == *text.as_bytes()
}

fn newest_last() -> bool {
    let other = "01 02 00 02 0010 0000ff ffffffffffffffff\n";
    let newest = |lines: &[&str]| read_lines(lines)[0];
    newest(&[OLD_LINE, other]) == told(layout(2, 0, 2, 16, 255, u64::MAX))
        && newest(&[other, OLD_LINE]) == told(example())
        && newest(&[other, NEW_LINE]) == told(example())
        && newest(&[other, SECOND_LINE]) == told(example().in_edition(2))
        && newest(&[SECOND_LINE, OLD_LINE]) == told(example())
}

fn old_readers() -> bool {
    let unknown = [told(example().in_edition(2)), untold(UNKNOWN_EDITION, 0)];
    read_lines(&[SECOND_LINE]) == unknown
        && read_lines(&[OLD_LINE, NEW_LINE, SECOND_LINE]) == unknown
        && read_lines(&[SECOND_LINE, NEW_LINE]) == [told(example()); 2]
        && read_lines(&[SECOND_LINE, OLD_LINE]) == [told(example()); 2]
        && read_lines(&["\n", SECOND_LINE]) == [untold(12, 1); 2]
}

fn malformed_lines() -> bool {
    let wrong = [
        "01 01 01 04 000A 000001 0000000000000000\n",
        "01 01 01 04 0004 000001 0000000000000000",
        "01 01 01 04 0004 000001 0000000000000000\r\n",
        "01 01 01 04 0004 000001 0000000000000000 \n",
        "01 01 01 04 0004 000001 0000000000000000 01\n",
        "02 01 01 04 0004 000001 0000000000000000\n",
        "01  01 01 04 0004 000001 0000000000000000\n",
        "01 01 01 04 0004 00001 0000000000000000\n",
        "01 01 01 04 004 0000001 0000000000000000\n",
        "1 1 1 4 4 1 0\n",
        "\n",
    ];
    // A line that has lost its newline takes the next one with it.
    wrong.iter().all(|line| {
        read_lines(&[line, OLD_LINE, OLD_LINE]) == [untold(12, 1); 2]
            && read_lines(&[NEW_LINE, line, OLD_LINE]) == [untold(12, 2); 2]
            && read_lines(&[NEW_LINE, SECOND_LINE, line]) == [untold(12, 3); 2]
            && read_lines(&[line, line]) == [untold(12, 1); 2]
    })
}

fn lines_out_of_bounds() -> bool {
    let wrong = [
        "00 01 01 04 0004 000001 0000000000000000\n",
        "03 01 01 04 0004 000001 0000000000000000\n",
        "03 01 01 04 0004 000001 0000000000000000 01\n",
        "01 00 01 04 0004 000001 0000000000000000\n",
        "01 11 00 40 0004 000001 0000000000000000\n",
        "01 01 04 40 0004 000001 0000000000000000\n",
        "01 01 01 02 0004 000001 0000000000000000\n",
        "01 01 01 41 0004 000001 0000000000000000\n",
        "01 01 01 04 0000 000001 0000000000000000\n",
        "01 01 01 04 1001 000001 0000000000000000\n",
        "01 01 01 04 0004 000000 0000000000000000\n",
        "01 01 01 04 0004 010001 0000000000000000\n",
        "02 01 01 04 0004 000001 0000000000000000 00\n",
        "02 01 01 04 0004 000001 0000000000000000 03\n",
    ];
    let largest = "01 10 03 40 1000 010000 0000000000000000\n";
    let is_wrong = |line: &&str| read_lines(&[OLD_LINE, line]) == [untold(12, 2); 2];
    wrong.iter().all(is_wrong)
        && read_lines(&[largest]) == [told(layout(16, 3, 64, 4096, 65_536, 0)); 2]
}

fn used_lengths() -> bool {
    let text = [OLD_LINE, SECOND_LINE].concat();
    let both = |used| [newest, newest_old].map(|reader| reader(text.as_bytes(), used));
    both(0) == [untold(11, 0); 2]
        && both(40) == [untold(12, 1); 2]
        && both(41) == [told(example()); 2]
        && both(42) == [untold(12, 2); 2]
        && both(84) == [untold(12, 2); 2]
        && both(85) == read_lines(&[SECOND_LINE])
        && both(86) == [untold(5, 0); 2]
        && both(usize::MAX) == [untold(5, 0); 2]
}

fn refused_adds() -> bool {
    let answers = |version, y: &Layout, length: usize, used, wanted| {
        let mut buffer = vec![7; length];
        let answer = settings::add(version, y, &mut buffer, used);
        answer == (wanted, used) && buffer == vec![7; length]
    };
    let (good, second) = (example(), example().in_edition(2));
    let flat = Layout { u: 0, ..good };
    answers(1, &flat, 40, 41, 1)
        && answers(0, &good, 40, 41, 1)
        && answers(3, &second, 100, 0, 1)
        && answers(1, &second, 100, 0, 1)
        && answers(2, &good.in_edition(3), 100, 0, 1)
        && answers(1, &good, 40, 41, 5)
        && answers(2, &second, 40, usize::MAX, 5)
        && answers(1, &good, 40, 0, 10)
        && answers(2, &good, 84, 41, 10)
        && answers(2, &second, 41, 41, 10)
}

#[cfg(test)]
mod tests {
    #[test]
    fn the_documents_examples_hold() {
        assert_eq!(super::failures(), Vec::<&str>::new());
    }
}
