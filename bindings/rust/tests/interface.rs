//! The safe interface on a small pool and a small catalogue.
use splicebell::raw::splicebell_wide;
use splicebell::{
    Catalogue, Cursor, Entry, Key, Layout, ListRefusal, Mapped, Page, Panel, Pool, Range, Record,
    Refusal, TextRefusal, Traced, Unit,
};

/// Two data, two parity and two spare units a group over seven targets.
const LAYOUT: Layout = Layout { n: 2, k: 2, p: 7, u: 3, t: 2, cookie: 11, edition: 1 };

fn blank_image() -> Vec<u8> {
    vec![0; LAYOUT.measure().expect("the layout is good").image as usize]
}

fn photograph(length: usize) -> Vec<u8> {
    (0..length).map(|i| (i * 37 + 5) as u8).collect()
}

/// What stood on a dead drive is gone.
fn scribble(pool: &mut Pool, target: u64) {
    let drive = pool.image().len() / LAYOUT.p as usize;
    pool.image_mut()[target as usize * drive..][..drive].fill(0xee);
}

#[test]
fn a_pool_outlives_two_drives() -> Result<(), Refusal> {
    let mut image = blank_image();
    let mut pool = Pool::new(LAYOUT, &mut image);
    let capacity = LAYOUT.measure()?.capacity as usize;
    let mut file = photograph(capacity);
    pool.write(0, &file)?;
    for target in [5, 1] {
        pool.fail(target)?;
        scribble(&mut pool, target);
    }
    pool.write(4, b"again")?;
    file[4..9].copy_from_slice(b"again");
    let mut seen = vec![0; capacity];
    pool.read(0, &mut seen)?;
    assert_eq!(seen, file);
    assert_eq!(pool.fail(0), Err(Refusal::Dud));
    assert!(pool.repair()? > 0);
    assert_eq!(pool.record(), Record { failed: [5, 1, 0], k: 2, q: 2, waiting: 0 });
    assert_eq!(pool.repair()?, 0);
    pool.read(0, &mut seen)?;
    assert_eq!(seen, file);
    Ok(())
}

#[test]
fn a_look_shows_the_image_or_the_scratch() -> Result<(), Refusal> {
    let mut image = blank_image();
    let mut pool = Pool::new(LAYOUT, &mut image);
    pool.write(0, &photograph(12))?;
    let place = LAYOUT.place(1, 0)?;
    let mut scratch = [9; 3];
    assert_eq!(pool.look(1, 0, &mut scratch)?, &photograph(12)[6..9]);
    assert_eq!(scratch, [0; 3]);
    assert_eq!(pool.look(1, 0, &mut scratch)?.as_ptr(), &pool.image()[place.begins as usize]);
    pool.fail(place.target)?;
    scribble(&mut pool, place.target);
    assert_eq!(pool.look(1, 0, &mut scratch)?, &photograph(12)[6..9]);
    assert_eq!(scratch, photograph(12)[6..9]);
    assert_eq!(pool.look(1, 4, &mut scratch), Err(Refusal::Outside));
    assert_eq!(scratch, [0; 3]);
    Ok(())
}

#[test]
fn a_walk_visits_each_frame_once() -> Result<(), Refusal> {
    let frames = LAYOUT.measure()?.frames;
    let found = LAYOUT.walk(3).collect::<Result<Vec<_>, _>>()?;
    assert_eq!(found.len() as u64, frames);
    for (frame, (at, unit)) in (0..).zip(found) {
        assert_eq!(at, frame);
        assert_eq!(LAYOUT.unit_at(frame, 3)?, unit);
        let place = LAYOUT.place(unit.group, unit.unit)?;
        assert_eq!((place.frame, place.target), (frame, 3));
    }
    assert_eq!(LAYOUT.step(Cursor { target: 3, frame: frames })?, None);
    let beyond = Cursor { target: 3, frame: frames + 1 };
    assert_eq!(LAYOUT.step(beyond), Err(Refusal::Outside));
    let mut outside = LAYOUT.walk(7);
    assert_eq!(outside.next(), Some(Err(Refusal::Outside)));
    assert_eq!(outside.next(), None);
    Ok(())
}

#[test]
fn places_and_offsets_lead_to_each_other() -> Result<(), Refusal> {
    let (permutation, inverse) = (LAYOUT.permutation(1)?, LAYOUT.inverse(1)?);
    for column in 0..64 {
        assert_eq!(inverse[permutation[column] as usize] as usize, column);
    }
    let mapped = LAYOUT.map(10)?;
    assert_eq!((mapped.group, mapped.unit, mapped.byte), (1, 1, 1));
    let place = LAYOUT.place(mapped.group, mapped.unit)?;
    assert_eq!(mapped.image, place.begins + mapped.byte);
    assert_eq!(LAYOUT.unit_at(place.frame, place.target)?, Unit { group: 1, unit: 1 });
    assert_eq!(LAYOUT.permutation(2), Err(Refusal::Outside));
    Ok(())
}

#[test]
fn every_image_byte_leads_back() -> Result<(), Refusal> {
    let numbers = LAYOUT.measure()?;
    for offset in 0..numbers.capacity {
        let Mapped { group, unit, byte, image } = LAYOUT.map(offset)?;
        assert_eq!(LAYOUT.trace(image)?, Traced { group, unit, byte, offset: Some(offset) });
    }
    let mut data = 0;
    for image in 0..numbers.image {
        let traced = LAYOUT.trace(image)?;
        assert_eq!(LAYOUT.place(traced.group, traced.unit)?.begins + traced.byte, image);
        assert_eq!(traced.offset.is_some(), traced.unit < LAYOUT.n);
        data += u64::from(traced.offset.is_some());
    }
    assert_eq!(data, numbers.capacity);
    assert_eq!(LAYOUT.trace(numbers.image), Err(Refusal::Outside));
    assert_eq!(LAYOUT.trace(u64::MAX), Err(Refusal::Outside));
    assert_eq!(Layout { p: 65, ..LAYOUT }.trace(0), Err(Refusal::BadLayout));
    Ok(())
}

#[test]
fn refused_calls_leave_zeros_in_outputs_and_the_rest_alone() {
    let mut image = blank_image();
    image.fill(1);
    let twice = Record { failed: [4; 3], k: 2, q: 1, waiting: 5 };
    let mut pool = Pool::with_record(LAYOUT, twice, &mut image);
    let mut out = [8; 5];
    assert_eq!(pool.read(0, &mut out), Err(Refusal::BadRecord));
    assert_eq!(out, [0; 5]);
    out.fill(8);
    assert_eq!(pool.hex_line(0, 0, &mut out), Err(Refusal::BadBufferLength));
    assert_eq!(out, [0; 5]);
    out.fill(8);
    assert_eq!(pool.write_text(&mut out), Err(Refusal::BadBufferLength));
    assert_eq!(out, [0; 5]);
    out.fill(8);
    assert_eq!(pool.look(0, 0, &mut out), Err(Refusal::BadRecord));
    assert_eq!(out, [0; 5]);
    out.fill(8);
    assert_eq!(pool.move_edition(&mut out).unwrap_err(), Refusal::BadImageLength);
    assert_eq!(out, [0; 5]);
    assert_eq!(pool.write(0, &[2]), Err(Refusal::BadRecord));
    assert_eq!(pool.repair(), Err(Refusal::BadRecord));
    assert_eq!(pool.fail(6), Err(Refusal::BadRecord));
    assert_eq!(pool.swap(4), Err(Refusal::BadRecord));
    assert_eq!(pool.record(), twice);
    assert!(image.iter().all(|byte| *byte == 1));
    let mut group = [8; 11];
    assert_eq!(LAYOUT.encode(&mut group), Err(Refusal::BadBufferLength));
    assert_eq!(LAYOUT.rebuild(&[4], &mut group), Err(Refusal::Outside));
    assert_eq!(group, [8; 11]);
}

/// T·C·(N+K): no more units can be missing.
const ALL_CONTENTS: u64 = 2 * 7 * 4;

/// Nothing has failed; a count of 0 would be true.
fn waiting(waiting: u64) -> Record {
    Record { waiting, ..Record::default() }
}

/// The contents whose own place is on a target, found one by one.
fn contents_on(target: u64) -> Result<u64, Refusal> {
    let mut found = 0;
    for group in 0..LAYOUT.measure()?.groups {
        for content in 0..LAYOUT.n + LAYOUT.k {
            found += u64::from(LAYOUT.place(group, content)?.target == target);
        }
    }
    Ok(found)
}

#[test]
fn the_panel_shows_what_the_record_counts() -> Result<(), Refusal> {
    let mut image = blank_image();
    let mut pool = Pool::new(LAYOUT, &mut image);
    let shown = |waiting, failed, repaired| Ok(Panel { waiting, failed, repaired });
    assert_eq!(pool.panel(), shown(0, 0, 0));
    pool.fail(5)?;
    let on_5 = contents_on(5)?;
    assert!(on_5 > 0);
    assert_eq!(pool.panel(), shown(on_5, 1, 0));
    assert_eq!(pool.fail(5), Err(Refusal::AlreadyFailed));
    pool.fail(1)?;
    let both = on_5 + contents_on(1)?;
    assert_eq!(pool.panel(), shown(both, 2, 0));
    assert_eq!(pool.fail(0), Err(Refusal::Dud));
    pool.write(4, b"again")?;
    assert_eq!(pool.panel(), shown(both, 2, 0));
    pool.audit()?;
    assert_eq!(pool.repair()?, both);
    assert_eq!(pool.panel(), shown(0, 2, 2));
    pool.audit()
}

/// What stood on drive 5 lives on spares: some of them on drive 1, which failed next.
fn failed_after_a_repair(image: &mut [u8]) -> Result<Pool<'_>, Refusal> {
    let mut pool = Pool::new(LAYOUT, image);
    pool.fail(5)?;
    pool.repair()?;
    pool.fail(1)?;
    Ok(pool)
}

#[test]
fn a_later_failure_counts_what_was_moved_there() -> Result<(), Refusal> {
    let mut image = blank_image();
    let mut pool = failed_after_a_repair(&mut image)?;
    let missing = pool.record().waiting;
    assert!(missing > contents_on(1)?);
    pool.audit()?;
    assert_eq!(pool.panel(), Ok(Panel { waiting: missing, failed: 2, repaired: 1 }));
    assert_eq!(pool.repair()?, missing);
    pool.audit()
}

/// docs/ABI.md tells how: the targets that are not repaired fail again.
#[test]
fn a_record_kept_without_a_count_gets_one() -> Result<(), Refusal> {
    let mut image = blank_image();
    let kept = failed_after_a_repair(&mut image)?.record();
    let repaired = Record { k: kept.q, waiting: 0, ..kept };
    let mut pool = Pool::with_record(LAYOUT, repaired, &mut image);
    for target in &kept.failed[kept.q as usize..kept.k as usize] {
        pool.fail(*target)?;
    }
    assert_eq!(pool.record(), kept);
    pool.audit()
}

#[test]
fn a_false_count_changes_no_other_answer() -> Result<(), Refusal> {
    let (image, record) = with_dead_drives()?;
    for count in [0, record.waiting - 1, record.waiting + 1, ALL_CONTENTS] {
        let (mut image, mut same_image) = (image.clone(), image.clone());
        let mut truly = Pool::with_record(LAYOUT, record, &mut image);
        let recounted = Record { waiting: count, ..record };
        let mut falsely = Pool::with_record(LAYOUT, recounted, &mut same_image);
        assert_eq!(falsely.panel()?, Panel { waiting: count, ..truly.panel()? });
        assert_eq!(falsely.audit(), Err(Refusal::WrongCount));
        assert_eq!(falsely.write(4, b"again"), truly.write(4, b"again"));
        let (mut shown, mut same) = ([0; 20], [0; 20]);
        assert_eq!(falsely.read(1, &mut shown), truly.read(1, &mut same));
        assert_eq!(shown, same);
        let (mut moved, mut same) = (blank_image(), blank_image());
        falsely.move_edition(&mut moved)?;
        truly.move_edition(&mut same)?;
        assert_eq!(moved, same);
        assert_eq!(falsely.record().waiting, count);
        assert_eq!(falsely.repair(), truly.repair());
        assert_eq!(falsely.record(), truly.record());
        assert_eq!(falsely.image(), truly.image());
        falsely.audit()?;
    }
    Ok(())
}

#[test]
fn a_count_above_all_contents_is_a_bad_record() {
    for count in [ALL_CONTENTS + 1, u64::MAX] {
        let mut image = blank_image();
        image.fill(1);
        let mut pool = Pool::with_record(LAYOUT, waiting(count), &mut image);
        let mut out = [8; 3];
        assert_eq!(pool.read(0, &mut out), Err(Refusal::BadRecord));
        assert_eq!(out, [0; 3]);
        out.fill(8);
        assert_eq!(pool.look(0, 0, &mut out), Err(Refusal::BadRecord));
        assert_eq!(out, [0; 3]);
        let mut moved = vec![8; pool.image().len()];
        assert_eq!(pool.move_edition(&mut moved).unwrap_err(), Refusal::BadRecord);
        assert_eq!(moved, blank_image());
        assert_eq!(pool.write(0, &[2]), Err(Refusal::BadRecord));
        let listed = pool.write_pieces(&[(0, &[2])]);
        assert_eq!(listed.map_err(Refusal::from), Err(Refusal::BadRecord));
        assert_eq!(pool.fail(7), Err(Refusal::BadRecord));
        assert_eq!(pool.repair(), Err(Refusal::BadRecord));
        assert_eq!(pool.swap(7), Err(Refusal::BadRecord));
        assert_eq!(pool.panel(), Err(Refusal::BadRecord));
        assert_eq!(pool.audit(), Err(Refusal::BadRecord));
        assert_eq!(pool.record(), waiting(count));
        assert!(image.iter().all(|byte| *byte == 1));
    }
}

/// Such a fail is refused with 3 only where it has no other fault.
#[test]
fn a_fail_raises_no_count_above_all_contents() -> Result<(), Refusal> {
    let mut image = blank_image();
    let most = ALL_CONTENTS - contents_on(5)?;
    let mut pool = Pool::with_record(LAYOUT, waiting(most), &mut image);
    pool.fail(5)?;
    assert_eq!(pool.panel()?.waiting, ALL_CONTENTS);
    let full = pool.record();
    assert_eq!(pool.fail(1), Err(Refusal::BadRecord));
    assert_eq!(pool.fail(7), Err(Refusal::Outside));
    assert_eq!(pool.fail(5), Err(Refusal::AlreadyFailed));
    assert_eq!(pool.record(), full);
    let mut pool = Pool::with_record(LAYOUT, waiting(most + 1), &mut image);
    assert_eq!(pool.fail(5), Err(Refusal::BadRecord));
    assert_eq!(pool.record(), waiting(most + 1));
    let both = Record { failed: [5, 1, 0], k: 2, ..full };
    let mut pool = Pool::with_record(LAYOUT, both, &mut image);
    assert_eq!(pool.fail(0), Err(Refusal::Dud));
    Ok(())
}

/// A pool with a dead drive and any bytes on it, as text.
fn mailed() -> Result<(Vec<u8>, Vec<u8>), Refusal> {
    let mut image = blank_image();
    let mut pool = Pool::new(LAYOUT, &mut image);
    pool.write(0, &photograph(LAYOUT.measure()?.capacity as usize))?;
    pool.fail(6)?;
    scribble(&mut pool, 6);
    let mut text = vec![1; LAYOUT.text_length()? as usize];
    pool.write_text(&mut text)?;
    Ok((image, text))
}

#[test]
fn a_pool_goes_by_mail_and_comes_back() -> Result<(), Refusal> {
    let (mut image, text) = mailed()?;
    let mut lines = text.chunks(17);
    let mut line = [0; 17];
    let pool = Pool::new(LAYOUT, &mut image);
    for target in 0..LAYOUT.p {
        for frame in 0..LAYOUT.measure()?.frames {
            pool.hex_line(target, frame, &mut line)?;
            assert_eq!(lines.next(), Some(&line[..]));
        }
    }
    assert_eq!(lines.next(), None);
    let mut back = vec![9; image.len()];
    LAYOUT.read_text(&text, &mut back)?;
    assert_eq!(back, image);
    Ok(())
}

#[test]
fn a_refused_text_tells_its_line_and_leaves_zeros() -> Result<(), Refusal> {
    let (image, text) = mailed()?;
    let lines = text.len() as u64 / 17;
    let refused = |layout: Layout, text: &[u8], length: usize| {
        let mut image = vec![9; length];
        let why = layout.read_text(text, &mut image).expect_err("the text is not read");
        assert!(image.iter().all(|byte| *byte == 0));
        (why.refusal, why.line)
    };
    let wrong = |text: &[u8]| refused(LAYOUT, text, image.len());
    assert_eq!(wrong(b""), (Refusal::WrongLine, Some(1)));
    assert_eq!(wrong(&text[..17]), (Refusal::WrongLine, Some(2)));
    assert_eq!(wrong(&text[..text.len() - 1]), (Refusal::WrongLine, Some(lines)));
    assert_eq!(wrong(&[&text[..], b"\n"].concat()), (Refusal::WrongLine, Some(lines + 1)));
    let bad = Layout { p: 65, ..LAYOUT };
    assert_eq!(refused(bad, &text, image.len()), (Refusal::BadLayout, None));
    assert_eq!(refused(LAYOUT, b"", image.len() + 1), (Refusal::BadImageLength, None));
    Ok(())
}

#[test]
fn a_refused_text_says_why() {
    let told = |refusal, line| TextRefusal { refusal, line }.to_string();
    assert_eq!(told(Refusal::BadImageLength, None), "image length wrong");
    assert!(told(Refusal::WrongLine, Some(12)).starts_with("line 12: a text that is not"));
    assert_eq!(Layout { u: 0, ..LAYOUT }.text_length(), Err(Refusal::BadLayout));
}

/// An image that holds a file, with two dead drives and any bytes on them.
fn with_dead_drives() -> Result<(Vec<u8>, Record), Refusal> {
    let mut image = blank_image();
    let mut pool = Pool::new(LAYOUT, &mut image);
    pool.write(0, &photograph(LAYOUT.measure()?.capacity as usize))?;
    for target in [5, 1] {
        pool.fail(target)?;
        scribble(&mut pool, target);
    }
    let record = pool.record();
    Ok((image, record))
}

#[test]
fn a_list_leaves_what_its_writes_leave_one_after_the_other() -> Result<(), Refusal> {
    let (mut image, record) = with_dead_drives()?;
    let mut same_image = image.clone();
    let capacity = LAYOUT.measure()?.capacity;
    let pieces: [(u64, &[u8]); 6] = [
        (4, b"a photograph"),
        (capacity - 7, b"23.4 kg"),
        (11, b"graph again"),
        (0, b""),
        (3, b"THE"),
        (capacity, b""),
    ];
    let mut at_once = Pool::with_record(LAYOUT, record, &mut image);
    at_once.write_pieces(&pieces)?;
    let mut in_turn = Pool::with_record(LAYOUT, record, &mut same_image);
    for (offset, bytes) in pieces {
        in_turn.write(offset, bytes)?;
    }
    assert_eq!(at_once.image(), in_turn.image());
    let (mut overlaid, mut last) = ([0; 19], [0; 7]);
    at_once.read(3, &mut overlaid)?;
    at_once.read(capacity - 7, &mut last)?;
    assert_eq!((&overlaid, &last), (b"THEphotograph again", b"23.4 kg"));
    Ok(())
}

#[test]
fn a_refused_list_tells_its_range_and_stores_nothing() {
    let refused = |layout, record, ranges: &[(u64, u64)], length| {
        let mut image = blank_image();
        image.fill(1);
        let ranges: Vec<Range> =
            ranges.iter().map(|&(offset, length)| Range { offset, length }).collect();
        let mut pool = Pool::with_record(layout, record, &mut image);
        let why = pool.write_list(&ranges, &vec![2; length]).expect_err("the list is refused");
        assert!(image.iter().all(|byte| *byte == 1));
        (why.refusal, why.range)
    };
    let listed = |ranges: &[(u64, u64)], length| refused(LAYOUT, Record::default(), ranges, length);
    assert_eq!(listed(&[(0, 4), (81, 4), (90, 1)], 9), (Refusal::Outside, Some(2)));
    assert_eq!(listed(&[(0, 4), (0, u64::MAX)], 3), (Refusal::Outside, Some(2)));
    assert_eq!(listed(&[(85, 0); 64], 0), (Refusal::Outside, Some(1)));
    assert_eq!(listed(&[(0, 1); 65], 65), (Refusal::Outside, None));
    assert_eq!(listed(&[(0, 4), (80, 4)], 7), (Refusal::BadBufferLength, None));
    assert_eq!(listed(&[(0, 4), (80, 4)], 9), (Refusal::BadBufferLength, None));
    assert_eq!(listed(&[], 1), (Refusal::BadBufferLength, None));
    let (longer, none) = (Layout { t: 3, ..LAYOUT }, Record::default());
    assert_eq!(refused(Layout { p: 65, ..LAYOUT }, none, &[], 0), (Refusal::BadLayout, None));
    assert_eq!(refused(longer, none, &[(85, 1)], 1), (Refusal::BadImageLength, None));
    let unfailed = Record { q: 1, ..none };
    assert_eq!(refused(LAYOUT, unfailed, &[(85, 1)], 1), (Refusal::BadRecord, None));
}

#[test]
fn a_refused_list_says_why() {
    let told = |refusal, range| ListRefusal { refusal, range }.to_string();
    assert_eq!(told(Refusal::BadImageLength, None), "image length wrong");
    assert_eq!(told(Refusal::Outside, None), "more than 64 ranges");
    assert!(told(Refusal::Outside, Some(64)).starts_with("range 64: tile, group, unit, frame"));
}

/// The numbers of an entry of a plan: group, content, N sources.
const ENTRY: usize = 2 + 2;

/// The file written on, with a drive dead that was repaired and one that was not.
fn with_a_dead_drive_after_a_repair() -> Result<(Vec<u8>, Record), Refusal> {
    let mut image = blank_image();
    let mut pool = failed_after_a_repair(&mut image)?;
    pool.write(0, &photograph(LAYOUT.measure()?.capacity as usize))?;
    scribble(&mut pool, 1);
    let record = pool.record();
    Ok((image, record))
}

/// Our plan as it must be while nothing is repaired, told by the places of contents alone.
fn plan_by_places(dead: &[u64]) -> Result<Vec<u64>, Refusal> {
    let contents = 0..LAYOUT.n + LAYOUT.k;
    let mut plan = Vec::new();
    for group in 0..LAYOUT.measure()?.groups {
        let target = |content| LAYOUT.place(group, content).map(|place| place.target);
        let targets = contents.clone().map(target).collect::<Result<Vec<_>, _>>()?;
        let missing = |content: &u64| dead.contains(&targets[*content as usize]);
        for content in contents.clone().filter(missing) {
            let present = contents.clone().filter(|content| !missing(content));
            plan.extend([group, content].into_iter().chain(present.take(LAYOUT.n as usize)));
        }
    }
    Ok(plan)
}

/// The same entries, the last one first, each from the highest present contents.
fn plan_from_the_highest(ours: &[u64]) -> Vec<u64> {
    let missing = |group, content| ours.chunks(ENTRY).any(|entry| entry[..2] == [group, content]);
    let highest = |entry: &[u64]| {
        let (group, content) = (entry[0], entry[1]);
        let present = (0..LAYOUT.n + LAYOUT.k).rev().filter(move |c| !missing(group, *c));
        [group, content].into_iter().chain(present.take(LAYOUT.n as usize)).collect::<Vec<_>>()
    };
    ours.chunks(ENTRY).rev().flat_map(highest).collect()
}

#[test]
fn any_accepted_plan_leaves_what_repair_leaves() -> Result<(), Refusal> {
    for (image, record) in [with_dead_drives()?, with_a_dead_drive_after_a_repair()?] {
        let (mut image, mut same_image) = (image.clone(), image);
        let before = image.clone();
        let mut repaired = Pool::with_record(LAYOUT, record, &mut same_image);
        assert_eq!(repaired.repair(), Ok(record.waiting));
        let ours = Pool::with_record(LAYOUT, record, &mut image).drawn_plan()?;
        let other = plan_from_the_highest(&ours);
        assert_ne!(ours, other);
        for plan in [ours, other] {
            image.copy_from_slice(&before);
            let mut pool = Pool::with_record(LAYOUT, record, &mut image);
            pool.check_plan(&plan)?;
            assert_eq!((pool.image(), pool.record()), (&before[..], record));
            assert_eq!(pool.repair_by(&plan), Ok(record.waiting));
            assert_eq!((pool.image(), pool.record()), (repaired.image(), repaired.record()));
        }
    }
    Ok(())
}

/// Each is our plan with one fault.
fn wrong_plans(ours: &[u64]) -> Result<Vec<Vec<u64>>, Refusal> {
    let (first, rest) = ours.split_at(ENTRY);
    let but_the_last = &ours[..ours.len() - ENTRY];
    let mut wrong = vec![
        vec![],
        rest.to_vec(),
        ours[1..].to_vec(),
        [ours, &[0]].concat(),
        [ours, first].concat(),
        [first, but_the_last].concat(),
    ];
    let (groups, contents) = (LAYOUT.measure()?.groups, LAYOUT.n + LAYOUT.k);
    let (missing, source) = (first[1], first[2]);
    let changes = [
        (0, groups),
        (0, u64::MAX),
        (1, contents),
        (1, u64::MAX),
        (1, source),
        (2, contents),
        (2, u64::MAX),
        (2, missing),
        (3, source),
    ];
    let changed = |(at, number): (usize, u64)| {
        let mut plan = ours.to_vec();
        plan[at] = number;
        plan
    };
    wrong.extend(changes.map(changed));
    Ok(wrong)
}

#[test]
fn another_plan_is_refused_and_changes_nothing() -> Result<(), Refusal> {
    for (mut image, record) in [with_dead_drives()?, with_a_dead_drive_after_a_repair()?] {
        let before = image.clone();
        let mut pool = Pool::with_record(LAYOUT, record, &mut image);
        for plan in wrong_plans(&pool.drawn_plan()?)? {
            assert_eq!(pool.check_plan(&plan), Err(Refusal::BadPlan), "{plan:?}");
            assert_eq!(pool.repair_by(&plan), Err(Refusal::BadPlan), "{plan:?}");
            assert_eq!((pool.image(), pool.record()), (&before[..], record));
        }
    }
    Ok(())
}

#[test]
fn a_plan_is_drawn_at_the_beginning_of_its_buffer_or_not_at_all() -> Result<(), Refusal> {
    let (mut image, record) = with_dead_drives()?;
    let before = image.clone();
    let pool = Pool::with_record(LAYOUT, record, &mut image);
    let plan = plan_by_places(&[5, 1])?;
    assert_eq!(plan.len() as u64, ENTRY as u64 * pool.panel()?.waiting);
    assert_eq!(pool.drawn_plan(), Ok(plan.clone()));
    let mut longer = vec![9; plan.len() + 5];
    assert_eq!(pool.draw_plan(&mut longer), Ok(plan.len()));
    assert_eq!(longer, [&plan[..], &[9; 5]].concat());
    let mut too_short = vec![9; plan.len() - 1];
    assert_eq!(pool.draw_plan(&mut too_short), Err(Refusal::BadBufferLength));
    assert!(too_short.iter().all(|number| *number == 9));
    assert_eq!(image, before);
    Ok(())
}

#[test]
fn a_false_count_changes_no_plan() -> Result<(), Refusal> {
    for (image, record) in [with_dead_drives()?, with_a_dead_drive_after_a_repair()?] {
        for count in [0, record.waiting - 1, record.waiting + 1, ALL_CONTENTS] {
            let (mut image, mut same_image) = (image.clone(), image.clone());
            let mut truly = Pool::with_record(LAYOUT, record, &mut image);
            let recounted = Record { waiting: count, ..record };
            let mut falsely = Pool::with_record(LAYOUT, recounted, &mut same_image);
            let plan = truly.drawn_plan()?;
            assert_eq!(falsely.drawn_plan()?, plan);
            let mut too_short = vec![0; plan.len() - 1];
            assert_eq!(falsely.draw_plan(&mut too_short), Err(Refusal::BadBufferLength));
            falsely.check_plan(&plan)?;
            assert_eq!(falsely.repair_by(&plan), truly.repair_by(&plan));
            assert_eq!(falsely.record(), truly.record());
            assert_eq!(falsely.image(), truly.image());
        }
    }
    Ok(())
}

#[test]
fn where_nothing_is_missing_the_plan_is_empty() -> Result<(), Refusal> {
    let (mut image, record) = with_dead_drives()?;
    let mut pool = Pool::with_record(LAYOUT, record, &mut image);
    let done = pool.drawn_plan()?;
    pool.repair_by(&done)?;
    let (left, repaired) = (pool.image().to_vec(), pool.record());
    assert_eq!(repaired, Record { failed: [5, 1, 0], k: 2, q: 2, waiting: 0 });
    assert_eq!(pool.repair_by(&done), Err(Refusal::BadPlan));
    assert_eq!(pool.draw_plan(&mut []), Ok(0));
    assert_eq!(pool.drawn_plan(), Ok(vec![]));
    pool.check_plan(&[])?;
    assert_eq!(pool.repair_by(&[]), Ok(0));
    assert_eq!((pool.image(), pool.record()), (&left[..], repaired));
    Ok(())
}

#[test]
fn a_bad_pool_is_refused_before_its_plan() {
    let mut image = blank_image();
    image.fill(1);
    let length = image.len();
    let mut refused = |layout, record, bytes: usize| {
        let mut pool = Pool::with_record(layout, record, &mut image[..bytes]);
        let mut plan = [9; 1];
        let drawn = pool.draw_plan(&mut plan).err();
        assert_eq!((plan, pool.drawn_plan().err()), ([9; 1], drawn));
        assert_eq!((pool.check_plan(&plan).err(), pool.repair_by(&plan).err()), (drawn, drawn));
        assert_eq!(pool.record(), record);
        assert!(pool.image().iter().all(|byte| *byte == 1));
        drawn
    };
    let unfailed = Record { q: 1, ..Record::default() };
    let twice = Record { failed: [4; 3], k: 2, q: 1, waiting: 5 };
    let without_end = Record { k: u64::MAX, ..Record::default() };
    let bad = Layout { p: 65, ..LAYOUT };
    assert_eq!(refused(bad, unfailed, 0), Some(Refusal::BadLayout));
    assert_eq!(refused(LAYOUT, unfailed, length - 1), Some(Refusal::BadImageLength));
    for record in [unfailed, twice, without_end, waiting(ALL_CONTENTS + 1)] {
        assert_eq!(refused(LAYOUT, record, length), Some(Refusal::BadRecord));
    }
}

fn whole_file(pool: &Pool) -> Result<Vec<u8>, Refusal> {
    let mut file = vec![0; LAYOUT.measure()?.capacity as usize];
    pool.read(0, &mut file)?;
    Ok(file)
}

/// Any bytes make an image; these have not the parity of their data, and something in their spares.
fn of_any_bytes(failed: &[u64]) -> Result<(Vec<u8>, Record), Refusal> {
    let mut image = photograph(blank_image().len());
    let mut pool = Pool::new(LAYOUT, &mut image);
    for target in failed {
        pool.fail(*target)?;
    }
    let record = pool.record();
    Ok((image, record))
}

/// The new image is that of the file written into zeros: so also parity and spares are what they must be.
#[test]
fn a_moved_pool_is_what_its_file_makes_of_zeros() -> Result<(), Refusal> {
    let olds = [
        with_dead_drives()?,
        with_a_dead_drive_after_a_repair()?,
        of_any_bytes(&[])?,
        of_any_bytes(&[5])?,
    ];
    for (mut image, record) in olds {
        let before = image.clone();
        let pool = Pool::with_record(LAYOUT, record, &mut image);
        let file = whole_file(&pool)?;
        let mut into = vec![9; before.len()];
        let moved = pool.move_edition(&mut into)?;
        assert_eq!(moved.layout(), Layout { edition: 2, ..LAYOUT });
        assert_eq!(moved.record(), Record::default());
        assert_eq!(whole_file(&moved)?, file);
        let mut afresh = blank_image();
        Pool::new(moved.layout(), &mut afresh).write(0, &file)?;
        assert_eq!(moved.image(), afresh);
        assert_eq!(pool.image(), before);
    }
    Ok(())
}

/// Nothing has failed in the new pool, so it may lose K drives again.
#[test]
fn a_moved_pool_goes_on_and_outlives_drives_again() -> Result<(), Refusal> {
    let (mut image, record) = with_dead_drives()?;
    let pool = Pool::with_record(LAYOUT, record, &mut image);
    let mut file = whole_file(&pool)?;
    let mut into = blank_image();
    let mut moved = pool.move_edition(&mut into)?;
    for target in [5, 0] {
        moved.fail(target)?;
        scribble(&mut moved, target);
    }
    moved.write(4, b"again")?;
    file[4..9].copy_from_slice(b"again");
    assert_eq!(whole_file(&moved)?, file);
    moved.audit()?;
    assert!(moved.repair()? > 0);
    assert_eq!(whole_file(&moved)?, file);
    Ok(())
}

/// What a move is refused with, from an image and into one of these lengths.
fn move_refused(layout: Layout, record: Record, old: usize, new: usize) -> Refusal {
    let (mut image, mut into) = (vec![1; old], vec![9; new]);
    let pool = Pool::with_record(layout, record, &mut image);
    let refusal = pool.move_edition(&mut into).expect_err("the move is refused");
    assert_eq!((image, into), (vec![1; old], vec![0; new]));
    refusal
}

#[test]
fn a_refused_move_leaves_zeros_and_the_old_image_alone() {
    let right = blank_image().len();
    let unfailed = Record { q: 1, ..Record::default() };
    let twice = Record { failed: [4; 3], k: 2, q: 1, waiting: 5 };
    let without_end = Record { k: u64::MAX, ..Record::default() };
    let bad = Layout { p: 65, ..LAYOUT };
    for (old, new) in [(right, right), (0, right), (right, 0), (right + 1, right - 1)] {
        assert_eq!(move_refused(bad, unfailed, old, new), Refusal::BadLayout);
    }
    for wrong in [0, right - 1, right + 1, 2 * right] {
        for (old, new) in [(wrong, right), (right, wrong), (wrong, wrong)] {
            assert_eq!(move_refused(LAYOUT, unfailed, old, new), Refusal::BadImageLength);
        }
    }
    for record in [unfailed, twice, without_end, waiting(ALL_CONTENTS + 1)] {
        assert_eq!(move_refused(LAYOUT, record, right, right), Refusal::BadRecord);
    }
}

/// Where each content begins, group after group, on a pool that misses none.
fn homes(pool: &Pool) -> Result<Vec<usize>, Refusal> {
    let image = pool.image().as_ptr() as usize;
    let mut homes = Vec::new();
    for group in 0..LAYOUT.measure()?.groups {
        for content in 0..LAYOUT.n + LAYOUT.k {
            let mut scratch = [0; 3];
            homes.push(pool.look(group, content, &mut scratch)?.as_ptr() as usize - image);
        }
    }
    Ok(homes)
}

/// The same pool, repaired; what its dead drives hold stays.
fn repaired((mut image, record): (Vec<u8>, Record)) -> Result<(Vec<u8>, Record), Refusal> {
    let mut pool = Pool::with_record(LAYOUT, record, &mut image);
    pool.repair()?;
    let record = pool.record();
    Ok((image, record))
}

/// Takes a target back, and answers whether a content went to where another came from.
fn swapped(pool: &mut Pool, target: u64) -> Result<bool, Refusal> {
    let (before, old) = (pool.image().to_vec(), homes(pool)?);
    pool.swap(target)?;
    let new = homes(pool)?;
    let mut wanted = before.clone();
    for (from, to) in old.iter().zip(&new) {
        wanted[*to..][..3].copy_from_slice(&before[*from..][..3]);
    }
    assert_eq!(pool.image(), wanted);
    let moved = |at: &usize| new[*at] != old[*at];
    Ok((0..new.len()).filter(moved).any(|at| old.contains(&new[at])))
}

/// Any bytes may stand in the image: a swap moves them as they are, and changes no others.
#[test]
fn a_swap_takes_every_content_to_its_new_home() -> Result<(), Refusal> {
    let mut one_behind_another = false;
    let pools = [
        repaired(with_dead_drives()?)?,
        repaired(with_a_dead_drive_after_a_repair()?)?,
        repaired(of_any_bytes(&[5])?)?,
        repaired(of_any_bytes(&[0, 6])?)?,
    ];
    for (image, record) in pools {
        for target in &record.failed[..record.k as usize] {
            let mut image = image.clone();
            let mut pool = Pool::with_record(LAYOUT, record, &mut image);
            let file = whole_file(&pool)?;
            one_behind_another |= swapped(&mut pool, *target)?;
            assert_eq!(whole_file(&pool)?, file);
            pool.audit()?;
        }
    }
    assert!(one_behind_another);
    Ok(())
}

/// Each content is at its own place again, as in a pool that never lost a drive; only spares may hold something.
#[test]
fn a_row_with_all_drives_taken_back_is_whole() -> Result<(), Refusal> {
    let (mut image, record) = repaired(with_dead_drives()?)?;
    let mut pool = Pool::with_record(LAYOUT, record, &mut image);
    for target in [5, 1] {
        scribble(&mut pool, target);
        pool.swap(target)?;
    }
    assert_eq!(pool.record(), Record::default());
    let mut file = whole_file(&pool)?;
    let mut afresh = blank_image();
    Pool::new(LAYOUT, &mut afresh).write(0, &file)?;
    for home in homes(&pool)? {
        assert_eq!(pool.image()[home..][..3], afresh[home..][..3]);
    }
    for target in [1, 4] {
        pool.fail(target)?;
        scribble(&mut pool, target);
    }
    pool.write(4, b"again")?;
    file[4..9].copy_from_slice(b"again");
    assert_eq!(whole_file(&pool)?, file);
    pool.audit()?;
    assert_eq!(pool.repair()?, contents_on(1)? + contents_on(4)?);
    assert_eq!(whole_file(&pool)?, file);
    Ok(())
}

/// The limit is on drives that have failed at one time.
#[test]
fn drives_fail_and_come_back_without_end() -> Result<(), Refusal> {
    let mut image = blank_image();
    let mut pool = failed_after_a_repair(&mut image)?;
    let file = photograph(LAYOUT.measure()?.capacity as usize);
    pool.write(0, &file)?;
    for target in [3, 0, 5, 6, 2, 4, 1, 0, 3] {
        assert_eq!(pool.fail(target), Err(Refusal::Dud));
        pool.repair()?;
        let oldest = pool.record().failed[0];
        scribble(&mut pool, oldest);
        pool.swap(oldest)?;
        pool.fail(target)?;
        scribble(&mut pool, target);
        assert_eq!(whole_file(&pool)?, file);
        pool.audit()?;
    }
    Ok(())
}

/// Entries from k on are never read, and a count is not looked at.
#[test]
fn a_swap_changes_no_more_of_the_record_than_it_says() -> Result<(), Refusal> {
    let mut image = blank_image();
    let record = Record { failed: [5, 1, 9], k: 2, q: 2, waiting: ALL_CONTENTS };
    for (target, left) in [(5, 1), (1, 5)] {
        let mut pool = Pool::with_record(LAYOUT, record, &mut image);
        pool.swap(target)?;
        let shorter = Record { failed: [left, 0, 9], k: 1, q: 1, ..record };
        assert_eq!(pool.record(), shorter);
        pool.swap(left)?;
        assert_eq!(pool.record(), Record { failed: [0, 0, 9], k: 0, q: 0, ..record });
    }
    Ok(())
}

#[test]
fn the_other_drives_stay_in_order() -> Result<(), Refusal> {
    let of_three = Layout { k: 3, p: 9, ..LAYOUT };
    let mut image = vec![0; of_three.measure()?.image as usize];
    let record = Record { failed: [8, 2, 5], k: 3, q: 3, waiting: 0 };
    for (target, failed) in [(8, [2, 5, 0]), (2, [8, 5, 0]), (5, [8, 2, 0])] {
        let mut pool = Pool::with_record(of_three, record, &mut image);
        pool.swap(target)?;
        assert_eq!(pool.record(), Record { failed, k: 2, q: 2, ..record });
    }
    Ok(())
}

/// What a swap is refused with, on an image of this length.
fn swap_refused(layout: Layout, record: Record, length: usize, target: u64) -> Refusal {
    let mut image = vec![1; length];
    let mut pool = Pool::with_record(layout, record, &mut image);
    let refusal = pool.swap(target).expect_err("the swap is refused");
    assert_eq!(pool.record(), record);
    assert_eq!(image, vec![1; length]);
    refusal
}

#[test]
fn a_refused_swap_changes_nothing() {
    let right = blank_image().len();
    let unfailed = Record { q: 1, ..Record::default() };
    let twice = Record { failed: [4; 3], k: 2, q: 1, waiting: 5 };
    let without_end = Record { k: u64::MAX, ..Record::default() };
    let bad = Layout { p: 65, ..LAYOUT };
    for length in [0, right, right + 1] {
        assert_eq!(swap_refused(bad, unfailed, length, 9), Refusal::BadLayout);
    }
    for wrong in [0, right - 1, right + 1, 2 * right] {
        assert_eq!(swap_refused(LAYOUT, unfailed, wrong, 9), Refusal::BadImageLength);
    }
    for record in [unfailed, twice, without_end, waiting(ALL_CONTENTS + 1)] {
        assert_eq!(swap_refused(LAYOUT, record, right, 9), Refusal::BadRecord);
    }
    for q in 0..=2 {
        let failed = Record { failed: [5, 1, 3], k: 2, q, waiting: 7 };
        for target in [7, 9, u64::MAX] {
            assert_eq!(swap_refused(LAYOUT, failed, right, target), Refusal::Outside);
        }
        for target in [0, 2, 3, 4, 6] {
            assert_eq!(swap_refused(LAYOUT, failed, right, target), Refusal::NoSuchRecord);
        }
        if q < 2 {
            assert_eq!(swap_refused(LAYOUT, failed, right, 5), Refusal::NotRepaired);
            assert_eq!(swap_refused(LAYOUT, failed, right, 1), Refusal::NotRepaired);
        }
    }
    assert_eq!(swap_refused(LAYOUT, Record::default(), right, 0), Refusal::NoSuchRecord);
}

#[test]
fn a_replayed_day_leaves_what_its_calls_leave() -> Result<(), Refusal> {
    let day = "02 02 07 0003 000002 000000000000000b\n\
               01 0000000000000004 612062616720\n\
               02 05\n\
               01 0000000000000006 72656421\n\
               02 05\n\
               02 01\n\
               02 07\n\
               02 00\n\
               04 0000000000000004 0000000000000006\n\
               04 ffffffffffffffff 0000000000000001\n\
               04 0000000000000054 0000000000000000\n\
               03\n\
               03\n";
    let mut lines = day.split_inclusive('\n').map(str::as_bytes);
    let (layout, length) = Layout::from_first_line(lines.next().unwrap_or_default())?;
    assert_eq!((layout, length), (LAYOUT, LAYOUT.measure()?.image));
    let (mut image, mut same_image) = (blank_image(), blank_image());
    let mut direct = Pool::new(LAYOUT, &mut same_image);
    direct.write(4, b"a bag ")?;
    direct.fail(5)?;
    direct.write(6, b"red!")?;
    direct.fail(1)?;
    let missing = direct.repair()?;
    let mut replayed = Pool::new(LAYOUT, &mut image);
    let mut answer = vec![0; replayed.answer_length()];
    let mut printed = String::new();
    for line in lines {
        printed += &String::from_utf8_lossy(replayed.replay_line(line, &mut answer)?);
    }
    let read = "0 612072656421\n4\n0 \n";
    assert_eq!(printed, format!("0\n0\n0\n6\n0\n4\n7\n{read}0 {missing}\n0 0\n"));
    assert_eq!(replayed.image(), direct.image());
    assert_eq!(replayed.record(), direct.record());
    Ok(())
}

#[test]
fn a_line_that_is_not_played_changes_nothing() {
    let mut image = blank_image();
    image.fill(1);
    let record = Record { failed: [5, 1, 9], k: 1, q: 0, waiting: 3 };
    let mut pool = Pool::with_record(LAYOUT, record, &mut image);
    let mut answer = vec![8; pool.answer_length()];
    let longest = "01 0000000000000000 ".len() + 2 * 4140;
    let too_long = [b"01 0000000000000000 ", &vec![b'0'; 2 * 4141][..], b"\n"].concat();
    assert_eq!(too_long.len(), longest + 2 + 1);
    let malformed: [&[u8]; 8] =
        [b"", b"\n", b"02 0", b"02 00", b"02 0A\n", b"03\r\n", b"02 00\n\n", &too_long];
    for line in malformed {
        answer.fill(8);
        assert_eq!(pool.replay_line(line, &mut answer), Ok(&b"13\n"[..]));
        assert!(answer[3..].iter().all(|byte| *byte == 8));
    }
    answer.pop();
    assert_eq!(pool.replay_line(b"02 00\n", &mut answer), Err(Refusal::BadBufferLength));
    assert!(answer.iter().all(|byte| *byte == 0));
    assert_eq!(pool.record(), record);
    assert!(image.iter().all(|byte| *byte == 1));
}

#[test]
fn a_bad_pool_is_an_answer_and_no_refusal() -> Result<(), Refusal> {
    let mut image = blank_image();
    let length = image.len();
    let mut answer = vec![0; 24 + 2 * length];
    let mut played = |layout, record, bytes: usize| -> Result<Vec<u8>, Refusal> {
        let mut pool = Pool::with_record(layout, record, &mut image[..bytes]);
        let line = pool.replay_line(b"03\n", &mut answer)?.to_vec();
        assert_eq!(pool.record(), record);
        Ok(line)
    };
    let unfailed = Record { q: 1, ..Record::default() };
    assert_eq!(played(Layout { p: 65, ..LAYOUT }, unfailed, 0)?, b"1\n");
    assert_eq!(played(LAYOUT, unfailed, length - 1)?, b"2\n");
    assert_eq!(played(LAYOUT, unfailed, length)?, b"3\n");
    assert_eq!(played(LAYOUT, waiting(ALL_CONTENTS + 1), length)?, b"3\n");
    Ok(())
}

#[test]
fn empty_ranges_are_taken_anywhere_inside() -> Result<(), Refusal> {
    let mut image = blank_image();
    let mut pool = Pool::new(LAYOUT, &mut image);
    let capacity = LAYOUT.measure()?.capacity;
    pool.write(capacity, &[])?;
    pool.read(capacity, &mut [])?;
    assert_eq!(pool.read(capacity + 1, &mut []), Err(Refusal::Outside));
    pool.write_list(&[], &[])?;
    pool.write_pieces(&[(capacity, b""), (7, b"")])?;
    let past_the_end = pool.write_pieces(&[(capacity, b""), (capacity + 1, b"")]);
    assert_eq!(past_the_end.map_err(|why| why.range), Err(Some(2)));
    Ok(())
}

#[test]
fn a_catalogue_keeps_its_order() -> Result<(), Refusal> {
    let mut slots = [Entry::default(); 4];
    let mut catalogue = Catalogue::new(&mut slots, 0);
    for (device, file, cob) in [(2, 7, 70), (2, 0, 10), (1, 9, 90), (2, 7, 71)] {
        catalogue.insert(Entry::new(device, file, cob))?;
    }
    assert_eq!(catalogue.count(), 3);
    assert_eq!(catalogue.lookup(Key { device: 2, file: 7 })?, 71);
    let mut cobs = [5; 3];
    let all = catalogue.listing(Key { device: 2, file: 0 }, &mut cobs)?;
    assert_eq!((all, cobs), (Page { count: 2, next: None }, [10, 71, 5]));
    let none_fit = catalogue.listing(Key { device: 2, file: 0 }, &mut [])?;
    assert_eq!(none_fit, Page { count: 0, next: Some(0) });
    assert_eq!(catalogue.delete(Entry::new(1, 9, 91)), Err(Refusal::NoSuchRecord));
    catalogue.delete(Entry::new(1, 9, 90))?;
    assert_eq!(catalogue.count(), 2);
    assert_eq!(catalogue.slots()[2..], [Entry::default(); 2]);
    Ok(())
}

/// Both ends of each word, in rising order, with their words.
const WIDE: [(u128, u64, u64); 7] = [
    (0, 0, 0),
    (1, 0, 1),
    (u64::MAX as u128, 0, u64::MAX),
    (1 << 64, 1, 0),
    ((1 << 64) + 1, 1, 1),
    (u128::MAX - u64::MAX as u128, u64::MAX, 0),
    (u128::MAX, u64::MAX, u64::MAX),
];

#[test]
fn a_number_is_a_pair_with_the_more_significant_word_first() {
    for (number, first, second) in WIDE {
        assert_eq!(splicebell_wide::from(number), splicebell_wide { first, second });
        assert_eq!(u128::from(splicebell_wide { first, second }), number);
    }
    for (number, first, second) in WIDE {
        for (other, other_first, other_second) in WIDE {
            assert_eq!(number.cmp(&other), (first, second).cmp(&(other_first, other_second)));
        }
    }
}

#[test]
fn an_entry_is_kept_in_words_and_shown_in_numbers() {
    for (file, ..) in WIDE {
        for (cob, ..) in WIDE {
            let entry = Entry::new(3, file, cob);
            assert_eq!((entry.device(), entry.file(), entry.cob()), (3, file, cob));
            assert_eq!(entry.key(), Key { device: 3, file });
            assert_eq!(
                format!("{entry:?}"),
                format!("Entry {{ device: 3, file: {file}, cob: {cob} }}")
            );
        }
    }
    assert_eq!(Entry::default(), Entry::new(0, 0, 0));
}

/// A record for each of those files; their cobs are those numbers too, falling.
fn wide_entries() -> Vec<Entry> {
    WIDE.iter().zip(WIDE.iter().rev()).map(|(file, cob)| Entry::new(9, file.0, cob.0)).collect()
}

#[test]
fn a_catalogue_keeps_wide_numbers_in_order() -> Result<(), Refusal> {
    let in_order = wide_entries();
    let mut slots = [Entry::default(); WIDE.len()];
    let mut catalogue = Catalogue::new(&mut slots, 0);
    for at in [3, 6, 0, 5, 2, 1, 4] {
        catalogue.insert(in_order[at])?;
    }
    assert_eq!(catalogue.slots(), in_order);
    for entry in &in_order {
        assert_eq!(catalogue.lookup(entry.key())?, entry.cob());
    }
    for other_cob in [in_order[1].cob() ^ 1, in_order[1].cob() ^ 1 << 64] {
        let other = Entry::new(9, 1, other_cob);
        assert_eq!(catalogue.delete(other), Err(Refusal::NoSuchRecord));
    }
    catalogue.delete(in_order[1])?;
    assert_eq!(catalogue.lookup(in_order[1].key()), Err(Refusal::NoSuchRecord));
    let left = [&in_order[..1], &in_order[2..], &[Entry::default()]].concat();
    assert_eq!((catalogue.count(), catalogue.slots()), (6, &left[..]));
    Ok(())
}

/// The output is lent as pairs: only those that were written may be turned into numbers.
#[test]
fn a_listing_writes_wide_numbers_and_leaves_the_rest() -> Result<(), Refusal> {
    let mut slots = wide_entries();
    let in_order = slots.clone();
    let catalogue = Catalogue::new(&mut slots, WIDE.len());
    let rest = u128::from(u64::MAX);
    for (at, entry) in in_order.iter().enumerate() {
        let mut cobs = [rest; 3];
        let page = catalogue.listing(entry.key(), &mut cobs)?;
        let onward: Vec<u128> = in_order[at..].iter().take(3).map(Entry::cob).collect();
        assert_eq!(cobs[..page.count], onward);
        assert!(cobs[page.count..].iter().all(|cob| *cob == rest));
        assert_eq!(page.next, in_order.get(at + 3).map(Entry::file));
    }
    Ok(())
}

#[test]
fn a_bad_catalogue_is_refused_and_kept() {
    let falling = [Entry::new(2, 0, 1), Entry::new(1, 0, 2)];
    let mut slots = falling;
    let mut catalogue = Catalogue::new(&mut slots, 2);
    let mut cobs = [u128::MAX; 2];
    let listed = catalogue.listing(Key { device: 2, file: 0 }, &mut cobs);
    assert_eq!((listed, cobs), (Err(Refusal::BadCatalogue), [0; 2]));
    assert_eq!(catalogue.insert(falling[0]), Err(Refusal::BadCatalogue));
    assert_eq!(catalogue.delete(falling[0]), Err(Refusal::BadCatalogue));
    assert_eq!((catalogue.count(), catalogue.slots()), (2, &falling[..]));
}

const LARGEST: Layout = Layout { n: 16, k: 3, p: 22, u: 4096, t: 1, cookie: 5, edition: 1 };

fn in_a_thread_of(kib: usize, calls: fn() -> Result<(), Refusal>) {
    let small = std::thread::Builder::new().stack_size(kib * 1024);
    let thread = small.spawn(calls).expect("a thread can be made");
    assert_eq!(thread.join().expect("the thread ends"), Ok(()));
}

/// docs/ABI.md states what the deepest calls take: of these a write, a list of writes, a replayed write.
#[test]
fn a_thread_of_64_kib_is_enough() {
    in_a_thread_of(64, || {
        let mut image = vec![0; LARGEST.measure()?.image as usize];
        let mut pool = Pool::new(LARGEST, &mut image);
        for target in [3, 7, 11] {
            pool.fail(target)?;
        }
        let mut file = vec![1; 16 * 4096 - 2];
        pool.write(1, &file)?;
        pool.write_pieces(&[(1, &file), (0, b"again")])?;
        let longest = format!("01 {:016x} {}\n", 1, "5a".repeat(4140));
        let mut answer = vec![0; pool.answer_length()];
        for line in [&longest, "04 0000000000000000 0000000000010000\n"] {
            pool.replay_line(line.as_bytes(), &mut answer)?;
            assert_eq!(answer[0], b'0');
        }
        pool.audit()?;
        let mut upgraded = vec![0; pool.image().len()];
        pool.move_edition(&mut upgraded)?;
        pool.repair()?;
        pool.swap(7)?;
        pool.read(1, &mut file)
    });
}

/// Of a plan that is tested the groups are marked on the stack.
#[test]
fn a_thread_of_128_kib_is_enough_for_plans() {
    in_a_thread_of(128, || {
        let mut image = vec![0; LARGEST.measure()?.image as usize];
        let mut pool = Pool::new(LARGEST, &mut image);
        for target in [3, 7, 11] {
            pool.fail(target)?;
        }
        let plan = pool.drawn_plan()?;
        pool.check_plan(&plan)?;
        pool.repair_by(&plan).map(|_| ())
    });
}
