//! A kiosk's day, called from Rust. The C program in ../c tells the same in the same words.
use splicebell::{ListRefusal, Panel, Pool, Result, Settings, Version};

/// The row's settings, a line of version 1: two data units, one parity unit and one spare a group, over five drives;
/// units of eight bytes, one tile, the cookie 7.
const FITTED: &[u8] = b"01 02 01 05 0008 000001 0000000000000007\n";
const FIRST: &str = "Mrs Abel: a red suitcase";
const SECOND: &str = "Mr Zorn: two skis";
const WEIGHT: &str = "7.4 kg";
const TAG: &str = "tag 0217";
const SECOND_AT: u64 = 24;
const WEIGHT_AT: u64 = 48;
const TAG_AT: u64 = 56;
const TOO_FAR: u64 = 76;
const LOST: u64 = 2;
const LOST_LATER: u64 = 4;
const ENTRY: usize = 2 + 2;

fn store(pool: &mut Pool, at: u64, photograph: &str) -> Result<()> {
    pool.write(at, photograph.as_bytes())?;
    println!("A kiosk stores \"{photograph}\" at {at}.");
    Ok(())
}

fn show(pool: &Pool, at: u64, bytes: usize) -> Result<()> {
    let mut photograph = vec![0; bytes];
    pool.read(at, &mut photograph)?;
    println!("The claims desk reads \"{}\" at {at}.", String::from_utf8_lossy(&photograph));
    Ok(())
}

/// What the service panel shows, once an audit has found its count true.
fn panel(pool: &Pool) -> Result<()> {
    pool.audit()?;
    let Panel { waiting, failed, repaired } = pool.panel()?;
    println!(
        "The service panel shows units that wait for repair: {waiting}, drives failed: {failed}, repaired: {repaired}."
    );
    Ok(())
}

fn dump(pool: &Pool, frames: u64) -> Result<()> {
    let mut line = [0; 11 + 2 * 8];
    for target in 0..pool.layout().p {
        for frame in 0..frames {
            pool.hex_line(target, frame, &mut line)?;
            print!("{}", String::from_utf8_lossy(&line));
        }
    }
    Ok(())
}

/// The last session's photograph, weight and tag in one call.
fn store_session(pool: &mut Pool, tag_at: u64) -> std::result::Result<(), ListRefusal> {
    let (photograph, weight, tag) = (SECOND.as_bytes(), WEIGHT.as_bytes(), TAG.as_bytes());
    pool.write_pieces(&[(SECOND_AT, photograph), (WEIGHT_AT, weight), (tag_at, tag)])
}

/// All of a session is stored, or nothing.
fn end_session(pool: &mut Pool) -> Result<()> {
    let refused = store_session(pool, TOO_FAR).expect_err("the file ends before that");
    let mut photograph = [0; SECOND.len()];
    pool.read(SECOND_AT, &mut photograph)?;
    let stored = if photograph == [0; SECOND.len()] { "nothing" } else { "something" };
    let (number, range) = (refused.refusal.number(), refused.range.unwrap_or(0));
    println!(
        "A session with its tag at {TOO_FAR} is refused with {number} at range {range}, and {stored} of it is stored."
    );
    store_session(pool, TAG_AT)?;
    println!(
        "Then \"{SECOND}\" is stored at {SECOND_AT}, \"{WEIGHT}\" at {WEIGHT_AT}, \"{TAG}\" at {TAG_AT}, in one call."
    );
    Ok(())
}

/// The bytes of one drive.
fn drive<'a>(pool: &'a mut Pool, target: u64) -> &'a mut [u8] {
    let length = pool.image().len() / pool.layout().p as usize;
    &mut pool.image_mut()[target as usize * length..][..length]
}

/// A drive dies.
fn lose(pool: &mut Pool, target: u64) -> Result<()> {
    pool.fail(target)?;
    drive(pool, target).fill(0xff);
    println!("Drive {target} dies, and what stood on it is lost.");
    panel(pool)
}

/// The row controller takes the groups in an order of its own: our plan with its last entry first. An entry has a
/// group, the lost unit of it, and the two units to rebuild that from.
fn propose(pool: &Pool) -> Result<Vec<u64>> {
    let ours = pool.drawn_plan()?;
    let other: Vec<u64> = ours.chunks(ENTRY).rev().flatten().copied().collect();
    println!("The row controller plans the repair:");
    for entry in other.chunks(ENTRY) {
        let (group, unit) = (entry[0], entry[1]);
        println!("of group {group} unit {unit}, from the units {} and {}", entry[2], entry[3]);
    }
    Ok(other)
}

/// A plan that would read a lost unit is refused; an accepted one leaves what plain repair leaves.
fn repair_by(pool: &mut Pool, proposed: &[u64]) -> Result<u64> {
    let mut wrong = proposed.to_vec();
    wrong[2] = wrong[1];
    let refusal = pool.check_plan(&wrong).expect_err("a lost unit is no source");
    println!("With the lost unit as its own source, that is refused with {}.", refusal.number());
    pool.check_plan(proposed)?;
    let mut copy = pool.image().to_vec();
    Pool::with_record(pool.layout(), pool.record(), &mut copy).repair()?;
    let missing = pool.repair_by(proposed)?;
    let left = if copy == pool.image() { "the same bytes as" } else { "other bytes than" };
    println!("As it is, it leaves {left} repair without a plan.");
    Ok(missing)
}

/// What stood on the dead drive is stored on the others.
fn repair(pool: &mut Pool) -> Result<()> {
    let too_early = pool.swap(LOST).expect_err("units are missing").number();
    println!("A new drive {LOST} is refused with {too_early} before the row is repaired.");
    let proposed = propose(pool)?;
    let missing = repair_by(pool, &proposed)?;
    println!("The row is repaired: {missing} units were missing.");
    panel(pool)?;
    show(pool, 0, FIRST.len())?;
    show(pool, SECOND_AT, SECOND.len())
}

/// Field staff mail the row as text; the desk takes it back, and refuses a copy that was spoilt.
fn mail(pool: &Pool) -> Result<()> {
    let row = pool.layout();
    let line = 11 + 2 * row.u as usize;
    let mut text = vec![0; row.text_length()? as usize];
    pool.write_text(&mut text)?;
    println!("The row is mailed as a text of {} lines.", text.len() / line);
    let mut copy = vec![0; pool.image().len()];
    row.read_text(&text, &mut copy)?;
    println!(
        "The copy read from it is {}.",
        if copy == pool.image() { "the same" } else { "another" }
    );

    text[6 * line + 2] = b'\t';
    let wrong = row.read_text(&text, &mut copy).expect_err("a tab is no space");
    let left = if copy.iter().all(|byte| *byte == 0) { "is zeros" } else { "still holds bytes" };
    let (number, at) = (wrong.refusal.number(), wrong.line.unwrap_or(0));
    println!("With a tab in it, it is refused with {number} at line {at}, and the copy {left}.");
    Ok(())
}

/// The row is upgraded in a second image, where nothing has failed, and from there moved back and forth.
fn upgrade(pool: &Pool) -> Result<()> {
    let length = pool.image().len();
    let [mut second, mut third, mut fourth] = [(); 3].map(|()| vec![0; length]);
    let upgraded = pool.move_edition(&mut second)?;
    println!("The row is upgraded to edition {}, in a second image.", upgraded.layout().edition);
    panel(&upgraded)?;
    show(&upgraded, 0, FIRST.len())?;
    show(&upgraded, SECOND_AT, SECOND.len())?;

    let back = upgraded.move_edition(&mut third)?;
    let again = back.move_edition(&mut fourth)?;
    let has = if again.image() == upgraded.image() { "the same" } else { "other" };
    let (old, new) = (back.layout().edition, again.layout().edition);
    println!("Moved back to edition {old}, and to edition {new} again, it has {has} bytes.");
    let too_short = &mut second[1..];
    let refusal = pool.move_edition(too_short).expect_err("a byte is missing").number();
    let left =
        if too_short.iter().all(|byte| *byte == 0) { "is zeros" } else { "still holds bytes" };
    println!(
        "Into an image that is a byte too short a move is refused with {refusal}, and that image {left}."
    );
    Ok(())
}

/// Whether every data and parity unit stands at its own place with the bytes that it had there.
fn same_units(pool: &Pool, before: &[u8], groups: u64) -> Result<bool> {
    let row = pool.layout();
    for group in 0..groups {
        for unit in 0..row.n + row.k {
            let begins = row.place(group, unit)?.begins as usize;
            let its_bytes = begins..begins + row.u as usize;
            if pool.image()[its_bytes.clone()] != before[its_bytes] {
                return Ok(false);
            }
        }
    }
    Ok(true)
}

/// A new drive, with anything on it, is put in for the dead one.
fn take_back(pool: &mut Pool, target: u64) -> Result<()> {
    drive(pool, target).fill(0xee);
    pool.swap(target)?;
    println!("In the afternoon drive {target} is swapped for a new one, and taken back.");
    panel(pool)
}

/// The row is whole again, so another drive may die.
fn afternoon(pool: &mut Pool, before: &[u8], groups: u64) -> Result<()> {
    let dud = pool.fail(LOST_LATER).expect_err("one drive is dead").number();
    println!("While drive {LOST} is dead, the death of drive {LOST_LATER} is refused with {dud}.");
    take_back(pool, LOST)?;
    let are =
        if same_units(pool, before, groups)? { "what they were" } else { "not what they were" };
    println!("All data and parity units are {are} before it died.");
    let again = pool.swap(LOST).expect_err("it is back").number();
    println!("To take it back again is refused with {again}.");
    lose(pool, LOST_LATER)?;
    show(pool, 0, FIRST.len())?;
    show(pool, SECOND_AT, SECOND.len())?;
    show(pool, TAG_AT, TAG.len())
}

/// The row is upgraded for good. Its settings tell so in a line of version 2, which a reader of version 1 refuses: it
/// would look for the photographs at the places that they had.
fn evening(pool: &Pool, settings: &mut Settings) -> Result<()> {
    let mut image = vec![0; pool.image().len()];
    let upgraded = pool.move_edition(&mut image)?.layout();
    settings.add(Version::Two, upgraded)?;
    println!("In the evening the row is upgraded for good. Its settings are now:");
    print!("{}", String::from_utf8_lossy(settings.text()));
    let newest = settings.newest()?;
    println!("By these it has edition {}.", newest.edition);
    show(&Pool::new(newest, &mut image), 0, FIRST.len())?;
    let old = settings.newest_old().expect_err("edition 2 is unknown to it").refusal;
    println!("A reader of version 1 refuses them with {}.", old.number());
    Ok(())
}

fn main() -> Result<()> {
    let mut text = [FITTED, &[0; Version::Two.line_length()]].concat();
    let mut settings = Settings::with_used(&mut text, FITTED.len());
    let row = settings.newest()?;
    let numbers = row.measure()?;
    let mut image = vec![0; numbers.image as usize];
    let mut pool = Pool::new(row, &mut image);
    println!(
        "By its settings a row has {} drives, and holds a file of {} bytes.",
        row.p, numbers.capacity
    );
    store(&mut pool, 0, FIRST)?;
    end_session(&mut pool)?;

    let before = pool.image().to_vec();
    lose(&mut pool, LOST)?;
    show(&pool, 0, FIRST.len())?;
    show(&pool, SECOND_AT, SECOND.len())?;
    show(&pool, TAG_AT, TAG.len())?;
    repair(&mut pool)?;
    println!("The drives now, each line a drive, a frame and its bytes:");
    dump(&pool, numbers.frames)?;
    mail(&pool)?;
    upgrade(&pool)?;
    afternoon(&mut pool, &before, numbers.groups)?;
    evening(&pool, &mut settings)
}
