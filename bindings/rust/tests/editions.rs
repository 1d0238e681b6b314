//! Layouts of both editions, and of none, through the safe interface.
use splicebell::{Cursor, Layout, Pool, Refusal, Settings, Unit, Version};

const FIRST: Layout = Layout { n: 2, k: 2, p: 7, u: 3, t: 2, cookie: 11, edition: 1 };
const SECOND: Layout = Layout { edition: 2, ..FIRST };
const IMAGE_LENGTH: usize = 7 * 6 * 2 * 3;
const CAPACITY: usize = 2 * 7 * 2 * 3;

fn photograph() -> Vec<u8> {
    (0..CAPACITY).map(|i| (i * 37 + 5) as u8).collect()
}

/// An image that holds the photograph.
fn written(layout: Layout) -> Result<Vec<u8>, Refusal> {
    let mut image = vec![0; IMAGE_LENGTH];
    Pool::new(layout, &mut image).write(0, &photograph())?;
    Ok(image)
}

fn shown(pool: &Pool) -> Result<Vec<u8>, Refusal> {
    let mut file = vec![0; CAPACITY];
    pool.read(0, &mut file)?;
    Ok(file)
}

#[test]
fn all_but_the_permutations_is_the_same() -> Result<(), Refusal> {
    assert_eq!(FIRST.measure(), SECOND.measure());
    assert_eq!(FIRST.text_length(), SECOND.text_length());
    for tile in 0..FIRST.t {
        assert_ne!(FIRST.permutation(tile)?, SECOND.permutation(tile)?);
    }
    let mut groups = [[1, 2, 3, 4, 5, 6, 0, 0, 0, 0, 0, 0]; 2];
    FIRST.encode(&mut groups[0])?;
    SECOND.encode(&mut groups[1])?;
    assert_eq!(groups[0], groups[1]);
    Ok(())
}

/// Frame and target of a unit, by the permutation that the library answers for its tile.
fn by_permutation(layout: Layout, at: Unit) -> Result<(u64, u64), Refusal> {
    let numbers = layout.measure()?;
    let (tile, x) = (at.group / numbers.c, numbers.w * (at.group % numbers.c) + at.unit);
    let target = layout.permutation(tile)?[(x % layout.p) as usize];
    Ok((numbers.l * tile + x / layout.p, target.into()))
}

#[test]
fn every_call_places_by_the_permutation_of_the_edition() -> Result<(), Refusal> {
    for layout in [FIRST, SECOND] {
        let (permutation, inverse) = (layout.permutation(1)?, layout.inverse(1)?);
        for column in 0..64 {
            assert_eq!(inverse[permutation[column] as usize] as usize, column);
        }
        for (group, unit) in (0..14).flat_map(|group| (0..6).map(move |unit| (group, unit))) {
            let at = Unit { group, unit };
            let (frame, target) = by_permutation(layout, at)?;
            let place = layout.place(group, unit)?;
            assert_eq!((place.frame, place.target), (frame, target));
            assert_eq!(layout.unit_at(frame, target)?, at);
            let next = Cursor { target, frame: frame + 1 };
            assert_eq!(layout.step(Cursor { target, frame })?, Some((at, next)));
            let traced = layout.trace(place.begins)?;
            assert_eq!((traced.group, traced.unit), (group, unit));
        }
    }
    Ok(())
}

#[test]
fn a_pool_of_either_edition_keeps_its_file() -> Result<(), Refusal> {
    for layout in [FIRST, SECOND] {
        let mut image = written(layout)?;
        for (offset, byte) in photograph().into_iter().enumerate() {
            assert_eq!(image[layout.map(offset as u64)?.image as usize], byte);
        }
        let mut pool = Pool::new(layout, &mut image);
        for target in [5, 1] {
            pool.fail(target)?;
            let drive = IMAGE_LENGTH / layout.p as usize;
            pool.image_mut()[target as usize * drive..][..drive].fill(0xee);
            assert_eq!(shown(&pool)?, photograph());
        }
        pool.audit()?;
        let (mut same_image, record) = (pool.image().to_vec(), pool.record());
        let mut by_plan = Pool::with_record(layout, record, &mut same_image);
        assert_eq!(by_plan.repair_by(&pool.drawn_plan()?)?, record.waiting);
        assert_eq!(pool.repair()?, record.waiting);
        assert_eq!(shown(&pool)?, photograph());
        assert_eq!(by_plan.image(), pool.image());
    }
    Ok(())
}

/// The bytes of every content at its own place, group after group.
fn contents(layout: Layout, image: &[u8]) -> Result<Vec<u8>, Refusal> {
    let mut bytes = Vec::new();
    for group in 0..layout.measure()?.groups {
        for content in 0..layout.n + layout.k {
            let begins = layout.place(group, content)?.begins as usize;
            bytes.extend_from_slice(&image[begins..][..layout.u as usize]);
        }
    }
    Ok(bytes)
}

#[test]
fn drives_are_taken_back_in_either_edition() -> Result<(), Refusal> {
    for layout in [FIRST, SECOND] {
        for order in [[5, 1], [1, 5]] {
            let mut image = written(layout)?;
            let mut pool = Pool::new(layout, &mut image);
            pool.fail(5)?;
            pool.fail(1)?;
            pool.repair()?;
            for target in order {
                let drive = IMAGE_LENGTH / layout.p as usize;
                pool.image_mut()[target as usize * drive..][..drive].fill(0xee);
                pool.swap(target)?;
                assert_eq!(shown(&pool)?, photograph());
            }
            assert_eq!(contents(layout, pool.image())?, contents(layout, &written(layout)?)?);
        }
    }
    Ok(())
}

/// docs/ABI.md says so: an image does not tell its edition, so no call can refuse the other one.
#[test]
fn an_image_taken_for_the_other_edition_shows_other_bytes() -> Result<(), Refusal> {
    let (mut first, second) = (written(FIRST)?, written(SECOND)?);
    assert_ne!(first, second);
    assert_ne!(shown(&Pool::new(SECOND, &mut first))?, photograph());
    assert_eq!(shown(&Pool::new(FIRST, &mut first))?, photograph());
    Ok(())
}

/// Where nothing has failed the first image comes back, else that of the file that was saved.
#[test]
fn a_pool_is_moved_there_and_back() -> Result<(), Refusal> {
    for (layout, other) in [(FIRST, SECOND), (SECOND, FIRST)] {
        for lost in [None, Some(0), Some(3), Some(6)] {
            let mut image = written(layout)?;
            let mut pool = Pool::new(layout, &mut image);
            if let Some(target) = lost {
                pool.fail(target)?;
                let drive = IMAGE_LENGTH / layout.p as usize;
                pool.image_mut()[target as usize * drive..][..drive].fill(0xee);
            }
            let (mut there, mut back) = ([9; IMAGE_LENGTH], [9; IMAGE_LENGTH]);
            let moved = pool.move_edition(&mut there)?;
            assert_eq!((moved.layout(), shown(&moved)?), (other, photograph()));
            assert_eq!(moved.image(), written(other)?);
            let moved_back = moved.move_edition(&mut back)?;
            assert_eq!(moved_back.layout(), layout);
            assert_eq!(moved_back.image(), written(layout)?);
        }
    }
    Ok(())
}

#[test]
fn the_other_edition_is_another_layout_where_there_is_one() {
    assert_eq!((FIRST.other_edition(), SECOND.other_edition()), (SECOND, FIRST));
    for layout in of_no_edition() {
        assert_eq!(layout.other_edition(), layout);
    }
}

/// Layouts whose edition alone is wrong; that of the first was never set.
fn of_no_edition() -> [Layout; 3] {
    [0, 3, u64::MAX].map(|edition| Layout { edition, ..FIRST })
}

#[test]
fn another_edition_is_refused_by_every_call_of_a_layout() {
    for layout in of_no_edition() {
        let (mut group, mut image, mut text) = ([9; 12], [9; IMAGE_LENGTH], [9; 44]);
        let refused = [
            layout.measure().err(),
            layout.permutation(0).err(),
            layout.inverse(0).err(),
            layout.place(0, 0).err(),
            layout.unit_at(0, 0).err(),
            layout.map(0).err(),
            layout.trace(0).err(),
            layout.step(Cursor { target: 0, frame: 0 }).err(),
            layout.encode(&mut group).err(),
            layout.rebuild(&[0], &mut group).err(),
            layout.text_length().err(),
            layout.read_text(b"", &mut image).err().map(Refusal::from),
            Settings::new(&mut text).add(Version::Two, layout).err(),
        ];
        assert_eq!(refused, [Some(Refusal::BadLayout); 13]);
        assert_eq!((group, image, text), ([9; 12], [0; IMAGE_LENGTH], [9; 44]));
    }
}

#[test]
fn another_edition_is_refused_by_every_call_of_a_pool() -> Result<(), Refusal> {
    for layout in of_no_edition() {
        let mut image = written(FIRST)?;
        let before = image.clone();
        let mut pool = Pool::new(layout, &mut image);
        let (mut outputs, mut plan, mut into) = ([[9; 3]; 4], [9; 4], [9; IMAGE_LENGTH]);
        let [read, scratch, line, text] = &mut outputs;
        let refused = [
            pool.read(0, read).err(),
            pool.look(0, 0, scratch).err(),
            pool.hex_line(0, 0, line).err(),
            pool.write_text(text).err(),
            pool.write(0, b"again").err(),
            pool.write_pieces(&[(0, b"again")]).err().map(Refusal::from),
            pool.fail(5).err(),
            pool.repair().err(),
            pool.swap(5).err(),
            pool.check_plan(&[]).err(),
            pool.repair_by(&[]).err(),
            pool.draw_plan(&mut plan).err(),
            pool.move_edition(&mut into).err(),
            pool.panel().err(),
            pool.audit().err(),
        ];
        assert_eq!(refused, [Some(Refusal::BadLayout); 15]);
        assert_eq!((outputs, plan, into), ([[0; 3]; 4], [9; 4], [0; IMAGE_LENGTH]));
        assert_eq!((pool.image(), pool.record()), (&before[..], Default::default()));
    }
    Ok(())
}

/// A line is played on the layout that is lent, of whatever edition; a bad one is an answer and no refusal.
#[test]
fn a_line_goes_by_the_edition_that_is_lent() -> Result<(), Refusal> {
    let line = format!("01 {:016x} {}\n", 0, hex(&photograph()));
    let played = |layout| -> Result<(Vec<u8>, Vec<u8>), Refusal> {
        let mut image = vec![0; IMAGE_LENGTH];
        let mut pool = Pool::new(layout, &mut image);
        let mut answer = vec![0; pool.answer_length()];
        let said = pool.replay_line(line.as_bytes(), &mut answer)?.to_vec();
        Ok((said, image))
    };
    for layout in [FIRST, SECOND] {
        assert_eq!(played(layout)?, (b"0\n".to_vec(), written(layout)?));
    }
    for layout in of_no_edition() {
        assert_eq!(played(layout)?, (b"1\n".to_vec(), vec![0; IMAGE_LENGTH]));
    }
    let (told, _) = Layout::from_first_line(b"02 02 07 0003 000002 000000000000000b\n")?;
    assert_eq!(told, FIRST);
    Ok(())
}

fn hex(bytes: &[u8]) -> String {
    bytes.iter().map(|byte| format!("{byte:02x}")).collect()
}
