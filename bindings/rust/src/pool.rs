use crate::calls;
use crate::layout::Layout;
use crate::raw;
use crate::refusal::{answered, list_answered, ListRefusal, Result};

/// The failure record: which targets have failed, in order, how many of them have been repaired, and how many
/// units are missing.
///
/// Any values may stand here, for instance those that a caller kept over a restart. The default one is empty:
/// nothing has failed.
#[derive(Clone, Copy, Debug, Default, PartialEq, Eq, Hash)]
pub struct Record {
    /// The failed targets; those from `k` on are never read.
    pub failed: [u64; 3],
    /// How many targets have failed.
    pub k: u64,
    /// How many of them, from the first on, have been repaired.
    pub q: u64,
    /// How many units are missing. From a true count every call keeps it true; [`Pool::audit`] tells whether it
    /// is.
    pub waiting: u64,
}

impl Record {
    fn to_raw(self) -> raw::splicebell_record {
        let Record { failed, k, q, waiting } = self;
        raw::splicebell_record { failed, k, q, waiting }
    }

    fn from_raw(record: raw::splicebell_record) -> Record {
        let raw::splicebell_record { failed, k, q, waiting } = record;
        Record { failed, k, q, waiting }
    }
}

/// What the service panel shows.
#[derive(Clone, Copy, Debug, PartialEq, Eq, Hash)]
pub struct Panel {
    /// How many units await repair, by the record's count.
    pub waiting: u64,
    /// How many targets have failed.
    pub failed: u64,
    /// How many of them have been repaired.
    pub repaired: u64,
}

/// One range of a list of writes. Any numbers may stand here.
#[repr(C)]
#[derive(Clone, Copy, Debug, Default, PartialEq, Eq, Hash)]
pub struct Range {
    /// Where in the file it begins.
    pub offset: u64,
    /// How many bytes it has.
    pub length: u64,
}

/// A pool: a layout, a failure record and a lent image.
///
/// ```
/// use splicebell::{Layout, Pool, Refusal};
///
/// let layout = Layout { n: 1, k: 1, p: 3, u: 2, t: 1, cookie: 0, edition: 1 };
/// let mut image = [0; 6];
/// let mut pool = Pool::new(layout, &mut image);
/// pool.write(0, &[0x41, 0x42])?;
/// pool.fail(1)?;
/// assert_eq!(pool.fail(2), Err(Refusal::Dud));
/// assert_eq!(pool.repair()?, 1);
/// assert_eq!(pool.record().q, 1);
/// # Ok::<(), Refusal>(())
/// ```
#[derive(Debug)]
pub struct Pool<'a> {
    layout: Layout,
    record: Record,
    image: &'a mut [u8],
}

impl<'a> Pool<'a> {
    /// A pool on which nothing has failed. An image of zeros holds a file of zeros.
    pub fn new(layout: Layout, image: &'a mut [u8]) -> Pool<'a> {
        Pool::with_record(layout, Record::default(), image)
    }

    /// A pool with the record that an earlier [`Pool::record`] gave.
    pub fn with_record(layout: Layout, record: Record, image: &'a mut [u8]) -> Pool<'a> {
        Pool { layout, record, image }
    }

    /// The layout.
    pub fn layout(&self) -> Layout {
        self.layout
    }

    /// The failure record.
    pub fn record(&self) -> Record {
        self.record
    }

    /// The image.
    pub fn image(&self) -> &[u8] {
        self.image
    }

    /// The image, to be changed: any bytes make an image.
    pub fn image_mut(&mut self) -> &mut [u8] {
        self.image
    }

    /// The bytes of the file from `offset` on, missing contents rebuilt. Refused: `out` is all zeros.
    ///
    /// ```
    /// use splicebell::{Layout, Pool, Refusal};
    ///
    /// let mut image = [7; 6];
    /// let layout = Layout { n: 1, k: 1, p: 3, u: 2, t: 1, cookie: 0, edition: 1 };
    /// let pool = Pool::new(layout, &mut image);
    /// let mut too_long = [9; 3];
    /// assert_eq!(pool.read(0, &mut too_long), Err(Refusal::Outside));
    /// assert_eq!(too_long, [0; 3]);
    /// ```
    pub fn read(&self, offset: u64, out: &mut [u8]) -> Result<()> {
        let (y, r) = self.to_raw();
        answered(calls::read(y, r, self.image, offset, out), ())
    }

    /// Stores bytes at an offset of the file, with the parity that belongs to them.
    pub fn write(&mut self, offset: u64, bytes: &[u8]) -> Result<()> {
        let (y, r) = self.to_raw();
        answered(calls::write(y, r, self.image, offset, bytes), ())
    }

    /// Stores up to 64 ranges as [`Pool::write`] would one after the other: where they overlap, the later wins.
    /// `bytes` holds those of all ranges, in order. Refused: nothing is stored.
    ///
    /// ```
    /// use splicebell::{Layout, Pool, Range, Refusal};
    ///
    /// let mut image = [0; 48];
    /// let layout = Layout { n: 1, k: 1, p: 4, u: 4, t: 1, cookie: 0, edition: 1 };
    /// let mut pool = Pool::new(layout, &mut image);
    /// let ranges = [Range { offset: 0, length: 9 }, Range { offset: 2, length: 3 }];
    /// pool.write_list(&ranges, b"a --- bagred")?;
    /// let mut seen = [0; 9];
    /// pool.read(0, &mut seen)?;
    /// assert_eq!(&seen, b"a red bag");
    /// let too_short = pool.write_list(&ranges, b"a --- bag").unwrap_err();
    /// assert_eq!(too_short.refusal, Refusal::BadBufferLength);
    /// # Ok::<(), Refusal>(())
    /// ```
    pub fn write_list(
        &mut self,
        ranges: &[Range],
        bytes: &[u8],
    ) -> std::result::Result<(), ListRefusal> {
        let (y, r) = self.to_raw();
        let answer = calls::write_list(y, r, self.image, ranges, bytes);
        list_answered(answer.refusal, answer.range)
    }

    /// Stores up to 64 pieces, each at its own offset, in one call: [`Pool::write_list`] with a range for each
    /// piece and their bytes put together. Refused: nothing is stored.
    ///
    /// ```
    /// use splicebell::{Layout, Pool, Refusal};
    ///
    /// let layout = Layout { n: 2, k: 1, p: 5, u: 8, t: 1, cookie: 7, edition: 1 };
    /// let mut image = vec![0; layout.measure()?.image as usize];
    /// let mut pool = Pool::new(layout, &mut image);
    /// let (photograph, weight, tag) = (b"a brown bag with one strap", b"23.4 kg", b"LH 0042");
    /// pool.write_pieces(&[(0, photograph), (32, weight), (40, tag)])?;
    /// let mut seen = [0; 7];
    /// pool.read(40, &mut seen)?;
    /// assert_eq!(&seen, tag);
    /// # Ok::<(), Refusal>(())
    /// ```
    pub fn write_pieces(
        &mut self,
        pieces: &[(u64, &[u8])],
    ) -> std::result::Result<(), ListRefusal> {
        let range = |piece: &(u64, &[u8])| Range { offset: piece.0, length: piece.1.len() as u64 };
        let ranges: Vec<Range> = pieces.iter().map(range).collect();
        let parts: Vec<&[u8]> = pieces.iter().map(|piece| piece.1).collect();
        self.write_list(&ranges, &parts.concat())
    }

    /// Enters a failed target into the record, and raises its count by the units that go missing with it.
    pub fn fail(&mut self, target: u64) -> Result<()> {
        let (y, r) = self.to_raw();
        let answer = calls::fail(y, r, self.image, target);
        self.record = Record::from_raw(answer.record);
        answered(answer.refusal, ())
    }

    /// Stores every missing content at its new home; answers how many there were, counted afresh. The record's
    /// count becomes 0.
    pub fn repair(&mut self) -> Result<u64> {
        let (y, r) = self.to_raw();
        let answer = calls::repair(y, r, self.image);
        self.record = Record::from_raw(answer.record);
        answered(answer.refusal, answer.count)
    }

    /// Takes back a failed target, whose drive has been swapped for a new one: it leaves the record's list, the
    /// others stay in order, and the bytes of every content go to its home under the shorter list. What the new
    /// drive held before does not matter. [`Refusal::NoSuchRecord`](crate::Refusal::NoSuchRecord) where the target
    /// is not in the list, [`Refusal::NotRepaired`](crate::Refusal::NotRepaired) where one of the list awaits
    /// repair; refused, nothing has changed.
    ///
    /// ```
    /// use splicebell::{Layout, Pool, Record, Refusal};
    ///
    /// let layout = Layout { n: 1, k: 1, p: 4, u: 4, t: 1, cookie: 0, edition: 1 };
    /// let mut image = [0; 48];
    /// let mut pool = Pool::new(layout, &mut image);
    /// pool.write(0, b"a red bag")?;
    /// pool.fail(3)?;
    /// assert_eq!(pool.swap(3), Err(Refusal::NotRepaired));
    /// pool.repair()?;
    ///
    /// let new_drive = &mut pool.image_mut()[36..];
    /// new_drive.fill(0xee);
    /// pool.swap(3)?;
    /// assert_eq!(pool.record(), Record::default());
    /// let mut seen = [0; 9];
    /// pool.read(0, &mut seen)?;
    /// assert_eq!(&seen, b"a red bag");
    /// assert_eq!(pool.swap(3), Err(Refusal::NoSuchRecord));
    /// # Ok::<(), Refusal>(())
    /// ```
    pub fn swap(&mut self, target: u64) -> Result<()> {
        let (y, r) = self.to_raw();
        let answer = calls::swap(y, r, self.image, target);
        self.record = Record::from_raw(answer.record);
        answered(answer.refusal, ())
    }

    /// Tests a plan of repair: [`Refusal::BadPlan`](crate::Refusal::BadPlan) where it is not accepted.
    ///
    /// A plan is one entry after another, in any order, each of N+2 numbers: a group, one of its contents, and
    /// the N contents of that group to rebuild it from. It is accepted exactly if each missing content is named
    /// once, each of its N sources is a different present content of the same group, and nothing else is named.
    ///
    /// ```
    /// use splicebell::{Layout, Pool, Refusal};
    ///
    /// let layout = Layout { n: 1, k: 2, p: 5, u: 4, t: 1, cookie: 0, edition: 1 };
    /// let mut image = [0; 20];
    /// let mut pool = Pool::new(layout, &mut image);
    /// pool.fail(layout.place(0, 0)?.target)?;
    /// pool.check_plan(&[0, 0, 1])?;
    /// pool.check_plan(&[0, 0, 2])?;
    /// let from_itself = [0, 0, 0];
    /// assert_eq!(pool.check_plan(&from_itself), Err(Refusal::BadPlan));
    /// let a_present_content_too = [0, 0, 1, 0, 2, 1];
    /// assert_eq!(pool.check_plan(&a_present_content_too), Err(Refusal::BadPlan));
    /// # Ok::<(), Refusal>(())
    /// ```
    pub fn check_plan(&self, plan: &[u64]) -> Result<()> {
        let (y, r) = self.to_raw();
        answered(calls::check_plan(y, r, self.image, plan), ())
    }

    /// Stores every missing content at its new home, rebuilt from the sources that its entry names, in the
    /// plan's order; answers how many there were. The record's count becomes 0. On a pool that only these calls
    /// have changed from zeros any plan that [`Pool::check_plan`] accepts leaves what [`Pool::repair`] leaves.
    /// Another plan is refused, and changes nothing.
    ///
    /// ```
    /// use splicebell::{Layout, Pool, Refusal};
    ///
    /// let layout = Layout { n: 1, k: 2, p: 5, u: 4, t: 1, cookie: 0, edition: 1 };
    /// let mut image = [0; 20];
    /// let mut pool = Pool::new(layout, &mut image);
    /// pool.write(0, b"bags")?;
    /// pool.fail(layout.place(0, 0)?.target)?;
    /// let nothing_named = [];
    /// assert_eq!(pool.repair_by(&nothing_named), Err(Refusal::BadPlan));
    /// assert_eq!(pool.panel()?.waiting, 1);
    /// assert_eq!(pool.repair_by(&[0, 0, 2])?, 1);
    /// assert_eq!(pool.panel()?.waiting, 0);
    /// assert_eq!(pool.repair_by(&nothing_named)?, 0);
    /// # Ok::<(), Refusal>(())
    /// ```
    pub fn repair_by(&mut self, plan: &[u64]) -> Result<u64> {
        let (y, r) = self.to_raw();
        let answer = calls::repair_by(y, r, self.image, plan);
        self.record = Record::from_raw(answer.record);
        answered(answer.refusal, answer.count)
    }

    /// Draws up a plan that [`Pool::check_plan`] accepts, and answers how many numbers it takes, from the first
    /// of `plan` on; the others stay. Groups rise, contents rise within each, and the sources are the N lowest
    /// present contents. Refused with 5 where `plan` has fewer than N+2 numbers for each missing content; then,
    /// as after any refusal, no number has changed. [`Pool::drawn_plan`] makes a vector of the right length.
    ///
    /// ```
    /// use splicebell::{Layout, Pool, Refusal};
    ///
    /// let layout = Layout { n: 1, k: 2, p: 5, u: 4, t: 1, cookie: 0, edition: 1 };
    /// let mut image = [0; 20];
    /// let mut pool = Pool::new(layout, &mut image);
    /// pool.fail(layout.place(0, 0)?.target)?;
    /// let mut plan = [9; 4];
    /// assert_eq!(pool.draw_plan(&mut plan)?, 3);
    /// assert_eq!(plan, [0, 0, 1, 9]);
    /// let mut too_short = [9; 2];
    /// assert_eq!(pool.draw_plan(&mut too_short), Err(Refusal::BadBufferLength));
    /// assert_eq!(too_short, [9; 2]);
    /// # Ok::<(), Refusal>(())
    /// ```
    pub fn draw_plan(&self, plan: &mut [u64]) -> Result<usize> {
        let (y, r) = self.to_raw();
        let answer = calls::draw_plan(y, r, self.image, plan);
        answered(answer.refusal, answer.length as usize)
    }

    /// The plan that [`Pool::draw_plan`] draws up, to be changed or taken as it is.
    ///
    /// Its length follows from the missing units, which are counted afresh: that takes as long as
    /// [`Pool::audit`], and a false count in the record, by which a vector would be too short or far too long,
    /// makes no difference.
    ///
    /// ```
    /// use splicebell::{Layout, Pool, Refusal};
    ///
    /// let layout = Layout { n: 1, k: 2, p: 5, u: 4, t: 1, cookie: 0, edition: 1 };
    /// let mut image = [0; 20];
    /// let mut pool = Pool::new(layout, &mut image);
    /// for content in [0, 1] {
    ///     pool.fail(layout.place(0, content)?.target)?;
    /// }
    /// let mut plan = pool.drawn_plan()?;
    /// assert_eq!(plan, [0, 0, 2, 0, 1, 2]);
    /// plan.rotate_left(3);
    /// assert_eq!(pool.repair_by(&plan)?, 2);
    /// assert_eq!(pool.drawn_plan()?, []);
    /// let too_small = Pool::new(layout, &mut image[1..]).drawn_plan();
    /// assert_eq!(too_small, Err(Refusal::BadImageLength));
    /// # Ok::<(), Refusal>(())
    /// ```
    pub fn drawn_plan(&self) -> Result<Vec<u64>> {
        let entries = self.missing_units()?;
        let mut plan = vec![0; (entries * (self.layout.n + 2)) as usize];
        self.draw_plan(&mut plan)?;
        Ok(plan)
    }

    /// The missing units counted afresh: the targets that are not repaired fail again, one after the other.
    fn missing_units(&self) -> Result<u64> {
        // A bad record is refused first: its numbers may lead past its entries.
        self.panel()?;
        let (y, kept) = self.to_raw();
        let mut r = raw::splicebell_record { k: kept.q, waiting: 0, ..kept };
        for target in &kept.failed[kept.q as usize..kept.k as usize] {
            let answer = calls::fail(y, r, self.image, *target);
            r = answered(answer.refusal, answer.record)?;
        }
        Ok(r.waiting)
    }

    /// Moves the file to the other edition: fills a second lent image, of the same length, and answers the pool on
    /// it. That has the layout [`Layout::other_edition`] and an empty record, whatever has failed in this one; it
    /// shows what this one shows, missing contents rebuilt, and its spares are zeros. What `image` held before does
    /// not matter. Refused: `image` is all zeros, whatever its length. This pool is only read.
    ///
    /// ```
    /// use splicebell::{Layout, Pool, Record, Refusal};
    ///
    /// let layout = Layout { n: 1, k: 1, p: 4, u: 4, t: 1, cookie: 0, edition: 1 };
    /// let mut installed = [0; 48];
    /// let mut pool = Pool::new(layout, &mut installed);
    /// pool.write(0, b"a red bag")?;
    /// pool.fail(3)?;
    ///
    /// let mut upgraded = [0; 48];
    /// let moved = pool.move_edition(&mut upgraded)?;
    /// assert_eq!(moved.layout(), Layout { edition: 2, ..layout });
    /// assert_eq!(moved.record(), Record::default());
    /// let mut seen = [0; 9];
    /// moved.read(0, &mut seen)?;
    /// assert_eq!(&seen, b"a red bag");
    ///
    /// let mut too_short = [9; 47];
    /// assert_eq!(pool.move_edition(&mut too_short).unwrap_err(), Refusal::BadImageLength);
    /// assert_eq!(too_short, [0; 47]);
    /// # Ok::<(), Refusal>(())
    /// ```
    pub fn move_edition<'b>(&self, image: &'b mut [u8]) -> Result<Pool<'b>> {
        let (y, r) = self.to_raw();
        answered(calls::move_edition(y, r, self.image, image), ())?;
        Ok(Pool::new(self.layout.other_edition(), image))
    }

    /// What the service panel shows, as the record has it: nothing is counted, so it takes as long on any pool.
    ///
    /// ```
    /// use splicebell::{Layout, Panel, Pool};
    ///
    /// let mut image = [0; 48];
    /// let layout = Layout { n: 1, k: 1, p: 4, u: 4, t: 1, cookie: 0, edition: 1 };
    /// let mut pool = Pool::new(layout, &mut image);
    /// pool.fail(3)?;
    /// assert_eq!(pool.panel()?, Panel { waiting: 2, failed: 1, repaired: 0 });
    /// pool.repair()?;
    /// assert_eq!(pool.panel()?, Panel { waiting: 0, failed: 1, repaired: 1 });
    /// # Ok::<(), splicebell::Refusal>(())
    /// ```
    pub fn panel(&self) -> Result<Panel> {
        let (y, r) = self.to_raw();
        let raw::splicebell_counts { refusal, waiting, failed, repaired } =
            calls::panel(y, r, self.image);
        answered(refusal, Panel { waiting, failed, repaired })
    }

    /// Counts the missing units afresh: [`Refusal::WrongCount`](crate::Refusal::WrongCount) where the record has
    /// another count.
    ///
    /// ```
    /// use splicebell::{Layout, Pool, Record, Refusal};
    ///
    /// let layout = Layout { n: 1, k: 1, p: 4, u: 4, t: 1, cookie: 0, edition: 1 };
    /// let mut image = [0; 48];
    /// let mut pool = Pool::new(layout, &mut image);
    /// pool.fail(3)?;
    /// pool.audit()?;
    /// let one_too_few = Record { waiting: 1, ..pool.record() };
    /// let pool = Pool::with_record(layout, one_too_few, &mut image);
    /// assert_eq!(pool.audit(), Err(Refusal::WrongCount));
    /// # Ok::<(), Refusal>(())
    /// ```
    pub fn audit(&self) -> Result<()> {
        let (y, r) = self.to_raw();
        answered(calls::audit(y, r, self.image), ())
    }

    /// The U bytes of one content: a part of the image, or of the scratch of U bytes where it is missing and
    /// had to be rebuilt. Where the content is present or the look is refused, the scratch is all zeros.
    ///
    /// ```
    /// use splicebell::{Layout, Pool};
    ///
    /// let mut image = [0; 6];
    /// let layout = Layout { n: 1, k: 1, p: 3, u: 2, t: 1, cookie: 0, edition: 1 };
    /// let mut pool = Pool::new(layout, &mut image);
    /// pool.write(0, &[5, 6])?;
    /// let mut scratch = [0; 2];
    /// assert_eq!(pool.look(0, 0, &mut scratch)?, [5, 6]);
    /// assert_eq!(scratch, [0, 0]);
    /// pool.fail(1)?;
    /// assert_eq!(pool.look(0, 0, &mut scratch)?, [5, 6]);
    /// assert_eq!(scratch, [5, 6]);
    /// # Ok::<(), splicebell::Refusal>(())
    /// ```
    pub fn look<'s>(&'s self, group: u64, content: u64, scratch: &'s mut [u8]) -> Result<&'s [u8]> {
        let (y, r) = self.to_raw();
        answered(calls::prepare(y, r, self.image, group, content, scratch), ())?;
        let shown = calls::show(y, r, self.image, scratch, group, content);
        let holder = if shown.missing { scratch } else { &*self.image };
        answered(shown.refusal, &holder[shown.begins..shown.begins + shown.length])
    }

    /// Writes the hex line of a frame, 11+2U bytes with the newline. Refused: `line` is all zeros.
    ///
    /// ```
    /// use splicebell::{Layout, Pool};
    ///
    /// let mut image = [0; 6];
    /// let layout = Layout { n: 1, k: 1, p: 3, u: 2, t: 1, cookie: 0, edition: 1 };
    /// let mut pool = Pool::new(layout, &mut image);
    /// pool.write(0, &[0x41, 0x42])?;
    /// let mut line = [0; 15];
    /// pool.hex_line(1, 0, &mut line)?;
    /// assert_eq!(&line, b"01 000000 4142\n");
    /// # Ok::<(), splicebell::Refusal>(())
    /// ```
    pub fn hex_line(&self, target: u64, frame: u64, line: &mut [u8]) -> Result<()> {
        answered(calls::hex_line(self.layout.to_raw(), self.image, target, frame, line), ())
    }

    /// Writes the hex lines of all frames, targets rising and frames rising within each, as a text of
    /// [`Layout::text_length`] bytes; [`Layout::read_text`] takes it back. Refused: `text` is all zeros.
    ///
    /// ```
    /// use splicebell::{Layout, Pool};
    ///
    /// let layout = Layout { n: 1, k: 1, p: 3, u: 2, t: 1, cookie: 0, edition: 1 };
    /// let mut image = [0; 6];
    /// let mut pool = Pool::new(layout, &mut image);
    /// pool.write(0, &[0x41, 0x42])?;
    /// let mut text = vec![0; layout.text_length()? as usize];
    /// pool.write_text(&mut text)?;
    /// assert_eq!(text, b"00 000000 0000\n01 000000 4142\n02 000000 4142\n");
    /// # Ok::<(), splicebell::Refusal>(())
    /// ```
    pub fn write_text(&self, text: &mut [u8]) -> Result<()> {
        answered(calls::write_text(self.layout.to_raw(), self.image, text), ())
    }

    /// 24 + 2 times the bytes of the image: how long a buffer for an answer of [`Pool::replay_line`] is at least.
    pub fn answer_length(&self) -> usize {
        24 + 2 * self.image.len()
    }

    /// Plays one line of a trace, lent with its newline, and answers what a replay prints for it: the number of
    /// the event's own call, 13 for a malformed line, and what an accepted read or repair tells. Image and record
    /// become what that call leaves.
    ///
    /// The answer is the beginning of `answer`, whose other bytes stay. Refused with 5, where `answer` is shorter
    /// than [`Pool::answer_length`] and only there: `answer` is all zeros, and nothing was played.
    ///
    /// ```
    /// use splicebell::{Layout, Pool, Refusal};
    ///
    /// let day = "01 01 03 0002 000001 0000000000000000\n\
    ///            01 0000000000000000 4142\n\
    ///            02 01\n\
    ///            02 02\n\
    ///            04 0000000000000000 0000000000000002\n\
    ///            04 0000000000000001 0000000000000002\n\
    ///            a line that is none\n\
    ///            03\n";
    /// let mut lines = day.split_inclusive('\n').map(str::as_bytes);
    /// let (layout, length) = Layout::from_first_line(lines.next().unwrap_or_default())?;
    /// let mut image = vec![0; length as usize];
    /// let mut pool = Pool::new(layout, &mut image);
    /// let mut answer = vec![0; pool.answer_length()];
    /// let mut printed = Vec::new();
    /// for line in lines {
    ///     printed.extend_from_slice(pool.replay_line(line, &mut answer)?);
    /// }
    /// assert_eq!(printed, b"0\n0\n7\n0 4142\n4\n13\n0 1\n");
    /// assert_eq!((pool.record().k, pool.record().q), (1, 1));
    ///
    /// let mut too_short = [9; 35];
    /// assert_eq!(pool.replay_line(b"03\n", &mut too_short), Err(Refusal::BadBufferLength));
    /// assert_eq!(too_short, [0; 35]);
    /// # Ok::<(), Refusal>(())
    /// ```
    pub fn replay_line<'s>(&mut self, line: &[u8], answer: &'s mut [u8]) -> Result<&'s [u8]> {
        let (y, r) = self.to_raw();
        let played = calls::replay_line(y, r, self.image, line, answer);
        self.record = Record::from_raw(played.record);
        answered(played.refusal, &answer[..played.length as usize])
    }

    fn to_raw(&self) -> (raw::splicebell_layout, raw::splicebell_record) {
        (self.layout.to_raw(), self.record.to_raw())
    }
}
