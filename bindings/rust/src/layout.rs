use crate::calls;
use crate::raw;
use crate::refusal::{answered, text_answered, Result, TextRefusal};

/// The seven numbers of a layout. Any values may stand here; a call refuses those outside the bounds.
///
/// ```
/// use splicebell::Layout;
///
/// let layout = Layout { n: 4, k: 2, p: 20, u: 512, t: 3, cookie: 0, edition: 1 };
/// let numbers = layout.measure()?;
/// assert_eq!((numbers.w, numbers.b, numbers.l, numbers.c), (8, 40, 2, 5));
/// assert_eq!(numbers.capacity, 3 * 5 * 4 * 512);
/// # Ok::<(), splicebell::Refusal>(())
/// ```
#[derive(Clone, Copy, Debug, Default, PartialEq, Eq, Hash)]
pub struct Layout {
    /// N: data units a group, 1 to 16.
    pub n: u64,
    /// K: parity units a group and as many spares, 0 to 3.
    pub k: u64,
    /// P: targets, N+2K to 64.
    pub p: u64,
    /// U: bytes a unit, 1 to 4,096.
    pub u: u64,
    /// T: tiles, 1 to 65,536.
    pub t: u64,
    /// Where the permutations of the tiles start; any number.
    pub cookie: u64,
    /// The edition of the permutations: 1, document 01's, those of every row that was installed while there was no
    /// other; 2, in which the generator is advanced four times more before the exchanges. An image does not tell
    /// its edition; [`Pool::move_edition`](crate::Pool::move_edition) makes one of the other.
    pub edition: u64,
}

/// What follows from a layout.
#[derive(Clone, Copy, Debug, PartialEq, Eq, Hash)]
pub struct Numbers {
    /// W = N+2K: units a group.
    pub w: u64,
    /// B: the least common multiple of W and P.
    pub b: u64,
    /// L = B/P: rows a tile.
    pub l: u64,
    /// C = B/W: groups a tile.
    pub c: u64,
    /// L·T: frames of a target.
    pub frames: u64,
    /// T·C: groups of the pool.
    pub groups: u64,
    /// T·C·N·U: bytes of the file.
    pub capacity: u64,
    /// P·L·T·U: bytes of the image.
    pub image: u64,
}

/// Where a unit lies.
#[derive(Clone, Copy, Debug, PartialEq, Eq, Hash)]
pub struct Place {
    /// The frame of its target.
    pub frame: u64,
    /// The target.
    pub target: u64,
    /// The byte of the image at which the unit begins.
    pub begins: u64,
}

/// One unit of one group: data from 0, then parity, then spares.
#[derive(Clone, Copy, Debug, PartialEq, Eq, Hash)]
pub struct Unit {
    /// The group.
    pub group: u64,
    /// The unit of the group.
    pub unit: u64,
}

/// Where a byte of the file lies.
#[derive(Clone, Copy, Debug, PartialEq, Eq, Hash)]
pub struct Mapped {
    /// The group.
    pub group: u64,
    /// The unit of the group.
    pub unit: u64,
    /// The byte of the unit.
    pub byte: u64,
    /// The byte of the image, while nothing has failed.
    pub image: u64,
}

/// What a byte of the image holds, while nothing has failed.
#[derive(Clone, Copy, Debug, PartialEq, Eq, Hash)]
pub struct Traced {
    /// The group.
    pub group: u64,
    /// The unit of the group.
    pub unit: u64,
    /// The byte of the unit.
    pub byte: u64,
    /// The byte of the file, where the unit is a data unit; none of parity and spares.
    pub offset: Option<u64>,
}

/// A place of a walk: the next frame to visit on a target.
#[derive(Clone, Copy, Debug, PartialEq, Eq, Hash)]
pub struct Cursor {
    /// The target.
    pub target: u64,
    /// The frame.
    pub frame: u64,
}

impl Layout {
    /// All numbers that follow from the layout.
    pub fn measure(&self) -> Result<Numbers> {
        let raw::splicebell_measured { refusal, numbers } = calls::measure(self.to_raw());
        let raw::splicebell_numbers { w, b, l, c, frames, groups, capacity, image } = numbers;
        answered(refusal, Numbers { w, b, l, c, frames, groups, capacity, image })
    }

    /// The permutation of a tile: entry t is the target of column t, those from P on hold their own index.
    ///
    /// ```
    /// use splicebell::{Layout, Refusal};
    ///
    /// let first = Layout { n: 1, k: 0, p: 4, u: 1, t: 1, cookie: 0, edition: 1 };
    /// assert_eq!(first.permutation(0)?[..4], [2, 1, 3, 0]);
    /// assert_eq!(first.inverse(0)?[..4], [3, 1, 0, 2]);
    ///
    /// let second = Layout { edition: 2, ..first };
    /// assert_eq!(second.permutation(0)?[..4], [2, 0, 3, 1]);
    /// assert_eq!(second.inverse(0)?[..4], [1, 3, 0, 2]);
    ///
    /// let third = Layout { edition: 3, ..first };
    /// assert_eq!(third.permutation(0), Err(Refusal::BadLayout));
    /// # Ok::<(), Refusal>(())
    /// ```
    pub fn permutation(&self, tile: u64) -> Result<[u8; 64]> {
        let answer = calls::tile_permutation(self.to_raw(), tile);
        answered(answer.refusal, answer.entries)
    }

    /// What undoes the permutation of a tile: entry t is the column of target t.
    pub fn inverse(&self, tile: u64) -> Result<[u8; 64]> {
        let answer = calls::tile_inverse(self.to_raw(), tile);
        answered(answer.refusal, answer.entries)
    }

    /// Where a unit lies.
    pub fn place(&self, group: u64, unit: u64) -> Result<Place> {
        let raw::splicebell_placed { refusal, frame, target, begins } =
            calls::find_place(self.to_raw(), group, unit);
        answered(refusal, Place { frame, target, begins })
    }

    /// The unit that lies at a frame of a target: what undoes [`Layout::place`].
    pub fn unit_at(&self, frame: u64, target: u64) -> Result<Unit> {
        let raw::splicebell_held { refusal, group, unit } =
            calls::find_unit(self.to_raw(), frame, target);
        answered(refusal, Unit { group, unit })
    }

    /// Where a byte of the file lies.
    ///
    /// ```
    /// let layout = splicebell::Layout { n: 1, k: 1, p: 4, u: 4, t: 1, cookie: 0, edition: 1 };
    /// let mapped = layout.map(9)?;
    /// assert_eq!((mapped.group, mapped.unit, mapped.byte, mapped.image), (2, 0, 1, 41));
    /// # Ok::<(), splicebell::Refusal>(())
    /// ```
    pub fn map(&self, offset: u64) -> Result<Mapped> {
        let raw::splicebell_mapped { refusal, group, unit, byte, image } =
            calls::map_offset(self.to_raw(), offset);
        answered(refusal, Mapped { group, unit, byte, image })
    }

    /// What a byte of the image holds: what undoes [`Layout::map`].
    ///
    /// ```
    /// let layout = splicebell::Layout { n: 1, k: 1, p: 4, u: 4, t: 1, cookie: 0, edition: 1 };
    /// let data = layout.trace(41)?;
    /// assert_eq!((data.group, data.unit, data.byte, data.offset), (2, 0, 1, Some(9)));
    /// let parity = layout.trace(14)?;
    /// assert_eq!((parity.group, parity.unit, parity.byte, parity.offset), (0, 1, 2, None));
    /// # Ok::<(), splicebell::Refusal>(())
    /// ```
    pub fn trace(&self, image: u64) -> Result<Traced> {
        let raw::splicebell_traced { refusal, group, unit, byte, is_data, offset } =
            calls::map_byte(self.to_raw(), image);
        let offset = is_data.then_some(offset);
        answered(refusal, Traced { group, unit, byte, offset })
    }

    /// One step of a walk: the unit at the cursor with the next cursor, or none behind the last frame.
    pub fn step(&self, at: Cursor) -> Result<Option<(Unit, Cursor)>> {
        let Cursor { target, frame } = at;
        let walked = calls::step(self.to_raw(), raw::splicebell_cursor { target, frame });
        let raw::splicebell_unit { group, unit } = walked.held;
        let raw::splicebell_cursor { target, frame } = walked.next;
        let found = (Unit { group, unit }, Cursor { target, frame });
        answered(walked.refusal, (!walked.done).then_some(found))
    }

    /// A walk over one target: every frame with the unit that lies there, frames rising.
    ///
    /// ```
    /// let layout = splicebell::Layout { n: 1, k: 1, p: 4, u: 4, t: 1, cookie: 0, edition: 1 };
    /// let held = layout.walk(2).map(|found| found.map(|(frame, at)| (frame, at.group, at.unit)));
    /// let held: Vec<_> = held.collect::<Result<_, _>>()?;
    /// assert_eq!(held, [(0, 0, 0), (1, 1, 1), (2, 2, 2)]);
    /// # Ok::<(), splicebell::Refusal>(())
    /// ```
    pub fn walk(&self, target: u64) -> Walk {
        Walk { layout: *self, at: Some(Cursor { target, frame: 0 }) }
    }

    /// Sets the K parity units of a group's (N+K)·U bytes from its N data units.
    ///
    /// ```
    /// let layout = splicebell::Layout { n: 2, k: 2, p: 6, u: 1, t: 1, cookie: 0, edition: 1 };
    /// let mut group = [0, 2, 0, 0];
    /// layout.encode(&mut group)?;
    /// assert_eq!(group, [0, 2, 2, 205]);
    /// group[1] = 99;
    /// group[3] = 99;
    /// layout.rebuild(&[1, 3], &mut group)?;
    /// assert_eq!(group, [0, 2, 2, 205]);
    /// # Ok::<(), splicebell::Refusal>(())
    /// ```
    pub fn encode(&self, group: &mut [u8]) -> Result<()> {
        answered(calls::encode(self.to_raw(), group), ())
    }

    /// Fills the missing units of a group's (N+K)·U bytes from the N lowest others.
    pub fn rebuild(&self, missing: &[u64], group: &mut [u8]) -> Result<()> {
        answered(calls::rebuild(self.to_raw(), missing, group), ())
    }

    /// The same layout in the other edition: that of the pool which [`Pool::move_edition`](crate::Pool::move_edition)
    /// makes. An edition that is neither 1 nor 2, which every call refuses, stays as it is.
    ///
    /// ```
    /// use splicebell::Layout;
    ///
    /// let layout = Layout { n: 1, k: 1, p: 4, u: 4, t: 1, cookie: 0, edition: 1 };
    /// assert_eq!(layout.other_edition(), Layout { edition: 2, ..layout });
    /// assert_eq!(layout.other_edition().other_edition(), layout);
    /// ```
    pub fn other_edition(&self) -> Layout {
        let edition = match self.edition {
            1 => 2,
            2 => 1,
            none => none,
        };
        Layout { edition, ..*self }
    }

    /// P·L·T·(11+2U): bytes of the text that [`Pool::write_text`](crate::Pool::write_text) makes.
    pub fn text_length(&self) -> Result<u64> {
        let frames = self.measure()?.frames;
        Ok(self.p * frames * (11 + 2 * self.u))
    }

    /// Fills an image from the text that [`Pool::write_text`](crate::Pool::write_text) makes of some image of
    /// this layout, and from no other text. Refused: `image` is all zeros, whatever its length, and the answer
    /// tells the first wrong line.
    ///
    /// ```
    /// use splicebell::{Layout, Pool};
    ///
    /// let layout = Layout { n: 1, k: 1, p: 3, u: 2, t: 1, cookie: 0, edition: 1 };
    /// let mailed = b"00 000000 0000\n01 000000 4142\n02 000000 4142\n";
    /// let mut image = [0; 6];
    /// layout.read_text(mailed, &mut image)?;
    /// let mut file = [0; 2];
    /// Pool::new(layout, &mut image).read(0, &mut file)?;
    /// assert_eq!(file, [0x41, 0x42]);
    ///
    /// let cut = &mailed[..40];
    /// assert_eq!(layout.read_text(cut, &mut image).unwrap_err().line, Some(3));
    /// assert_eq!(image, [0; 6]);
    /// # Ok::<(), splicebell::Refusal>(())
    /// ```
    pub fn read_text(&self, text: &[u8], image: &mut [u8]) -> std::result::Result<(), TextRefusal> {
        let raw::splicebell_text_read { refusal, line } =
            calls::read_text(self.to_raw(), text, image);
        text_answered(refusal, line, ())
    }

    /// The layout that the first line of a trace tells, of edition 1, and the bytes of the image that the trace is
    /// replayed on, at most 32,768. The line is lent with its newline;
    /// [`Pool::replay_line`](crate::Pool::replay_line) plays those after it.
    ///
    /// ```
    /// use splicebell::{Layout, Refusal};
    ///
    /// let (layout, image) = Layout::from_first_line(b"01 01 03 0002 000001 000000000000002a\n")?;
    /// assert_eq!(layout, Layout { n: 1, k: 1, p: 3, u: 2, t: 1, cookie: 42, edition: 1 });
    /// assert_eq!(image, 6);
    ///
    /// let refused = |line: &[u8]| Layout::from_first_line(line).unwrap_err();
    /// let two_targets = b"01 01 02 0002 000001 000000000000002a\n";
    /// assert_eq!(refused(two_targets), Refusal::BadLayout);
    /// let image_of_98_304_bytes = b"01 01 03 1000 000008 000000000000002a\n";
    /// assert_eq!(refused(image_of_98_304_bytes), Refusal::BadTrace);
    /// let no_newline = b"01 01 03 0002 000001 000000000000002a";
    /// assert_eq!(refused(no_newline), Refusal::BadTrace);
    /// # Ok::<(), Refusal>(())
    /// ```
    pub fn from_first_line(line: &[u8]) -> Result<(Layout, u64)> {
        let raw::splicebell_first_line { refusal, layout, image } = calls::replay_first(line);
        answered(refusal, (Layout::from_raw(layout), image))
    }

    pub(crate) fn to_raw(self) -> raw::splicebell_layout {
        let Layout { n, k, p, u, t, cookie, edition } = self;
        raw::splicebell_layout { n, k, p, u, t, cookie, edition }
    }

    pub(crate) fn from_raw(layout: raw::splicebell_layout) -> Layout {
        let raw::splicebell_layout { n, k, p, u, t, cookie, edition } = layout;
        Layout { n, k, p, u, t, cookie, edition }
    }
}

/// A walk over one target, made by [`Layout::walk`]: each frame with the unit that lies there. A walk that is
/// refused says so once, and then ends.
#[derive(Clone, Debug)]
pub struct Walk {
    layout: Layout,
    at: Option<Cursor>,
}

impl Iterator for Walk {
    type Item = Result<(u64, Unit)>;

    fn next(&mut self) -> Option<Self::Item> {
        let at = self.at.take()?;
        match self.layout.step(at) {
            Ok(Some((unit, next))) => {
                self.at = Some(next);
                Some(Ok((at.frame, unit)))
            }
            Ok(None) => None,
            Err(refusal) => Some(Err(refusal)),
        }
    }
}

impl std::iter::FusedIterator for Walk {}
