use crate::calls;
use crate::layout::Layout;
use crate::raw;
use crate::refusal::{answered, text_answered, Result, TextRefusal};

/// The version of a line of settings, which says what numbers it has.
#[derive(Clone, Copy, Debug, PartialEq, Eq, Hash, PartialOrd, Ord)]
pub enum Version {
    /// Six layout numbers; the edition is 1.
    One = 1,
    /// The six, and the edition.
    Two = 2,
}

impl Version {
    /// Bytes of a line of this version, with its newline: 41 or 44.
    ///
    /// ```
    /// use splicebell::{Layout, Settings, Version};
    ///
    /// let layout = Layout { n: 2, k: 1, p: 5, u: 8, t: 1, cookie: 7, edition: 1 };
    /// let mut line = [0; Version::Two.line_length()];
    /// Settings::new(&mut line).add(Version::Two, layout)?;
    /// assert_eq!(&line, b"02 02 01 05 0008 000001 0000000000000007 01\n");
    /// # Ok::<(), splicebell::Refusal>(())
    /// ```
    pub const fn line_length(self) -> usize {
        match self {
            Version::One => 41,
            Version::Two => 44,
        }
    }
}

/// The settings of a row: a lent buffer whose first bytes, as many as are used, are a text with a record a line, the
/// newest last.
///
/// ```text
/// 01 NN KK PP UUUU TTTTTT CCCCCCCCCCCCCCCC       version 1: six layout numbers; the edition is 1
/// 02 NN KK PP UUUU TTTTTT CCCCCCCCCCCCCCCC EE    version 2: the six, and the edition
/// ```
///
/// A text that is only to be read needs no buffer to be changed: [`Layout::from_settings`].
///
/// ```
/// use splicebell::{Layout, Refusal, Settings, Version};
///
/// let installed = Layout { n: 2, k: 1, p: 5, u: 8, t: 1, cookie: 7, edition: 1 };
/// let upgraded = installed.other_edition();
/// let mut buffer = [0; 100];
/// let mut settings = Settings::new(&mut buffer);
/// settings.add(Version::One, installed)?;
/// settings.add(Version::Two, upgraded)?;
/// assert_eq!(
///     settings.text(),
///     b"01 02 01 05 0008 000001 0000000000000007\n\
///       02 02 01 05 0008 000001 0000000000000007 02\n"
/// );
/// assert_eq!(settings.newest()?, upgraded);
/// assert_eq!(settings.newest_old().unwrap_err().refusal, Refusal::UnknownEdition);
/// # Ok::<(), Refusal>(())
/// ```
#[derive(Debug)]
pub struct Settings<'a> {
    buffer: &'a mut [u8],
    used: usize,
}

impl<'a> Settings<'a> {
    /// Settings without a record. What the buffer holds does not matter.
    pub fn new(buffer: &'a mut [u8]) -> Settings<'a> {
        Settings::with_used(buffer, 0)
    }

    /// Settings whose text is the first `used` bytes of the buffer. Any number may stand here; with one above the buffer
    /// every call is refused, with [`Refusal::BadBufferLength`](crate::Refusal::BadBufferLength) where no lower number
    /// applies.
    ///
    /// ```
    /// use splicebell::{Layout, Refusal, Settings, Version};
    ///
    /// let mut buffer = *b"01 02 01 05 0008 000001 0000000000000007\nroom for another line, and some more left over";
    /// let mut kept = Settings::with_used(&mut buffer, 41);
    /// let layout = kept.newest()?;
    /// kept.add(Version::Two, Layout { cookie: 8, ..layout })?;
    /// assert_eq!(kept.used(), 85);
    ///
    /// let mut too_much = Settings::with_used(&mut buffer, 100);
    /// assert_eq!(too_much.newest().unwrap_err().refusal, Refusal::BadBufferLength);
    /// assert_eq!(too_much.add(Version::One, layout), Err(Refusal::BadBufferLength));
    /// # Ok::<(), Refusal>(())
    /// ```
    pub fn with_used(buffer: &'a mut [u8], used: usize) -> Settings<'a> {
        Settings { buffer, used }
    }

    /// How many bytes of the buffer are the text.
    pub fn used(&self) -> usize {
        self.used
    }

    /// The text, to be kept. It is empty where the used length is above the buffer.
    pub fn text(&self) -> &[u8] {
        self.buffer.get(..self.used).unwrap_or_default()
    }

    /// Appends the line of a layout to the text; [`Version::line_length`] says how much room that takes. The bytes
    /// behind the new line stay, and the lines before it are not looked at. A version-1 line tells no edition, so that
    /// of a layout of edition 2 is refused with [`Refusal::BadLayout`](crate::Refusal::BadLayout). Refused, nothing has
    /// changed.
    ///
    /// ```
    /// use splicebell::{Layout, Refusal, Settings, Version};
    ///
    /// let layout = Layout { n: 2, k: 1, p: 5, u: 8, t: 1, cookie: 7, edition: 2 };
    /// let mut buffer = [b'.'; 80];
    /// let mut settings = Settings::new(&mut buffer);
    /// assert_eq!(settings.add(Version::One, layout), Err(Refusal::BadLayout));
    /// settings.add(Version::Two, layout)?;
    /// assert_eq!(settings.add(Version::Two, layout), Err(Refusal::CatalogueFull));
    /// assert_eq!(settings.used(), 44);
    /// assert_eq!(buffer[44..], [b'.'; 36]);
    /// # Ok::<(), Refusal>(())
    /// ```
    pub fn add(&mut self, version: Version, layout: Layout) -> Result<()> {
        let added = calls::add_settings(version as u64, layout.to_raw(), self.buffer, self.used);
        self.used = added.used;
        answered(added.refusal, ())
    }

    /// The layout of the newest record: what [`Layout::from_settings`] shows of the text.
    pub fn newest(&self) -> std::result::Result<Layout, TextRefusal> {
        shown(calls::newest_settings(self.buffer, self.used))
    }

    /// The same by the reader of rows that know version 1 alone: what [`Layout::from_settings_old`] shows of the text.
    pub fn newest_old(&self) -> std::result::Result<Layout, TextRefusal> {
        shown(calls::newest_settings_old(self.buffer, self.used))
    }
}

impl Layout {
    /// The layout of the newest record of a row's [`Settings`], by their text. A line of version 1 tells edition 1.
    /// [`Refusal::NoSuchRecord`](crate::Refusal::NoSuchRecord) where the text is empty;
    /// [`Refusal::WrongLine`](crate::Refusal::WrongLine) where any line of it is malformed, with the first that is.
    ///
    /// ```
    /// use splicebell::{Layout, Refusal};
    ///
    /// let kept = b"01 02 01 05 0008 000001 0000000000000007\n\
    ///              02 02 01 05 0008 000001 0000000000000007 02\n";
    /// let layout = Layout::from_settings(kept)?;
    /// assert_eq!(layout, Layout { n: 2, k: 1, p: 5, u: 8, t: 1, cookie: 7, edition: 2 });
    /// assert_eq!(Layout::from_settings(&kept[..41])?, layout.other_edition());
    ///
    /// let cut = Layout::from_settings(&kept[..84]).unwrap_err();
    /// assert_eq!((cut.refusal, cut.line), (Refusal::WrongLine, Some(2)));
    /// let none = Layout::from_settings(b"").unwrap_err();
    /// assert_eq!((none.refusal, none.line), (Refusal::NoSuchRecord, None));
    /// # Ok::<(), Refusal>(())
    /// ```
    pub fn from_settings(text: &[u8]) -> std::result::Result<Layout, TextRefusal> {
        shown(calls::newest_settings(text, text.len()))
    }

    /// What the reader of rows that know version 1 alone, and so edition 1 alone, shows of the same text: the layout
    /// that [`Layout::from_settings`] shows, or [`Refusal::UnknownEdition`](crate::Refusal::UnknownEdition) where that
    /// has edition 2.
    ///
    /// ```
    /// use splicebell::{Layout, Refusal};
    ///
    /// let told = b"02 02 01 05 0008 000001 0000000000000007 01\n";
    /// assert_eq!(Layout::from_settings_old(told)?, Layout::from_settings(told)?);
    /// let upgraded = b"02 02 01 05 0008 000001 0000000000000007 02\n";
    /// let refused = Layout::from_settings_old(upgraded).unwrap_err();
    /// assert_eq!(refused.refusal, Refusal::UnknownEdition);
    /// # Ok::<(), Refusal>(())
    /// ```
    pub fn from_settings_old(text: &[u8]) -> std::result::Result<Layout, TextRefusal> {
        shown(calls::newest_settings_old(text, text.len()))
    }
}

/// The layout that a reader answers, or why it shows none.
fn shown(answer: raw::splicebell_settings) -> std::result::Result<Layout, TextRefusal> {
    text_answered(answer.refusal, answer.line, Layout::from_raw(answer.layout))
}
