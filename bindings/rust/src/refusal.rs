use std::error::Error;
use std::fmt;

/// Why a call was refused. Where several apply, the lowest number is given.
///
/// ```
/// use splicebell::{Layout, Refusal};
///
/// let layout = Layout { n: 1, k: 0, p: 1, u: 1, t: 1, cookie: 0, edition: 1 };
/// let refusal = layout.permutation(1).unwrap_err();
/// assert_eq!(refusal, Refusal::Outside);
/// assert_eq!(refusal.number(), 4);
/// assert_eq!(refusal.to_string(), "tile, group, unit, frame, target, offset or range outside");
/// ```
#[derive(Clone, Copy, Debug, PartialEq, Eq, Hash)]
pub enum Refusal {
    /// 1: a layout number outside the bounds; or settings of a version that is not 1 or 2, or of edition 2 in
    /// version 1.
    BadLayout = 1,
    /// 2: image length wrong.
    BadImageLength = 2,
    /// 3: failure record bad, or its count of missing units above T·C·(N+K), or a fail would raise it above.
    BadRecord = 3,
    /// 4: tile, group, unit, frame, target, offset or range outside, or more than 64 ranges in a list. A
    /// [`ListRefusal`] tells the range.
    Outside = 4,
    /// 5: a unit, group, scratch, line, text or list buffer not of its exact length, or too short a buffer for
    /// an answer or a plan, or a used length above the buffer.
    BadBufferLength = 5,
    /// 6: target already failed.
    AlreadyFailed = 6,
    /// 7: K targets have failed already.
    Dud = 7,
    /// 8: more than K units named missing.
    TooManyMissing = 8,
    /// 9: catalogue bad.
    BadCatalogue = 9,
    /// 10: catalogue full and the key is new; or no room for a line of settings.
    CatalogueFull = 10,
    /// 11: no such record, or a target that is not in the failure list, or no settings at all.
    NoSuchRecord = 11,
    /// 12: a text that is not the hex lines of a pool of this layout, or a malformed line of settings. A
    /// [`TextRefusal`] tells the line.
    WrongLine = 12,
    /// 13: a malformed line of a trace, or a pool too large for a replay.
    BadTrace = 13,
    /// 14: the record's count of missing units is not the true one.
    WrongCount = 14,
    /// 15: a plan of repair that is not accepted. [`Pool::check_plan`](crate::Pool::check_plan) tells when one is.
    BadPlan = 15,
    /// 16: q is not k: a target cannot be taken back before all are repaired.
    NotRepaired = 16,
    /// 17: the newest settings have edition 2, which a reader of version 1 does not know.
    UnknownEdition = 17,
}

/// What a call answers: its value, or why it was refused.
pub type Result<T> = std::result::Result<T, Refusal>;

impl Refusal {
    /// Every refusal, in the order of its number.
    pub const ALL: [Refusal; 17] = [
        Refusal::BadLayout,
        Refusal::BadImageLength,
        Refusal::BadRecord,
        Refusal::Outside,
        Refusal::BadBufferLength,
        Refusal::AlreadyFailed,
        Refusal::Dud,
        Refusal::TooManyMissing,
        Refusal::BadCatalogue,
        Refusal::CatalogueFull,
        Refusal::NoSuchRecord,
        Refusal::WrongLine,
        Refusal::BadTrace,
        Refusal::WrongCount,
        Refusal::BadPlan,
        Refusal::NotRepaired,
        Refusal::UnknownEdition,
    ];

    /// The number of this refusal, 1 to 17.
    pub fn number(self) -> u64 {
        self as u64
    }

    /// The refusal of a number; none for 0, which means accepted, and for numbers above 17.
    pub fn from_number(number: u64) -> Option<Refusal> {
        Refusal::ALL.into_iter().find(|refusal| refusal.number() == number)
    }

    fn words(self) -> &'static str {
        match self {
            Refusal::BadLayout => {
                "a layout number outside the bounds; settings of a version that is not 1 or 2, or of edition 2 in \
                 version 1"
            }
            Refusal::BadImageLength => "image length wrong",
            Refusal::BadRecord => {
                "failure record bad: k > K, q > k, an entry among the first k that is ≥ P or occurs twice; \
                 a count above T·C·(N+K), or one that a fail would raise above it"
            }
            Refusal::Outside => "tile, group, unit, frame, target, offset or range outside",
            Refusal::BadBufferLength => {
                "a unit, group, scratch or line buffer not of its exact length; a text or list buffer of wrong \
                 length, too short a buffer for an answer or a plan, or a used length above the buffer"
            }
            Refusal::AlreadyFailed => "target already failed",
            Refusal::Dud => "dud: k = K already",
            Refusal::TooManyMissing => "more than K units named missing",
            Refusal::BadCatalogue => {
                "catalogue bad: count above the slice, or keys not strictly rising"
            }
            Refusal::CatalogueFull => {
                "catalogue full and the key is new; no room for a line of settings"
            }
            Refusal::NoSuchRecord => {
                "no such record; a target that is not in the failure list, or no settings at all"
            }
            Refusal::WrongLine => {
                "a text that is not the hex lines of a pool of this layout, or a malformed line of settings"
            }
            Refusal::BadTrace => {
                "a malformed line of a trace, or a pool too large for a replay"
            }
            Refusal::WrongCount => "the record's count of missing units is not the true one",
            Refusal::BadPlan => "a plan of repair that is not accepted",
            Refusal::NotRepaired => {
                "q is not k: a target cannot be taken back before all are repaired"
            }
            Refusal::UnknownEdition => {
                "the newest settings have edition 2, which a reader of version 1 does not know"
            }
        }
    }
}

impl fmt::Display for Refusal {
    fn fmt(&self, f: &mut fmt::Formatter<'_>) -> fmt::Result {
        f.write_str(self.words())
    }
}

impl Error for Refusal {}

/// Why a text was not read, of a pool or of settings, and which line is to blame.
///
/// `?` makes a [`Refusal`] of it where no more is wanted.
///
/// ```
/// use splicebell::{Layout, Refusal};
///
/// let layout = Layout { n: 1, k: 1, p: 3, u: 2, t: 1, cookie: 0, edition: 1 };
/// let upper_case = b"00 000000 0000\n01 000000 414A\n02 000000 414a\n";
/// let why = layout.read_text(upper_case, &mut [0; 6]).unwrap_err();
/// assert_eq!((why.refusal, why.line), (Refusal::WrongLine, Some(2)));
/// assert!(why.to_string().starts_with("line 2: a text that is not the hex lines of a pool"));
/// ```
#[derive(Clone, Copy, Debug, PartialEq, Eq, Hash)]
pub struct TextRefusal {
    /// Why the text was not read.
    pub refusal: Refusal,
    /// The first wrong line, counted from 1; none where no line is to blame.
    pub line: Option<u64>,
}

impl fmt::Display for TextRefusal {
    fn fmt(&self, f: &mut fmt::Formatter<'_>) -> fmt::Result {
        match self.line {
            Some(line) => write!(f, "line {line}: {}", self.refusal),
            None => self.refusal.fmt(f),
        }
    }
}

impl Error for TextRefusal {}

impl From<TextRefusal> for Refusal {
    fn from(why: TextRefusal) -> Refusal {
        why.refusal
    }
}

/// What was read from a text, if the library's two numbers say so.
pub(crate) fn text_answered<T>(
    number: u64,
    line: u64,
    value: T,
) -> std::result::Result<T, TextRefusal> {
    let told = |refusal| {
        let line = (refusal == Refusal::WrongLine).then_some(line);
        TextRefusal { refusal, line }
    };
    answered(number, value).map_err(told)
}

/// Why a list of writes was not made, and which range is to blame.
///
/// `?` makes a [`Refusal`] of it where no more is wanted.
///
/// ```
/// use splicebell::{Layout, Pool, Refusal};
///
/// let mut image = [0; 48];
/// let layout = Layout { n: 1, k: 1, p: 4, u: 4, t: 1, cookie: 0, edition: 1 };
/// let mut pool = Pool::new(layout, &mut image);
/// let why = pool.write_pieces(&[(0, b"a red bag"), (14, b"23.4 kg")]).unwrap_err();
/// assert_eq!((why.refusal, why.range), (Refusal::Outside, Some(2)));
/// let why = pool.write_pieces(&[(0, &b"again"[..]); 65]).unwrap_err();
/// assert_eq!((why.refusal, why.range), (Refusal::Outside, None));
/// assert_eq!(why.to_string(), "more than 64 ranges");
/// ```
#[derive(Clone, Copy, Debug, PartialEq, Eq, Hash)]
pub struct ListRefusal {
    /// Why nothing was written.
    pub refusal: Refusal,
    /// The first range that is outside, counted from 1; none where no single range is to blame.
    pub range: Option<u64>,
}

impl fmt::Display for ListRefusal {
    fn fmt(&self, f: &mut fmt::Formatter<'_>) -> fmt::Result {
        match (self.range, self.refusal) {
            (Some(range), refusal) => write!(f, "range {range}: {refusal}"),
            // The library names the range wherever one alone is outside.
            (None, Refusal::Outside) => f.write_str("more than 64 ranges"),
            (None, refusal) => refusal.fmt(f),
        }
    }
}

impl Error for ListRefusal {}

impl From<ListRefusal> for Refusal {
    fn from(why: ListRefusal) -> Refusal {
        why.refusal
    }
}

/// Whether a list was written, by the library's two numbers.
pub(crate) fn list_answered(number: u64, range: u64) -> std::result::Result<(), ListRefusal> {
    let told = |refusal| ListRefusal { refusal, range: (range != 0).then_some(range) };
    answered(number, ()).map_err(told)
}

/// The value, if the library's number says accepted.
///
/// # Panics
///
/// On a number that is in no table: then the archive is not the one these bindings were written for.
pub(crate) fn answered<T>(number: u64, value: T) -> Result<T> {
    if number == 0 {
        return Ok(value);
    }
    match Refusal::from_number(number) {
        Some(refusal) => Err(refusal),
        None => panic!(
            "the library answered {number}, which is no refusal number: another archive is linked"
        ),
    }
}

#[cfg(test)]
mod tests {
    #[test]
    #[should_panic(expected = "the library answered 18")]
    fn a_number_outside_the_table_stops_the_program() {
        let _ = super::answered(18, ());
    }
}
