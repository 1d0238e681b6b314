//! The calls on a row's settings on the library; on purpose with a fault in a rule of theirs. A library with such a fault
//! is made of the right one: what it answers and leaves is another.

use crate::bench::Bench;
use crate::layouts;
use crate::lent::Lent;
use crate::move_rules::store_all;
use crate::setting_kinds::{has_form, line_length, lines_of};
use crate::settings::{Setting, Text};
use crate::spoil::Spoil;
use oracle::layout::Layout;
use oracle::settings::{self, line_of, newest, Settings, UNKNOWN_EDITION};
use splicebell::raw::{self, splicebell_added, splicebell_layout, splicebell_settings};

/// What a library with a fault would do.
#[derive(Clone, Copy, Debug, PartialEq, Eq)]
pub enum SettingRule {
    /// The oldest record is shown.
    OldestShown,
    /// Only the newest line is looked at.
    NewestAlone,
    /// Version 1 has the edition of the record before it.
    EditionKept,
    /// The old reader shows edition 2.
    SecondShown,
    /// The old reader refuses any version 2 with 17; or any edition 2, also before the newest; or answers 17 before 12.
    SecondVersionUnknown,
    SecondBeforeUnknown,
    UnknownFirst,
    /// Digits in upper case are taken, or carriage returns, or version 3 for 2, or numbers outside their bounds.
    UpperCaseTaken,
    ReturnsTaken,
    ThirdVersionTaken,
    BoundsUntested,
    /// The edition is taken in version 1, or may be left out in version 2.
    LongFirstTaken,
    ShortSecondTaken,
    /// A last line without its newline is ignored.
    CutLineIgnored,
    /// Malformed lines are counted from 0, or the last one is told.
    FromZero,
    LastMalformed,
    /// Empty lines alone are no record.
    EmptyAsNone,
    /// A refused answer tells the layout that was read last.
    LayoutLeft,
    /// The used length is not tested, or what lies behind it is read too.
    UsedUntested,
    RestRead,
    /// A line is put at the start, or over the last byte of the text.
    AtTheStart,
    OverTheLastByte,
    /// It has four digits of T, no edition in version 2, upper case, no newline, or is of version 2 always.
    FourDigits,
    EditionLeftOut,
    UpperCaseWritten,
    NewlineLeftOut,
    SecondAlways,
    /// What lies behind it is cleared.
    BehindCleared,
    /// The length of the line is answered for that of the text; or 0 where the line is refused.
    LengthAnswered,
    UsedDropped,
    /// As much of a line as there is room for is stored though it is refused.
    StoredThoughRefused,
    /// 10 for a used length above the buffer.
    AboveAsFull,
    /// A byte more than the line is wanted, the same room in both versions, or that of version 1 in version 2.
    ExactRefused,
    LongRoomWanted,
    ShortRoomTaken,
    /// The lines before are looked at, and a malformed one refused.
    TextTested,
    /// Edition 2 is taken in version 1.
    SecondInFirst,
    /// Only so many bits of the version are looked at, or those of the layout's numbers that a line has digits for.
    VersionOf(u32),
    NumbersByDigits,
}

/// What the old reader says of an edition that it does not know.
const UNKNOWN: Settings = Settings {
    refusal: UNKNOWN_EDITION,
    line: 0,
    layout: Layout { n: 0, k: 0, p: 0, u: 0, t: 0, cookie: 0, edition: 0 },
};

/// The library, or one with a fault.
#[derive(Clone, Copy)]
pub struct Library(Option<SettingRule>);

/// One of the two readers, by the model.
type Reader = fn(&[u8], usize) -> Settings;

/// What an add is answered with, and the buffer that it leaves.
struct Outcome {
    refusal: u64,
    used: usize,
    buffer: Vec<u8>,
}

impl Library {
    pub fn of(bench: &Bench) -> Library {
        match bench.spoil {
            Some(Spoil::Setting(rule)) => Library(Some(rule)),
            _ => Library(None),
        }
    }

    /// Adds a record, whose layout is given so, to a text in the buffer that is lent.
    pub fn add(
        self,
        y: splicebell_layout,
        setting: &Setting,
        text: &Text,
        buffer: &Lent<u8>,
    ) -> splicebell_added {
        let (at, length) = (buffer.pointer(), buffer.len());
        // SAFETY: the pointer leads to that many bytes.
        let answer =
            unsafe { raw::splicebell_add_settings(setting.version, y, at, length, text.used) };
        let Some(rule) = self.0 else { return answer };
        let wrong = added_by(rule, setting, text);
        store_all(buffer, &wrong.buffer);
        splicebell_added { refusal: wrong.refusal, used: wrong.used }
    }

    pub fn newest(self, buffer: &Lent<u8>, used: usize) -> splicebell_settings {
        // SAFETY: the pointer leads to that many bytes.
        let answer =
            unsafe { raw::splicebell_newest_settings(buffer.pointer(), buffer.len(), used) };
        self.spoilt(answer, buffer, used, newest)
    }

    pub fn newest_old(self, buffer: &Lent<u8>, used: usize) -> splicebell_settings {
        // SAFETY: the pointer leads to that many bytes.
        let answer =
            unsafe { raw::splicebell_newest_settings_old(buffer.pointer(), buffer.len(), used) };
        self.spoilt(answer, buffer, used, settings::newest_old)
    }

    fn spoilt(
        self,
        answer: splicebell_settings,
        buffer: &Lent<u8>,
        used: usize,
        reader: Reader,
    ) -> splicebell_settings {
        let Some(rule) = self.0 else { return answer };
        let Settings { refusal, line, layout } = read_by(rule, buffer.contents(), used, reader);
        splicebell_settings { refusal, line, layout: layouts::lent(&layout) }
    }
}

/// What a wrong rule of reading makes of a text.
fn read_by(rule: SettingRule, buffer: &[u8], used: usize, reader: Reader) -> Settings {
    let right = reader(buffer, used);
    let Some(text) = buffer.get(..used) else {
        return match rule {
            SettingRule::UsedUntested => reader(buffer, buffer.len()),
            _ => right,
        };
    };
    let taken: Vec<u8> = lines_of(text).flat_map(|line| taken_for(rule, line)).collect();
    match rule {
        SettingRule::RestRead => reader(buffer, buffer.len()),
        _ if taken != text => reader(&taken, taken.len()),
        _ if right.refusal == 0 => shown_by(rule, text, right),
        _ => refused_by(rule, text, right),
    }
}

/// The line that the right reader is given for one, by a rule that takes what is malformed.
fn taken_for(rule: SettingRule, line: &[u8]) -> Vec<u8> {
    let begins = |version| line.starts_with(version);
    match rule {
        SettingRule::UpperCaseTaken => line.to_ascii_lowercase(),
        SettingRule::ReturnsTaken => line.iter().filter(|byte| **byte != b'\r').copied().collect(),
        SettingRule::ThirdVersionTaken if begins(b"03") => [b"02", &line[2..]].concat(),
        SettingRule::BoundsUntested if has_form(line) && !is_right(line) => {
            line_of(1, &Layout { n: 1, p: 1, u: 1, t: 1, ..Layout::default() }).into_bytes()
        }
        SettingRule::LongFirstTaken if begins(b"01") && line.len() == line_length(2) => {
            [&line[..40], b"\n"].concat()
        }
        SettingRule::ShortSecondTaken if begins(b"02") && line.len() == line_length(1) => {
            [&line[..40], b" 01\n"].concat()
        }
        SettingRule::CutLineIgnored if !line.ends_with(b"\n") => Vec::new(),
        _ => line.to_vec(),
    }
}

/// What the model says of a single line.
fn read(line: &[u8]) -> Settings {
    newest(line, line.len())
}

fn is_right(line: &[u8]) -> bool {
    read(line).refusal == 0
}

/// What a wrong rule makes of a text that is right to be shown.
fn shown_by(rule: SettingRule, text: &[u8], right: Settings) -> Settings {
    let lines: Vec<&[u8]> = lines_of(text).collect();
    let is_second = |line: &&[u8]| read(line).layout.edition == 2;
    let is_version_2 = |line: &&[u8]| line.starts_with(b"02");
    match (rule, &lines[..]) {
        (SettingRule::OldestShown, [oldest, ..]) => read(oldest),
        (SettingRule::EditionKept, [.., before, last]) if !is_version_2(last) => {
            let edition = read(before).layout.edition;
            Settings { layout: right.layout.in_edition(edition), ..right }
        }
        (SettingRule::SecondVersionUnknown, [.., last]) if is_version_2(last) => UNKNOWN,
        (SettingRule::SecondBeforeUnknown, lines) if lines.iter().any(is_second) => UNKNOWN,
        _ => right,
    }
}

/// What a wrong rule makes of a text that is right to be refused.
fn refused_by(rule: SettingRule, text: &[u8], right: Settings) -> Settings {
    let last = lines_of(text).last().unwrap_or_default();
    match rule {
        SettingRule::NewestAlone if right.refusal == 12 => read(last),
        SettingRule::SecondShown if right.refusal == UNKNOWN_EDITION => read(last),
        SettingRule::UnknownFirst if read(last).layout.edition == 2 => UNKNOWN,
        SettingRule::FromZero if right.refusal == 12 => Settings { line: right.line - 1, ..right },
        SettingRule::LastMalformed if right.refusal == 12 => {
            let numbered = (1..).zip(lines_of(text)).filter(|(_, line)| !is_right(line));
            Settings { line: numbered.map(|(number, _)| number).last().unwrap_or(0), ..right }
        }
        SettingRule::EmptyAsNone if text.iter().all(|byte| *byte == b'\n') => {
            Settings { refusal: 11, ..Settings::default() }
        }
        SettingRule::LayoutLeft => {
            let shown = lines_of(text).filter(|line| is_right(line)).map(read).last();
            Settings { layout: shown.unwrap_or_default().layout, ..right }
        }
        _ => right,
    }
}

/// What the model says.
fn added(setting: &Setting, text: &Text) -> Outcome {
    let mut buffer = text.buffer.clone();
    let (refusal, used) = settings::add(setting.version, &setting.layout, &mut buffer, text.used);
    Outcome { refusal, used, buffer }
}

/// What a wrong rule of adding leaves.
fn added_by(rule: SettingRule, setting: &Setting, text: &Text) -> Outcome {
    let (mut taken, right) = (*setting, added(setting, text));
    match rule {
        SettingRule::VersionOf(bits) => taken.version &= (1 << bits) - 1,
        SettingRule::NumbersByDigits => taken.layout = layouts::narrowed(&setting.layout),
        SettingRule::SecondInFirst if setting.version == 1 && setting.layout.edition == 2 => {
            taken.layout.edition = 1;
        }
        SettingRule::SecondAlways if setting.version == 1 => taken.version = 2,
        _ if right.refusal == 0 => return stored_by(rule, setting, text, right),
        _ => return unstored_by(rule, setting, text, right),
    }
    added(&taken, text)
}

/// What a wrong rule makes of a line that is right to be added.
fn stored_by(rule: SettingRule, setting: &Setting, text: &Text, right: Outcome) -> Outcome {
    let (line, used) = (line_of(setting.version, &setting.layout), text.used);
    let put = |at: usize, line: &[u8], used| {
        let mut buffer = text.buffer.clone();
        buffer[at..at + line.len()].copy_from_slice(line);
        Outcome { refusal: 0, used, buffer }
    };
    let behind = |line: &str| put(used, line.as_bytes(), used + line.len());
    let refused = |refusal| Outcome { refusal, used, buffer: text.buffer.clone() };
    let (room, t) = (text.rest().len(), setting.layout.t);
    match rule {
        SettingRule::AtTheStart => put(0, line.as_bytes(), right.used),
        SettingRule::OverTheLastByte => put(used.saturating_sub(1), line.as_bytes(), right.used),
        SettingRule::FourDigits => {
            behind(&line.replace(&format!(" {t:06x}"), &format!(" {t:04x}")))
        }
        SettingRule::EditionLeftOut => behind(&format!("{}\n", &line[..40])),
        SettingRule::UpperCaseWritten => behind(&line.to_uppercase()),
        SettingRule::NewlineLeftOut => behind(line.trim_end()),
        SettingRule::BehindCleared => {
            let mut buffer = right.buffer;
            buffer[right.used..].fill(0);
            Outcome { buffer, ..right }
        }
        SettingRule::LengthAnswered => Outcome { used: line.len(), ..right },
        SettingRule::ExactRefused if room == line.len() => refused(10),
        SettingRule::LongRoomWanted if room < line_length(2) => refused(10),
        SettingRule::TextTested if newest(&text.buffer, used).refusal == 12 => refused(12),
        _ => right,
    }
}

/// What a wrong rule makes of a line that is right to be refused.
fn unstored_by(rule: SettingRule, setting: &Setting, text: &Text, mut right: Outcome) -> Outcome {
    let room = text.rest().len();
    match rule {
        SettingRule::UsedDropped => right.used = 0,
        SettingRule::AboveAsFull if right.refusal == 5 => right.refusal = 10,
        SettingRule::StoredThoughRefused if right.refusal == 10 => {
            let line = line_of(setting.version, &setting.layout);
            right.buffer[text.used..].copy_from_slice(&line.as_bytes()[..room]);
        }
        SettingRule::ShortRoomTaken if right.refusal == 10 && room >= line_length(1) => {
            right.refusal = 0;
        }
        _ => {}
    }
    right
}
