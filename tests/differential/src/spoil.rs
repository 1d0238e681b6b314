//! Faults made on purpose, one for each kind of comparison, one for each rule of the catalogue's numbers of two words, one
//! for each of the count of missing units, one for each of plans of repair, one for each of the edition, one for each of moves
//! between editions, one for each of swaps of a drive and one for each of settings: the tester must report every one of them.

use crate::catalogue_rules::Rule;
use crate::count_rules::CountRule;
use crate::edition_rules::EditionRule;
use crate::lent::Lent;
use crate::move_rules::MoveRule;
use crate::plan_rules::Numbers::{Content, Group, Sources};
use crate::plan_rules::PlanRule;
use crate::setting_rules::SettingRule;
use crate::swap_rules::SwapRule;
use crate::tally::Call;

/// What a library with a fault would do.
#[derive(Clone, Copy, Debug, PartialEq, Eq)]
pub enum Spoil {
    /// A number of the answer is wrong.
    Answer,
    /// A byte of a lent buffer is not what the model says.
    Byte,
    /// The byte before a buffer is changed.
    Before,
    /// The byte past the end of a buffer is changed.
    After,
    /// The byte past the end of a buffer is read.
    Look,
    /// A byte of a buffer that is lent to be read is stored, the same as was there.
    Store,
    /// What stands behind the answer to a replayed line is cleared, though it must stay.
    Rest,
    /// A rule of the catalogue is another.
    Rule(Rule),
    /// A rule of the count of missing units is another.
    Count(CountRule),
    /// A rule of plans of repair is another.
    Plan(PlanRule),
    /// A rule of the edition is another.
    Edition(EditionRule),
    /// A rule of moves between editions is another.
    Move(MoveRule),
    /// A rule of swaps of a drive is another.
    Swap(SwapRule),
    /// A rule of rows' settings is another.
    Setting(SettingRule),
}

const KINDS: [(&str, Spoil); 163] = [
    ("answer", Spoil::Answer),
    ("byte", Spoil::Byte),
    ("before", Spoil::Before),
    ("after", Spoil::After),
    ("look", Spoil::Look),
    ("store", Spoil::Store),
    ("rest", Spoil::Rest),
    ("second-word-first", Spoil::Rule(Rule::SecondWordFirst)),
    ("first-word-alone", Spoil::Rule(Rule::FirstWordAlone)),
    ("first-word-ignored", Spoil::Rule(Rule::FirstWordIgnored)),
    ("half-cob", Spoil::Rule(Rule::HalfCob)),
    ("next-exchanged", Spoil::Rule(Rule::NextExchanged)),
    ("half-freed", Spoil::Rule(Rule::HalfFreed)),
    ("all-units", Spoil::Count(CountRule::AllUnits)),
    ("own-places", Spoil::Count(CountRule::OwnPlaces)),
    ("raised-too-little", Spoil::Count(CountRule::RaisedTooLittle)),
    ("raised-too-far", Spoil::Count(CountRule::RaisedTooFar)),
    ("raise-first", Spoil::Count(CountRule::RaiseFirst)),
    ("raised-though-refused", Spoil::Count(CountRule::RaisedThoughRefused)),
    ("kept-by-repair", Spoil::Count(CountRule::KeptByRepair)),
    ("taken-by-repair", Spoil::Count(CountRule::TakenByRepair)),
    ("panel-counts", Spoil::Count(CountRule::PanelCounts)),
    ("audit-of-nothing", Spoil::Count(CountRule::AuditOfNothing)),
    ("audit-of-own-places", Spoil::Count(CountRule::AuditOfOwnPlaces)),
    ("lower-bound", Spoil::Count(CountRule::LowerBound)),
    ("higher-bound", Spoil::Count(CountRule::HigherBound)),
    ("named-twice", Spoil::Plan(PlanRule::NamedTwice)),
    ("left-out", Spoil::Plan(PlanRule::LeftOut)),
    ("empty-taken", Spoil::Plan(PlanRule::EmptyTaken)),
    ("present-too", Spoil::Plan(PlanRule::PresentToo)),
    ("outside-too", Spoil::Plan(PlanRule::OutsideToo)),
    ("missing-source", Spoil::Plan(PlanRule::MissingSource)),
    ("source-twice", Spoil::Plan(PlanRule::SourceTwice)),
    ("source-of-8-bits", Spoil::Plan(PlanRule::Narrow(Sources, 8))),
    ("source-of-16-bits", Spoil::Plan(PlanRule::Narrow(Sources, 16))),
    ("source-of-32-bits", Spoil::Plan(PlanRule::Narrow(Sources, 32))),
    ("content-of-8-bits", Spoil::Plan(PlanRule::Narrow(Content, 8))),
    ("content-of-32-bits", Spoil::Plan(PlanRule::Narrow(Content, 32))),
    ("group-of-16-bits", Spoil::Plan(PlanRule::Narrow(Group, 16))),
    ("group-of-32-bits", Spoil::Plan(PlanRule::Narrow(Group, 32))),
    ("rest-ignored", Spoil::Plan(PlanRule::RestIgnored)),
    ("sources-ignored", Spoil::Plan(PlanRule::SourcesIgnored)),
    ("q-kept", Spoil::Plan(PlanRule::QKept)),
    ("waiting-kept", Spoil::Plan(PlanRule::WaitingKept)),
    ("count-taken", Spoil::Plan(PlanRule::CountTaken)),
    ("repaired-though-refused", Spoil::Plan(PlanRule::RepairedThoughRefused)),
    ("old-homes", Spoil::Plan(PlanRule::OldHomes)),
    ("stored-though-refused", Spoil::Plan(PlanRule::StoredThoughRefused)),
    ("plan-first", Spoil::Plan(PlanRule::PlanFirst)),
    ("drawn-though-short", Spoil::Plan(PlanRule::DrawnThoughShort)),
    ("rest-cleared", Spoil::Plan(PlanRule::RestCleared)),
    ("second-lowest", Spoil::Plan(PlanRule::SecondLowest)),
    ("drawn-backwards", Spoil::Plan(PlanRule::DrawnBackwards)),
    ("exact-too-short", Spoil::Plan(PlanRule::ExactTooShort)),
    ("room-by-count", Spoil::Plan(PlanRule::RoomByCount)),
    ("length-though-refused", Spoil::Plan(PlanRule::LengthThoughRefused)),
    ("length-in-entries", Spoil::Plan(PlanRule::LengthInEntries)),
    ("three-extra", Spoil::Edition(EditionRule::Advances(3, 1))),
    ("five-extra", Spoil::Edition(EditionRule::Advances(5, 1))),
    ("extra-each-time", Spoil::Edition(EditionRule::Advances(0, 5))),
    ("other-inverse", Spoil::Edition(EditionRule::OtherInverse)),
    ("second-as-first", Spoil::Edition(EditionRule::Taken(2, 1))),
    ("first-as-second", Spoil::Edition(EditionRule::Taken(1, 2))),
    ("zero-as-first", Spoil::Edition(EditionRule::Taken(0, 1))),
    ("three-as-second", Spoil::Edition(EditionRule::Taken(3, 2))),
    ("edition-of-8-bits", Spoil::Edition(EditionRule::Narrow(8))),
    ("edition-of-16-bits", Spoil::Edition(EditionRule::Narrow(16))),
    ("edition-of-32-bits", Spoil::Edition(EditionRule::Narrow(32))),
    ("edition-in-the-start", Spoil::Edition(EditionRule::InTheStart)),
    ("first-line-of-second", Spoil::Edition(EditionRule::FirstLineOfSecond)),
    ("edition-though-refused", Spoil::Edition(EditionRule::EditionThoughRefused)),
    ("spares-kept", Spoil::Move(MoveRule::SparesKept)),
    ("first-spares-alone", Spoil::Move(MoveRule::FirstSparesAlone)),
    ("parity-copied", Spoil::Move(MoveRule::ParityCopied)),
    ("parity-left-out", Spoil::Move(MoveRule::ParityLeftOut)),
    ("same-edition", Spoil::Move(MoveRule::SameEdition)),
    ("cookie-dropped", Spoil::Move(MoveRule::CookieDropped)),
    ("old-homes-used", Spoil::Move(MoveRule::OldHomesUsed)),
    ("missing-as-they-lie", Spoil::Move(MoveRule::MissingAsTheyLie)),
    ("highest-sources", Spoil::Move(MoveRule::HighestSources)),
    ("all-as-repaired", Spoil::Move(MoveRule::AllAsRepaired)),
    ("none-as-repaired", Spoil::Move(MoveRule::NoneAsRepaired)),
    ("last-group-left-out", Spoil::Move(MoveRule::LastGroupLeftOut)),
    ("groups-of-16-bits", Spoil::Move(MoveRule::GroupsOf16Bits)),
    ("first-tile-for-all", Spoil::Move(MoveRule::FirstTileForAll)),
    ("old-mended", Spoil::Move(MoveRule::OldMended)),
    ("kept-though-refused", Spoil::Move(MoveRule::KeptThoughRefused)),
    ("tail-kept", Spoil::Move(MoveRule::TailKept)),
    ("moved-though-refused", Spoil::Move(MoveRule::MovedThoughRefused)),
    ("old-length-untested", Spoil::Move(MoveRule::OldLengthUntested)),
    ("new-length-untested", Spoil::Move(MoveRule::NewLengthUntested)),
    ("lengths-alike", Spoil::Move(MoveRule::LengthsAlike)),
    ("record-first", Spoil::Move(MoveRule::RecordFirst)),
    ("true-count-alone", Spoil::Move(MoveRule::TrueCountAlone)),
    ("healthy-alone", Spoil::Move(MoveRule::HealthyAlone)),
    ("all-entries", Spoil::Move(MoveRule::AllEntries)),
    ("one-by-one", Spoil::Swap(SwapRule::OneByOne)),
    ("one-by-one-falling", Spoil::Swap(SwapRule::OneByOneFalling)),
    ("target-alone", Spoil::Swap(SwapRule::TargetAlone)),
    ("new-drive-kept", Spoil::Swap(SwapRule::NewDriveKept)),
    ("worked-out", Spoil::Swap(SwapRule::WorkedOut)),
    ("left-cleared", Spoil::Swap(SwapRule::LeftCleared)),
    ("new-drive-cleared", Spoil::Swap(SwapRule::NewDriveCleared)),
    ("last-group-kept", Spoil::Swap(SwapRule::LastGroupKept)),
    ("later-groups-kept", Spoil::Swap(SwapRule::GroupsOf16Bits)),
    ("last-dropped", Spoil::Swap(SwapRule::LastDropped)),
    ("last-in-the-gap", Spoil::Swap(SwapRule::LastInTheGap)),
    ("q-kept-by-swap", Spoil::Swap(SwapRule::QKept)),
    ("k-kept", Spoil::Swap(SwapRule::KKept)),
    ("freed-kept", Spoil::Swap(SwapRule::FreedKept)),
    ("behind-cleared", Spoil::Swap(SwapRule::BehindCleared)),
    ("count-cleared", Spoil::Swap(SwapRule::CountCleared)),
    ("by-true-count", Spoil::Swap(SwapRule::ByTrueCount)),
    ("unrepaired-too", Spoil::Swap(SwapRule::UnrepairedToo)),
    ("sixteen-first", Spoil::Swap(SwapRule::SixteenFirst)),
    ("eleven-first", Spoil::Swap(SwapRule::ElevenFirst)),
    ("behind-searched", Spoil::Swap(SwapRule::BehindSearched)),
    ("target-of-8-bits", Spoil::Swap(SwapRule::TargetOf(8))),
    ("target-of-16-bits", Spoil::Swap(SwapRule::TargetOf(16))),
    ("target-of-32-bits", Spoil::Swap(SwapRule::TargetOf(32))),
    ("swapped-though-refused", Spoil::Swap(SwapRule::MovedThoughRefused)),
    ("shortened-though-refused", Spoil::Swap(SwapRule::ShortenedThoughRefused)),
    ("oldest-shown", Spoil::Setting(SettingRule::OldestShown)),
    ("newest-alone", Spoil::Setting(SettingRule::NewestAlone)),
    ("edition-kept", Spoil::Setting(SettingRule::EditionKept)),
    ("second-shown", Spoil::Setting(SettingRule::SecondShown)),
    ("second-version-unknown", Spoil::Setting(SettingRule::SecondVersionUnknown)),
    ("second-before-unknown", Spoil::Setting(SettingRule::SecondBeforeUnknown)),
    ("unknown-first", Spoil::Setting(SettingRule::UnknownFirst)),
    ("upper-case-taken", Spoil::Setting(SettingRule::UpperCaseTaken)),
    ("returns-taken", Spoil::Setting(SettingRule::ReturnsTaken)),
    ("third-version-taken", Spoil::Setting(SettingRule::ThirdVersionTaken)),
    ("bounds-untested", Spoil::Setting(SettingRule::BoundsUntested)),
    ("long-first-taken", Spoil::Setting(SettingRule::LongFirstTaken)),
    ("short-second-taken", Spoil::Setting(SettingRule::ShortSecondTaken)),
    ("cut-line-ignored", Spoil::Setting(SettingRule::CutLineIgnored)),
    ("from-zero", Spoil::Setting(SettingRule::FromZero)),
    ("last-malformed", Spoil::Setting(SettingRule::LastMalformed)),
    ("empty-as-none", Spoil::Setting(SettingRule::EmptyAsNone)),
    ("layout-left", Spoil::Setting(SettingRule::LayoutLeft)),
    ("used-untested", Spoil::Setting(SettingRule::UsedUntested)),
    ("rest-read", Spoil::Setting(SettingRule::RestRead)),
    ("at-the-start", Spoil::Setting(SettingRule::AtTheStart)),
    ("over-the-last-byte", Spoil::Setting(SettingRule::OverTheLastByte)),
    ("four-digits", Spoil::Setting(SettingRule::FourDigits)),
    ("edition-left-out", Spoil::Setting(SettingRule::EditionLeftOut)),
    ("upper-case-written", Spoil::Setting(SettingRule::UpperCaseWritten)),
    ("newline-left-out", Spoil::Setting(SettingRule::NewlineLeftOut)),
    ("second-always", Spoil::Setting(SettingRule::SecondAlways)),
    ("behind-line-cleared", Spoil::Setting(SettingRule::BehindCleared)),
    ("length-answered", Spoil::Setting(SettingRule::LengthAnswered)),
    ("used-dropped", Spoil::Setting(SettingRule::UsedDropped)),
    ("line-though-refused", Spoil::Setting(SettingRule::StoredThoughRefused)),
    ("above-as-full", Spoil::Setting(SettingRule::AboveAsFull)),
    ("exact-refused", Spoil::Setting(SettingRule::ExactRefused)),
    ("long-room-wanted", Spoil::Setting(SettingRule::LongRoomWanted)),
    ("short-room-taken", Spoil::Setting(SettingRule::ShortRoomTaken)),
    ("text-tested", Spoil::Setting(SettingRule::TextTested)),
    ("second-in-first", Spoil::Setting(SettingRule::SecondInFirst)),
    ("version-of-8-bits", Spoil::Setting(SettingRule::VersionOf(8))),
    ("version-of-16-bits", Spoil::Setting(SettingRule::VersionOf(16))),
    ("version-of-32-bits", Spoil::Setting(SettingRule::VersionOf(32))),
    ("numbers-by-digits", Spoil::Setting(SettingRule::NumbersByDigits)),
];

/// A rule that is another in the call of this name alone.
type InACall = fn(&'static str) -> EditionRule;

/// Named with the call's name behind them.
const IN_A_CALL: [(&str, InACall); 2] =
    [("first-in-", EditionRule::FirstIn), ("untested-in-", EditionRule::UntestedIn)];

impl Spoil {
    pub fn named(name: &str) -> Option<Spoil> {
        if let Some((_, kind)) = KINDS.iter().find(|(known, _)| *known == name) {
            return Some(*kind);
        }
        let in_a_call = |(words, rule): &(&str, InACall)| {
            Some(Spoil::Edition(rule(Call::known(name.strip_prefix(words)?)?)))
        };
        IN_A_CALL.iter().find_map(in_a_call)
    }

    /// Spoils what stands behind the first `kept` bytes of a buffer, where this kind does.
    pub fn rest(self, lent: &Lent<u8>, kept: usize) {
        if self == Spoil::Rest {
            for i in kept..lent.len() {
                // SAFETY: inside the buffer, which is lent to be changed.
                unsafe { *lent.pointer().add(i) = 0 };
            }
        }
    }

    /// Spoils a buffer where this kind can; whether it did.
    pub fn buffer<T: Copy>(self, lent: &Lent<T>) -> bool {
        let first = lent.pointer().cast::<u8>();
        let bytes = std::mem::size_of_val(lent.contents());
        let is_open = !lent.is_sealed();
        // SAFETY: none; that is what it is for. Nothing but the arena's bytes and guards is changed.
        unsafe {
            match self {
                Spoil::Byte if is_open && bytes > 0 => *first.add(bytes / 2) ^= 1,
                Spoil::Before if is_open && lent.is_guarded_before() => *first.sub(1) ^= 1,
                Spoil::After if is_open && lent.is_guarded_after() => *first.add(bytes) ^= 1,
                Spoil::Look if !lent.is_guarded_after() => {
                    // used, since memcheck drops a load whose value is not
                    std::hint::black_box(first.add(bytes).read_volatile());
                }
                Spoil::Store if !is_open => first.write_volatile(first.read()),
                _ => return false,
            }
        }
        true
    }
}
