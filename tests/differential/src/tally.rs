//! What has been tried so far: the calls with their refusal numbers, the layouts, the damage done to texts, to plans of
//! repair, to replayed lines and to settings, the kinds of lists of writes, of plans, of moves, of swaps, of calls on
//! catalogues, of calls on settings and of calls by the count in their record or the edition of their layout, and those of
//! replayed lines with the numbers of their answers.

use crate::catalogue_kinds::{Asked, CATALOGUE_KINDS};
use crate::count_kinds::{Counted, COUNTS, COUNT_KINDS, TAKERS};
use crate::damages::DAMAGES;
use crate::edition_kinds::Given;
use crate::edition_tally::EditionTally;
use crate::line_damages::LINE_DAMAGES;
use crate::line_kinds::{FirstLine, Line, EVENTS, FIRST_KINDS, LINE_KINDS, MALFORMED};
use crate::list_kinds::{Listed, KINDS};
use crate::move_tally::MoveTally;
use crate::plan_tally::PlanTally;
use crate::setting_tally::SettingTally;
use crate::swap_tally::SwapTally;
use oracle::layout::Layout;

/// The public calls, in the order of include/splicebell.h.
#[derive(Clone, Copy, Debug, PartialEq, Eq)]
pub enum Call {
    Measure,
    TilePermutation,
    TileInverse,
    FindPlace,
    FindUnit,
    MapOffset,
    MapByte,
    Step,
    Encode,
    Rebuild,
    Fail,
    Read,
    Write,
    WriteList,
    Repair,
    CheckPlan,
    RepairBy,
    DrawPlan,
    Swap,
    MoveEdition,
    Panel,
    Audit,
    Prepare,
    Show,
    Lookup,
    Insert,
    Delete,
    Listing,
    HexLine,
    WriteText,
    ReadText,
    ReplayFirst,
    ReplayLine,
    AddSettings,
    NewestSettings,
    NewestSettingsOld,
}

/// The name of each call, and the numbers that it may answer by include/splicebell.h, beside 0.
const CALLS: [(&str, &[usize]); 36] = [
    ("measure", &[1]),
    ("tile_permutation", &[1, 4]),
    ("tile_inverse", &[1, 4]),
    ("find_place", &[1, 4]),
    ("find_unit", &[1, 4]),
    ("map_offset", &[1, 4]),
    ("map_byte", &[1, 4]),
    ("step", &[1, 4]),
    ("encode", &[1, 5]),
    ("rebuild", &[1, 4, 5, 8]),
    ("fail", &[1, 2, 3, 4, 6, 7]),
    ("read", &[1, 2, 3, 4]),
    ("write", &[1, 2, 3, 4]),
    ("write_list", &[1, 2, 3, 4, 5]),
    ("repair", &[1, 2, 3]),
    ("check_plan", &[1, 2, 3, 15]),
    ("repair_by", &[1, 2, 3, 15]),
    ("draw_plan", &[1, 2, 3, 5]),
    ("swap", &[1, 2, 3, 4, 11, 16]),
    ("move_edition", &[1, 2, 3]),
    ("panel", &[1, 2, 3]),
    ("audit", &[1, 2, 3, 14]),
    ("prepare", &[1, 2, 3, 4, 5]),
    ("show", &[1, 2, 3, 4, 5]),
    ("lookup", &[9, 11]),
    ("insert", &[9, 10]),
    ("delete", &[9, 11]),
    ("listing", &[9]),
    ("hex_line", &[1, 2, 4, 5]),
    ("write_text", &[1, 2, 5]),
    ("read_text", &[1, 2, 12]),
    ("replay_first", &[1, 13]),
    ("replay_line", &[5]),
    ("add_settings", &[1, 5, 10]),
    ("newest_settings", &[5, 11, 12]),
    ("newest_settings_old", &[5, 11, 12, 17]),
];

impl Call {
    pub fn name(self) -> &'static str {
        CALLS[self as usize].0
    }

    /// The name itself, where it is a call's.
    pub fn known(name: &str) -> Option<&'static str> {
        CALLS.iter().map(|call| call.0).find(|known| *known == name)
    }
}

/// The refusal numbers, 0 among them: document 01's table, and 12 to 17 of document 02.
const REFUSALS: usize = 18;

/// The lowest and the highest that was seen.
#[derive(Clone, Copy)]
struct Range(u64, u64);

impl Range {
    const NONE: Range = Range(u64::MAX, 0);

    fn add(&mut self, number: u64) {
        *self = Range(self.0.min(number), self.1.max(number));
    }
}

impl std::fmt::Display for Range {
    fn fmt(&self, f: &mut std::fmt::Formatter<'_>) -> std::fmt::Result {
        write!(f, "{}..{}", self.0, self.1)
    }
}

/// The ranges of the accepted layouts that calls of one kind were tried with.
struct Ranges {
    layouts: u64,
    numbers: [Range; 7],
    image: Range,
}

impl Ranges {
    const NONE: Ranges = Ranges { layouts: 0, numbers: [Range::NONE; 7], image: Range::NONE };

    fn add(&mut self, y: &Layout) {
        self.layouts += 1;
        let Layout { n, k, p, u, t, cookie, edition } = *y;
        for (range, number) in self.numbers.iter_mut().zip([n, k, p, u, t, cookie, edition]) {
            range.add(number);
        }
        self.image.add(y.derived().image);
    }

    fn print(&self, kind: &str) {
        let [n, k, p, u, t, cookie, edition] = self.numbers;
        println!("{kind}: {} layouts, N {n} K {k} P {p} U {u} T {t} cookie {cookie}", self.layouts);
        println!("    edition {edition}, of {} image bytes", self.image);
    }
}

pub struct Tally {
    /// How often each call answered each number.
    counts: [[u64; REFUSALS]; CALLS.len()],
    all: Ranges,
    pools: Ranges,
    texts: Ranges,
    /// How often each kind of damage was done to a text.
    damages: [u64; DAMAGES.len()],
    /// How often a list of each kind was met, and the ranges that were answered with 4.
    lists: [u64; KINDS.len()],
    ranges: Range,
    /// How often a call on a catalogue was of each kind.
    catalogues: [u64; CATALOGUE_KINDS.len()],
    /// How often each call that takes a record had each of the counts that all must meet, and how often one was of each
    /// kind by its count.
    counts_taken: [[u64; COUNTS.len()]; TAKERS.len()],
    counted: [u64; COUNT_KINDS.len()],
    pub editions: EditionTally,
    plan_layouts: Ranges,
    pub plans: PlanTally,
    move_layouts: Ranges,
    pub moves: MoveTally,
    swap_layouts: Ranges,
    pub swaps: SwapTally,
    pub settings: SettingTally,
    replays: Ranges,
    /// How often each event was answered with each number, and how often a line was malformed.
    events: [[u64; REFUSALS]; EVENTS.len()],
    malformed: u64,
    /// How often each kind of damage was done to a line, and how often a line of each kind was met.
    line_damages: [u64; LINE_DAMAGES.len()],
    lines: [u64; LINE_KINDS.len()],
    firsts: [u64; FIRST_KINDS.len()],
}

impl Tally {
    pub const NONE: Tally = Tally {
        counts: [[0; REFUSALS]; CALLS.len()],
        all: Ranges::NONE,
        pools: Ranges::NONE,
        texts: Ranges::NONE,
        damages: [0; DAMAGES.len()],
        lists: [0; KINDS.len()],
        ranges: Range::NONE,
        catalogues: [0; CATALOGUE_KINDS.len()],
        counts_taken: [[0; COUNTS.len()]; TAKERS.len()],
        counted: [0; COUNT_KINDS.len()],
        editions: EditionTally::NONE,
        plan_layouts: Ranges::NONE,
        plans: PlanTally::NONE,
        move_layouts: Ranges::NONE,
        moves: MoveTally::NONE,
        swap_layouts: Ranges::NONE,
        swaps: SwapTally::NONE,
        settings: SettingTally::NONE,
        replays: Ranges::NONE,
        events: [[0; REFUSALS]; EVENTS.len()],
        malformed: 0,
        line_damages: [0; LINE_DAMAGES.len()],
        lines: [0; LINE_KINDS.len()],
        firsts: [0; FIRST_KINDS.len()],
    };

    pub fn add(&mut self, call: Call, refusal: u64) {
        self.counts[call as usize][refusal as usize] += 1;
    }

    /// A layout that calls without an image are tried with.
    pub fn add_layout(&mut self, layout: &Layout) {
        if layout.refusal() == 0 {
            self.all.add(layout);
        }
    }

    /// A layout that has a whole image.
    pub fn add_pool(&mut self, layout: &Layout) {
        self.pools.add(layout);
    }

    /// A layout whose pool is written as text, or read from one.
    pub fn add_text(&mut self, layout: &Layout) {
        self.texts.add(layout);
    }

    /// A text was damaged, in the way that has this number among [`DAMAGES`].
    pub fn add_damage(&mut self, kind: usize) {
        self.damages[kind] += 1;
    }

    /// A list was asked for and answered.
    pub fn add_list(&mut self, list: &Listed) {
        add_kinds(&KINDS, &mut self.lists, |is_met| is_met(list));
        if list.range > 0 {
            self.ranges.add(list.range);
        }
    }

    /// A catalogue was asked and answered.
    pub fn add_catalogue(&mut self, asked: &Asked) {
        add_kinds(&CATALOGUE_KINDS, &mut self.catalogues, |is_met| is_met(asked));
    }

    /// A call was made and answered. One that takes no record is not counted here.
    pub fn add_count(&mut self, call: &Counted) {
        let Some(taker) = TAKERS.iter().position(|name| *name == call.call) else { return };
        self.moves.add_later(call);
        self.swaps.add_later(call);
        add_kinds(&COUNTS, &mut self.counts_taken[taker], |is_met| is_met(call));
        add_kinds(&COUNT_KINDS, &mut self.counted, |is_met| is_met(call));
    }

    /// A layout whose pool is repaired by plans.
    pub fn add_plan_layout(&mut self, layout: &Layout) {
        self.plan_layouts.add(layout);
    }

    /// A layout whose pool is moved to the other edition.
    pub fn add_move_layout(&mut self, layout: &Layout) {
        self.move_layouts.add(layout);
    }

    /// A layout whose pool takes drives back.
    pub fn add_swap_layout(&mut self, layout: &Layout) {
        self.swap_layouts.add(layout);
    }

    /// A layout whose pool lines are played on.
    pub fn add_replay(&mut self, layout: &Layout) {
        self.replays.add(layout);
    }

    /// A line was damaged, in the way that has this number among [`LINE_DAMAGES`].
    pub fn add_line_damage(&mut self, kind: usize) {
        self.line_damages[kind] += 1;
    }

    /// A first line was asked for and answered.
    pub fn add_first(&mut self, line: &FirstLine) {
        add_kinds(&FIRST_KINDS, &mut self.firsts, |is_met| is_met(line));
    }

    /// A line was played and answered, or refused.
    pub fn add_line(&mut self, line: &Line) {
        add_kinds(&LINE_KINDS, &mut self.lines, |is_met| is_met(line));
        match (line.event(), line.number()) {
            (Some(event), Some(number)) => self.events[event][number] += 1,
            (None, Some(_)) => self.malformed += 1,
            _ => {}
        }
        if let Some(counted) = line.counted() {
            self.add_count(&counted);
            let Counted { call, pool, refusal, .. } = counted;
            self.editions.add(&Given { call, layout: &pool.layout, refusal });
        }
    }

    pub fn calls(&self) -> u64 {
        self.counts.iter().flatten().sum()
    }

    /// How often a number was answered, by whatever call.
    fn of_refusal(&self, number: usize) -> u64 {
        self.counts.iter().map(|of_call| of_call[number]).sum()
    }

    pub fn print(&self) {
        for ((name, _), of_call) in CALLS.iter().zip(self.counts) {
            println!("{name:20}{:9}   {}", of_call.iter().sum::<u64>(), numbers_met(&of_call));
        }
        for number in 0..REFUSALS {
            println!("refusal {number:<12}{:9}", self.of_refusal(number));
        }
        for ((name, _), count) in DAMAGES.iter().zip(self.damages) {
            println!("text: {name:25}{count:9}");
        }
        for ((name, _), count) in KINDS.iter().zip(self.lists) {
            println!("list: {name:30}{count:9}");
        }
        println!("list: ranges {} answered with 4", self.ranges);
        for ((name, _), count) in CATALOGUE_KINDS.iter().zip(self.catalogues) {
            println!("catalogue: {name:30}{count:9}");
        }
        self.print_counts();
        self.editions.print();
        self.plans.print();
        self.moves.print();
        self.swaps.print();
        self.settings.print();
        self.print_lines();
        self.all.print("without an image");
        self.pools.print("pools");
        self.texts.print("texts");
        self.plan_layouts.print("plans");
        self.move_layouts.print("moves");
        self.swap_layouts.print("swaps");
        self.replays.print("replays");
    }

    fn print_counts(&self) {
        for (taker, counts) in TAKERS.iter().zip(self.counts_taken) {
            for ((name, _), count) in COUNTS.iter().zip(counts) {
                println!("count: {taker:17}{name:22}{count:9}");
            }
        }
        for ((name, _), count) in COUNT_KINDS.iter().zip(self.counted) {
            println!("count: {name:30}{count:9}");
        }
    }

    fn print_lines(&self) {
        for ((name, _), of_event) in EVENTS.iter().zip(self.events) {
            let answered = numbers_met(&of_event);
            println!("line: {name:11}{:9}   {answered}", of_event.iter().sum::<u64>());
        }
        println!("line: malformed  {:9}   {MALFORMED}: {}", self.malformed, self.malformed);
        for ((name, _), count) in LINE_DAMAGES.iter().zip(self.line_damages) {
            println!("line: {name:25}{count:9}");
        }
        for ((name, _), count) in LINE_KINDS.iter().zip(self.lines) {
            println!("line: {name:30}{count:9}");
        }
        for ((name, _), count) in FIRST_KINDS.iter().zip(self.firsts) {
            println!("first line: {name:24}{count:9}");
        }
    }

    /// The calls and their refusal numbers that were never met, the damage that was never done, and the kinds of
    /// lists, of plans, of moves, of swaps, of calls on catalogues, of calls on settings, of calls by their count or their
    /// edition and of replayed lines that were never met.
    pub fn never_met(&self) -> Vec<String> {
        let mut never = Vec::new();
        for ((name, refusals), of_call) in CALLS.iter().zip(self.counts) {
            let numbers = [0].iter().chain(*refusals).filter(|number| of_call[**number] == 0);
            never.extend(numbers.map(|number| format!("{name} with {number}")));
        }
        for ((name, answers), of_event) in EVENTS.iter().zip(self.events) {
            let numbers = answers.iter().filter(|number| of_event[**number] == 0);
            never.extend(numbers.map(|number| format!("a {name}'s line answered with {number}")));
        }
        if self.malformed == 0 {
            never.push(format!("a line answered with {MALFORMED}"));
        }
        never.extend(unmet("a text with", &DAMAGES, &self.damages));
        never.extend(unmet("a list with", &KINDS, &self.lists));
        never.extend(unmet("a call on a catalogue with", &CATALOGUE_KINDS, &self.catalogues));
        for (taker, counts) in TAKERS.iter().zip(&self.counts_taken) {
            never.extend(unmet(&format!("{taker} with"), &COUNTS, counts));
        }
        never.extend(unmet("a call by its count,", &COUNT_KINDS, &self.counted));
        never.extend(self.editions.never_met());
        never.extend(self.plans.never_met());
        never.extend(self.moves.never_met());
        never.extend(self.swaps.never_met());
        never.extend(self.settings.never_met());
        never.extend(unmet("a line damaged by", &LINE_DAMAGES, &self.line_damages));
        never.extend(unmet("a line with", &LINE_KINDS, &self.lines));
        never.extend(unmet("a first line with", &FIRST_KINDS, &self.firsts));
        never
    }
}

/// The numbers that were met, with how often.
fn numbers_met(counts: &[u64]) -> String {
    let met = counts.iter().enumerate().filter(|(_, count)| **count != 0);
    met.map(|(number, count)| format!("{number}: {count}")).collect::<Vec<_>>().join(", ")
}

/// One more of each kind that is met.
pub fn add_kinds<T>(kinds: &[(&str, T)], counts: &mut [u64], is_met: impl Fn(&T) -> bool) {
    for ((_, kind), count) in kinds.iter().zip(counts) {
        *count += u64::from(is_met(kind));
    }
}

/// A line for each kind, behind some words: how often it was met.
pub fn print_kinds<T>(words: &str, kinds: &[(&str, T)], counts: &[u64]) {
    for ((name, _), count) in kinds.iter().zip(counts) {
        println!("{words}{name:32}{count:9}");
    }
}

/// The kinds that were never counted, each named behind some words.
pub fn unmet<T>(words: &str, kinds: &[(&str, T)], counts: &[u64]) -> Vec<String> {
    let never = kinds.iter().zip(counts).filter(|(_, count)| **count == 0);
    never.map(|((name, _), _)| format!("{words} {name}")).collect()
}
