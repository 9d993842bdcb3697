//! Counts of the wins that were compared, by the expected answers.

use crate::agari_scores::{WAIT_ENTRIES, YAKU_ENTRIES};
use crate::differences::{bad_indicators, out_of_range};
use crate::faults::{FaultTally, add_each, listed_from};
use crate::hand::{Hand, KINDS};
use crate::library::{Indicators, MIXTURES, SETTINGS, Score, TSUMO, TWO, WAITS, Waits, Win};
use crate::score_tally::named;
use crate::win_oracle::{CHECKS, ExpectedWin};
use agari_core::wait::WaitType;
use agari_core::yaku::Yaku;
use std::fmt;

const OPERATIONS: [&str; 3] = ["score_win", "score_reading", "name_waits"];
const EAST: u8 = 27;
/// The answers 0 to 14.
const ANSWERS: usize = 15;
pub const LEVELS: [&str; 6] = [
    "Normal",
    "Mangan",
    "Haneman",
    "Baiman",
    "Sanbaiman",
    "Yakuman",
];
pub const SETTLEMENTS: [&str; 4] = ["ron", "ron to the dealer", "tsumo", "tsumo by the dealer"];
/// The room's settings.
pub const SETTING_NAMES: [&str; 2] = ["four", "two"];
/// The rules of the choice.
pub const RULES: [&str; 5] = ["total", "yakuman", "han", "fu", "earlier record"];

/// How thirteen orphans are named, by wait and by yaku.
const ORPHANS: [&str; 3] = [
    "Kokushi13 and Kokushi13Wait",
    "Tanki and KokushiMusou",
    "otherwise",
];
const RANGES: [&str; 4] = ["win type", "round wind", "seat wind", "setting"];
const ABSENCES: [&str; 3] = ["above 33", "in a call alone", "nowhere"];
/// Which indicators a win has.
pub const INDICATORS: [&str; 4] = ["none", "shown alone", "ura alone", "both"];
/// What is wrong with them.
pub const BAD_INDICATORS: [&str; 4] = [
    "more than ten",
    "one above 33",
    "more than ten ura",
    "an ura above 33",
];

/// An operation of the library.
#[derive(Clone, Copy)]
pub enum Operation {
    ScoreWin,
    ScoreReading,
    NameWaits,
}

impl fmt::Display for Operation {
    fn fmt(&self, f: &mut fmt::Formatter) -> fmt::Result {
        write!(f, "{}", OPERATIONS[*self as usize])
    }
}

/// A win is a hand with its calls, and how it was won. An input is a win, with the number of a
/// reading where the operation asks for one.
pub struct WinTally {
    wins: u64,
    /// Inputs of each operation by answer.
    answers: [[u64; ANSWERS]; OPERATIONS.len()],
    differ: [u64; OPERATIONS.len()],
    faults: FaultTally<{ CHECKS.len() }>,
    /// Wins that are refused with 8, by what is out of range, with 14, by what is wrong with the
    /// indicators, and with 9, by where the tile is.
    out_of_range: [u64; RANGES.len()],
    bad_indicators: [u64; BAD_INDICATORS.len()],
    absent: [u64; ABSENCES.len()],
    /// Wins that pass the checks, by readings, five or more together, and by number of calls.
    readings: [u64; 6],
    calls: [u64; 5],
    /// Whether each mixture of win type, winds and flags occurred in them.
    mixtures: Vec<bool>,
    /// Those wins by setting, by indicators, and with a byte above 33 behind a count of them.
    settings: [u64; SETTINGS.len()],
    indicators: [u64; INDICATORS.len()],
    above_behind: u64,
    /// Their readings as thirteen orphans, by wait and yaku.
    orphans: [u64; ORPHANS.len()],
    /// Scored wins whose chosen reading has a pair that is both round and seat wind, by setting.
    double_winds: [u64; SETTINGS.len()],
    /// Scored wins by level, by settlement, and by the rule that decided where there was a choice.
    levels: [u64; LEVELS.len()],
    settlements: [u64; SETTLEMENTS.len()],
    rules: [u64; RULES.len()],
    /// Scored wins whose chosen reading is not the first.
    not_first: u64,
}

impl Default for WinTally {
    fn default() -> WinTally {
        WinTally {
            wins: 0,
            answers: [[0; ANSWERS]; OPERATIONS.len()],
            differ: [0; OPERATIONS.len()],
            faults: FaultTally::new("wins", CHECKS),
            out_of_range: [0; RANGES.len()],
            bad_indicators: [0; BAD_INDICATORS.len()],
            absent: [0; ABSENCES.len()],
            readings: [0; 6],
            calls: [0; 5],
            mixtures: vec![false; MIXTURES],
            settings: [0; SETTINGS.len()],
            indicators: [0; INDICATORS.len()],
            above_behind: 0,
            orphans: [0; ORPHANS.len()],
            double_winds: [0; SETTINGS.len()],
            levels: [0; LEVELS.len()],
            settlements: [0; SETTLEMENTS.len()],
            rules: [0; RULES.len()],
            not_first: 0,
        }
    }
}

impl WinTally {
    /// The number of wins.
    pub fn wins(&self) -> u64 {
        self.wins
    }

    /// The number of inputs on which the sides differ.
    pub fn differ(&self) -> u64 {
        self.differ.iter().sum()
    }

    /// That number, operation by operation.
    #[cfg(test)]
    pub fn each_differ(&self) -> [u64; OPERATIONS.len()] {
        self.differ
    }

    /// That number, operation by operation and all together.
    pub fn differences(&self) -> String {
        let each = counted(&OPERATIONS, &self.differ);
        format!("differ: {} ({each})", self.differ())
    }

    pub fn count_difference(&mut self, operation: Operation) {
        self.differ[operation as usize] += 1;
    }

    /// Counts an input by the number that is expected.
    pub fn count_answer(&mut self, operation: Operation, number: u32) {
        self.answers[operation as usize][number as usize] += 1;
    }

    pub fn count_win(&mut self, hand: &Hand, win: &Win, expected: &ExpectedWin) {
        self.wins += 1;
        self.faults.count(&expected.faults);
        match expected.score_win().number {
            8 => count_each(&mut self.out_of_range, out_of_range(win)),
            14 => count_each(&mut self.bad_indicators, bad_indicators(win)),
            9 => self.count_absent(hand, win),
            _ => {}
        }
        if expected.faults.contains(&true) {
            return;
        }
        self.readings[expected.scores.len().min(5)] += 1;
        self.calls[hand.calls.count] += 1;
        self.mixtures[win.mixture()] = true;
        self.settings[setting(win)] += 1;
        self.indicators[indicators(win)] += 1;
        self.above_behind += u64::from(is_above_behind(win));
        for (score, waits) in expected.scores.iter().zip(&expected.waits) {
            if let Some(named) = orphans_named(score, waits) {
                self.orphans[named] += 1;
            }
        }
        let score = expected.score_win();
        if score.number == 0 {
            self.count_score(win, &score);
            self.double_winds[setting(win)] += u64::from(expected.double_winds[score.reading]);
        }
        if let Some(rule) = expected.deciding_rule() {
            self.rules[rule] += 1;
        }
    }

    fn count_absent(&mut self, hand: &Hand, win: &Win) {
        let tile = usize::from(win.winning_tile);
        let mut called = hand.called().iter().flat_map(|meld| meld.tiles());
        let place = match tile {
            KINDS.. => 0,
            _ if called.any(|other| other == tile) => 1,
            _ => 2,
        };
        self.absent[place] += 1;
    }

    fn count_score(&mut self, win: &Win, score: &Score) {
        self.levels[usize::from(score.level)] += 1;
        self.settlements[settlement(win)] += 1;
        self.not_first += u64::from(score.reading > 0);
    }

    /// Adds another tally.
    pub fn add(&mut self, other: &WinTally) {
        self.wins += other.wins;
        for (mine, others) in self.answers.iter_mut().zip(&other.answers) {
            add_each(mine, others);
        }
        add_each(&mut self.differ, &other.differ);
        self.faults.add(&other.faults);
        add_each(&mut self.out_of_range, &other.out_of_range);
        add_each(&mut self.bad_indicators, &other.bad_indicators);
        add_each(&mut self.absent, &other.absent);
        add_each(&mut self.readings, &other.readings);
        add_each(&mut self.calls, &other.calls);
        for (mine, other) in self.mixtures.iter_mut().zip(&other.mixtures) {
            *mine |= other;
        }
        add_each(&mut self.settings, &other.settings);
        add_each(&mut self.indicators, &other.indicators);
        self.above_behind += other.above_behind;
        add_each(&mut self.orphans, &other.orphans);
        add_each(&mut self.double_winds, &other.double_winds);
        add_each(&mut self.levels, &other.levels);
        add_each(&mut self.settlements, &other.settlements);
        add_each(&mut self.rules, &other.rules);
        self.not_first += other.not_first;
    }
}

/// The place of a reading among the names of thirteen orphans; nothing where it is none of these.
fn orphans_named(score: &Score, waits: &[u8; WAITS]) -> Option<usize> {
    let has = |yaku| {
        let place = YAKU_ENTRIES.iter().position(|entry| *entry == yaku);
        place.is_some_and(|place| score.tallies[place] > 0)
    };
    let only = |wait| {
        let tallies = WAIT_ENTRIES.map(|entry| u8::from(entry == wait));
        *waits == tallies
    };
    let yaku = [Yaku::Kokushi13Wait, Yaku::KokushiMusou].map(has);
    match yaku {
        [false, false] => (waits[WaitType::Kokushi13 as usize] > 0).then_some(2),
        [true, false] if only(WaitType::Kokushi13) => Some(0),
        [false, true] if only(WaitType::Tanki) => Some(1),
        _ => Some(2),
    }
}

/// The place of a win's setting, which is one, among their names.
pub fn setting(win: &Win) -> usize {
    usize::from(win.double_wind_fu == TWO)
}

/// The place of a win's indicators among their names.
pub fn indicators(win: &Win) -> usize {
    let [dora, ura] = win.indicators().map(|sort| usize::from(sort.count > 0));
    dora + 2 * ura
}

/// Whether a byte that is no tile stands behind a count of indicators, where it is not read.
fn is_above_behind(win: &Win) -> bool {
    let is_above = |sort: &Indicators| sort.behind().iter().any(|&tile| tile >= KINDS as u8);
    win.indicators().iter().any(is_above)
}

/// Counts what is so, place by place.
pub fn count_each<const N: usize>(counts: &mut [u64; N], are_so: [bool; N]) {
    for (count, is_so) in counts.iter_mut().zip(are_so) {
        *count += u64::from(is_so);
    }
}

/// The place of a win's settlement among their names.
pub fn settlement(win: &Win) -> usize {
    let is_dealer = win.seat_wind == EAST;
    2 * usize::from(win.win_type == TSUMO) + usize::from(is_dealer)
}

impl WinTally {
    /// Writes the counts of the wins that pass the checks.
    fn fmt_passed(&self, f: &mut fmt::Formatter) -> fmt::Result {
        let readings = listed_from(0, &self.readings);
        let calls = listed_from(0, &self.calls);
        let seen = self.mixtures.iter().filter(|&&seen| seen).count();
        let settings = counted(&SETTING_NAMES, &self.settings);
        let indicators = counted(&INDICATORS, &self.indicators);
        let above = self.above_behind;
        let orphans = counted(&ORPHANS, &self.orphans);
        writeln!(f, "  wins that pass the checks, by readings: {readings}")?;
        writeln!(f, "    by calls: {calls}")?;
        write!(f, "    mixtures of win type, winds and flags: ")?;
        writeln!(f, "{seen} of {MIXTURES}")?;
        writeln!(f, "    by setting: {settings}")?;
        writeln!(f, "    by indicators: {indicators}")?;
        write!(f, "    with a byte above 33 behind a count of indicators: ")?;
        writeln!(f, "{above}")?;
        writeln!(f, "    readings as thirteen orphans: {orphans}")
    }

    /// Writes the counts of the wins that are scored.
    fn fmt_scored(&self, f: &mut fmt::Formatter) -> fmt::Result {
        let levels = counted(&LEVELS, &self.levels);
        let settlements = counted(&SETTLEMENTS, &self.settlements);
        let rules = counted(&RULES, &self.rules);
        let double_winds = counted(&SETTING_NAMES, &self.double_winds);
        writeln!(f, "  scored wins by level: {levels}")?;
        writeln!(f, "    by settlement: {settlements}")?;
        writeln!(f, "    told from the next reading by: {rules}")?;
        writeln!(f, "    not the first reading: {}", self.not_first)?;
        write!(f, "    with a pair that is both round and seat wind: ")?;
        writeln!(f, "{double_winds}")
    }
}

impl fmt::Display for WinTally {
    fn fmt(&self, f: &mut fmt::Formatter) -> fmt::Result {
        writeln!(f, "  wins {}", self.wins)?;
        for (operation, answers) in OPERATIONS.iter().zip(&self.answers) {
            let inputs: u64 = answers.iter().sum();
            writeln!(f, "  {operation}: inputs {inputs}")?;
            writeln!(f, "    by answer: {}", listed_from(0, answers))?;
        }
        self.fmt_passed(f)?;
        self.fmt_scored(f)?;
        let ranges = counted(&RANGES, &self.out_of_range);
        writeln!(f, "  refused with 8, out of range: {ranges}")?;
        let bad = counted(&BAD_INDICATORS, &self.bad_indicators);
        writeln!(f, "  refused with 14, indicators: {bad}")?;
        let absences = counted(&ABSENCES, &self.absent);
        writeln!(f, "  refused with 9, winning tile: {absences}")?;
        write!(f, "{}", self.faults)
    }
}

/// Counts with their names.
pub fn counted(names: &[&str], counts: &[u64]) -> String {
    let entries: Vec<String> = names
        .iter()
        .zip(counts)
        .map(|(name, count)| format!("{name} {count}"))
        .collect();
    entries.join(", ")
}

impl fmt::Display for Score {
    fn fmt(&self, f: &mut fmt::Formatter) -> fmt::Result {
        let yaku = named(&YAKU_ENTRIES, &self.tallies);
        write!(f, "number {}, reading {}, ", self.number, self.reading)?;
        write!(f, "yaku [{yaku}], han {}, fu {}, ", self.han, self.fu)?;
        write!(f, "yakuman {}, level {} ", self.is_yakuman, self.level)?;
        write!(f, "count {}, ", self.yakuman_count)?;
        write!(f, "dora {} and ura {}, ", self.regular_dora, self.ura_dora)?;
        write!(f, "basic points {}, ", self.basic_points)?;
        write!(f, "settlement {}, ", self.settlement)?;
        write!(f, "from non-dealer {}, ", self.from_non_dealer)?;
        write!(f, "dealer {}, ", self.from_dealer)?;
        write!(f, "discarder {}, ", self.from_discarder)?;
        write!(f, "total {}", self.total)
    }
}

impl fmt::Display for Waits {
    fn fmt(&self, f: &mut fmt::Formatter) -> fmt::Result {
        let waits = named(&WAIT_ENTRIES, &self.waits);
        write!(f, "number {}, waits [{waits}]", self.number)
    }
}
