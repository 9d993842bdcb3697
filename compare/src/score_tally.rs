//! Counts of what was scored, by the expected answer.

use crate::agari_scores::{WAIT_ENTRIES, YAKU_ENTRIES};
use crate::hand::*;
use crate::library::{MIXTURES, RON, SETTINGS, WAITS, Win, YAKU};
use crate::probe::{Reading, ReadingScore, STANDARD};
use crate::win_tally::{SETTING_NAMES, counted, setting};
use std::fmt::{self, Debug};

/// The place of the first wind's yakuhai among the yaku tallies, and the number of winds.
const EAST: usize = 6;
const WINDS: usize = 4;

/// An input is a win and one of its readings.
pub struct ScoreTally {
    inputs: u64,
    /// Inputs by kind of reading.
    kinds: [u64; 3],
    open: u64,
    yakuman: u64,
    no_yaku: u64,
    /// Inputs in which each yaku, and each wait, is tallied.
    yaku: [u64; YAKU],
    waits: [u64; WAITS],
    /// Inputs with tally 2 of each wind.
    double_winds: [u64; WINDS],
    /// Inputs by setting, and those of them whose pair is both round and seat wind.
    settings: [u64; SETTINGS.len()],
    double_pairs: [u64; SETTINGS.len()],
    several_waits: u64,
    equal_waits: u64,
    spared_triplet: u64,
    called_tile: u64,
    most_han: u8,
    most_fu: u8,
    mixtures: Vec<bool>,
    differ: u64,
}

impl ScoreTally {
    pub fn new() -> ScoreTally {
        ScoreTally {
            inputs: 0,
            kinds: [0; 3],
            open: 0,
            yakuman: 0,
            no_yaku: 0,
            yaku: [0; YAKU],
            waits: [0; WAITS],
            double_winds: [0; WINDS],
            settings: [0; SETTINGS.len()],
            double_pairs: [0; SETTINGS.len()],
            several_waits: 0,
            equal_waits: 0,
            spared_triplet: 0,
            called_tile: 0,
            most_han: 0,
            most_fu: 0,
            mixtures: vec![false; MIXTURES],
            differ: 0,
        }
    }

    /// The number of inputs on which the sides differ.
    pub fn differ(&self) -> u64 {
        self.differ
    }

    pub fn count_difference(&mut self) {
        self.differ += 1;
    }

    pub fn count(&mut self, reading: &Reading, win: &Win, is_open: bool, score: &ReadingScore) {
        self.inputs += 1;
        self.kinds[usize::from(reading.kind - 1)] += 1;
        self.open += u64::from(is_open);
        self.yakuman += u64::from(score.is_yakuman);
        self.no_yaku += u64::from(score.han == 0);
        count_each(&mut self.yaku, &score.tallies, 1);
        count_each(&mut self.waits, &score.waits, 1);
        count_each(&mut self.double_winds, &score.tallies[EAST..], 2);
        self.settings[setting(win)] += 1;
        self.double_pairs[setting(win)] += u64::from(reading.has_double_wind(win));
        self.several_waits += u64::from(has_several_waits(score));
        self.equal_waits += u64::from(has_equal_waits(score));
        self.spared_triplet += u64::from(has_spared_triplet(reading, win));
        self.called_tile += u64::from(has_called_tile(reading, win));
        self.most_han = self.most_han.max(score.han);
        self.most_fu = self.most_fu.max(score.fu);
        self.mixtures[win.mixture()] = true;
    }
}

impl Default for ScoreTally {
    fn default() -> ScoreTally {
        ScoreTally::new()
    }
}

/// Counts the tallies that reach a number.
fn count_each(counts: &mut [u64], tallies: &[u8], least: u8) {
    for (count, &tally) in counts.iter_mut().zip(tallies) {
        *count += u64::from(tally >= least);
    }
}

pub fn has_several_waits(score: &ReadingScore) -> bool {
    score.waits.iter().sum::<u8>() > 1
}

/// Whether a wait is tallied twice or more.
pub fn has_equal_waits(score: &ReadingScore) -> bool {
    score.waits.iter().any(|&tally| tally > 1)
}

/// Whether the ron tile stands in a closed triplet and in a closed sequence.
pub fn has_spared_triplet(reading: &Reading, win: &Win) -> bool {
    win.win_type == RON
        && holds(reading, CLOSED_TRIPLET, win.winning_tile)
        && holds(reading, CLOSED_SEQUENCE, win.winning_tile)
}

/// Whether the winning tile stands in an open sequence or an open triplet too.
pub fn has_called_tile(reading: &Reading, win: &Win) -> bool {
    holds(reading, OPEN_SEQUENCE, win.winning_tile)
        || holds(reading, OPEN_TRIPLET, win.winning_tile)
}

/// Whether the reading has a meld of this kind with this tile.
fn holds(reading: &Reading, kind: u8, tile: u8) -> bool {
    let melds = reading.melds.iter().filter(|meld| meld.kind == kind);
    let mut tiles = melds.flat_map(|meld| meld.tiles());
    reading.kind == STANDARD && tiles.any(|other| other == usize::from(tile))
}

impl fmt::Display for ScoreTally {
    fn fmt(&self, f: &mut fmt::Formatter) -> fmt::Result {
        let [pairs, orphans, standard] = self.kinds;
        let seen = self.mixtures.iter().filter(|&&seen| seen).count();
        let [open, yakuman, no_yaku] = [self.open, self.yakuman, self.no_yaku];
        let [several, equal] = [self.several_waits, self.equal_waits];
        writeln!(
            f,
            "  inputs (a win and one of its readings): {}",
            self.inputs
        )?;
        writeln!(
            f,
            "  standard {standard}, seven pairs {pairs}, orphans {orphans}"
        )?;
        writeln!(f, "  open {open}, yakuman {yakuman}, no yaku {no_yaku}")?;
        writeln!(
            f,
            "  greatest han {}, greatest fu {}",
            self.most_han, self.most_fu
        )?;
        writeln!(
            f,
            "  mixtures of win type, winds and flags: {seen} of {MIXTURES}"
        )?;
        let settings = counted(&SETTING_NAMES, &self.settings);
        let double_pairs = counted(&SETTING_NAMES, &self.double_pairs);
        writeln!(f, "  by setting: {settings}")?;
        writeln!(f, "  pair both round and seat wind: {double_pairs}")?;
        writeln!(
            f,
            "  several waits: {several}, one of them twice or more: {equal}"
        )?;
        writeln!(
            f,
            "  ron tile in a closed triplet and a closed sequence: {}",
            self.spared_triplet
        )?;
        writeln!(
            f,
            "  winning tile in an open sequence or triplet too: {}",
            self.called_tile
        )?;
        writeln!(f, "  inputs in which each yaku is tallied:")?;
        fmt_counts(f, &YAKU_ENTRIES, &self.yaku)?;
        writeln!(f, "  inputs with tally 2:")?;
        fmt_counts(f, &YAKU_ENTRIES[EAST..], &self.double_winds)?;
        writeln!(f, "  inputs in which each wait is tallied:")?;
        fmt_counts(f, &WAIT_ENTRIES, &self.waits)
    }
}

/// Writes counts with their names, a line for each.
pub fn fmt_counts(f: &mut fmt::Formatter, names: &[impl Debug], counts: &[u64]) -> fmt::Result {
    for (name, count) in names.iter().zip(counts) {
        writeln!(f, "  {count:9}  {name:?}")?;
    }
    Ok(())
}

impl fmt::Display for ReadingScore {
    fn fmt(&self, f: &mut fmt::Formatter) -> fmt::Result {
        let yaku = named(&YAKU_ENTRIES, &self.tallies);
        let waits = named(&WAIT_ENTRIES, &self.waits);
        let [han, fu, yakuman] = [self.han, self.fu, self.is_yakuman];
        write!(f, "yaku [{yaku}], waits [{waits}], ")?;
        write!(f, "han {han}, fu {fu}, yakuman {yakuman}")
    }
}

/// The tallies that are not 0, with their names.
pub fn named(names: &[impl Debug], tallies: &[u8]) -> String {
    let tallies = names.iter().zip(tallies).filter(|(_, tally)| **tally > 0);
    let tallies: Vec<String> = tallies
        .map(|(name, tally)| format!("{name:?} {tally}"))
        .collect();
    tallies.join(", ")
}
