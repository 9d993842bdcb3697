//! Counts of what was seen in wins of three players that pass the checks.

use crate::agari_scores::YAKU_ENTRIES;
use crate::faults::{add_each, listed_from};
use crate::hand::*;
use crate::library::{Score, TSUMO, Win, YAKU};
use crate::score_tally::fmt_counts;
use crate::win_oracle::ExpectedWin;
use crate::win_tally::{SETTLEMENTS, count_each, counted, settlement};
use std::fmt;

const MAN_1: u8 = 0;
const MAN_9: u8 = 8;
const NORTH: u8 = 30;
/// The tiles of which is counted where they stand.
const TILES: [(u8, &str); 3] = [(MAN_1, "man 1"), (MAN_9, "man 9"), (NORTH, "North")];
const PLACES: [&str; 8] = [
    "one in the hand",
    "a pair",
    "a triplet",
    "an open triplet",
    "a closed kan",
    "an open kan",
    "an added kan",
    "the winning tile",
];
const WINDS: [&str; 4] = [
    "North the round wind",
    "North the seat wind",
    "both",
    "both, and the pair",
];
const SOURCES: [&str; 3] = ["nobody", "the right", "across"];

/// What was seen.
#[derive(Default)]
pub struct ThreeCorners {
    wins: u64,
    places: [[u64; PLACES.len()]; TILES.len()],
    winds: [u64; WINDS.len()],
    /// Wins by number of kans, and calls by source.
    kans: [u64; 5],
    sources: [u64; SOURCES.len()],
    /// Scored wins: by settlement, those whose total is another with four players, and those whose chosen reading
    /// is.
    settlements: [u64; SETTLEMENTS.len()],
    other_totals: [u64; SETTLEMENTS.len()],
    other_readings: u64,
    /// Those in which a choice was made, by tsumo.
    choices: [u64; 2],
    /// Those in which each yaku is tallied, and by count of yakuman.
    yaku: YakuCounts,
    yakuman: [u64; 7],
}

struct YakuCounts([u64; YAKU]);

impl Default for YakuCounts {
    fn default() -> YakuCounts {
        YakuCounts([0; YAKU])
    }
}

impl ThreeCorners {
    /// Counts a win that passes the checks, with what is expected of it in both games.
    pub fn count(&mut self, hand: &Hand, win: &Win, three: &ExpectedWin, four: &ExpectedWin) {
        self.wins += 1;
        for (counts, (tile, _)) in self.places.iter_mut().zip(TILES) {
            count_each(counts, places(hand, win, tile));
        }
        let [round, seat] = [win.round_wind, win.seat_wind].map(|wind| wind == NORTH);
        let is_pair = hand.counts[usize::from(NORTH)] == 2;
        let both = round && seat;
        count_each(&mut self.winds, [round, seat, both, both && is_pair]);
        let kans = hand.called().iter().filter(|call| call.kind >= CLOSED_KAN);
        self.kans[kans.count()] += 1;
        for call in hand.called() {
            self.sources[usize::from(call.source)] += 1;
        }
        let (score, other) = (three.score_win(), four.score_win());
        if score.number == 0 {
            self.count_score(win, &score, &other);
            let is_choice = three.deciding_rule().is_some();
            self.choices[usize::from(win.win_type == TSUMO)] += u64::from(is_choice);
        }
    }

    fn count_score(&mut self, win: &Win, score: &Score, other: &Score) {
        let settlement = settlement(win);
        self.settlements[settlement] += 1;
        self.other_totals[settlement] += u64::from(score.total != other.total);
        self.other_readings += u64::from(score.reading != other.reading);
        let tallied = score.tallies.map(|tally| u64::from(tally > 0));
        add_each(&mut self.yaku.0, &tallied);
        if score.is_yakuman == 1 {
            self.yakuman[usize::from(score.yakuman_count).min(6)] += 1;
        }
    }

    /// Whether every corner was seen more than so many times.
    #[cfg(test)]
    pub fn are_all_above(&self, least: u64) -> bool {
        let corners = [
            &self.winds[..],
            &self.kans,
            &self.sources,
            &self.settlements,
        ];
        let mut counts = corners
            .into_iter()
            .chain(self.places.iter().map(|of| &of[..]));
        counts.all(|counts| counts.iter().all(|&count| count > least))
    }

    /// The yaku that were never tallied.
    #[cfg(test)]
    pub fn missing(&self) -> Vec<String> {
        let never = YAKU_ENTRIES.iter().zip(self.yaku.0);
        let never = never.filter(|&(_, wins)| wins == 0);
        never.map(|(yaku, _)| format!("{yaku:?}")).collect()
    }

    /// Scored wins whose total is another with four players, by settlement, and whose chosen reading is.
    #[cfg(test)]
    pub fn others(&self) -> ([u64; SETTLEMENTS.len()], u64) {
        (self.other_totals, self.other_readings)
    }
}

/// Where a tile stands in a win.
fn places(hand: &Hand, win: &Win, tile: u8) -> [bool; PLACES.len()] {
    let held = hand.counts[usize::from(tile)];
    let is_called = |kind| {
        let mut calls = hand.called().iter();
        calls.any(|call| (call.tile, call.kind) == (tile, kind))
    };
    [
        held == 1,
        held == 2,
        held == 3,
        is_called(OPEN_TRIPLET),
        is_called(CLOSED_KAN),
        is_called(OPEN_KAN),
        is_called(ADDED_KAN),
        win.winning_tile == tile,
    ]
}

impl fmt::Display for ThreeCorners {
    fn fmt(&self, f: &mut fmt::Formatter) -> fmt::Result {
        writeln!(f, "  corners of {} wins that pass the checks", self.wins)?;
        for ((_, tile), counts) in TILES.iter().zip(&self.places) {
            writeln!(f, "    {tile} is: {}", counted(&PLACES, counts))?;
        }
        writeln!(f, "    {}", counted(&WINDS, &self.winds))?;
        writeln!(f, "    by kans: {}", listed_from(0, &self.kans))?;
        writeln!(f, "    calls from: {}", counted(&SOURCES, &self.sources))?;
        let settlements = counted(&SETTLEMENTS, &self.settlements);
        writeln!(f, "  scored wins by settlement: {settlements}")?;
        let others = counted(&SETTLEMENTS, &self.other_totals);
        writeln!(f, "    whose total is another with four players: {others}")?;
        let readings = self.other_readings;
        writeln!(
            f,
            "    whose chosen reading is another with four players: {readings}"
        )?;
        let [ron, tsumo] = self.choices;
        writeln!(
            f,
            "    with a choice of readings: by ron {ron}, by tsumo {tsumo}"
        )?;
        let yakuman = listed_from(1, &self.yakuman[1..6]);
        let more = self.yakuman[6];
        writeln!(f, "    of yakuman, by their count: {yakuman}, more: {more}")?;
        writeln!(f, "    in which each yaku is tallied:")?;
        fmt_counts(f, &YAKU_ENTRIES, &self.yaku.0)
    }
}
