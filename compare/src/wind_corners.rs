//! Counts of what was seen of the winds in wins without indicators that are renamed.

use crate::agari_scores::YAKU_ENTRIES;
use crate::hand::*;
use crate::library::{Score, Win};
use crate::renaming::Renaming;
use crate::win_tally::{count_each, counted};
use crate::wins::WINDS;
use agari_core::yaku::Yaku;
use std::fmt;

const EAST: u8 = 27;
/// The place of the first wind's yakuhai among the yaku tallies.
const YAKUHAI: usize = 6;

const MOVES: [&str; 2] = ["two winds exchanged", "three in a circle"];
const PLACES: [&str; 11] = [
    "the round wind",
    "the seat wind",
    "both, and equal",
    "the winning tile",
    "a pair in the hand",
    "a triplet in the hand",
    "an open triplet",
    "a closed kan",
    "an open kan",
    "an added kan",
    "yakuhai",
];
const OTHERS: [&str; 5] = [
    "the seat is the dealer's",
    "the round is East's",
    "yakuhai twice, of a wind that moves",
    "Shousuushii",
    "Daisuushii",
];

/// What was seen of pairs in which a wind becomes another.
#[derive(Default)]
pub struct WindCorners {
    pairs: u64,
    moves: [u64; MOVES.len()],
    /// What is, or is of, a wind that becomes another.
    places: [u64; PLACES.len()],
    others: [u64; OTHERS.len()],
}

impl WindCorners {
    /// Counts a win, its answer, and the renaming that was tried on it.
    pub fn count(&mut self, hand: &Hand, win: &Win, score: &Score, renaming: &Renaming) {
        let moved = renaming.winds_moved();
        if moved == 0 {
            return;
        }
        self.pairs += 1;
        self.moves[moved - 2] += 1;
        let winds = WINDS.into_iter().filter(|&wind| renaming.moves_wind(wind));
        let winds: Vec<u8> = winds.collect();
        count_each(&mut self.places, places(hand, win, score, &winds));
        count_each(&mut self.others, others(win, score, &winds));
    }

    /// Whether everything was seen more than so many times.
    #[cfg(test)]
    pub fn are_all_above(&self, least: u64) -> bool {
        let counts = [&self.moves[..], &self.places, &self.others];
        counts
            .iter()
            .all(|counts| counts.iter().all(|&count| count > least))
    }
}

/// What is, or is of, one of these winds.
fn places(hand: &Hand, win: &Win, score: &Score, winds: &[u8]) -> [bool; PLACES.len()] {
    let [round, seat, tile] =
        [win.round_wind, win.seat_wind, win.winning_tile].map(|tile| winds.contains(&tile));
    let holds = |number| {
        winds
            .iter()
            .any(|&wind| hand.counts[usize::from(wind)] == number)
    };
    let calls = |kind| {
        let mut called = hand.called().iter();
        called.any(|meld| meld.kind == kind && winds.contains(&meld.tile))
    };
    [
        round,
        seat,
        round && win.round_wind == win.seat_wind,
        tile,
        holds(2),
        holds(3),
        calls(OPEN_TRIPLET),
        calls(CLOSED_KAN),
        calls(OPEN_KAN),
        calls(ADDED_KAN),
        winds.iter().any(|&wind| yakuhai(score, wind) > 0),
    ]
}

fn others(win: &Win, score: &Score, winds: &[u8]) -> [bool; OTHERS.len()] {
    [
        win.seat_wind == EAST,
        win.round_wind == EAST,
        winds.iter().any(|&wind| yakuhai(score, wind) > 1),
        has(score, Yaku::Shousuushii),
        has(score, Yaku::Daisuushii),
    ]
}

/// How often a wind is tallied in the scored win.
fn yakuhai(score: &Score, wind: u8) -> u8 {
    score.tallies[YAKUHAI + usize::from(wind - EAST)]
}

fn has(score: &Score, yaku: Yaku) -> bool {
    let mut tallied = YAKU_ENTRIES.iter().zip(score.tallies);
    tallied.any(|(&entry, tally)| entry == yaku && tally > 0)
}

impl fmt::Display for WindCorners {
    fn fmt(&self, f: &mut fmt::Formatter) -> fmt::Result {
        let moves = counted(&MOVES, &self.moves);
        writeln!(
            f,
            "  no indicators, and winds move: {} ({moves})",
            self.pairs
        )?;
        let places = counted(&PLACES, &self.places);
        writeln!(f, "    a wind that moves is: {places}")?;
        writeln!(f, "    {}", counted(&OTHERS, &self.others))
    }
}
