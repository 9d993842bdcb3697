//! Every value of the source byte of a call, beside every kind and every tile.

use crate::agreement::records;
use crate::faults::listed_from;
use crate::game::Game;
use crate::hand::*;
use crate::library::{ALWAYS_ENOUGH, Listing, Meld, Operations, RON, Waits, Win};
use crate::random::add_meld;
use crate::rng::Rng;
use crate::win_oracle::refused;
use crate::win_tally::{count_each, counted};
use std::fmt;

/// The sources that a call of each kind may have, as the request says it: 1, 2 or 3 for open kinds, 0 for
/// closed ones, and only 3 for an open sequence. A closed sequence or triplet is no call.
const ADMITTED: [&[u8]; 7] = [&[], &[3], &[], &[1, 2, 3], &[0], &[1, 2, 3], &[1, 2, 3]];
/// Those with three players, as their request says it: no open sequence, and no source of 3.
const ADMITTED_OF_THREE: [&[u8]; 7] = [&[], &[], &[], &[1, 2], &[0], &[1, 2], &[1, 2]];
/// Kinds and tiles that are none.
const NO_KINDS: [u8; 3] = [7, 8, 255];
const NO_TILES: [u8; 2] = [34, 255];
/// The refusal of what is no call.
const NO_CALL: u32 = 3;
/// The most calls beside the one that is tried.
pub const MOST_OTHERS: usize = 3;
/// Where the sequences of a straight start in their suit.
const STARTS: [u8; MOST_OTHERS] = [0, 3, 6];
/// The pair's tile in that suit.
const PAIR: u8 = 4;
const EAST: u8 = 27;
const WHITE: u8 = 31;
const OPERATIONS: [&str; 4] = ["list_readings", "score_win", "score_reading", "name_waits"];

/// Whether tile, kind and source are those of a call.
fn is_admitted(game: Game, meld: Meld) -> bool {
    let admitted = match game {
        Game::Four => ADMITTED,
        Game::Three => ADMITTED_OF_THREE,
    };
    let sources = admitted.get(usize::from(meld.kind));
    let is_placed = match meld.kind {
        OPEN_SEQUENCE => starts_sequence(meld.tile),
        _ => game.has_tile(meld.tile.into()),
    };
    is_placed && sources.is_some_and(|sources| sources.contains(&meld.source))
}

/// Every kind with every tile and every source.
fn calls() -> impl Iterator<Item = Meld> {
    let kinds = (0..ADMITTED.len() as u8).chain(NO_KINDS);
    let tiles = || (0..KINDS as u8).chain(NO_TILES);
    let melds = kinds.flat_map(move |kind| tiles().map(move |tile| (tile, kind)));
    melds.flat_map(|(tile, kind)| (0..=u8::MAX).map(move |source| Meld { tile, kind, source }))
}

/// A hand with this call at a place among so many others, which passes the checks if the call does, and the
/// winning tile: a straight of a suit that the call is not of, its sequences called or in the hand, and a
/// pair of its fives. With three players triplets of dragons or winds are called in their place.
fn hand_around(game: Game, call: Meld, others: usize, place: usize) -> (Hand, u8) {
    let first = match (game, call.tile / 9) {
        (Game::Four, suit) => 9 * ((suit + 1) % 3),
        (Game::Three, 1) => 18,
        (Game::Three, _) => 9,
    };
    let honour = if call.tile < WHITE { WHITE } else { EAST };
    let (called, held) = STARTS.split_at(others);
    let beside = called.iter().zip(honour..);
    let beside = beside.map(|(start, honour)| match game {
        Game::Four => Meld::new(first + start, OPEN_SEQUENCE),
        Game::Three => Meld::new(honour, OPEN_TRIPLET).with_source(ACROSS),
    });
    let mut calls: Vec<Meld> = beside.collect();
    calls.insert(place, call);
    let mut hand = Hand::empty();
    calls.into_iter().for_each(|call| hand.call(call));
    for start in held {
        add_meld(&mut hand, Meld::new(first + start, CLOSED_SEQUENCE));
    }
    hand.counts[usize::from(first + PAIR)] += 2;
    (hand, first + PAIR)
}

/// Tries every call alone and at each place beside up to so many others, and counts what differs.
pub fn compare(game: Game, seed: u64, operations: Operations, most_others: usize) -> ByteTally {
    let mut rng = Rng::new(seed);
    let old: Vec<u8> = (0..ALWAYS_ENOUGH).map(|_| rng.byte()).collect();
    let mut tally = ByteTally::default();
    for others in 0..=most_others {
        for place in 0..=others {
            for call in calls() {
                let (hand, tile) = hand_around(game, call, others, place);
                let hand = hand.with_noise(&mut rng);
                let win = Win::new(RON, tile, 27, 28).with_noise(&mut rng);
                let is_admitted = is_admitted(game, call);
                let differ = differ(&operations, &old, (call, is_admitted), &hand, win);
                tally.count(call, is_admitted, differ);
                if differ.contains(&true) {
                    tally.print(&hand, call);
                }
            }
        }
    }
    tally
}

/// Whether each operation answers otherwise than it has to: it passes the call if it is admitted, and the
/// record has it as it is, and refuses it with 3 if it is not, with 0 in all else and every byte as it was.
fn differ(
    operations: &Operations,
    old: &[u8],
    (call, is_admitted): (Meld, bool),
    hand: &Hand,
    win: Win,
) -> [bool; OPERATIONS.len()] {
    let (counts, calls) = (hand.counts(), hand.calls);
    let mut buffer = old.to_vec();
    let listing = (operations.list_readings)(counts, calls, &mut buffer);
    let score = (operations.score_win)(counts, calls, win);
    let reading = (operations.score_reading)(counts, calls, win, 0);
    let waits = (operations.name_waits)(counts, calls, win, 0);
    if is_admitted {
        let is_listed = listing.number == 0 && has_call(&buffer[..listing.bytes], call);
        let [score, reading] = [score, reading].map(|score| score.number != 0);
        return [!is_listed, score, reading, waits.number != 0];
    }
    let no_listing = Listing {
        number: NO_CALL,
        readings: 0,
        bytes: 0,
    };
    let no_waits = Waits {
        number: NO_CALL,
        ..Waits::default()
    };
    [
        listing != no_listing || buffer != old,
        score != refused(NO_CALL),
        reading != refused(NO_CALL),
        waits != no_waits,
    ]
}

/// Whether these are records that have the call among their melds, one at least.
fn has_call(bytes: &[u8], call: Meld) -> bool {
    let records = records(bytes);
    let melds = |(_, melds): (u8, Vec<Meld>)| melds.contains(&call);
    let mut have = records
        .iter()
        .map(|record| record.parts().is_some_and(melds));
    !records.is_empty() && have.all(|has| has)
}

/// An input of each operation is a hand with a call that is tried.
#[derive(Default)]
pub struct ByteTally {
    /// Hands whose call is admitted, and the others, by its kind, those that are none together.
    admitted: [u64; ADMITTED.len() + 1],
    refused: [u64; ADMITTED.len() + 1],
    differ: [u64; OPERATIONS.len()],
}

/// How many differences are printed.
const PRINTED: u64 = 5;

impl ByteTally {
    fn count(&mut self, call: Meld, is_admitted: bool, differ: [bool; OPERATIONS.len()]) {
        let kind = usize::from(call.kind).min(ADMITTED.len());
        match is_admitted {
            true => self.admitted[kind] += 1,
            false => self.refused[kind] += 1,
        }
        count_each(&mut self.differ, differ);
    }

    fn print(&self, hand: &Hand, call: Meld) {
        if self.differ() <= PRINTED {
            println!("DIFFERS: {call} in {hand}");
        }
    }

    /// The number of inputs that differ.
    pub fn differ(&self) -> u64 {
        self.differ.iter().sum()
    }
}

impl fmt::Display for ByteTally {
    fn fmt(&self, f: &mut fmt::Formatter) -> fmt::Result {
        let hands: u64 = self.admitted.iter().chain(&self.refused).sum();
        let inputs = hands * OPERATIONS.len() as u64;
        writeln!(f, "  hands {hands}, inputs {inputs}")?;
        let passed = listed_from(0, &self.admitted);
        writeln!(f, "  passed, by kind, those above together: {passed}")?;
        let refused = listed_from(0, &self.refused);
        writeln!(f, "  refused with 3, likewise: {refused}")?;
        let parts = counted(&OPERATIONS, &self.differ);
        writeln!(f, "  differ: {} ({parts})", self.differ())
    }
}

#[cfg(test)]
mod tests {
    use super::*;
    use crate::library::{self, Calls};
    use crate::oracle::Expected;

    #[test]
    fn what_is_admitted_is_what_is_dealt() {
        for kind in 0..=u8::MAX {
            for source in 0..=u8::MAX {
                let is_dealt = sources(kind).contains(&source);
                let is_call = ![CLOSED_SEQUENCE, CLOSED_TRIPLET].contains(&kind);
                let meld = Meld {
                    tile: 0,
                    kind,
                    source,
                };
                assert_eq!(is_admitted(Game::Four, meld), is_dealt && is_call, "{meld}");
            }
        }
    }

    #[test]
    fn the_hands_pass_where_the_call_does() {
        for game in [Game::Four, Game::Three] {
            for call in calls().filter(|call| call.source < 5) {
                let (hand, tile) = hand_around(game, call, 2, 1);
                let mut faults = game.hand_faults(&hand);
                assert_eq!(faults[2], !is_admitted(game, call), "{hand}");
                faults[2] = false;
                assert_eq!(faults, [false; 6], "{hand}");
                assert!(hand.counts[usize::from(tile)] >= 2);
            }
        }
        let (hand, _) = hand_around(Game::Four, Meld::new(33, OPEN_KAN), 3, 0);
        assert_eq!(Expected::of(&hand).readings, 1);
    }

    #[test]
    fn every_byte_is_taken_or_refused_as_the_request_says() {
        let tally = compare(Game::Four, 1, library::OPERATIONS, 1);
        assert_eq!(tally.differ(), 0, "{tally}");
        // Three hands for each call: 21 starts of a sequence from one source, 34 tiles from three or one.
        let admitted = [0, 3 * 21, 0, 9 * 34, 3 * 34, 9 * 34, 9 * 34, 0];
        assert_eq!(tally.admitted, admitted);
        assert_eq!(tally.refused[7], 3 * 3 * 36 * 256);
    }

    #[test]
    fn every_byte_is_taken_or_refused_with_three_players() {
        let tally = compare(Game::Three, 1, library::THREE_OPERATIONS, 1);
        assert_eq!(tally.differ(), 0, "{tally}");
        // Three hands for each call: 27 tiles from two sources or one.
        let admitted = [0, 0, 0, 6 * 27, 3 * 27, 6 * 27, 6 * 27, 0];
        assert_eq!(tally.admitted, admitted);
        let four = compare(Game::Three, 1, library::OPERATIONS, 0);
        assert!(four.differ.iter().all(|&inputs| inputs > 0), "{four}");
    }

    /// The calls with their sources changed so.
    fn with_sources(mut calls: Calls, change: fn(Meld) -> u8) -> Calls {
        let count = calls.count.min(4);
        for meld in &mut calls.melds[..count] {
            meld.source = change(*meld);
        }
        calls
    }

    /// The library behind a reading of the source that is not the request's.
    macro_rules! reading_sources {
        ($change:expr) => {
            Operations {
                list_readings: |counts, calls, out| {
                    library::list_readings(counts, with_sources(calls, $change), out)
                },
                score_win: |counts, calls, win| {
                    library::score_win(counts, with_sources(calls, $change), win)
                },
                score_reading: |counts, calls, win, number| {
                    library::score_reading(counts, with_sources(calls, $change), win, number)
                },
                name_waits: |counts, calls, win, number| {
                    library::name_waits(counts, with_sources(calls, $change), win, number)
                },
            }
        };
    }

    #[test]
    fn another_rule_for_sources_differs() {
        let broken = [
            // Four seats onward is the player who called.
            reading_sources!(|meld| if meld.source == 4 { 3 } else { meld.source }),
            // Two bits alone are read.
            reading_sources!(|meld| meld.source & 3),
            // An open call needs no source.
            reading_sources!(|meld| match (meld.kind, meld.source) {
                (OPEN_TRIPLET | OPEN_KAN | ADDED_KAN, 0) => 1,
                (_, source) => source,
            }),
            // A sequence may be called from anyone.
            reading_sources!(|meld| match (meld.kind, meld.source) {
                (OPEN_SEQUENCE, 1 | 2) => 3,
                (_, source) => source,
            }),
            // The source of a closed kan is not looked at.
            reading_sources!(|meld| if meld.kind == CLOSED_KAN {
                0
            } else {
                meld.source
            }),
            // An added kan may not come from across.
            reading_sources!(|meld| match (meld.kind, meld.source) {
                (ADDED_KAN, 2) => 0,
                (_, source) => source,
            }),
            // Two sources are exchanged, which the record shows.
            reading_sources!(|meld| match (meld.kind, meld.source) {
                (OPEN_KAN, 1) => 2,
                (OPEN_KAN, 2) => 1,
                (_, source) => source,
            }),
        ];
        for (place, operations) in broken.into_iter().enumerate() {
            let tally = compare(Game::Four, 1, operations, 0);
            assert!(tally.differ[0] > 0, "{place}: {tally}");
        }
    }
}
