//! The comparison of the game with three players, class by class.

use crate::checker::Checker;
use crate::game::Game;
use crate::hand::Hand;
use crate::library::{Operations, Win};
use crate::readings;
use crate::renaming::Renaming;
use crate::rng::Rng;
use crate::source_bytes::{self, MOST_OTHERS};
use crate::three_checks::grounds;
use crate::three_corners::ThreeCorners;
use crate::three_damage::{self, GroundTally};
use crate::three_payments;
use crate::three_wins;
use crate::twins;
use crate::win_checker::WinChecker;
use crate::win_oracle::ExpectedHand;
use std::time::{Duration, Instant};

/// The renamings that keep the tiles of three players: pin and sou exchanged or not, the mirror or not, White and Red
/// exchanged or not, and six orders of South, West and North.
const RENAMINGS: usize = 2 * 2 * 2 * 6;
/// Of a hundred wins that are renamed, so many have indicators.
const RENAMED_WITH_INDICATORS: usize = 5;

/// What to compare: the classes that are named.
pub struct Options {
    pub seed: u64,
    pub random: Option<u64>,
    pub damaged: Option<u64>,
    pub twins: Option<u64>,
    pub payments: bool,
    pub sources: bool,
    pub suit: bool,
    pub mixed: Option<Duration>,
}

/// Compares the classes that are asked for, and answers the number of inputs that differ.
pub fn compare(options: &Options) -> u64 {
    let seed = options.seed;
    let operations = Game::Three.operations();
    let mut differ = 0;
    if options.payments {
        differ += timed("payments between three players", three_payments::compare);
    }
    if options.sources {
        let title = "every source byte of a call, with every kind and tile";
        differ += timed(title, || {
            let bytes = source_bytes::compare(Game::Three, seed, operations, MOST_OTHERS);
            print!("{bytes}");
            bytes.differ()
        });
    }
    if options.suit || options.mixed.is_some() {
        let mut checker = Checker::in_game(Game::Three, operations, seed);
        differ += readings::compare_three(&mut checker, options.suit, options.mixed);
    }
    if let Some(wins) = options.random {
        let title = format!("random wins of three players, seed {seed}");
        differ += timed(&title, || compare_random(operations, seed, wins).print());
    }
    if let Some(wins) = options.damaged {
        let title = format!("wins of three players with faults, seed {seed}");
        differ += timed(&title, || compare_damaged(operations, seed, wins).print());
    }
    if let Some(wins) = options.twins {
        differ += compare_renamings();
        differ += twins::compare_three(operations, seed, wins, renamed_wins);
    }
    println!("all\n  differ: {differ}");
    differ
}

/// Compares a class that prints what it saw, and answers the number of inputs that differ.
fn timed(title: &str, class: impl FnOnce() -> u64) -> u64 {
    println!("{title}");
    let start = Instant::now();
    let differ = class();
    println!("  {:.1} s\n", start.elapsed().as_secs_f64());
    differ
}

fn compare_random(operations: Operations, seed: u64, wins: u64) -> ThreeChecker {
    let mut rng = Rng::new(!seed);
    let mut checker = ThreeChecker::asking(operations, seed);
    while checker.wins.wins() < wins {
        let (hand, wins) = three_wins::random_wins(&mut rng, wins - checker.wins.wins());
        checker.check(&hand, &wins);
    }
    checker
}

fn compare_damaged(operations: Operations, seed: u64, wins: u64) -> ThreeChecker {
    let mut rng = Rng::new(!seed);
    let mut checker = ThreeChecker::asking(operations, seed);
    for _ in 0..wins {
        let (hand, win) = three_damage::damaged(&mut rng);
        checker.check(&hand, &[win]);
    }
    checker
}

/// Random wins, some of them with indicators, for which they are refused under every renaming.
fn renamed_wins(rng: &mut Rng, most: u64) -> (Hand, Vec<Win>) {
    let (hand, mut wins) = three_wins::random_wins(rng, most);
    for win in &mut wins {
        if rng.percent(RENAMED_WITH_INDICATORS) {
            three_damage::put_indicators(rng, &hand, win);
        }
    }
    (hand, wins)
}

/// Counts the renamings that keep the tiles of three players, and answers 1 where they are others than they have to be.
fn compare_renamings() -> u64 {
    let [four, three] = [Game::Four, Game::Three].map(|game| Renaming::numbers_in(game).len());
    println!("renamings that keep the tiles of four players: {four}, of three: {three}\n");
    u64::from(four != Renaming::ALL || three != RENAMINGS)
}

/// Compares listings and wins of three players, and counts what it saw.
struct ThreeChecker {
    hands: Checker,
    wins: WinChecker,
    /// Of wins that pass the checks, and of those that do not.
    corners: ThreeCorners,
    grounds: GroundTally,
}

impl ThreeChecker {
    fn asking(operations: Operations, seed: u64) -> ThreeChecker {
        ThreeChecker {
            hands: Checker::in_game(Game::Three, operations, seed),
            wins: WinChecker::asking(operations, seed),
            corners: ThreeCorners::default(),
            grounds: GroundTally::default(),
        }
    }

    /// Compares the listing of a hand, and its wins.
    fn check(&mut self, hand: &Hand, wins: &[Win]) {
        self.hands.check(hand);
        let [three, four] = [Game::Three, Game::Four].map(|game| ExpectedHand::in_game(game, hand));
        for win in wins {
            let expected = three.won(hand, win);
            self.wins.check(hand, win, &expected);
            match expected.faults.contains(&true) {
                true => self.grounds.count(&grounds(hand, win)),
                false => (self.corners).count(hand, win, &expected, &four.won(hand, win)),
            }
        }
    }

    /// Prints what was seen, and answers the number of inputs that differ.
    fn print(mut self) -> u64 {
        let (wins, hands) = (self.wins.take_tally(), self.hands.take_tally());
        print!("{wins}  listings\n{hands}");
        match self.grounds.is_empty() {
            true => print!("{}", self.corners),
            false => print!("{}", self.grounds),
        }
        println!("  {}, listings {}", wins.differences(), hands.differ());
        wins.differ() + hands.differ()
    }
}

#[cfg(test)]
mod tests {
    use super::*;
    use crate::library::{
        Calls, Listing, OPERATIONS, Score, THREE_OPERATIONS, TSUMO, Waits, list_readings,
        name_waits, score_reading, score_win,
    };
    use crate::win_oracle::refused;

    const NORTH: u8 = 30;

    /// How many inputs differ: of the scored win, of scores by number, of waits by number, and of listings.
    fn differ(mut checker: ThreeChecker) -> [u64; 4] {
        let [win, reading, waits] = checker.wins.take_tally().each_differ();
        [win, reading, waits, checker.hands.take_tally().differ()]
    }

    /// Whether these operations differ, of random wins and of wins with faults.
    fn do_differ(operations: Operations) -> [[bool; 4]; 2] {
        let random = compare_random(operations, 3, 3000);
        let damaged = compare_damaged(operations, 3, 6000);
        [random, damaged].map(|checker| differ(checker).map(|inputs| inputs > 0))
    }

    #[test]
    fn random_wins_meet_every_corner_and_none_differs() {
        let checker = compare_random(THREE_OPERATIONS, 3, 60_000);
        let corners = &checker.corners;
        assert!(corners.are_all_above(100), "{corners}");
        // Three players have no sequence of man.
        assert_eq!(corners.missing(), ["SanshokuDoujun"]);
        let ([ron, dealer_ron, tsumo, dealer_tsumo], readings) = corners.others();
        assert_eq!((ron, dealer_ron, readings), (0, 0, 0), "{corners}");
        assert!(tsumo > 1000 && dealer_tsumo > 1000, "{corners}");
        assert_eq!(differ(checker), [0; 4]);
    }

    #[test]
    fn wins_with_faults_do_not_differ() {
        assert_eq!(differ(compare_damaged(THREE_OPERATIONS, 3, 60_000)), [0; 4]);
    }

    #[test]
    fn wins_and_their_renamed_ones_do_not_differ() {
        assert_eq!(compare_renamings(), 0);
        assert_eq!(
            twins::compare_three(THREE_OPERATIONS, 3, 10_000, renamed_wins),
            0
        );
    }

    #[test]
    fn the_operations_for_four_players_differ() {
        // A tsumo has another total, but the same waits and records.
        let random = [true, true, false, false];
        assert_eq!(do_differ(OPERATIONS), [random, [true; 4]]);
    }

    fn four_pay(counts: &[u8], calls: Calls, win: Win) -> Score {
        let mut score = (THREE_OPERATIONS.score_win)(counts, calls, win);
        score.total += u64::from(score.from_non_dealer);
        score
    }

    fn north_is_no_wind(counts: &[u8], calls: Calls, win: Win) -> Score {
        match [win.round_wind, win.seat_wind].contains(&NORTH) {
            true => refused(8),
            false => (THREE_OPERATIONS.score_win)(counts, calls, win),
        }
    }

    fn dealer_pays_once(counts: &[u8], calls: Calls, win: Win, number: usize) -> Score {
        let mut score = (THREE_OPERATIONS.score_reading)(counts, calls, win, number);
        if win.win_type == TSUMO && score.from_dealer > 0 {
            score.total = u64::from(score.from_dealer);
        }
        score
    }

    #[test]
    fn another_payment_or_wind_differs_in_random_wins() {
        for score_win in [four_pay, north_is_no_wind] {
            let broken = Operations {
                score_win,
                ..THREE_OPERATIONS
            };
            assert_eq!(do_differ(broken)[0], [true, false, false, false]);
        }
        let broken = Operations {
            score_reading: dealer_pays_once,
            ..THREE_OPERATIONS
        };
        assert_eq!(do_differ(broken)[0], [false, true, false, false]);
    }

    /// The calls as those of four players that are passed: a source of 3 as one of 2.
    fn left_as_across(mut calls: Calls) -> Calls {
        for call in &mut calls.melds {
            call.source -= u8::from(call.source == 3);
        }
        calls
    }

    fn source_3_passes(counts: &[u8], calls: Calls, win: Win, number: usize) -> Waits {
        (THREE_OPERATIONS.name_waits)(counts, left_as_across(calls), win, number)
    }

    fn indicators_pass(counts: &[u8], calls: Calls, win: Win, number: usize) -> Waits {
        match (THREE_OPERATIONS.name_waits)(counts, calls, win, number) {
            waits if waits.number == 14 => name_waits(counts, calls, win, number),
            waits => waits,
        }
    }

    fn absent_tiles_pass(counts: &[u8], calls: Calls, out: &mut [u8]) -> Listing {
        match (THREE_OPERATIONS.list_readings)(counts, calls, out) {
            listing if listing.number == 4 => list_readings(counts, calls, out),
            listing => listing,
        }
    }

    fn calls_of_four_pass(counts: &[u8], calls: Calls, win: Win) -> Score {
        match (THREE_OPERATIONS.score_win)(counts, calls, win) {
            score if score.number == 3 => score_win(counts, calls, win),
            score => score,
        }
    }

    fn tile_before_indicators(counts: &[u8], calls: Calls, win: Win, number: usize) -> Score {
        match (THREE_OPERATIONS.score_reading)(counts, calls, win, number) {
            score if score.number == 14 => {
                let plain = win.showing(Default::default());
                match score_reading(counts, calls, plain, number).number {
                    9 => refused(9),
                    _ => score,
                }
            }
            score => score,
        }
    }

    fn reading_before_checks(counts: &[u8], calls: Calls, win: Win, number: usize) -> Score {
        match (THREE_OPERATIONS.score_reading)(counts, calls, win, number) {
            score if score.number == 14 && number > 100 => refused(12),
            score => score,
        }
    }

    #[test]
    fn another_refusal_or_order_differs_in_wins_with_faults() {
        for name_waits in [source_3_passes, indicators_pass] {
            let broken = Operations {
                name_waits,
                ..THREE_OPERATIONS
            };
            let waits = [false, false, true, false];
            assert_eq!(do_differ(broken), [[false; 4], waits]);
        }
        let broken = Operations {
            list_readings: absent_tiles_pass,
            ..THREE_OPERATIONS
        };
        let listings = [false, false, false, true];
        assert_eq!(do_differ(broken), [[false; 4], listings]);
        let broken = Operations {
            score_win: calls_of_four_pass,
            ..THREE_OPERATIONS
        };
        assert_eq!(do_differ(broken), [[false; 4], [true, false, false, false]]);
        for score_reading in [tile_before_indicators, reading_before_checks] {
            let broken = Operations {
                score_reading,
                ..THREE_OPERATIONS
            };
            assert_eq!(do_differ(broken), [[false; 4], [false, true, false, false]]);
        }
    }

    fn more_for_man_1(counts: &[u8], calls: Calls, win: Win) -> Score {
        let mut score = (THREE_OPERATIONS.score_win)(counts, calls, win);
        score.total += u64::from(score.number == 0 && counts[0] > 0);
        score
    }

    #[test]
    fn a_score_that_a_renaming_changes_differs() {
        let broken = Operations {
            score_win: more_for_man_1,
            ..THREE_OPERATIONS
        };
        assert!(twins::compare_three(broken, 3, 1000, renamed_wins) > 0);
    }
}
