//! The comparison of scored wins and readings and of named waits, class by class.

use crate::dora_wins;
use crate::double_winds;
use crate::every::{hand_of, suit_counts};
use crate::hand::*;
use crate::library::{MIXTURES, RON, TSUMO, Win};
use crate::random;
use crate::rng::Rng;
use crate::win_checker::WinChecker;
use crate::win_damage;
use crate::win_oracle::ExpectedHand;
use crate::win_tally::WinTally;
use crate::wins;
use std::time::Instant;

const EAST: u8 = 27;
const SOUTH: u8 = 28;

/// What to compare: the classes that are named.
pub struct Options {
    pub seed: u64,
    pub random: Option<u64>,
    pub suit: bool,
    pub orphans: bool,
    pub double_winds: Option<u64>,
    pub dora: Option<u64>,
}

/// Compares the classes that are asked for, and answers the number of inputs that differ.
pub fn compare(options: &Options) -> u64 {
    let seed = options.seed;
    let mut checker = WinChecker::new(seed);
    let mut total = WinTally::default();
    let mut add = |title: &str, class: &dyn Fn(&mut WinChecker)| {
        total.add(&run(&mut checker, title, class));
    };
    if options.suit {
        let title = "every closed hand of one suit, won by each of its tiles, by ron and by tsumo";
        add(title, &|checker| compare_suits(checker, seed));
    }
    if options.orphans {
        let title = "every hand of thirteen orphans, won by each of the 34 tiles, in each mixture of \
                     win type, winds and flags";
        add(title, &compare_orphans);
    }
    if let Some(wins) = options.random {
        let title = format!("random wins, seed {seed}");
        add(&title, &|checker| compare_random(checker, seed, wins));
    }
    if let Some(wins) = options.double_winds {
        let title = format!(
            "wins with a pair that is most often both round and seat wind, with setting four and with \
             two, seed {seed}"
        );
        add(&title, &|checker| {
            double_winds::compare(checker, seed, wins)
        });
    }
    if let Some(wins) = options.dora {
        let title = format!(
            "wins with indicators whose dora the hand most often holds, good and bad ones, seed {seed}"
        );
        add(&title, &|checker| dora_wins::compare(checker, seed, wins));
    }
    println!("all\n{total}  {}", total.differences());
    total.differ()
}

/// Compares a class, and prints its tally.
fn run(checker: &mut WinChecker, title: &str, class: &dyn Fn(&mut WinChecker)) -> WinTally {
    println!("{title}");
    let start = Instant::now();
    class(checker);
    let tally = checker.take_tally();
    let seconds = start.elapsed().as_secs_f64();
    println!("{tally}  {}\n  {seconds:.1} s\n", tally.differences());
    tally
}

/// Each hand, winning tile and win type twice: by seat South in the round of East with no flags, setting
/// four and no indicators, and in any circumstances.
fn compare_suits(checker: &mut WinChecker, seed: u64) {
    let mut rng = Rng::new(!seed);
    let numbers = suit_counts(14);
    for suit in 0..3 {
        for numbers in &numbers {
            let hand = hand_of(suit, numbers);
            let expected = ExpectedHand::of(&hand);
            for tile in wins::held_tiles(&hand) {
                for win_type in [RON, TSUMO] {
                    let plain = Win::new(win_type, tile, EAST, SOUTH);
                    let drawn = Win {
                        win_type,
                        ..wins::win(&mut rng, &hand, tile)
                    };
                    checker.check(&hand, &plain, &expected.won(&hand, &plain));
                    checker.check(&hand, &drawn, &expected.won(&hand, &drawn));
                }
            }
        }
    }
}

/// A tile that is not among the thirteen is refused, and compared too. The setting is four, and there are
/// no indicators.
fn compare_orphans(checker: &mut WinChecker) {
    for hand in random::ORPHANS.map(random::orphans_with) {
        let expected = ExpectedHand::of(&hand);
        for tile in 0..KINDS as u8 {
            for mixture in 0..MIXTURES {
                let win = Win::in_mixture(mixture, tile);
                checker.check(&hand, &win, &expected.won(&hand, &win));
            }
        }
    }
}

fn compare_random(checker: &mut WinChecker, seed: u64, wins: u64) {
    let mut rng = Rng::new(!seed);
    let mut left = wins;
    while left > 0 {
        let (hand, wins) = random_wins(&mut rng, left);
        let expected = ExpectedHand::of(&hand);
        for win in &wins {
            checker.check(&hand, win, &expected.won(&hand, win));
        }
        left -= wins.len() as u64;
    }
}

/// A random hand, with faults or without, and one or more wins with it, at most so many.
pub fn random_wins(rng: &mut Rng, most: u64) -> (Hand, Vec<Win>) {
    if rng.percent(22) {
        let (hand, win) = win_damage::damaged(rng);
        return (hand, vec![win]);
    }
    let hand = sound_hand(rng);
    let tiles = wins::winning_tiles(rng, &hand).into_iter();
    let tiles = tiles.take(most as usize);
    let wins = tiles.map(|tile| wins::win(rng, &hand, tile)).collect();
    (hand, wins)
}

/// A hand with no fault, most often with a reading.
pub fn sound_hand(rng: &mut Rng) -> Hand {
    match rng.share(&[86, 8, 1, 1, 4]) {
        0 => wins::hand(rng),
        1 => random::near_winning(rng),
        2 => random::near_seven_pairs(rng),
        3 => random::near_orphans(rng),
        _ => random::any_tiles(rng),
    }
}
