//! The comparison of the listing of readings, class by class.

use crate::checker::Checker;
use crate::every::{
    BESIDE_OF_THREE, HONOURS, beside_counts, calls_outside, hand_of, suit_counts,
    three_calls_outside, with_beside,
};
use crate::game::Game;
use crate::random;
use crate::rng::Rng;
use crate::tally::Tally;
use std::time::{Duration, Instant};

/// What to compare: the classes that are named.
pub struct Options {
    pub seed: u64,
    pub random: Option<u64>,
    pub suit: bool,
    pub mixed: Option<Duration>,
}

/// Compares the classes that are asked for, and answers the number of inputs that differ.
pub fn compare(options: &Options) -> u64 {
    let mut checker = Checker::new(options.seed);
    let mut total = Tally::default();
    if options.suit {
        let title = "every hand of one suit, with 0 to 4 calls";
        total.add(&run(&mut checker, title, |checker| {
            compare_suits(checker, Game::Four)
        }));
    }
    if let Some(budget) = options.mixed {
        let title = "hands of one suit with pairs and triplets of honours";
        total.add(&run(&mut checker, title, |checker| {
            compare_mixed(checker, budget, &[0, 1, 2], &HONOURS)
        }));
    }
    if let Some(hands) = options.random {
        let title = format!("random hands, seed {}", options.seed);
        total.add(&run(&mut checker, &title, |checker| {
            compare_random(checker, options.seed, hands)
        }));
    }
    println!("all\n{total}  differ: {}", total.differ());
    total.differ()
}

/// Compares hands of three players, and answers the number of inputs that differ: every hand of one suit with 0
/// to 4 calls, and those with pairs and triplets of man 1, man 9 and honours.
pub fn compare_three(checker: &mut Checker, suit: bool, mixed: Option<Duration>) -> u64 {
    let mut differ = 0;
    if suit {
        let title = "every hand of one suit, with 0 to 4 calls, listed";
        differ += run(checker, title, |checker| {
            compare_suits(checker, Game::Three)
        })
        .differ();
    }
    if let Some(budget) = mixed {
        let title =
            "hands of pin or sou with pairs and triplets of man 1, man 9 and honours, listed";
        differ += run(checker, title, |checker| {
            compare_mixed(checker, budget, &[1, 2], &BESIDE_OF_THREE)
        })
        .differ();
    }
    differ
}

/// Compares a class, and prints its tally.
fn run(checker: &mut Checker, title: &str, class: impl FnOnce(&mut Checker)) -> Tally {
    println!("{title}");
    let start = Instant::now();
    class(checker);
    let tally = checker.take_tally();
    let seconds = start.elapsed().as_secs_f64();
    println!("{tally}  differ: {}\n  {seconds:.1} s\n", tally.differ());
    tally
}

/// Every hand of tiles that the game has.
fn compare_suits(checker: &mut Checker, game: Game) {
    for calls in 0..=4 {
        let numbers = suit_counts(14 - 3 * calls as u8);
        for suit in 0..3 {
            let lists = match (calls, game) {
                (0, _) => vec![vec![]],
                (_, Game::Four) => calls_outside(suit, calls),
                (_, Game::Three) => three_calls_outside(suit, calls),
            };
            let hands = numbers.iter().map(|numbers| hand_of(suit, numbers));
            let hands = hands.filter(|hand| game.has_tiles_of(hand));
            for list in lists {
                for mut hand in hands.clone() {
                    list.iter().for_each(|&meld| hand.call(meld));
                    checker.check(&hand);
                }
            }
        }
    }
}

/// One of these suits with pairs and triplets of the tiles beside, honours and perhaps others. Goes up by the
/// number of pairs, then of triplets, and stops where the time is over. Hands with two pairs or more come last:
/// they have a reading at most as seven pairs.
fn compare_mixed<const N: usize>(
    checker: &mut Checker,
    budget: Duration,
    suits: &[usize],
    tiles: &[usize; N],
) {
    let start = Instant::now();
    for (pairs, triplets) in groups_beside(N) {
        let numbers = suit_counts((14 - 2 * pairs - 3 * triplets) as u8);
        let beside = beside_counts::<N>(pairs, triplets);
        let parts = suits.len() * beside.len();
        for part in 0..parts {
            if start.elapsed() > budget {
                println!("  stopped at {pairs} pairs and {triplets} triplets beside the suit,");
                println!("  after {part} of their {parts} choices of tiles beside and suit");
                return;
            }
            let (suit, beside) = (suits[part % suits.len()], &beside[part / suits.len()]);
            for numbers in &numbers {
                checker.check(&with_beside(hand_of(suit, numbers), tiles, beside));
            }
        }
    }
    println!("  every one of them was compared");
}

/// The numbers of pairs and of triplets of so many kinds that fit in 14 tiles, at least one of either.
fn groups_beside(kinds: usize) -> impl Iterator<Item = (usize, usize)> {
    (0..=7)
        .flat_map(|pairs| (0..=4).map(move |triplets| (pairs, triplets)))
        .filter(|&(pairs, triplets)| pairs + triplets > 0)
        .filter(|&(pairs, triplets)| 2 * pairs + 3 * triplets <= 14)
        .filter(move |&(pairs, triplets)| pairs + triplets <= kinds)
}

fn compare_random(checker: &mut Checker, seed: u64, hands: u64) {
    let mut rng = Rng::new(!seed);
    for _ in 0..hands {
        checker.check(&random::any(&mut rng));
    }
}
