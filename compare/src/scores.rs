//! The comparison of yaku, waits, han and fu, reading by reading.

use crate::agari_scores::ReadHand;
use crate::faults::listed_from;
use crate::library::Win;
use crate::probe;
use crate::rng::Rng;
use crate::score_tally::ScoreTally;
use crate::wins;
use std::time::Instant;

/// How many differences are printed.
const PRINTED: u64 = 5;
/// The most readings that a hand has.
const MOST_READINGS: usize = 4;

/// Compares every reading of so many random wins, and answers the number of inputs that differ.
pub fn compare(seed: u64, wins: u64) -> u64 {
    println!("random wins, seed {seed}");
    let start = Instant::now();
    let mut rng = Rng::new(seed);
    let mut tally = ScoreTally::new();
    let mut by_readings = [0; MOST_READINGS];
    let mut hands = 0;
    let mut left = wins;
    while left > 0 {
        let hand = wins::hand(&mut rng);
        let read = ReadHand::of(&hand);
        hands += 1;
        for tile in wins::winning_tiles(&mut rng, &hand) {
            if left > 0 {
                let win = wins::win(&mut rng, &hand, tile).with_noise(&mut rng);
                check(&read, &win, &mut tally);
                by_readings[read.readings.len() - 1] += 1;
                left -= 1;
            }
        }
    }
    let seconds = start.elapsed().as_secs_f64();
    println!("  hands {hands}, wins {wins}");
    println!("  wins by readings: {}", listed_from(1, &by_readings));
    println!("{tally}  differ: {}\n  {seconds:.1} s", tally.differ());
    tally.differ()
}

/// Compares every reading of a win.
fn check(hand: &ReadHand, win: &Win, tally: &mut ScoreTally) {
    for (reading, structure) in &hand.readings {
        let want = hand.score(structure, win);
        let got = probe::reading_score(*reading, &hand.counts, *win, hand.is_open);
        tally.count(reading, win, hand.is_open, &want);
        if got != want {
            tally.count_difference();
            if tally.differ() <= PRINTED {
                println!("DIFFERS: {reading:?}");
                println!("  counts {:?}, opened {}", hand.counts, hand.is_open);
                println!("  {win:?}");
                println!("  expected {want}");
                println!("  got      {got}");
            }
        }
    }
}
