//! One win on both sides.

use crate::hand::Hand;
use crate::library::{OPERATIONS, Operations, Win};
use crate::rng::Rng;
use crate::win_oracle::ExpectedWin;
use crate::win_tally::{Operation, WinTally};
use std::fmt::Display;

/// How many differences of a class are printed.
const PRINTED: u64 = 5;

/// Compares wins, and counts what it saw.
pub struct WinChecker {
    operations: Operations,
    rng: Rng,
    tally: WinTally,
}

impl WinChecker {
    /// Asks the library's operations for four players.
    pub fn new(seed: u64) -> WinChecker {
        WinChecker::asking(OPERATIONS, seed)
    }

    /// Asks these operations.
    pub fn asking(operations: Operations, seed: u64) -> WinChecker {
        WinChecker {
            operations,
            rng: Rng::new(seed),
            tally: WinTally::default(),
        }
    }

    /// The number of wins that were compared since the tally was last taken.
    pub fn wins(&self) -> u64 {
        self.tally.wins()
    }

    /// The tally since it was last taken.
    pub fn take_tally(&mut self) -> WinTally {
        std::mem::take(&mut self.tally)
    }

    /// Compares the score of a win, and of every reading its score and its waits. Readings that are
    /// not there are asked for too: the one past the last, and one far behind.
    pub fn check(&mut self, hand: &Hand, win: &Win, expected: &ExpectedWin) {
        let given = hand.with_noise(&mut self.rng);
        let win = &win.with_noise(&mut self.rng);
        let (counts, calls) = (given.counts(), given.calls);
        self.tally.count_win(hand, win, expected);
        let want = expected.score_win();
        self.tally.count_answer(Operation::ScoreWin, want.number);
        let got = (self.operations.score_win)(counts, calls, *win);
        self.hold(Operation::ScoreWin, hand, win, 0, want, got);

        let readings = expected.scores.len();
        let far = self.far(readings);
        for number in (0..=readings).chain([far]) {
            let want = expected.score_reading(number);
            self.tally
                .count_answer(Operation::ScoreReading, want.number);
            let got = (self.operations.score_reading)(counts, calls, *win, number);
            self.hold(Operation::ScoreReading, hand, win, number, want, got);

            let want = expected.name_waits(number);
            self.tally.count_answer(Operation::NameWaits, want.number);
            let got = (self.operations.name_waits)(counts, calls, *win, number);
            self.hold(Operation::NameWaits, hand, win, number, want, got);
        }
    }

    /// A number of no reading: great, or one that is a reading's where it is cut to fewer bits.
    fn far(&mut self, readings: usize) -> usize {
        let low = self.rng.below(readings + 1);
        let bits = self.rng.pick(&[8, 16, 31, 32, 63]);
        let any = readings + 1 + self.rng.below(usize::MAX - readings);
        self.rng
            .pick(&[usize::MAX, (1 << bits) + low, (1 << bits) + low, any])
    }

    /// Holds an answer to the expected one.
    fn hold<T: PartialEq + Display>(
        &mut self,
        operation: Operation,
        hand: &Hand,
        win: &Win,
        number: usize,
        want: T,
        got: T,
    ) {
        if got == want {
            return;
        }
        self.tally.count_difference(operation);
        if self.tally.differ() <= PRINTED {
            println!("DIFFERS: {operation}, reading number {number}");
            println!("  {hand}");
            println!("  {win:?}");
            println!("  expected {want}");
            println!("  got      {got}");
        }
    }
}
