//! One hand on both sides.

use crate::game::Game;
use crate::hand::Hand;
use crate::library::{ALWAYS_ENOUGH, Operations};
use crate::oracle::Expected;
use crate::rng::Rng;
use crate::tally::Tally;

/// The longest buffer that is lent.
const MOST_LENT: usize = ALWAYS_ENOUGH + 33;
/// Bytes before and behind the lent buffer, which have to stay as they were too.
const MARGIN: usize = 64;
const WHOLE: usize = MARGIN + MOST_LENT + MARGIN;
/// How many differences of a class are printed.
const PRINTED: u64 = 5;

/// Compares hands, and counts what it saw.
pub struct Checker {
    game: Game,
    operations: Operations,
    rng: Rng,
    /// Random bytes, of which the buffers are filled from a changing place.
    pattern: Vec<u8>,
    got: [u8; WHOLE],
    want: [u8; WHOLE],
    tally: Tally,
}

impl Checker {
    /// Compares hands of four players.
    pub fn new(seed: u64) -> Checker {
        Checker::in_game(Game::Four, Game::Four.operations(), seed)
    }

    /// Compares hands of a game with what these operations answer.
    pub fn in_game(game: Game, operations: Operations, seed: u64) -> Checker {
        let mut rng = Rng::new(seed);
        let pattern = (0..2 * WHOLE).map(|_| rng.byte()).collect();
        Checker {
            game,
            operations,
            rng,
            pattern,
            got: [0; WHOLE],
            want: [0; WHOLE],
            tally: Tally::default(),
        }
    }

    /// The tally since it was last taken.
    pub fn take_tally(&mut self) -> Tally {
        std::mem::take(&mut self.tally)
    }

    /// Compares a hand twice: with a buffer that is long enough, and with one that may be too short.
    pub fn check(&mut self, hand: &Hand) {
        let expected = Expected::in_game(self.game, hand);
        self.tally.count_hand(&expected);
        let need = expected.records.len();
        let enough = self.enough(need);
        let around = self.around(need);
        self.check_lent(hand, &expected, enough);
        self.check_lent(hand, &expected, around);
    }

    /// A length of at least the need.
    fn enough(&mut self, need: usize) -> usize {
        let any = need + self.rng.below(MOST_LENT - need + 1);
        self.rng.pick(&[need, need + 1, ALWAYS_ENOUGH, any])
    }

    /// Any length, most often next to the need or below it.
    fn around(&mut self, need: usize) -> usize {
        let any = self.rng.below(MOST_LENT + 1);
        let shorter = self.rng.below(need + 1);
        let one_less = need.saturating_sub(1);
        self.rng
            .pick(&[one_less, one_less, need, need + 1, shorter, 0, any])
    }

    /// Compares the answer, and all bytes of the buffer and of its margins.
    fn check_lent(&mut self, hand: &Hand, expected: &Expected, lent: usize) {
        let start = self.rng.below(self.pattern.len() - WHOLE);
        self.got.copy_from_slice(&self.pattern[start..][..WHOLE]);
        self.want.copy_from_slice(&self.pattern[start..][..WHOLE]);
        expected.write(&mut self.want[MARGIN..][..lent]);
        let want = expected.listing(lent);
        let given = hand.with_noise(&mut self.rng);
        let buffer = &mut self.got[MARGIN..][..lent];
        let got = (self.operations.list_readings)(given.counts(), given.calls, buffer);

        self.tally.count_answer(&want);
        if got != want || self.got != self.want {
            self.tally.count_difference();
            if self.tally.differ() <= PRINTED {
                println!("DIFFERS: {hand}, {lent} bytes lent");
                println!("  expected {want:?}, got {got:?}");
                self.print_differing_byte();
            }
        }
    }

    fn print_differing_byte(&self) {
        if let Some(at) = (0..WHOLE).find(|&at| self.got[at] != self.want[at]) {
            println!(
                "  first differing byte at {} of the lent buffer: expected {}, got {}",
                at as isize - MARGIN as isize,
                self.want[at],
                self.got[at]
            );
        }
    }
}
