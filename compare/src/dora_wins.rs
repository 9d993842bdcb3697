//! Wins with indicators whose dora the hand most often holds: of both sorts, any number of them, good ones
//! and bad ones, with riichi and without.

use crate::dora_corners::Corners;
use crate::hand::*;
use crate::indicators::Style;
use crate::library::{Indicators, MOST_INDICATORS, RON, TSUMO, Win};
use crate::random;
use crate::rng::Rng;
use crate::win_checker::WinChecker;
use crate::win_damage::{
    absent_tile, put_bad_indicators, put_out_of_range, refused_hand, too_many, with_no_tile,
};
use crate::win_oracle::{ExpectedHand, ExpectedWin};
use crate::wins;

/// Each hand is won without indicators, and with so many drawn ones.
const SHOWN: usize = 5;
/// One of so many hands is tried with every mixture of the faults 8, 14 and 9.
const FAULTY: u64 = 8;
/// One of so many hands is tried with every number of indicators, and every number as an indicator.
const EVERY: u64 = 4000;

/// What is done with a win and what is expected of it.
type Check<'a> = dyn FnMut(&Hand, &Win, &ExpectedWin) + 'a;

/// Compares so many wins at least, refused ones among them, and prints what the dora changed.
pub fn compare(checker: &mut WinChecker, seed: u64, wins: u64) {
    let mut rng = Rng::new(!seed);
    let mut corners = Corners::default();
    let mut hands = 0;
    while checker.wins() < wins {
        try_hand(&mut rng, hands, &mut corners, &mut |hand, win, expected| {
            checker.check(hand, win, expected)
        });
        hands += 1;
    }
    print!("  hands {hands}\n{corners}");
}

/// Tries the hand with this number: won without indicators and with drawn ones, and at its turn with
/// faults and with every number.
fn try_hand(rng: &mut Rng, number: u64, corners: &mut Corners, check: &mut Check) {
    let dealt = Dealt::new(rng);
    let plain = dealt.try_win(corners, check, &dealt.win);
    for _ in 0..SHOWN {
        let win = dealt.shown_win(rng);
        let expected = dealt.try_win(corners, check, &win);
        corners.count_changes(&plain, &expected);
    }
    if number.is_multiple_of(FAULTY) {
        for mixture in 1..8 {
            let win = dealt.faulty_win(rng, [1, 2, 4].map(|fault| mixture & fault > 0));
            dealt.try_win(corners, check, &win);
        }
        try_refused_hand(rng, corners, check);
    }
    if number.is_multiple_of(EVERY) {
        for win in dealt.every_number(rng) {
            dealt.try_win(corners, check, &win);
        }
        corners.count_every();
    }
}

/// Tries a hand that is refused, with bad indicators.
fn try_refused_hand(rng: &mut Rng, corners: &mut Corners, check: &mut Check) {
    let (hand, mut win) = refused_hand(rng);
    put_bad_indicators(rng, &hand, &mut win);
    let expected = ExpectedWin::of(&hand, &win);
    check(&hand, &win, &expected);
    corners.count(&hand, &win, &expected);
}

/// A win with drawn indicators, now and then bad ones.
pub fn shown_win(rng: &mut Rng) -> (Hand, Win) {
    let dealt = Dealt::new(rng);
    let win = dealt.shown_win(rng);
    (dealt.hand, win)
}

/// A win with these of the faults 8, 14 and 9.
pub fn faulty_win(rng: &mut Rng, faults: [bool; 3]) -> (Hand, Win) {
    let dealt = Dealt::new(rng);
    let win = dealt.faulty_win(rng, faults);
    (dealt.hand, win)
}

/// How the indicators of a hand are drawn.
#[derive(Clone, Copy)]
enum Shown {
    /// At most two of a sort, so that the levels are near to each other.
    Few,
    /// None, few or many, any or such that hit the hand.
    Any,
    /// Up to ten that hit the hand.
    Many,
}

/// A win with no fault and no indicators, and what is expected of its hand.
struct Dealt {
    hand: Hand,
    expected: ExpectedHand,
    win: Win,
    shown: Shown,
}

impl Dealt {
    fn new(rng: &mut Rng) -> Dealt {
        let (hand, win) = match rng.share(&[40, 20, 20, 15, 5]) {
            0 => any_win(rng, wins::hand),
            1 => concealed_win(rng),
            2 => plain_win(rng),
            3 => any_win(rng, several),
            _ => any_win(rng, random::near_winning),
        };
        let none = [Indicators::default(); 2];
        Dealt {
            hand,
            expected: ExpectedHand::of(&hand),
            win: with_any_riichi(rng, win).showing(none),
            shown: rng.pick(&[Shown::Few, Shown::Few, Shown::Any, Shown::Many]),
        }
    }

    /// The win with drawn indicators.
    fn shown_win(&self, rng: &mut Rng) -> Win {
        self.win.showing(self.shown.indicators(rng, &self.hand))
    }

    /// The win with drawn indicators and these of the faults 8, 14 and 9.
    fn faulty_win(&self, rng: &mut Rng, faults: [bool; 3]) -> Win {
        let mut win = self.shown_win(rng);
        let [is_out_of_range, has_bad_indicators, is_absent] = faults;
        if is_out_of_range {
            put_out_of_range(rng, &mut win);
        }
        if has_bad_indicators {
            put_bad_indicators(rng, &self.hand, &mut win);
        }
        if is_absent {
            win.winning_tile = absent_tile(rng, &self.hand);
        }
        win
    }

    /// The win with each number of indicators from 0 to 255, of either sort, and with each of these
    /// numbers as one of the indicators that are shown.
    fn every_number(&self, rng: &mut Rng) -> Vec<Win> {
        let mut wins = Vec::new();
        for (sort, number) in (0..2).flat_map(|sort| (0..=u8::MAX).map(move |n| (sort, n))) {
            let mut counted = self.full(rng);
            counted[sort].count = number;
            let mut named = self.full(rng);
            let count = 1 + rng.below(MOST_INDICATORS);
            named[sort].count = count as u8;
            named[sort].tiles[rng.below(count)] = number;
            wins.extend([counted, named].map(|shown| self.win.showing(shown)));
        }
        wins
    }

    /// Ten indicators of each sort that hit the hand.
    fn full(&self, rng: &mut Rng) -> [Indicators; 2] {
        [(); 2].map(|_| Style::HITS.shown(rng, &self.hand, MOST_INDICATORS))
    }

    /// Tries the hand won so, and answers what was expected.
    fn try_win(&self, corners: &mut Corners, check: &mut Check, win: &Win) -> ExpectedWin {
        let expected = self.expected.won(&self.hand, win);
        check(&self.hand, win, &expected);
        corners.count(&self.hand, win, &expected);
        expected
    }
}

impl Shown {
    /// Indicators of both sorts, now and then bad ones.
    fn indicators(self, rng: &mut Rng, hand: &Hand) -> [Indicators; 2] {
        let drawn = [(); 2].map(|_| self.sort(rng, hand));
        match rng.below(100) {
            0 => drawn.map(|sort| too_many(rng, sort)),
            1 => drawn.map(|sort| with_no_tile(rng, hand, sort)),
            2 => [too_many(rng, drawn[0]), drawn[1]],
            3 => [drawn[0], with_no_tile(rng, hand, drawn[1])],
            _ => drawn,
        }
    }

    /// Indicators of one sort.
    fn sort(self, rng: &mut Rng, hand: &Hand) -> Indicators {
        let style = Style {
            hits: rng.pick(&[0, 80, 100]),
            repeats: rng.pick(&[0, 30, 90]),
        };
        let any = rng.below(MOST_INDICATORS + 1);
        let (style, number) = match self {
            Shown::Few => (style, rng.pick(&[0, 1, 2])),
            Shown::Any => (style, rng.pick(&[0, 1, any, any, MOST_INDICATORS])),
            Shown::Many => (Style::HITS, rng.pick(&[0, 3, 4, 5, 8, MOST_INDICATORS])),
        };
        style.shown(rng, hand, number)
    }
}

/// A win of such a hand by one of its tiles, in any circumstances.
fn any_win(rng: &mut Rng, deal: impl Fn(&mut Rng) -> Hand) -> (Hand, Win) {
    let hand = deal(rng);
    let tile = random::held_tile(rng, &hand) as u8;
    (hand, wins::win(rng, &hand, tile))
}

/// A hand with several readings.
fn several(rng: &mut Rng) -> Hand {
    random::until(rng, random::winning, |expected| expected.readings > 1)
}

/// A win of four concealed triplets that are three equal sequences too, most often by tsumo.
fn concealed_win(rng: &mut Rng) -> (Hand, Win) {
    let (hand, drawn) = any_win(rng, wins::concealed);
    let win = Win {
        win_type: rng.pick(&[TSUMO, TSUMO, TSUMO, RON]),
        is_tenhou: false,
        is_chiihou: false,
        ..drawn
    };
    (hand, win)
}

/// A win of a hand with calls and no flags, often without a yaku.
fn plain_win(rng: &mut Rng) -> (Hand, Win) {
    let calls = 1 + rng.below(4);
    let (hand, drawn) = any_win(rng, |rng| random::winning_with_calls(rng, calls));
    let plain = Win::new(
        drawn.win_type,
        drawn.winning_tile,
        drawn.round_wind,
        drawn.seat_wind,
    );
    (hand, plain.in_room(drawn.double_wind_fu))
}

/// The win with riichi or not, and double riichi or not, each mixture as often.
fn with_any_riichi(rng: &mut Rng, win: Win) -> Win {
    Win {
        is_riichi: rng.percent(50),
        is_double_riichi: rng.percent(50),
        ..win
    }
}

#[cfg(test)]
mod tests {
    use super::*;

    #[test]
    fn every_corner_is_dealt() {
        let mut rng = Rng::new(4);
        let mut corners = Corners::default();
        let mut wins = 0;
        for number in 0..6000 {
            try_hand(&mut rng, number, &mut corners, &mut |_, _, _| wins += 1);
        }
        let rare = corners.rarer_than(10);
        assert!(rare.is_empty(), "{wins} wins\n{rare:#?}\n{corners}");
    }

    #[test]
    fn a_win_is_dealt_without_indicators() {
        let mut rng = Rng::new(5);
        for _ in 0..500 {
            let dealt = Dealt::new(&mut rng);
            assert!(!dealt.win.has_indicators());
            let expected = dealt.expected.won(&dealt.hand, &dealt.win);
            assert!(!expected.faults.contains(&true));
            for score in expected.scores {
                assert_eq!((score.regular_dora, score.ura_dora), (0, 0));
            }
        }
    }
}
