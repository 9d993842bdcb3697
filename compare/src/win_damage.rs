//! Wins that have to be refused: one or two faults put into a win.

use crate::damage;
use crate::differences::FAULTS;
use crate::hand::*;
use crate::indicators::Style;
use crate::library::{Indicators, MOST_INDICATORS, SETTINGS, Win};
use crate::random;
use crate::rng::Rng;
use crate::win_oracle::CHECKS;
use crate::wins;

// The refusals of the win itself.
const OUT_OF_RANGE: usize = 8;
const NO_INDICATORS: usize = 14;
const NOT_IN_HAND: usize = 9;

/// A win with one or two of the faults 1 to 6, 8, 14 and 9.
pub fn damaged(rng: &mut Rng) -> (Hand, Win) {
    let one = rng.below(CHECKS.len());
    let other = if rng.percent(50) {
        one
    } else {
        rng.below(CHECKS.len())
    };
    with_faults(rng, CHECKS[one.min(other)], CHECKS[one.max(other)])
}

/// A win with two faults, or with one where they are the same.
pub fn with_faults(rng: &mut Rng, earlier: usize, later: usize) -> (Hand, Win) {
    let hand = match (earlier <= FAULTS, later <= FAULTS) {
        (true, true) => damage::with_faults(rng, earlier, later),
        (true, false) => damage::with_faults(rng, earlier, earlier),
        _ => wins::hand(rng),
    };
    let tile = any_held_tile(rng, &hand);
    let mut win = wins::win(rng, &hand, tile);
    for fault in [earlier, later] {
        match fault {
            OUT_OF_RANGE => put_out_of_range(rng, &mut win),
            NO_INDICATORS => put_bad_indicators(rng, &hand, &mut win),
            NOT_IN_HAND => win.winning_tile = absent_tile(rng, &hand),
            _ => {}
        }
    }
    (hand, win)
}

/// A win whose hand is refused with one of 1 to 6.
pub fn refused_hand(rng: &mut Rng) -> (Hand, Win) {
    let fault = 1 + rng.below(FAULTS);
    with_faults(rng, fault, fault)
}

/// A tile that the hand holds, or any where it holds none.
fn any_held_tile(rng: &mut Rng, hand: &Hand) -> u8 {
    let any = rng.below(KINDS);
    random::other_held_tile(rng, hand, KINDS).unwrap_or(any) as u8
}

/// A win type, a wind or a setting that is none, or all four.
pub fn put_out_of_range(rng: &mut Rng, win: &mut Win) {
    let place = rng.below(5);
    if [0, 4].contains(&place) {
        let any = 2 + rng.below(254) as u8;
        win.win_type = rng.pick(&[2, 3, 128, 254, 255, any]);
    }
    if [1, 4].contains(&place) {
        win.round_wind = no_wind(rng);
    }
    if [2, 4].contains(&place) {
        win.seat_wind = no_wind(rng);
    }
    if [3, 4].contains(&place) {
        win.double_wind_fu = no_setting(rng);
    }
}

/// A setting that is none: one near four or two or with a bit more, or any.
pub fn no_setting(rng: &mut Rng) -> u8 {
    loop {
        let any = rng.byte();
        let setting = rng.pick(&[0, 1, 3, 5, 6, 20, 130, 132, 255, any, any, any]);
        if !SETTINGS.contains(&setting) {
            return setting;
        }
    }
}

/// More than ten indicators or one above 33, of either sort or of both.
pub fn put_bad_indicators(rng: &mut Rng, hand: &Hand, win: &mut Win) {
    let place = rng.below(3);
    if [0, 2].contains(&place) {
        win.dora_indicators = bad_indicators(rng, hand, win.dora_indicators);
    }
    if [1, 2].contains(&place) {
        win.ura_dora_indicators = bad_indicators(rng, hand, win.ura_dora_indicators);
    }
}

/// Indicators of a sort, too many of them, or a shown one that is no tile, or both.
fn bad_indicators(rng: &mut Rng, hand: &Hand, good: Indicators) -> Indicators {
    match rng.below(5) {
        0 | 1 => too_many(rng, good),
        2 | 3 => with_no_tile(rng, hand, good),
        _ => {
            let bad = with_no_tile(rng, hand, good);
            too_many(rng, bad)
        }
    }
}

/// More than ten: near ten, ten with a bit more, the most, or any.
pub fn too_many(rng: &mut Rng, indicators: Indicators) -> Indicators {
    let any = 11 + rng.below(245) as u8;
    Indicators {
        count: rng.pick(&[11, 11, 12, 128, 138, 255, 255, any, any]),
        ..indicators
    }
}

/// A shown one that is no tile: the first, the last or any. Where none is shown, some are.
pub fn with_no_tile(rng: &mut Rng, hand: &Hand, indicators: Indicators) -> Indicators {
    let mut bad = indicators;
    if bad.count == 0 {
        let number = 1 + rng.below(MOST_INDICATORS);
        bad = Style::HITS.shown(rng, hand, number);
    }
    let last = bad.shown().len() - 1;
    let any = rng.below(last + 1);
    bad.tiles[rng.pick(&[0, last, any])] = no_tile(rng);
    bad
}

/// A number above 33: near it, with a bit more than a tile, or any.
fn no_tile(rng: &mut Rng) -> u8 {
    let any = 34 + rng.below(222) as u8;
    let with_a_bit = rng.pick(&[64, 128, 192]) + rng.below(KINDS) as u8;
    rng.pick(&[34, 35, 255, with_a_bit, any])
}

fn no_wind(rng: &mut Rng) -> u8 {
    let lower = rng.below(27) as u8;
    let upper = 31 + rng.below(225) as u8;
    rng.pick(&[0, 1, 26, 31, 33, 34, 255, lower, upper])
}

/// A tile above 33, or one that the hand does not hold, half of these from a call where there is one.
pub fn absent_tile(rng: &mut Rng, hand: &Hand) -> u8 {
    let beyond = 34 + rng.below(222) as u8;
    let absent = |&tile: &usize| tile < KINDS && hand.counts[tile] == 0;
    let anywhere: Vec<usize> = (0..KINDS).filter(absent).collect();
    let called = hand.called().iter().flat_map(|meld| meld.tiles());
    let in_call: Vec<usize> = called.filter(absent).collect();
    match rng.below(4) {
        0 => rng.pick(&[34, 35, 127, 128, 255, beyond]),
        1 if !anywhere.is_empty() => rng.pick(&anywhere) as u8,
        _ if !in_call.is_empty() => rng.pick(&in_call) as u8,
        _ if !anywhere.is_empty() => rng.pick(&anywhere) as u8,
        _ => beyond,
    }
}

#[cfg(test)]
mod tests {
    use super::*;
    use crate::differences::{self, win_faults};

    #[test]
    fn a_fault_of_the_win_is_there_and_no_other() {
        let mut rng = Rng::new(8);
        for (place, fault) in [OUT_OF_RANGE, NO_INDICATORS, NOT_IN_HAND]
            .iter()
            .enumerate()
        {
            for _ in 0..2000 {
                let (hand, win) = with_faults(&mut rng, *fault, *fault);
                let faults = win_faults(&hand, &win);
                assert_eq!(faults, [0, 1, 2].map(|other| other == place), "{win:?}");
            }
        }
    }

    #[test]
    fn indicators_are_bad_in_every_way() {
        let mut rng = Rng::new(9);
        let mut ways = [0; 16];
        for _ in 0..5000 {
            let (_, win) = with_faults(&mut rng, NO_INDICATORS, NO_INDICATORS);
            let bits = differences::bad_indicators(&win).into_iter();
            ways[bits.fold(0, |way, is_so| 2 * way + usize::from(is_so))] += 1;
        }
        assert_eq!(ways[0], 0);
        assert!(ways[1..].iter().all(|&wins| wins > 20), "{ways:?}");
    }
}
