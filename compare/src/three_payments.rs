//! The comparison of payments between three players.

use crate::agari;
use crate::agari_scores::{payment_in_game, payment_of_han};
use crate::differences::MOST_BASIC_POINTS;
use crate::faults::listed;
use crate::game::Game;
use crate::library::{self, PaymentAnswer, RON, TSUMO, Win};
use crate::points::{Compared, FAR, WIN_TYPES};
use crate::win_tally::counted;
use agari_core::hand::{HandStructure, KanType, Meld};
use std::collections::BTreeSet;

const SOU_5: u8 = 22;
const EAST: u8 = 27;
const SOUTH: u8 = 28;
const WHITE: u8 = 31;
const ANSWERS: [usize; 3] = [0, 8, 13];
const SETTLEMENTS: [&str; 3] = ["ron", "tsumo of the dealer", "tsumo of another"];

/// A payment of basic points, by the dealer or not, and win type.
type Pay = fn(u32, bool, u8) -> PaymentAnswer;

/// Compares the payment of every basic points with the shares that agari says at any table, and with what
/// `calculate_score` pays where it comes to the points. Answers the number of inputs that differ.
pub fn compare() -> u64 {
    differences(library::three_payment)
}

fn differences(pay: Pay) -> u64 {
    let compared = [compare_every(pay), compare_scored(pay)];
    compared.iter().map(|class| class.differ).sum()
}

fn compare_every(pay: Pay) -> Compared {
    let mut compared = Compared::new("  every basic points");
    let mut answers = [0; ANSWERS.len()];
    let mut settlements = [0; SETTLEMENTS.len()];
    for basic_points in (0..=MOST_BASIC_POINTS + 1).chain(FAR) {
        for is_dealer in [false, true] {
            for win_type in WIN_TYPES {
                let want = payment_in_game(Game::Three, basic_points, is_dealer, win_type);
                let got = pay(basic_points, is_dealer, win_type);
                compared.check((basic_points, is_dealer, win_type), want, got);
                for (count, number) in answers.iter_mut().zip(ANSWERS) {
                    *count += u64::from(want.number as usize == number);
                }
                for (count, number) in settlements.iter_mut().zip(1..) {
                    *count += u64::from(want.settlement == number);
                }
            }
        }
    }
    compared.print();
    println!("    by answer: {}", listed(&ANSWERS, &answers));
    println!("    by settlement: {}", counted(&SETTLEMENTS, &settlements));
    compared
}

fn compare_scored(pay: Pay) -> Compared {
    let mut compared = Compared::new("  those that calculate_score pays");
    let mut points = BTreeSet::new();
    for (basic_points, is_dealer, win_type, want) in scored() {
        let got = pay(basic_points, is_dealer, win_type);
        compared.check((basic_points, is_dealer, win_type), want, got);
        points.insert(basic_points);
    }
    compared.print();
    println!("    different basic points: {}", points.len());
    compared
}

/// Basic points, whether the dealer wins, the win type, and what `calculate_score` pays at a table of three: of
/// made-up readings with all fu that melds of each sort come to, and with all han.
fn scored() -> Vec<(u32, bool, u8, PaymentAnswer)> {
    let mut found = Vec::new();
    for (reading, is_open) in readings() {
        for han in han() {
            for mixture in 0..8 {
                let [is_tsumo, is_dealer, is_waited_for] = [1, 2, 4].map(|bit| mixture & bit > 0);
                let win_type = if is_tsumo { TSUMO } else { RON };
                let seat = if is_dealer { EAST } else { SOUTH };
                let tile = if is_waited_for { SOU_5 } else { EAST };
                let win = Win::new(win_type, tile, EAST, seat);
                let (points, paid) = payment_of_han(Game::Three, &reading, han, &win, is_open);
                found.push((points, is_dealer, win_type, paid));
            }
        }
    }
    found
}

/// All han up to a counted yakuman, and those of one yakuman and more, up to the most that a number has.
fn han() -> impl Iterator<Item = (u8, bool)> {
    let ordinary = (0..=13).map(|han| (han, false));
    ordinary.chain((1..=19).map(|yakuman| (13 * yakuman, true)))
}

/// Seven pairs, thirteen orphans, and four melds of any sorts with a pair, open and closed. What tiles they have
/// does not matter to their fu but for honours.
fn readings() -> Vec<(HandStructure, bool)> {
    let [simple, honour] = [SOU_5, WHITE].map(agari::tile);
    let sorts = [
        Meld::shuntsu(simple),
        Meld::koutsu_open(simple),
        Meld::koutsu(simple),
        Meld::koutsu(honour),
        Meld::kan(simple, KanType::Open),
        Meld::kan(simple, KanType::Closed),
        Meld::kan(honour, KanType::Open),
        Meld::kan(honour, KanType::Closed),
    ];
    let mut found = vec![
        (
            HandStructure::Chiitoitsu {
                pairs: vec![simple; 7],
            },
            false,
        ),
        (HandStructure::Kokushi { pair: honour }, false),
    ];
    for one in 0..sorts.len() {
        for two in 0..=one {
            for three in 0..=two {
                for four in 0..=three {
                    let melds = [one, two, three, four].map(|sort| sorts[sort].clone());
                    for pair in [simple, honour] {
                        let melds = melds.to_vec();
                        let reading = HandStructure::Standard { melds, pair };
                        found.push((reading.clone(), false));
                        found.push((reading, true));
                    }
                }
            }
        }
    }
    found
}

#[cfg(test)]
mod tests {
    use super::*;
    use crate::agari_scores::payment;

    /// Settlement, what a non-dealer, the dealer and the discarder pay, and the total.
    fn amounts(paid: PaymentAnswer) -> [u64; 5] {
        assert_eq!(paid.number, 0);
        let pay = [paid.from_non_dealer, paid.from_dealer, paid.from_discarder].map(u64::from);
        [paid.settlement.into(), pay[0], pay[1], pay[2], paid.total]
    }

    #[test]
    fn a_tsumo_has_one_payer_fewer_and_a_ron_pays_the_same() {
        let three = |points, is_dealer, win_type| {
            amounts(payment_in_game(Game::Three, points, is_dealer, win_type))
        };
        assert_eq!(three(2000, true, TSUMO), [2, 4000, 0, 0, 8000]);
        assert_eq!(three(2000, false, TSUMO), [3, 2000, 4000, 0, 6000]);
        assert_eq!(three(2000, true, RON), [1, 0, 0, 12_000, 12_000]);
        assert_eq!(three(2000, false, RON), [1, 0, 0, 8000, 8000]);
        // Each share is rounded by itself.
        assert_eq!(three(320, false, TSUMO), [3, 400, 700, 0, 1100]);
        assert_eq!(three(320, true, TSUMO), [2, 700, 0, 0, 1400]);
        assert_eq!(three(0, false, TSUMO), [3, 0, 0, 0, 0]);
        assert_eq!(three(152_000, true, TSUMO), [2, 304_000, 0, 0, 608_000]);
        for (win_type, is_dealer) in [(RON, true), (RON, false)] {
            for points in [0, 1, 99, 100, 1920, 8000] {
                let four = amounts(payment(points, is_dealer, win_type));
                assert_eq!(three(points, is_dealer, win_type), four);
            }
        }
    }

    #[test]
    fn payments_do_not_differ_and_those_between_four_do() {
        assert_eq!(compare(), 0);
        // Every tsumo but that of nothing, in both classes.
        assert!(differences(library::payment) > 2 * 152_000);
    }

    #[test]
    fn payments_are_refused_as_between_four() {
        let number =
            |points, win_type| payment_in_game(Game::Three, points, false, win_type).number;
        let numbers = [
            (152_000, 1, 0),
            (152_001, 1, 13),
            (152_001, 2, 8),
            (0, 255, 8),
        ];
        for (points, win_type, expected) in numbers {
            assert_eq!(number(points, win_type), expected);
        }
    }

    #[test]
    fn what_calculate_score_pays_is_what_is_expected() {
        let mut points = BTreeSet::new();
        for (basic_points, is_dealer, win_type, paid) in scored() {
            let want = payment_in_game(Game::Three, basic_points, is_dealer, win_type);
            assert_eq!(paid, want, "{basic_points}");
            points.insert(basic_points);
        }
        assert!(points.len() > 50, "{points:?}");
        assert!(
            [80, 2000, 8000, 152_000]
                .iter()
                .all(|of| points.contains(of)),
            "{points:?}"
        );
    }
}
