//! The hands and wins that are measured.

use compare::hand::{Hand, KINDS};
use compare::library::{Deal, Indicators, RON, SEATS, TSUMO, Win, Winner};
use compare::oracle::Expected;
use compare::random::{self, Pool, Style};
use compare::rng::Rng;
use compare::three_wins;

const SEED: u64 = 1;
/// Of a hundred winning hands, so many have 0, 1, 2, 3 and 4 calls.
const CALLS: [usize; 5] = [60, 20, 13, 6, 1];
const EAST: u8 = 27;

/// Hands of one sort.
pub struct Case {
    pub name: &'static str,
    pub about: &'static str,
    deal: fn(&mut Rng) -> Hand,
    fits: fn(&Expected) -> bool,
}

pub const CASES: [Case; 5] = [
    Case {
        name: "mixture",
        about: "winning hands: 97% four melds and a pair, 3% seven pairs; calls 60 20 13 6 1%",
        deal: mixture,
        fits: |expected| expected.readings > 0,
    },
    Case {
        name: "several",
        about: "closed winning hands of one suit with two or more readings",
        deal: closed_flush,
        fits: |expected| expected.readings > 1,
    },
    Case {
        name: "flush",
        about: "winning hands of one suit, calls as in the mixture",
        deal: flush,
        fits: |expected| expected.readings > 0,
    },
    Case {
        name: "none",
        about: "no reading: half one tile off a hand of the mixture, half 14 tiles from the wall",
        deal: no_win,
        fits: |expected| expected.readings == 0,
    },
    Case {
        name: "changing",
        about: "any of the four sorts above, each as often",
        deal: changing,
        fits: |_| true,
    },
];

/// Melds as players have them: three in four are sequences, one called triplet in ten is a kan.
fn style(pool: Pool) -> Style {
    Style {
        pool,
        sequences: 75,
        kans: 10,
    }
}

/// 85 of 100 from all tiles, 10 from a suit and honours, 5 from one suit.
fn mixture(rng: &mut Rng) -> Hand {
    if rng.percent(3) {
        return random::distinct_pairs(rng, Pool::all());
    }
    let suit = rng.below(3);
    let pool = match rng.share(&[85, 10, 5]) {
        0 => Pool::all(),
        1 => Pool::suit_and_honours(suit),
        _ => Pool::suit(suit),
    };
    let calls = rng.share(&CALLS);
    style(pool).winning(rng, calls)
}

fn closed_flush(rng: &mut Rng) -> Hand {
    let suit = rng.below(3);
    style(Pool::suit(suit)).winning(rng, 0)
}

fn flush(rng: &mut Rng) -> Hand {
    let suit = rng.below(3);
    let calls = rng.share(&CALLS);
    style(Pool::suit(suit)).winning(rng, calls)
}

fn no_win(rng: &mut Rng) -> Hand {
    if rng.percent(50) {
        return random::from_wall(rng, 0);
    }
    let mut hand = mixture(rng);
    random::change_one_tile(rng, &mut hand);
    hand
}

fn changing(rng: &mut Rng) -> Hand {
    let case = &CASES[rng.below(CASES.len() - 1)];
    random::until(rng, case.deal, case.fits)
}

impl Case {
    pub fn hands(&self, number: usize) -> Vec<Hand> {
        let mut rng = Rng::new(SEED);
        (0..number)
            .map(|_| random::until(&mut rng, self.deal, self.fits))
            .collect()
    }

    /// The same hands, each won by one of its tiles.
    pub fn wins(&self, number: usize) -> Vec<Won> {
        let mut rng = Rng::new(!SEED);
        let hands = self.hands(number).into_iter();
        hands
            .map(|hand| Won {
                hand,
                win: win(&mut rng, &hand),
            })
            .collect()
    }
}

/// The same wins in riichi without indicators, and with three indicators and two ura indicators of any
/// tiles.
pub fn with_and_without_indicators(wins: &[Won]) -> [Vec<Won>; 2] {
    let mut rng = Rng::new(SEED);
    let mut shown = |number: usize| {
        let tiles: Vec<u8> = (0..number).map(|_| rng.below(KINDS) as u8).collect();
        Indicators::of(&tiles)
    };
    let mut riichi = wins.to_vec();
    riichi.iter_mut().for_each(|won| won.win.is_riichi = true);
    let mut with = riichi.clone();
    for won in &mut with {
        won.win = won.win.showing([shown(3), shown(2)]);
    }
    [with, riichi]
}

/// So many hands of three players as `compare three` deals them, each won by one of its tiles.
pub fn wins_of_three(number: usize) -> Vec<Won> {
    let mut rng = Rng::new(SEED);
    let deal = |_| {
        let hand = three_wins::hand(&mut rng);
        let win = win(&mut rng, &hand);
        Won { hand, win }
    };
    (0..number).map(deal).collect()
}

/// A hand, and how it was won.
#[derive(Clone, Copy)]
pub struct Won {
    pub hand: Hand,
    pub win: Win,
}

/// A win to be booked: with seat 0 as the dealer, the winner at the seat of the win's wind and, at
/// ron, the next seat as the discarder. The winner declared riichi where the win says so.
#[derive(Clone, Copy)]
pub struct Booked {
    pub won: Won,
    pub deal: Deal,
    pub winner: Winner,
}

impl Booked {
    pub fn of(won: &Won) -> Booked {
        let seat = won.win.seat_wind - EAST;
        let declares = |place: usize| won.win.is_riichi && place == usize::from(seat);
        Booked {
            won: *won,
            deal: Deal {
                dealer: 0,
                declared: std::array::from_fn(declares),
            },
            winner: Winner {
                seat,
                has_discarder: won.win.win_type == RON,
                discarder: (seat + 1) % SEATS as u8,
            },
        }
    }
}

/// A win as players have them: 6 in 10 by ron, the rounds of East and South, any seat; 4 in 10 closed
/// hands in riichi, a tenth of these with ippatsu; the last tile in 2 of 100. The setting is four, and there
/// are no indicators.
fn win(rng: &mut Rng, hand: &Hand) -> Win {
    let is_riichi = !hand.is_open() && rng.percent(40);
    let win_type = if rng.percent(60) { RON } else { TSUMO };
    let winning_tile = any_tile(rng, hand);
    let round_wind = EAST + rng.below(2) as u8;
    let seat_wind = EAST + rng.below(4) as u8;
    Win {
        is_riichi,
        is_ippatsu: is_riichi && rng.percent(10),
        is_last_tile: rng.percent(2),
        ..Win::new(win_type, winning_tile, round_wind, seat_wind)
    }
}

/// One of the hand's tiles.
fn any_tile(rng: &mut Rng, hand: &Hand) -> u8 {
    let tiles: Vec<u8> = (0..KINDS as u8)
        .flat_map(|tile| (0..hand.counts[usize::from(tile)]).map(move |_| tile))
        .collect();
    rng.pick(&tiles)
}

#[cfg(test)]
mod tests {
    use super::*;
    use compare::library::{book_win, new_book, score_win};

    #[test]
    fn wins_with_five_indicators_are_the_same_wins() {
        let [with, without] = with_and_without_indicators(&CASES[0].wins(100));
        for (with, without) in with.iter().zip(&without) {
            let counts = with.win.indicators().map(|sort| sort.count);
            assert_eq!(counts, [3, 2]);
            assert!(with.win.is_riichi && without.win.is_riichi);
            assert!(!without.win.has_indicators());
            assert_eq!(with.win.winning_tile, without.win.winning_tile);
            assert_eq!(with.hand.counts(), without.hand.counts());
        }
    }

    #[test]
    fn a_booked_win_is_the_same_win() {
        for won in CASES[4].wins(500) {
            let Booked { deal, winner, .. } = Booked::of(&won);
            let score = score_win(won.hand.counts(), won.hand.calls, won.win);
            let mut book = new_book();
            let number = book_win(&mut book, &won.hand, won.win, deal, winner);
            assert_eq!(number, score.number);
            let gained = book.points[usize::from(winner.seat)] - 25_000;
            assert_eq!(gained, score.total as i64);
        }
    }
}
