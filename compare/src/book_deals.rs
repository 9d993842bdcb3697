//! Random histories of bookings: the book to begin with, and deals of every sort, good and bad
//! ones.

use crate::book_model::{self, Book, History, MOST_POINTS};
use crate::hand::Hand;
use crate::lent_book::{Booking, Won};
use crate::library::{Deal, RON, SEATS, TSUMO, Win, Winner};
use crate::random;
use crate::rng::Rng;
use crate::scored_wins;
use crate::win_damage;
use crate::wins::{self, WINDS};

/// Of ten thousand histories, so many are short, long, and longer than a book takes.
const LENGTHS: [usize; 3] = [9840, 155, 5];
/// The most bookings of a short history, and of a long one.
pub const SHORT: usize = 12;
pub const LONG: usize = 400;
/// A history that is longer than a book takes has from so many bookings on.
const LONGER: usize = 1100;
/// Of a hundred histories, so many begin with a new book where they are short, and where they are
/// not.
const NEW: [usize; 2] = [50, 85];

/// The fields of a book that have a limit.
#[derive(Clone, Copy, PartialEq, Eq)]
enum Limit {
    Points,
    Sticks,
    Deals,
    Counter,
}

/// The history of a new book, or of one set near a limit or anywhere below them, to be booked in
/// this style.
pub fn history(rng: &mut Rng, style: &Style) -> History {
    let is_long = usize::from(style.bookings > SHORT);
    match rng.percent(NEW[is_long]) {
        true => History::of_new(),
        false => History::of(set_book(rng)),
    }
}

/// A book near no limit, near one of them, or near all.
fn set_book(rng: &mut Rng) -> Book {
    let [points, sticks, deals, counter] =
        [Limit::Points, Limit::Sticks, Limit::Deals, Limit::Counter];
    let near: &[Limit] = match rng.share(&[15, 25, 15, 15, 20, 10]) {
        0 => &[],
        1 => &[points],
        2 => &[sticks],
        3 => &[deals],
        4 => &[counter],
        _ => &[points, sticks, deals, counter],
    };
    Book {
        points: [(); SEATS].map(|_| seat_points(rng, near.contains(&points))),
        sticks: sticks_on_table(rng, near.contains(&sticks)).into(),
        deals: deals_booked(rng, near.contains(&deals)).into(),
        counter: repeat_counter(rng, near.contains(&counter)).into(),
        reserved: rng.byte(),
    }
}

/// The points of a seat, below zero now and then. Near the limit half of the seats are: as far as
/// that or a little less, or beyond it, by one, by any number, or as far as eight bytes go.
fn seat_points(rng: &mut Rng, is_near: bool) -> i128 {
    let plain = rng.below(300_001) as i128 - 100_000;
    let sign = rng.pick(&[1, -1]);
    let few = rng.below(200_000) as i128;
    let any = rng.word() as i64;
    let shares: &[usize] = if is_near { &[50, 42, 8] } else { &[1] };
    match rng.share(shares) {
        0 => plain,
        1 => sign * (MOST_POINTS - rng.pick(&[0, 0, 0, 1, 100, 1000, few])),
        _ => {
            let beyond = sign * (MOST_POINTS + rng.pick(&[1, 1, 1, 1 + few]));
            let far = [i64::MIN, i64::MAX, any].map(i128::from);
            rng.pick(&[beyond, beyond, beyond, far[0], far[1], far[2]])
        }
    }
}

fn sticks_on_table(rng: &mut Rng, is_near: bool) -> u32 {
    let few = rng.below(20) as u32;
    let below = 4080 + rng.below(16) as u32;
    let any = rng.word() as u32;
    match is_near {
        true => rng.pick(&[below, 4095, 4096, 4096, 4097, 4098, u32::MAX, any]),
        false => few,
    }
}

fn deals_booked(rng: &mut Rng, is_near: bool) -> u16 {
    let below = rng.below(1000) as u16;
    let any = rng.word() as u16;
    match is_near {
        true => rng.pick(&[1015, 1022, 1023, 1023, 1024, 1025, 1026, u16::MAX, any]),
        false => below,
    }
}

fn repeat_counter(rng: &mut Rng, is_near: bool) -> u8 {
    let any = rng.byte();
    match is_near {
        true => rng.pick(&[253, 254, 255, 255]),
        false => any,
    }
}

/// How the bookings of a history are drawn.
pub struct Style {
    pub bookings: usize,
    /// The shares of draws, of dealers' wins and of others' wins.
    ends: [usize; 3],
    /// Of a hundred deals so many have a wrong seat, and of a hundred wins so many have a fault in
    /// hand or win.
    wrong_seats: usize,
    damaged: usize,
    /// The share of seats that declare riichi, in percent.
    declaring: usize,
}

impl Style {
    /// A short history of any deals, or a long one in which the counter rises, most often without
    /// another's win for long.
    pub fn any(rng: &mut Rng) -> Style {
        let length = rng.share(&LENGTHS);
        let bookings = match length {
            0 => 1 + rng.below(SHORT),
            1 => SHORT + 1 + rng.below(LONG - SHORT),
            _ => LONGER + rng.below(200),
        };
        let others = match length {
            0 => 45,
            1 => rng.pick(&[0, 0, 1, 20]),
            _ => rng.pick(&[1, 2, 20]),
        };
        let draws = rng.pick(&[25, 50, 75]) * (100 - others) / 100;
        let [wrong_seats, damaged] = if length == 0 { [6, 14] } else { [1, 4] };
        Style {
            bookings,
            ends: [draws, 100 - others - draws, others],
            wrong_seats,
            damaged,
            declaring: rng.pick(&[0, 25, 50, 100]),
        }
    }

    /// A deal, drawn or won.
    pub fn booking(&self, rng: &mut Rng) -> Booking {
        let dealer = rng.below(SEATS) as u8;
        let declared = [(); SEATS].map(|_| rng.percent(self.declaring));
        let deal = Deal { dealer, declared };
        let after_dealer = match rng.share(&self.ends) {
            0 => None,
            1 => Some(0),
            _ => Some(1 + rng.below(SEATS - 1) as u8),
        };
        let won = after_dealer.map(|seats| self.won(rng, onward(dealer, seats)));
        let mut booking = Booking { deal, won };
        if rng.percent(self.wrong_seats) {
            put_wrong_seats(rng, &mut booking);
        }
        booking
    }

    /// A win of this seat, by ron or by tsumo. What a booking must not read is any byte, or one
    /// that would be read as another win.
    fn won(&self, rng: &mut Rng, seat: u8) -> Won {
        let (hand, win) = hand_and_win(rng, self.damaged);
        let [win_type, seat_wind, discarder] = [(); 3].map(|_| rng.byte());
        let others = 1 + rng.below(SEATS - 1) as u8;
        let has_discarder = rng.percent(50);
        let unread = rng.pick(&[onward(seat, others), seat, discarder]);
        Won {
            hand,
            win: Win {
                win_type: rng.pick(&[RON, TSUMO, win_type, win_type]),
                seat_wind: match rng.percent(50) {
                    true => rng.pick(&WINDS),
                    false => seat_wind,
                },
                ..win
            },
            winner: Winner {
                seat,
                has_discarder,
                discarder: if has_discarder {
                    onward(seat, others)
                } else {
                    unread
                },
            },
        }
    }
}

/// The seat so many seats after another.
fn onward(seat: u8, seats: u8) -> u8 {
    (seat + seats) % SEATS as u8
}

/// A hand and how it was won: in so many of a hundred cases with faults, else most often one that
/// scores.
fn hand_and_win(rng: &mut Rng, damaged: usize) -> (Hand, Win) {
    if rng.percent(damaged) {
        return win_damage::damaged(rng);
    }
    let hand = scored_wins::sound_hand(rng);
    let tile = random::held_tile(rng, &hand) as u8;
    (hand, wins::win(rng, &hand, tile))
}

/// A seat above 3 in one place or in several, or a discarder who is the winner.
fn put_wrong_seats(rng: &mut Rng, booking: &mut Booking) {
    let place = match booking.won {
        None => 0,
        Some(_) => rng.below(5),
    };
    if [0, 4].contains(&place) {
        booking.deal.dealer = wrong_seat(rng);
    }
    let Some(Won { winner, .. }) = &mut booking.won else {
        return;
    };
    if [1, 4].contains(&place) {
        winner.seat = wrong_seat(rng);
    }
    if [2, 4].contains(&place) {
        winner.discarder = wrong_seat(rng);
        winner.has_discarder = true;
    }
    if place == 3 {
        winner.discarder = winner.seat;
        winner.has_discarder = true;
    }
}

/// A seat above 3: near it, with a bit more than a seat, or any.
fn wrong_seat(rng: &mut Rng) -> u8 {
    let any = 4 + rng.below(252) as u8;
    let with_a_bit = rng.pick(&[4, 8, 128]) + rng.below(SEATS) as u8;
    rng.pick(&[4, 255, with_a_bit, any, any, any])
}

/// A booking as the model takes it: what is not read is left out.
pub fn told(booking: &Booking) -> book_model::Deal {
    let win = booking.won.as_ref().map(|Won { winner, .. }| {
        let discarder = winner.has_discarder.then_some(winner.discarder);
        book_model::Win {
            winner: winner.seat.into(),
            discarder: discarder.map(usize::from),
        }
    });
    book_model::Deal {
        dealer: booking.deal.dealer.into(),
        declared: booking.deal.declared,
        win,
    }
}
