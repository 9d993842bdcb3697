//! The corners that the bookings of a book have to meet.

use crate::book_model::{
    self, BOOK_REFUSED, Book, GROUNDS, MOST_COUNTER, MOST_DEALS, MOST_POINTS, MOST_STICKS,
    SEATS_REFUSED, seats_after_dealer,
};
use crate::differences::{hand_faults, win_faults};
use crate::lent_book::{Booking, Won};
use crate::library::{RON, TSUMO, Win};
use crate::win_oracle::CHECKS;
use crate::wins::WINDS;

const EAST: u8 = 27;

/// A booking with what the model says of it.
pub struct Seen<'a> {
    pub booking: &'a Booking,
    pub deal: &'a book_model::Deal,
    /// Whether the history began with a new book.
    pub is_new: bool,
    pub before: &'a Book,
    /// The same where it was refused.
    pub after: &'a Book,
    pub number: u32,
}

impl Seen<'_> {
    pub fn is_accepted(&self) -> bool {
        self.number == 0
    }

    /// The grounds for 15 and 16 that are there before a win is scored.
    pub fn grounds(&self) -> [bool; GROUNDS.len()] {
        self.before.grounds(self.deal)
    }

    /// Whether a ground for this number is there.
    pub fn has_ground(&self, number: u32) -> bool {
        let mut grounds = GROUNDS.iter().zip(self.grounds());
        grounds.any(|(&(refusal, _), is_so)| is_so && refusal == number)
    }

    /// The faults of hand and win, each looked at by itself: 1 to 6, 8, 14 and 9.
    pub fn faults(&self) -> [bool; CHECKS.len()] {
        let Some(Won { hand, .. }) = &self.booking.won else {
            return [false; CHECKS.len()];
        };
        let win = self.read_win().expect("the deal was won");
        let [one, two, three, four, five, six] = hand_faults(hand);
        let [range, indicators, tile] = win_faults(hand, &win);
        [one, two, three, four, five, six, range, indicators, tile]
    }

    /// The win as it is scored: with the type and the seat wind that follow from the seats. Where a
    /// seat is none, with East's, which is no fault.
    pub fn read_win(&self) -> Option<Win> {
        let won = self.booking.won.as_ref()?;
        let seats = self.deal.win?;
        let are_seats = self.deal.dealer < WINDS.len() && seats.winner < WINDS.len();
        let after = match are_seats {
            true => seats_after_dealer(self.deal.dealer, seats.winner),
            false => 0,
        };
        Some(Win {
            win_type: if seats.discarder.is_some() {
                RON
            } else {
                TSUMO
            },
            seat_wind: EAST + after,
            ..won.win
        })
    }

    /// Whether it was refused with 16 on this ground, and there is no other, nor a fault.
    fn is_refused_by(&self, ground: &str) -> bool {
        let grounds = self.grounds();
        let mut named = GROUNDS.iter().zip(grounds);
        let is_so = named.any(|(&(_, name), is_so)| is_so && name == ground);
        let are_one = grounds.iter().filter(|&&is_so| is_so).count() == 1;
        is_so && are_one && !self.faults().contains(&true) && self.number == BOOK_REFUSED
    }

    fn is_dealers_win(&self) -> bool {
        let winner = self.deal.win.map(|win| win.winner);
        winner == Some(self.deal.dealer)
    }
}

/// The names of all corners.
pub fn names() -> Vec<&'static str> {
    [&LIMITS[..], &COUNTERS, &TOGETHER, &POINTS, &UNREAD].concat()
}

/// Which of the corners a booking meets.
pub fn met(seen: &Seen) -> Vec<bool> {
    [
        &limits(seen)[..],
        &counters(seen),
        &together(seen),
        &points(seen),
        &unread(seen),
    ]
    .concat()
}

const LIMITS: [&str; 12] = [
    "a seat at 1,000,000,000, accepted",
    "a seat at -1,000,000,000, accepted",
    "a seat at 1,000,000,001 alone, 16",
    "a seat at -1,000,000,001 alone, 16",
    "a seat at either end of eight bytes alone, 16",
    "4,096 sticks, accepted",
    "4,097 sticks alone, 16",
    "4,294,967,295 sticks alone, 16",
    "1,023 deals, accepted",
    "1,024 deals alone, 16",
    "1,024 deals from a new book alone, 16",
    "65,535 deals alone, 16",
];

fn limits(seen: &Seen) -> [bool; LIMITS.len()] {
    let Book {
        points,
        sticks,
        deals,
        ..
    } = seen.before;
    let has_seat_at = |number: i128| points.contains(&number);
    let beyond = points.iter().filter(|points| points.abs() > MOST_POINTS);
    let is_one = beyond.count() == 1 && seen.is_refused_by("points");
    let ends = [i64::MIN, i64::MAX].map(i128::from);
    let by_sticks = seen.is_refused_by("sticks");
    let by_deals = seen.is_refused_by("deals");
    [
        has_seat_at(MOST_POINTS) && seen.is_accepted(),
        has_seat_at(-MOST_POINTS) && seen.is_accepted(),
        has_seat_at(MOST_POINTS + 1) && is_one,
        has_seat_at(-MOST_POINTS - 1) && is_one,
        ends.into_iter().any(has_seat_at) && is_one,
        *sticks == MOST_STICKS && seen.is_accepted(),
        *sticks == MOST_STICKS + 1 && by_sticks,
        *sticks == i128::from(u32::MAX) && by_sticks,
        *deals == MOST_DEALS - 1 && seen.is_accepted(),
        *deals == MOST_DEALS && by_deals,
        *deals == MOST_DEALS && by_deals && seen.is_new,
        *deals == i128::from(u16::MAX) && by_deals,
    ]
}

const COUNTERS: [&str; 7] = [
    "a dealer's win at 255 that scores, 16",
    "a dealer's win at 255 that does not, its own number",
    "another's win at 255, accepted",
    "another's win at 255 that does not score, its own number",
    "a draw at 255 alone, 16",
    "a dealer's win at 254, accepted",
    "a draw at 254, accepted",
];

fn counters(seen: &Seen) -> [bool; COUNTERS.len()] {
    let is_last = seen.before.counter == MOST_COUNTER;
    let is_before = seen.before.counter == MOST_COUNTER - 1;
    let is_dealers = seen.is_dealers_win();
    let is_draw = seen.deal.win.is_none();
    let is_anothers = !is_draw && !is_dealers;
    let is_ground = seen.grounds().contains(&true);
    let is_scorings = !is_ground && !seen.is_accepted() && seen.number != BOOK_REFUSED;
    [
        is_last && is_dealers && !is_ground && seen.number == BOOK_REFUSED,
        is_last && is_dealers && is_scorings,
        is_last && is_anothers && seen.is_accepted(),
        is_last && is_anothers && is_scorings,
        is_last && seen.is_refused_by("draw at counter 255"),
        is_before && is_dealers && seen.is_accepted(),
        is_before && is_draw && seen.is_accepted(),
    ]
}

const TOGETHER: [&str; 5] = [
    "grounds for 15 and 16, 15",
    "a ground for 15 and a fault of hand or win, 15",
    "a ground for 16 and a fault of hand or win, 16",
    "grounds for 15 and 16 and a fault, 15",
    "a ground for 16 beside a counter of 255 and a dealer's win, 16",
];

fn together(seen: &Seen) -> [bool; TOGETHER.len()] {
    let [seats, book] = [SEATS_REFUSED, BOOK_REFUSED].map(|number| seen.has_ground(number));
    let is_fault = (seats || book) && seen.faults().contains(&true);
    let is_last = seen.before.counter == MOST_COUNTER;
    let [by_seats, by_book] = [SEATS_REFUSED, BOOK_REFUSED].map(|number| seen.number == number);
    [
        seats && book && by_seats,
        seats && is_fault && by_seats,
        book && is_fault && by_book,
        seats && book && is_fault && by_seats,
        book && is_last && seen.is_dealers_win() && by_book,
    ]
}

const POINTS: [&str; 12] = [
    "a seat below zero",
    "a seat that falls below zero",
    "a seat that passes 1,000,000,000",
    "a seat that passes -1,000,000,000",
    "sticks that pass 4,096",
    "a win that takes sticks of earlier deals",
    "a winner who declared",
    "a discarder who declared",
    "all four seats declaring",
    "ron on the dealer's tile",
    "ron at a counter above 0",
    "tsumo at a counter above 0",
];

/// What moves in an accepted booking.
fn points(seen: &Seen) -> [bool; POINTS.len()] {
    if !seen.is_accepted() {
        return [false; POINTS.len()];
    }
    let (before, after) = (seen.before, seen.after);
    let seats = || before.points.iter().zip(&after.points);
    let passes = |is_there: fn(i128) -> bool| {
        let mut seats = seats();
        seats.any(|(&before, &after)| !is_there(before) && is_there(after))
    };
    let win = seen.deal.win;
    let discarder = win.and_then(|win| win.discarder);
    let has_declared = |seat: usize| seen.deal.declared[seat];
    let has_counter = before.counter > 0;
    [
        before.points.iter().any(|&points| points < 0),
        passes(|points| points < 0),
        passes(|points| points > MOST_POINTS),
        passes(|points| points < -MOST_POINTS),
        before.sticks <= MOST_STICKS && after.sticks > MOST_STICKS,
        win.is_some() && before.sticks > 0,
        win.is_some_and(|win| has_declared(win.winner)),
        discarder.is_some_and(has_declared),
        seen.deal.declared == [true; 4],
        discarder == Some(seen.deal.dealer),
        discarder.is_some() && has_counter,
        win.is_some() && discarder.is_none() && has_counter,
    ]
}

const UNREAD: [&str; 8] = [
    "in riichi, and the winner has not declared",
    "not in riichi, and the winner has declared",
    "a win type that is none",
    "the other win type",
    "a seat wind that is none",
    "another's seat wind",
    "tsumo with a discarder above 3 that is not read",
    "tsumo with the winner as the discarder that is not read",
];

/// What an accepted win must not be held to.
fn unread(seen: &Seen) -> [bool; UNREAD.len()] {
    let (Some(won), Some(read), Some(seats), true) = (
        &seen.booking.won,
        seen.read_win(),
        seen.deal.win,
        seen.is_accepted(),
    ) else {
        return [false; UNREAD.len()];
    };
    let Won { win, winner, .. } = won;
    let is_riichi = win.is_riichi || win.is_double_riichi;
    let has_declared = seen.deal.declared[seats.winner];
    let is_tsumo = seats.discarder.is_none();
    [
        is_riichi && !has_declared,
        !is_riichi && has_declared,
        win.win_type > TSUMO,
        win.win_type <= TSUMO && win.win_type != read.win_type,
        !WINDS.contains(&win.seat_wind),
        WINDS.contains(&win.seat_wind) && win.seat_wind != read.seat_wind,
        is_tsumo && winner.discarder > 3,
        is_tsumo && winner.discarder == winner.seat,
    ]
}
