//! Bookings as the tests write them, and what a book shows.

use super::{counts, ron, tile};
use ziwhakemo::{Booking, Deal, GameContext, Honor, Meld, Refusal, Seat, SeatBook, Winner};

pub const WINDS: [Honor; 4] = [Honor::East, Honor::South, Honor::West, Honor::North];

/// A closed pinfu on sou 8. By ron it is 1 han 30 fu: 1,000, and for the dealer 1,500. By tsumo it
/// is 2 han 20 fu: 400 and from the dealer 700, and for the dealer 700 from each.
pub const PINFU: &str = "12355m456p234678s";

/// Thirteen orphans on man 1: by ron 64,000, and for the dealer 96,000.
pub const ORPHANS: &str = "119m19p19s1234567z";

/// A hand without a reading.
pub const NO_READING: &str = "12345m456p234678s";

/// A hand to which a call is missing. With a chi it has no yaku.
pub const BUT_A_CALL: &str = "55m456p234678s";

/// A chi from man 1.
pub fn chi() -> Vec<Meld> {
    vec![Meld::shuntsu_open(tile("1m"))]
}

/// The seat with a number.
pub fn seat(number: u8) -> Seat {
    Seat::new(number).unwrap()
}

/// A deal of this dealer in which these seats declared riichi.
pub fn deal<const N: usize>(dealer: u8, declared: [u8; N]) -> Deal {
    let deal = Deal::new(seat(dealer));
    declared.into_iter().map(seat).fold(deal, Deal::riichi)
}

pub fn by_ron(winner: u8, discarder: u8) -> Winner {
    Winner::Ron {
        seat: seat(winner),
        discarder: seat(discarder),
    }
}

pub fn by_tsumo(winner: u8) -> Winner {
    Winner::Tsumo { seat: seat(winner) }
}

/// Each dealer with each winner, by tsumo and by ron from each of the others. The dealer declared
/// riichi.
pub fn each_win() -> impl Iterator<Item = (Deal, Winner)> {
    let seats = (0..4).flat_map(|dealer| (0..4).map(move |winner| (dealer, winner)));
    seats.flat_map(|(dealer, winner)| {
        let by_ron = [1, 2, 3].map(|onward| by_ron(winner, (winner + onward) % 4));
        let wins = [by_tsumo(winner)].into_iter().chain(by_ron);
        wins.map(move |winner| (deal(dealer, [dealer]), winner))
    })
}

pub fn draw(deal: Deal) -> Booking {
    Booking::Draw { deal }
}

/// A win with no calls.
pub fn win(hand: &str, context: GameContext, deal: Deal, winner: Winner) -> Booking {
    Booking::Win {
        counts: counts(hand),
        calls: vec![],
        context,
        deal,
        winner,
    }
}

/// The pinfu, won on sou 8.
pub fn pinfu(deal: Deal, winner: Winner) -> Booking {
    win(PINFU, ron("8s"), deal, winner)
}

/// What a book shows.
#[derive(Debug, Clone, Copy, PartialEq, Eq)]
pub struct Shown {
    pub points: [i64; 4],
    pub sticks: u32,
    pub deals: u16,
    pub counter: u8,
}

/// A new book shows this.
pub const NEW: Shown = Shown {
    points: [25_000; 4],
    sticks: 0,
    deals: 0,
    counter: 0,
};

/// A new book but for its counter, which can rise no more.
pub const AT_255: Shown = Shown {
    counter: SeatBook::MOST_COUNTER,
    ..NEW
};

pub fn shown(book: &SeatBook) -> Shown {
    Shown {
        points: book.points(),
        sticks: book.sticks(),
        deals: book.deals(),
        counter: book.counter(),
    }
}

/// The book that shows this, loaded from its bytes.
pub fn loaded(shown: Shown) -> SeatBook {
    let points = shown.points.map(i64::to_le_bytes).concat();
    let sticks = shown.sticks.to_le_bytes();
    let deals = shown.deals.to_le_bytes();
    let bytes = [&points[..], &sticks, &deals, &[shown.counter, 0]].concat();
    SeatBook::from_bytes(bytes.try_into().unwrap())
}

/// What a book that showed this shows after a booking. A refused one leaves every byte, and the
/// total stays in any case.
#[track_caller]
pub fn after(before: Shown, booking: &Booking) -> Result<Shown, Refusal> {
    let mut book = loaded(before);
    let result = book.book(booking);
    if result.is_err() {
        assert_eq!(book.to_bytes(), loaded(before).to_bytes());
    }
    assert_eq!(book.total(), loaded(before).total());
    result.map(|()| shown(&book))
}
