//! The seat book: the points of the four seats, deal by deal. agari has nothing like it.
//!
//! A table keeps one [`SeatBook`] for each game and books each deal into it, as a draw or as a win.
//! The library scores the win itself and moves the points:
//!
//! - Each seat that declared riichi puts a stick of 1,000 points on the table.
//! - A win moves its payments to the winner, 300 more for each repeat counter (honba), and all
//!   sticks on the table, those of this deal too. By tsumo each of the three payers pays 100 of the
//!   300, by ron the discarder pays them all.
//! - A draw moves the sticks declared and no other points.
//! - The counter rises by one after a draw and after a dealer's win, and returns to 0 after any
//!   other win.
//!
//! Over any bookings from a new book, the seats' points and 1,000 for each stick on the table are
//! 100,000 together ([`SeatBook::total`]).
//!
//! The game is that of four players. Who deals is the table's to say: a deal is not compared with
//! the one before.

use crate::context::{GameContext, WinType};
use crate::ffi;
use crate::hand::{Meld, lent};
use crate::refusal::{Refusal, accepted};
use crate::rules::Variant;
use crate::tile::{Honor, TILES};
use alloc::vec::Vec;
use core::array;
use core::fmt;

/// How many seats there are.
pub const SEATS: usize = 4;

/// The number that is lent where there is no discarder. The library does not read it.
const NO_SEAT: u8 = 255;

/// A seat, numbered from 0 to 3 in turn order (0, 1, 2, 3, 0). It is that of a player for the whole
/// game: the winds go round, the seats stay.
///
/// The number is checked once, where it comes in, and not at each booking. So a number of deals or
/// points cannot stand where a seat is asked for, every `Seat` has its place in an array of four,
/// and a caller that passes refusals on gets the library's own, 15, at once: `Seat::new(number)?`.
/// As 15 comes before any other refusal, it is the one that the booking would answer.
///
/// ```
/// use ziwhakemo::{Refusal, Seat};
///
/// assert_eq!(Seat::new(3), Ok(Seat::ALL[3]));
/// assert_eq!(Seat::new(4), Err(Refusal::Seats));
/// ```
#[derive(Debug, Clone, Copy, PartialEq, Eq, Hash, PartialOrd, Ord)]
pub struct Seat(u8);

impl Seat {
    /// All seats in turn order.
    pub const ALL: [Seat; SEATS] = [Seat(0), Seat(1), Seat(2), Seat(3)];

    /// The seat with a number from 0 to 3. Refuses any other with 15.
    pub fn new(number: u8) -> Result<Seat, Refusal> {
        let seat = Seat::ALL.get(usize::from(number));
        seat.copied().ok_or(Refusal::Seats)
    }

    /// Its number, from 0 to 3
    pub fn number(self) -> u8 {
        self.0
    }

    /// Its place in an array of four
    pub fn index(self) -> usize {
        self.0.into()
    }
}

/// One deal, apart from how it ended.
///
/// ```
/// use ziwhakemo::{Deal, Seat};
///
/// let [dealer, next, ..] = Seat::ALL;
/// let deal = Deal::new(dealer).riichi(next);
/// assert_eq!(deal.declared, [false, true, false, false]);
/// ```
#[derive(Debug, Clone, Copy, PartialEq, Eq, Hash)]
pub struct Deal {
    /// The dealer's seat
    pub dealer: Seat,
    /// Which seats declared riichi, by their numbers. Each puts a stick on the table
    pub declared: [bool; SEATS],
}

impl Deal {
    /// A deal in which nobody declared riichi
    pub fn new(dealer: Seat) -> Deal {
        Deal {
            dealer,
            declared: [false; SEATS],
        }
    }

    /// Sets that a seat declared riichi. The win that is booked says by itself whether it is one by
    /// riichi ([`GameContext::riichi`]): the two are not compared
    pub fn riichi(mut self, seat: Seat) -> Deal {
        self.declared[seat.index()] = true;
        self
    }

    /// The deal as the library reads it.
    fn lent(self) -> ffi::Deal {
        ffi::Deal {
            dealer: self.dealer.number(),
            declared: self.declared,
        }
    }
}

/// Who won, and how. The two seats of a ron are named, so that they cannot change places unseen.
#[derive(Debug, Clone, Copy, PartialEq, Eq, Hash)]
pub enum Winner {
    /// By another player's discard
    Ron {
        /// The winner's seat
        seat: Seat,
        /// The discarder's seat. One that is the winner's is refused with 15
        discarder: Seat,
    },
    /// By self-draw
    Tsumo {
        /// The winner's seat
        seat: Seat,
    },
}

impl Winner {
    /// The winner's seat
    pub fn seat(self) -> Seat {
        match self {
            Winner::Ron { seat, .. } | Winner::Tsumo { seat } => seat,
        }
    }

    /// The discarder's seat, if there is a discarder
    pub fn discarder(self) -> Option<Seat> {
        match self {
            Winner::Ron { discarder, .. } => Some(discarder),
            Winner::Tsumo { .. } => None,
        }
    }

    /// Ron or tsumo
    pub fn win_type(self) -> WinType {
        match self {
            Winner::Ron { .. } => WinType::Ron,
            Winner::Tsumo { .. } => WinType::Tsumo,
        }
    }

    /// The win as [`SeatBook::win`] scores it: its type is this winner's, and its seat wind follows
    /// from the dealer's seat. For a table that shows the score too, so that it cannot show another
    /// one than is booked: [`score_win`](crate::score_win) takes it.
    pub fn context(self, dealer: Seat, context: &GameContext) -> GameContext {
        let onward = (self.seat().index() + SEATS - dealer.index()) % SEATS;
        GameContext {
            win_type: self.win_type(),
            seat_wind: Honor::ALL[onward],
            ..*context
        }
    }

    /// The winner as the library reads it.
    fn lent(self) -> ffi::Winner {
        let discarder = self.discarder();
        ffi::Winner {
            seat: self.seat().number(),
            has_discarder: discarder.is_some(),
            discarder: discarder.map_or(NO_SEAT, Seat::number),
        }
    }
}

/// A deal with how it ended, whole, so that a table can keep a game as a list of them.
#[derive(Debug, Clone, PartialEq, Eq)]
pub enum Booking {
    /// Nobody won: [`SeatBook::draw`]
    Draw {
        /// The deal
        deal: Deal,
    },
    /// A seat won: [`SeatBook::win`]
    Win {
        /// The winner's tiles that are not called, the winning tile among them
        counts: [u8; TILES],
        /// The winner's calls
        calls: Vec<Meld>,
        /// The win. Its win type and its seat wind are not read
        context: GameContext,
        /// The deal
        deal: Deal,
        /// Who won
        winner: Winner,
    },
}

/// The book of a table: four seats with their points, the riichi sticks on the table, the repeat
/// counter and how many deals are booked. A booking alters it where it is kept, or is refused and
/// leaves it as it was.
///
/// It is `Clone` but not `Copy`, so that no deal is booked into a copy unseen.
///
/// ```
/// use ziwhakemo::{Deal, GameContext, Honor, Refusal, Seat, SeatBook, Suit, Tile, WinType, Winner};
/// use ziwhakemo::to_counts;
///
/// // pin 123 345 678 999, Red Red, won on pin 5
/// let pin = [1, 2, 3, 3, 4, 5, 6, 7, 8, 9, 9, 9].map(|value| Tile::suited(Suit::Pin, value));
/// let counts = to_counts(&[&pin[..], &[Tile::honor(Honor::Red); 2]].concat()).unwrap();
/// // The win type and the seat wind are not read here: the seats say both.
/// let context = GameContext::new(WinType::Ron, Honor::East, Honor::East)
///     .with_winning_tile(Tile::suited(Suit::Pin, 5));
///
/// let [first, second, third, _] = Seat::ALL;
/// let mut book = SeatBook::new();
/// book.draw(Deal::new(first).riichi(second))?;
/// assert_eq!(book.points(), [25_000, 24_000, 25_000, 25_000]);
/// assert_eq!((book.sticks(), book.counter(), book.deals()), (1, 1, 1));
///
/// // 5,200 by ron, 300 for the counter, 1,000 for the stick
/// let winner = Winner::Ron { seat: third, discarder: first };
/// book.win(&counts, &[], &context, Deal::new(first), winner)?;
/// assert_eq!(book.points(), [19_500, 24_000, 31_500, 25_000]);
/// assert_eq!((book.sticks(), book.counter(), book.deals()), (0, 0, 2));
///
/// // Without its winning tile it is refused, and the book stays as it was.
/// let none = GameContext { winning_tile: None, ..context };
/// let refused = book.win(&counts, &[], &none, Deal::new(second), winner);
/// assert_eq!(refused, Err(Refusal::WinningTile));
/// assert_eq!((book.deals(), book.total()), (2, 100_000));
/// # Ok::<(), Refusal>(())
/// ```
#[derive(Clone, PartialEq, Eq, Hash)]
pub struct SeatBook(ffi::SeatBook);

impl SeatBook {
    /// What each seat starts with.
    pub const START_POINTS: i64 = 25_000;

    /// The points of a riichi stick.
    pub const STICK_POINTS: i64 = 1000;

    /// A book takes so many deals.
    pub const MOST_DEALS: u16 = 1024;

    /// A book that shows more sticks takes no deal.
    pub const MOST_STICKS: u32 = 4096;

    /// A book that shows a seat beyond so many points, above zero or below, takes no deal.
    pub const MOST_POINTS: i64 = 1_000_000_000;

    /// The counter runs to this.
    pub const MOST_COUNTER: u8 = 255;

    /// A stored book has so many bytes.
    pub const BYTES: usize = 40;

    /// A book in which nothing is booked: 25,000 points for each seat, no sticks, counter 0
    pub fn new() -> SeatBook {
        SeatBook(ffi::new_book())
    }

    /// The points of seats 0 to 3. They may be below zero
    pub fn points(&self) -> [i64; SEATS] {
        self.0.points
    }

    /// The points of a seat
    pub fn points_of(&self, seat: Seat) -> i64 {
        self.0.points[seat.index()]
    }

    /// The riichi sticks on the table: those declared in the deals booked after the last win
    pub fn sticks(&self) -> u32 {
        self.0.sticks
    }

    /// The repeat counter (honba): how many deals were booked since the last win of another than
    /// the dealer
    pub fn counter(&self) -> u8 {
        self.0.counter
    }

    /// How many deals are booked. A refused one is not
    pub fn deals(&self) -> u16 {
        self.0.deals
    }

    /// The points of all seats and of the sticks on the table, which no booking changes: 100,000
    /// from a new book on. It is an `i128`, as a loaded book may show any points
    pub fn total(&self) -> i128 {
        let seats: i128 = self.0.points.map(i128::from).iter().sum();
        seats + i128::from(self.0.sticks) * i128::from(SeatBook::STICK_POINTS)
    }

    /// Books a deal that ended in a draw.
    ///
    /// Refuses with 16, at a counter of 255 too, and leaves the book as it was.
    pub fn draw(&mut self, deal: Deal) -> Result<(), Refusal> {
        accepted(ffi::book_draw(&mut self.0, deal.lent()))
    }

    /// Books a deal that ended in a win, which is scored as [`score_win`](crate::score_win) scores
    /// it for four players.
    ///
    /// The context's win type and seat wind are not read, and may be any. The win is by ron where
    /// `winner` has a discarder. The seat wind follows from the dealer's seat: the dealer is East,
    /// the next seat South, the one across West, the one before North. All else in the context is
    /// read, the round wind too.
    ///
    /// Refuses with 15 (a discarder who is the winner), 16, then 1 to 6, 8, 14, 9, 10, 11, then 16
    /// again for a dealer's win that scores at a counter of 255, and leaves the book as it was.
    pub fn win(
        &mut self,
        counts: &[u8],
        calls: &[Meld],
        context: &GameContext,
        deal: Deal,
        winner: Winner,
    ) -> Result<(), Refusal> {
        accepted(ffi::book_win(
            &mut self.0,
            counts,
            &lent(calls, Variant::Yonma),
            context.lent(),
            deal.lent(),
            winner.lent(),
        ))
    }

    /// Books a deal, as [`draw`](SeatBook::draw) or [`win`](SeatBook::win) does.
    pub fn book(&mut self, booking: &Booking) -> Result<(), Refusal> {
        match booking {
            Booking::Draw { deal } => self.draw(*deal),
            Booking::Win {
                counts,
                calls,
                context,
                deal,
                winner,
            } => self.win(counts, calls, context, *deal, *winner),
        }
    }

    /// Books all of a history into a new book: the book at its end, and the result of each booking.
    /// The same history always gives the same book, and it does so without its refused bookings
    /// too.
    ///
    /// ```
    /// use ziwhakemo::{Booking, Deal, Seat, SeatBook};
    ///
    /// let history = Seat::ALL.map(|dealer| Booking::Draw { deal: Deal::new(dealer) });
    /// let (book, results) = SeatBook::replay(&history);
    /// assert_eq!((book.counter(), results), (4, vec![Ok(()); 4]));
    /// ```
    pub fn replay<'a>(
        bookings: impl IntoIterator<Item = &'a Booking>,
    ) -> (SeatBook, Vec<Result<(), Refusal>>) {
        let mut book = SeatBook::new();
        let results = bookings.into_iter().map(|booking| book.book(booking));
        let results = results.collect();
        (book, results)
    }

    /// The book to be stored: the points of seats 0 to 3 in eight bytes each, the sticks in four,
    /// the deals in two, the low byte first, the counter, and a byte that is 0 from a new book on.
    /// These are the 40 bytes of the library's own struct
    ///
    /// ```
    /// use ziwhakemo::{Deal, Seat, SeatBook};
    ///
    /// let mut book = SeatBook::new();
    /// book.draw(Deal::new(Seat::ALL[0]))?;
    /// assert_eq!(SeatBook::from_bytes(book.to_bytes()), book);
    /// # Ok::<(), ziwhakemo::Refusal>(())
    /// ```
    pub fn to_bytes(&self) -> [u8; SeatBook::BYTES] {
        let ffi::SeatBook {
            points,
            sticks,
            deals,
            counter,
            reserved,
        } = self.0;
        let points = points.map(i64::to_le_bytes);
        let parts: [&[u8]; 4] = [
            points.as_flattened(),
            &sticks.to_le_bytes(),
            &deals.to_le_bytes(),
            &[counter, reserved],
        ];
        let mut bytes = [0; SeatBook::BYTES];
        for (byte, &stored) in bytes.iter_mut().zip(parts.into_iter().flatten()) {
            *byte = stored;
        }
        bytes
    }

    /// The book that was stored so. Any 40 bytes are one and nothing is refused here: a book beyond
    /// the limits is refused with 16 where a deal is booked
    pub fn from_bytes(bytes: [u8; SeatBook::BYTES]) -> SeatBook {
        let points = |seat: usize| array::from_fn(|place| bytes[8 * seat + place]);
        let [.., s0, s1, s2, s3, d0, d1, counter, reserved] = bytes;
        SeatBook(ffi::SeatBook {
            points: array::from_fn(|seat| i64::from_le_bytes(points(seat))),
            sticks: u32::from_le_bytes([s0, s1, s2, s3]),
            deals: u16::from_le_bytes([d0, d1]),
            counter,
            reserved,
        })
    }
}

impl Default for SeatBook {
    fn default() -> SeatBook {
        SeatBook::new()
    }
}

/// As its fields are written in C.
impl fmt::Debug for SeatBook {
    fn fmt(&self, f: &mut fmt::Formatter) -> fmt::Result {
        self.0.fmt(f)
    }
}
