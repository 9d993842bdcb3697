//! The seat book, sentence by sentence of the request: a plain model that asks neither agari nor
//! the library. What a win scores is told to it.
//!
//! "Each seat starts with 25,000 and may fall below zero. A booking is one deal: the dealer's seat,
//! which seats declared riichi, and either a draw or a win with the winner's seat and, at ron, the
//! discarder's. The winner's seat wind follows from the dealer's seat in turn order (0, 1, 2, 3,
//! 0), the win type from whether a discarder is given; the riichi flag is not compared with the
//! declaring seats. Each declaring seat puts one stick of 1,000 on the table. A win is scored by
//! the unit and moves its payments, 300 per repeat counter in all (100 from each payer at tsumo,
//! 300 from the discarder at ron), and all sticks to the winner. A draw moves the sticks declared
//! and no other points. The counter starts at 0, rises by one after a draw or a dealer's win, and
//! returns to 0 after any other win. It runs to 255 and a book takes 1,024 deals. Over any bookings
//! from a new book, seat points plus 1,000 × sticks on the table is 100,000, where the sticks are
//! those declared in the deals after the last win in the history. A refused booking changes nothing
//! in the book, and an accepted one answers 0. Errors: 15, a seat above 3, or a discarder who is
//! the winner, first of all; 16, 1,024 or more deals are booked, the lent book shows a seat beyond
//! 1,000,000,000 points either way or more than 4,096 sticks, or this deal would raise a counter of
//! 255, after 15; scoring's numbers come after both, a dealer's win that scores being what would
//! raise the counter."

/// The seats in turn order.
pub const SEATS: [usize; 4] = [0, 1, 2, 3];
/// The seat after each.
const NEXT: [usize; 4] = [1, 2, 3, 0];

const START_POINTS: i128 = 25_000;
const STICK: i128 = 1_000;
/// What each payer at tsumo and the discarder at ron pay for a repeat counter, and what it brings
/// in all.
const COUNTER_AT_TSUMO: i128 = 100;
const COUNTER_AT_RON: i128 = 300;
const COUNTER_IN_ALL: i128 = 300;

pub const MOST_DEALS: i128 = 1_024;
pub const MOST_POINTS: i128 = 1_000_000_000;
pub const MOST_STICKS: i128 = 4_096;
pub const MOST_COUNTER: i128 = 255;
/// Seat points and sticks of a book that was once new.
const ALL_POINTS: i128 = 100_000;

pub const SEATS_REFUSED: u32 = 15;
pub const BOOK_REFUSED: u32 = 16;

/// The grounds for a refusal that are there before a win is scored, with their numbers.
pub const GROUNDS: [(u32, &str); 8] = [
    (SEATS_REFUSED, "dealer above 3"),
    (SEATS_REFUSED, "winner above 3"),
    (SEATS_REFUSED, "discarder above 3"),
    (SEATS_REFUSED, "discarder is the winner"),
    (BOOK_REFUSED, "deals"),
    (BOOK_REFUSED, "points"),
    (BOOK_REFUSED, "sticks"),
    (BOOK_REFUSED, "draw at counter 255"),
];

/// A book in plain numbers.
#[derive(Clone, Copy, Debug, PartialEq, Eq)]
pub struct Book {
    pub points: [i128; 4],
    pub sticks: i128,
    pub deals: i128,
    pub counter: i128,
    /// The interface's last byte, of which the request says nothing: every booking keeps it.
    pub reserved: u8,
}

/// A deal: the dealer's seat, which seats declared riichi, and the win, or none where it was a
/// draw. A seat is any number.
#[derive(Clone, Copy, Debug)]
pub struct Deal {
    pub dealer: usize,
    pub declared: [bool; 4],
    pub win: Option<Win>,
}

/// Who won and, at ron, who discarded.
#[derive(Clone, Copy, Debug)]
pub struct Win {
    pub winner: usize,
    pub discarder: Option<usize>,
}

/// What scoring answers: 0 with what each payer pays and the total, or a refusal's number alone.
#[derive(Clone, Copy, Debug, Default)]
pub struct Scored {
    pub number: u32,
    pub from_discarder: i128,
    pub from_dealer: i128,
    pub from_non_dealer: i128,
    pub total: i128,
}

impl Deal {
    /// How many sticks it puts on the table.
    fn sticks(&self) -> i128 {
        SEATS
            .map(|seat| i128::from(self.declared[seat]))
            .iter()
            .sum()
    }

    fn is_dealers_win(&self) -> bool {
        self.win.is_some_and(|win| win.winner == self.dealer)
    }
}

/// How many seats the winner sits after the dealer, in turn order: 0 is East, 1 South, 2 West, 3
/// North.
pub fn seats_after_dealer(dealer: usize, winner: usize) -> u8 {
    let (mut seat, mut seats) = (dealer, 0);
    while seat != winner {
        seat = NEXT[seat];
        seats += 1;
    }
    seats
}

impl Book {
    /// A new book.
    pub const NEW: Book = Book {
        points: [START_POINTS; 4],
        sticks: 0,
        deals: 0,
        counter: 0,
        reserved: 0,
    };

    /// Seat points plus 1,000 for each stick on the table.
    pub fn sum(&self) -> i128 {
        self.points.iter().sum::<i128>() + STICK * self.sticks
    }

    /// Its bytes as the interface lays them out, lowest byte first: four times eight of points,
    /// four of sticks, two of deals, the counter and the last one.
    pub fn bytes(&self) -> [u8; 40] {
        let points = self.points.iter();
        let points = points.flat_map(|points| points.to_le_bytes().into_iter().take(8));
        let sticks = self.sticks.to_le_bytes().into_iter().take(4);
        let deals = self.deals.to_le_bytes().into_iter().take(2);
        let counter = self.counter.to_le_bytes().into_iter().take(1);
        let bytes = points.chain(sticks).chain(deals).chain(counter);
        let bytes: Vec<u8> = bytes.chain([self.reserved]).collect();
        bytes.try_into().expect("the fields have 40 bytes")
    }

    /// Which grounds for a refusal there are, each looked at by itself.
    pub fn grounds(&self, deal: &Deal) -> [bool; GROUNDS.len()] {
        let is_none = |seat: usize| !SEATS.contains(&seat);
        let winner = deal.win.map(|win| win.winner);
        let discarder = deal.win.and_then(|win| win.discarder);
        let is_beyond = |points: &i128| *points > MOST_POINTS || *points < -MOST_POINTS;
        [
            is_none(deal.dealer),
            winner.is_some_and(is_none),
            discarder.is_some_and(is_none),
            discarder.is_some() && discarder == winner,
            self.deals >= MOST_DEALS,
            self.points.iter().any(is_beyond),
            self.sticks > MOST_STICKS,
            deal.win.is_none() && self.counter == MOST_COUNTER,
        ]
    }

    /// The book after a deal, or the number with which it is refused. `score` tells what the win
    /// scores: by ron or not, so many seats after the dealer.
    pub fn after(&self, deal: &Deal, score: impl FnOnce(bool, u8) -> Scored) -> Result<Book, u32> {
        let grounds = self.grounds(deal);
        if let Some(first) = grounds.iter().position(|&is_so| is_so) {
            return Err(GROUNDS[first].0);
        }
        let Some(win) = deal.win else {
            return Ok(self.after_draw(deal));
        };
        let seats = seats_after_dealer(deal.dealer, win.winner);
        let scored = score(win.discarder.is_some(), seats);
        if scored.number != 0 {
            return Err(scored.number);
        }
        if deal.is_dealers_win() && self.counter == MOST_COUNTER {
            return Err(BOOK_REFUSED);
        }
        Ok(self.after_win(deal, &win, &scored))
    }

    /// One deal more, with a stick from each declaring seat.
    fn with_sticks(&self, deal: &Deal) -> Book {
        let mut book = *self;
        for seat in SEATS.into_iter().filter(|&seat| deal.declared[seat]) {
            book.points[seat] -= STICK;
            book.sticks += 1;
        }
        book.deals += 1;
        book
    }

    fn after_draw(&self, deal: &Deal) -> Book {
        let mut book = self.with_sticks(deal);
        book.counter += 1;
        book
    }

    fn after_win(&self, deal: &Deal, win: &Win, scored: &Scored) -> Book {
        let mut book = self.with_sticks(deal);
        for seat in SEATS {
            let paid = self.pays(seat, deal.dealer, win, scored);
            book.points[seat] -= paid;
            book.points[win.winner] += paid;
        }
        book.points[win.winner] += STICK * book.sticks;
        book.sticks = 0;
        book.counter = match deal.is_dealers_win() {
            true => self.counter + 1,
            false => 0,
        };
        book
    }

    /// What a seat pays for a win, at the counter before the deal.
    fn pays(&self, seat: usize, dealer: usize, win: &Win, scored: &Scored) -> i128 {
        match win.discarder {
            _ if seat == win.winner => 0,
            Some(discarder) if seat == discarder => {
                scored.from_discarder + COUNTER_AT_RON * self.counter
            }
            Some(_) => 0,
            None if seat == dealer => scored.from_dealer + COUNTER_AT_TSUMO * self.counter,
            None => scored.from_non_dealer + COUNTER_AT_TSUMO * self.counter,
        }
    }

    /// What the seat of a winner gains in all by a win that is accepted, told without the payers:
    /// the total, 300 for each counter, and every stick on the table but the winner's own of this
    /// deal.
    pub fn gain(&self, deal: &Deal, win: &Win, total: i128) -> i128 {
        let own = i128::from(deal.declared[win.winner]);
        let sticks = self.sticks + deal.sticks() - own;
        total + COUNTER_IN_ALL * self.counter + STICK * sticks
    }
}

/// How an accepted deal ended.
#[derive(Clone, Copy, PartialEq, Eq)]
enum End {
    Draw,
    DealersWin,
    AnothersWin,
}

/// The accepted deals of a book, and what the request says of a book by them.
pub struct History {
    start: Book,
    is_new: bool,
    /// Of each deal how it ended, and how many sticks were declared.
    accepted: Vec<(End, i128)>,
}

impl History {
    /// Of a new book.
    pub fn of_new() -> History {
        History {
            start: Book::NEW,
            is_new: true,
            accepted: Vec::new(),
        }
    }

    /// Of a book that is set so.
    pub fn of(start: Book) -> History {
        History {
            start,
            is_new: false,
            accepted: Vec::new(),
        }
    }

    /// The book to begin with.
    pub fn start(&self) -> Book {
        self.start
    }

    pub fn is_new(&self) -> bool {
        self.is_new
    }

    /// Adds a deal that was accepted.
    pub fn accept(&mut self, deal: &Deal) {
        let end = match deal.win {
            None => End::Draw,
            Some(_) if deal.is_dealers_win() => End::DealersWin,
            Some(_) => End::AnothersWin,
        };
        self.accepted.push((end, deal.sticks()));
    }

    /// Whether the book shows what follows from its history: the sticks declared after the last
    /// win, the number of deals since the last win of another than the dealer, the number of all
    /// deals, and the sum that never moves.
    pub fn holds(&self, book: &Book) -> bool {
        let sum = if self.is_new {
            ALL_POINTS
        } else {
            self.start.sum()
        };
        let deals = self.start.deals + self.accepted.len() as i128;
        (book.sticks, book.counter) == (self.sticks(), self.counter())
            && (book.deals, book.sum()) == (deals, sum)
            && book.reserved == self.start.reserved
    }

    /// The sticks declared in the deals after the last win. Where none was won, those at the start
    /// are there too.
    fn sticks(&self) -> i128 {
        let after = self.since(|end| end != End::Draw);
        let declared: i128 = after.iter().map(|(_, sticks)| sticks).sum();
        declared + self.only_if_all(after, self.start.sticks)
    }

    /// The number of deals since the last win of another than the dealer. Where there is none,
    /// those that the start shows are among them.
    fn counter(&self) -> i128 {
        let since = self.since(|end| end == End::AnothersWin);
        since.len() as i128 + self.only_if_all(since, self.start.counter)
    }

    /// The deals after the last that ended so, or all where none did.
    fn since(&self, is_so: impl Fn(End) -> bool) -> &[(End, i128)] {
        let last = self.accepted.iter().rposition(|&(end, _)| is_so(end));
        &self.accepted[last.map_or(0, |last| last + 1)..]
    }

    /// The number where these are all deals, else 0.
    fn only_if_all(&self, deals: &[(End, i128)], number: i128) -> i128 {
        match deals.len() == self.accepted.len() {
            true => number,
            false => 0,
        }
    }
}

#[cfg(test)]
mod tests {
    use super::*;

    /// A tsumo of another than the dealer for which he pays 700 and the others 400.
    const TSUMO_400_700: Scored = Scored {
        number: 0,
        from_discarder: 0,
        from_dealer: 700,
        from_non_dealer: 400,
        total: 1500,
    };

    /// A ron of so many points.
    fn ron(points: i128) -> Scored {
        Scored {
            from_discarder: points,
            total: points,
            ..Scored::default()
        }
    }

    fn refused(number: u32) -> Scored {
        Scored {
            number,
            ..Scored::default()
        }
    }

    /// A draw with these seats declaring.
    fn draw(dealer: usize, declaring: &[usize]) -> Deal {
        Deal {
            dealer,
            declared: SEATS.map(|seat| declaring.contains(&seat)),
            win: None,
        }
    }

    fn won(dealer: usize, declaring: &[usize], winner: usize, discarder: Option<usize>) -> Deal {
        Deal {
            win: Some(Win { winner, discarder }),
            ..draw(dealer, declaring)
        }
    }

    fn after(book: &Book, deal: &Deal, scored: Scored) -> Result<Book, u32> {
        book.after(deal, |_, _| scored)
    }

    #[test]
    fn a_table_worked_out_by_hand() {
        let deals = [
            // Seat 2 declares, and nobody wins.
            (draw(0, &[2]), refused(99)),
            // Seat 1 declares and wins by tsumo: 800 from the dealer, 500 from two, its own stick
            // and seat 2's.
            (won(0, &[1], 1, None), TSUMO_400_700),
            // The dealer wins by ron, 1,500, and again at counter 1, 2,900 and 300.
            (won(1, &[], 1, Some(3)), ron(1500)),
            (won(1, &[], 1, Some(0)), ron(2900)),
            // All four declare, and nobody wins; then the dealer pays 1,000 and 900 for counter 3,
            // and four sticks go.
            (draw(1, &[0, 1, 2, 3]), refused(99)),
            (won(1, &[], 0, Some(1)), ron(1000)),
        ];
        let books = [
            ([25_000, 25_000, 24_000, 25_000], 1, 1),
            ([24_200, 27_800, 23_500, 24_500], 0, 0),
            ([24_200, 29_300, 23_500, 23_000], 0, 1),
            ([21_000, 32_500, 23_500, 23_000], 0, 2),
            ([20_000, 31_500, 22_500, 22_000], 4, 3),
            ([25_900, 29_600, 22_500, 22_000], 0, 0),
        ];
        let mut history = History::of_new();
        let mut book = history.start();
        assert_eq!(book.points, [25_000; 4]);
        assert_eq!((book.sticks, book.deals, book.counter), (0, 0, 0));
        for (place, ((deal, scored), want)) in deals.iter().zip(books).enumerate() {
            book = after(&book, deal, *scored).unwrap();
            history.accept(deal);
            assert_eq!((book.points, book.sticks, book.counter), want);
            assert_eq!((book.deals, book.sum()), (place as i128 + 1, 100_000));
            assert!(history.holds(&book));
        }
    }

    #[test]
    fn the_dealers_tsumo_is_paid_by_three_alike() {
        let scored = Scored {
            from_non_dealer: 1000,
            total: 3000,
            ..Scored::default()
        };
        let start = Book {
            counter: 2,
            ..Book::NEW
        };
        let book = after(&start, &won(3, &[3, 0], 3, None), scored).unwrap();
        // Three times 1,000 and 200, and the stick of seat 0 beside its own.
        assert_eq!(book.points, [22_800, 23_800, 23_800, 29_600]);
        assert_eq!((book.sticks, book.counter), (0, 3));
        assert_eq!(
            start.gain(
                &won(3, &[3, 0], 3, None),
                &Win {
                    winner: 3,
                    discarder: None
                },
                3000
            ),
            4600
        );
    }

    #[test]
    fn winds_go_round_from_the_dealer() {
        let seats = SEATS.map(|dealer| SEATS.map(|winner| seats_after_dealer(dealer, winner)));
        let rows = [[0, 1, 2, 3], [3, 0, 1, 2], [2, 3, 0, 1], [1, 2, 3, 0]];
        assert_eq!(seats, rows);
        for discarder in [Some(2), None] {
            let deal = won(3, &[], 1, discarder);
            let asked = Book::NEW.after(&deal, |is_ron, seats| {
                assert_eq!((is_ron, seats), (discarder.is_some(), 2));
                refused(11)
            });
            assert_eq!(asked, Err(11));
        }
    }

    #[test]
    fn seats_come_first_of_all() {
        let full = Book {
            deals: MOST_DEALS,
            ..Book::NEW
        };
        for book in [Book::NEW, full] {
            let number = |deal: &Deal| after(&book, deal, refused(1)).unwrap_err();
            assert_eq!(number(&draw(4, &[])), 15);
            assert_eq!(number(&won(255, &[], 0, None)), 15);
            assert_eq!(number(&won(0, &[], 4, None)), 15);
            assert_eq!(number(&won(0, &[], 1, Some(4))), 15);
            assert_eq!(number(&won(0, &[], 1, Some(1))), 15);
        }
        assert_eq!(after(&full, &won(0, &[], 1, None), refused(1)), Err(16));
    }

    #[test]
    fn the_limits_of_a_lent_book() {
        let deals = [draw(0, &[]), won(0, &[], 1, Some(2))];
        let number = |book: Book| deals.map(|deal| after(&book, &deal, ron(1000)).err());
        let with = |points: i128| Book {
            points: [0, 0, points, 0],
            ..Book::NEW
        };
        let (deals, sticks) = (1023, 4096);
        for book in [
            with(1_000_000_000),
            with(-1_000_000_000),
            Book { deals, ..with(0) },
            Book { sticks, ..with(0) },
        ] {
            assert_eq!(number(book), [None; 2]);
        }
        let (deals, sticks) = (1024, 4097);
        for book in [
            with(1_000_000_001),
            with(-1_000_000_001),
            with(i64::MIN.into()),
            Book { deals, ..with(0) },
            Book { sticks, ..with(0) },
        ] {
            assert_eq!(number(book), [Some(16); 2]);
        }
    }

    #[test]
    fn a_counter_of_255_does_not_rise() {
        let last = Book {
            counter: 255,
            ..Book::NEW
        };
        assert_eq!(after(&last, &draw(0, &[]), refused(99)), Err(16));
        let dealers = won(0, &[], 0, Some(2));
        assert_eq!(after(&last, &dealers, ron(1500)), Err(16));
        assert_eq!(after(&last, &dealers, refused(11)), Err(11));
        let book = after(&last, &won(1, &[], 0, Some(2)), ron(1000)).unwrap();
        assert_eq!(book.points, [102_500, 25_000, -52_500, 25_000]);
        assert_eq!(book.counter, 0);
        let before = Book {
            counter: 254,
            ..last
        };
        assert_eq!(
            after(&before, &draw(0, &[]), refused(99)).unwrap().counter,
            255
        );
    }

    #[test]
    fn a_history_tells_sticks_and_counter_by_its_deals() {
        let start = Book {
            sticks: 3,
            counter: 7,
            deals: 20,
            ..Book::NEW
        };
        let mut history = History::of(start);
        assert!(history.holds(&start));
        let mut numbers = Vec::new();
        for deal in [
            draw(0, &[1, 2]),
            won(0, &[], 0, None),
            draw(0, &[3]),
            won(0, &[2], 1, None),
            draw(1, &[0]),
        ] {
            history.accept(&deal);
            numbers.push((history.sticks(), history.counter()));
        }
        assert_eq!(numbers, [(5, 8), (0, 9), (1, 10), (0, 0), (1, 1)]);
        assert!(!history.holds(&start));
    }

    #[test]
    fn fields_stand_at_their_bytes() {
        let book = Book {
            points: [1, -2, 0x0102_0304_0506_0708, i64::MIN.into()],
            sticks: 0x0a0b_0c0d,
            deals: 0x1122,
            counter: 255,
            reserved: 7,
        };
        let bytes = book.bytes();
        assert_eq!(bytes[..8], [1, 0, 0, 0, 0, 0, 0, 0]);
        assert_eq!(bytes[8..16], [254, 255, 255, 255, 255, 255, 255, 255]);
        assert_eq!(bytes[16..24], [8, 7, 6, 5, 4, 3, 2, 1]);
        assert_eq!(bytes[24..32], [0, 0, 0, 0, 0, 0, 0, 128]);
        assert_eq!(bytes[32..], [0x0d, 0x0c, 0x0b, 0x0a, 0x22, 0x11, 255, 7]);
    }
}
