//! The comparison of the seat book: random histories of bookings, each in the library and in a
//! plain model.

use crate::book_corners::Seen;
use crate::book_deals::{self, Style, told};
use crate::book_model::{Book, Deal, History, Scored};
use crate::book_tally::{BookTally, Difference};
use crate::lent_book::{BOOK_OPERATIONS, BookOperations, Booking, LentBook, Won};
use crate::library::{RON, TSUMO, Win};
use crate::rng::Rng;
use crate::win_oracle::ExpectedWin;
use std::time::Instant;

const EAST: u8 = 27;
/// How many differences are printed.
const PRINTED: u64 = 5;

/// What to compare.
pub struct Options {
    pub seed: u64,
    pub histories: u64,
}

/// Compares so many histories, and answers how many inputs differ, and how much that has to occur
/// did not.
pub fn compare(options: &Options) -> u64 {
    let Options { seed, histories } = *options;
    println!("histories of bookings, seed {seed}");
    let start = Instant::now();
    let tally = compare_histories(BOOK_OPERATIONS, seed, histories);
    println!("{tally}  {:.1} s", start.elapsed().as_secs_f64());
    tally.differ() + tally.missing().len() as u64
}

fn compare_histories(operations: BookOperations, seed: u64, histories: u64) -> BookTally {
    let mut rng = Rng::new(!seed);
    let mut checker = BookChecker {
        operations,
        noise: Rng::new(seed),
        tally: BookTally::default(),
    };
    for _ in 0..histories {
        checker.check_history(&mut rng);
    }
    checker.tally
}

/// Compares bookings, and counts what it saw.
struct BookChecker {
    operations: BookOperations,
    noise: Rng,
    tally: BookTally,
}

impl BookChecker {
    /// Deals a history, and compares it up to its first difference.
    fn check_history(&mut self, rng: &mut Rng) {
        let style = Style::any(rng);
        let mut history = book_deals::history(rng, &style);
        let mut book = history.start();
        if history.is_new() && (self.operations.new_book)() != book.bytes() {
            self.tally.count_difference(Difference::NewBook);
        }
        let mut lent = LentBook::in_noise(&mut self.noise, book.bytes());
        self.tally.count_history(history.is_new(), style.bookings);
        for _ in 0..style.bookings {
            let booking = style.booking(rng);
            match self.check(&mut history, &book, &mut lent, &booking) {
                Some(after) => book = after,
                None => return,
            }
        }
    }

    /// Books a deal on both sides, and answers the book afterwards; nothing where they differ.
    fn check(
        &mut self,
        history: &mut History,
        before: &Book,
        lent: &mut LentBook,
        booking: &Booking,
    ) -> Option<Book> {
        let deal = told(booking);
        let mut total = 0;
        let (number, after) = match before.after(&deal, |is_ron, seats| {
            let scored = scored(booking, is_ron, seats);
            total = scored.total;
            scored
        }) {
            Ok(after) => (0, after),
            Err(number) => (number, *before),
        };
        self.tally.count(&Seen {
            booking,
            deal: &deal,
            is_new: history.is_new(),
            before,
            after: &after,
            number,
        });
        if number == 0 {
            history.accept(&deal);
        }
        let follows = history.holds(&after) && gains(before, &after, &deal, number, total);
        if !follows {
            self.tally.count_difference(Difference::History);
        }
        let is_same = self.hold(lent, booking, &after, number);
        (follows && is_same).then_some(after)
    }

    /// Books a deal in the library, and holds its number, the book and the bytes around it to what
    /// is expected.
    fn hold(&mut self, lent: &mut LentBook, booking: &Booking, after: &Book, number: u32) -> bool {
        let before = lent.bytes();
        let want = lent.clone().with(after.bytes());
        let given = self.with_noise(booking);
        let got = (self.operations.book)(lent, &given);
        let is_same = got == number && *lent == want;
        if !is_same {
            self.tally.count_difference(Difference::Booking);
            if self.tally.differ() <= PRINTED {
                println!("DIFFERS: {}", text(&given));
                println!("  before   {before:?}");
                println!("  expected {number}, {:?}", want.bytes());
                println!("           {after:?}");
                println!("  got      {got}, {:?}", lent.bytes());
                let is_guarded = *lent == want.with(lent.bytes());
                println!("  the bytes around it stayed: {is_guarded}");
            }
        }
        is_same
    }

    /// The same booking, with noise in what must not matter of hand and win.
    fn with_noise(&mut self, booking: &Booking) -> Booking {
        let noise = &mut self.noise;
        let won = booking.won.map(|won| Won {
            hand: won.hand.with_noise(noise),
            win: won.win.with_noise(noise),
            ..won
        });
        Booking { won, ..*booking }
    }
}

/// What agari with the choice and the listed refusals says of a win, by ron or not, so many seats
/// after the dealer. The library is not asked.
fn scored(booking: &Booking, is_ron: bool, seats: u8) -> Scored {
    let Won { hand, win, .. } = booking.won.as_ref().expect("a win is scored");
    let win = Win {
        win_type: if is_ron { RON } else { TSUMO },
        seat_wind: EAST + seats,
        ..*win
    };
    let score = ExpectedWin::of(hand, &win).score_win();
    Scored {
        number: score.number,
        from_discarder: score.from_discarder.into(),
        from_dealer: score.from_dealer.into(),
        from_non_dealer: score.from_non_dealer.into(),
        total: score.total.into(),
    }
}

/// Whether the winner's seat gained what it has to, told by agari's total and not by what each
/// payer pays.
fn gains(before: &Book, after: &Book, deal: &Deal, number: u32, total: i128) -> bool {
    match deal.win {
        Some(win) if number == 0 => {
            let gained = after.points[win.winner] - before.points[win.winner];
            gained == before.gain(deal, &win, total)
        }
        _ => true,
    }
}

fn text(booking: &Booking) -> String {
    match &booking.won {
        None => format!("a draw, {:?}", booking.deal),
        Some(Won { hand, win, winner }) => {
            let deal = booking.deal;
            format!("a win, {deal:?}, {winner:?}\n  {hand}\n  {win:?}")
        }
    }
}

#[cfg(test)]
mod tests {
    use super::*;
    use crate::hand::{Hand, OPEN_SEQUENCE};
    use crate::lent_book::book;
    use crate::library::{self, Meld, SeatBook, Winner};

    const SOU_8: u8 = 25;

    /// How much differs of so few histories: bookings, new books, and the model from its history.
    fn differ(operations: BookOperations) -> [u64; 3] {
        compare_histories(operations, 3, 1500).each_differ()
    }

    /// Whether a booking differs where this stands in the place of the library's.
    fn is_told(book: fn(&mut LentBook, &Booking) -> u32) -> bool {
        let broken = BookOperations {
            book,
            ..BOOK_OPERATIONS
        };
        let [bookings, others @ ..] = differ(broken);
        assert_eq!(others, [0; 2]);
        bookings > 0
    }

    #[test]
    fn histories_meet_every_corner_and_none_differs() {
        let tally = compare_histories(BOOK_OPERATIONS, 3, 60_000);
        assert_eq!(tally.each_differ(), [0; 3]);
        assert_eq!(tally.missing(), Vec::<String>::new());
    }

    /// A deal with seat 0 as the dealer and these seats declaring.
    fn deal(declaring: &[usize]) -> library::Deal {
        library::Deal {
            dealer: 0,
            declared: [0, 1, 2, 3].map(|seat| declaring.contains(&seat)),
        }
    }

    /// A win of seat 1 on sou 8, by ron on seat 3 or by tsumo. What is not read is no win's.
    fn won(hand: Hand, has_discarder: bool) -> Option<Won> {
        let discarder = if has_discarder { 3 } else { 77 };
        Some(Won {
            hand,
            win: Win::new(7, SOU_8, EAST, 99),
            winner: Winner {
                seat: 1,
                has_discarder,
                discarder,
            },
        })
    }

    #[test]
    fn a_table_worked_out_by_hand() {
        // Pinfu, by tsumo 400 and 700, by ron 1,000; and a hand without a yaku.
        let pinfu = Hand::written("12355m456p234678s");
        let mut none = Hand::written("55m456p234678s");
        none.call(Meld::new(0, OPEN_SEQUENCE));
        let drawn = [25_000, 25_000, 24_000, 25_000];
        let tsumo = [24_200, 27_800, 23_500, 24_500];
        let ron = [24_200, 29_100, 23_500, 23_200];
        let bookings = [
            (deal(&[2]), None, drawn, 1),
            (deal(&[1]), won(none, false), drawn, 1),
            (deal(&[1]), won(pinfu, false), tsumo, 0),
            (deal(&[]), None, tsumo, 1),
            (deal(&[]), won(pinfu, true), ron, 0),
        ];
        let mut checker = BookChecker {
            operations: BOOK_OPERATIONS,
            noise: Rng::new(3),
            tally: BookTally::default(),
        };
        let mut history = History::of_new();
        let mut book = history.start();
        let mut lent = LentBook::in_noise(&mut Rng::new(4), book.bytes());
        for (deal, won, points, counter) in bookings {
            let booking = Booking { deal, won };
            let after = checker.check(&mut history, &book, &mut lent, &booking);
            book = after.expect("both sides say the same");
            assert_eq!((book.points, book.counter), (points, counter));
        }
        assert_eq!((book.deals, lent.fields().deals), (4, 4));
        assert_eq!(lent.fields().points.map(i128::from), ron);
    }

    // The library's operation with a fault of each sort.

    fn keeps_deal_of_refused(lent: &mut LentBook, booking: &Booking) -> u32 {
        let number = book(lent, booking);
        lent.fields().deals += u16::from(number == 14);
        number
    }

    fn clears_last_byte(lent: &mut LentBook, booking: &Booking) -> u32 {
        let number = book(lent, booking);
        lent.fields().reserved = 0;
        number
    }

    fn writes_before(lent: &mut LentBook, booking: &Booking) -> u32 {
        let first = lent.memory()[0];
        lent.memory()[0] = !first;
        book(lent, booking)
    }

    fn writes_behind(lent: &mut LentBook, booking: &Booking) -> u32 {
        let memory = lent.memory();
        let behind = memory.len() - 64;
        memory[behind] = !memory[behind];
        book(lent, booking)
    }

    #[test]
    fn a_byte_that_has_to_stay_is_told() {
        assert!(is_told(keeps_deal_of_refused));
        assert!(is_told(clears_last_byte));
        assert!(is_told(writes_before));
        assert!(is_told(writes_behind));
    }

    /// Books a deal, and alters the book where a win was accepted.
    fn altered(
        lent: &mut LentBook,
        booking: &Booking,
        alter: impl FnOnce(&mut SeatBook, &SeatBook, &Winner),
    ) -> u32 {
        let before = *lent.fields();
        let number = book(lent, booking);
        if let (0, Some(Won { winner, .. })) = (number, &booking.won) {
            alter(lent.fields(), &before, winner);
        }
        number
    }

    fn pays_100_a_counter_by_ron(lent: &mut LentBook, booking: &Booking) -> u32 {
        altered(lent, booking, |book, before, winner| {
            if winner.has_discarder {
                let less = 200 * i64::from(before.counter);
                book.points[usize::from(winner.seat)] -= less;
                book.points[usize::from(winner.discarder)] += less;
            }
        })
    }

    fn keeps_sticks(lent: &mut LentBook, booking: &Booking) -> u32 {
        altered(lent, booking, |book, before, winner| {
            book.sticks = before.sticks;
            book.points[usize::from(winner.seat)] -= 1000 * i64::from(before.sticks);
        })
    }

    fn takes_counter_back(lent: &mut LentBook, booking: &Booking) -> u32 {
        altered(lent, booking, |book, _, _| book.counter = 0)
    }

    /// Seats 1 and 3 exchanged, so that the winds go round the other way.
    fn turns_winds_round(lent: &mut LentBook, booking: &Booking) -> u32 {
        let turned = |seat: u8| *[0, 3, 2, 1].get(usize::from(seat)).unwrap_or(&seat);
        let mut booking = *booking;
        booking.deal.dealer = turned(booking.deal.dealer);
        booking.deal.declared.swap(1, 3);
        if let Some(Won { winner, .. }) = &mut booking.won {
            winner.seat = turned(winner.seat);
            winner.discarder = turned(winner.discarder);
        }
        lent.fields().points.swap(1, 3);
        let number = book(lent, &booking);
        lent.fields().points.swap(1, 3);
        number
    }

    #[test]
    fn other_payments_sticks_counters_and_winds_are_told() {
        assert!(is_told(pays_100_a_counter_by_ron));
        assert!(is_told(keeps_sticks));
        assert!(is_told(takes_counter_back));
        assert!(is_told(turns_winds_round));
    }

    /// Books on a copy of the book with everything that is ground for 16 taken away.
    fn number_in_sound_book(booking: &Booking) -> u32 {
        let mut sound = LentBook::in_noise(&mut Rng::new(5), Book::NEW.bytes());
        book(&mut sound, booking)
    }

    fn refuses_book_after_scoring(lent: &mut LentBook, booking: &Booking) -> u32 {
        match (book(lent, booking), number_in_sound_book(booking)) {
            (16, number @ 1..15) => number,
            (number, _) => number,
        }
    }

    fn refuses_book_before_seats(lent: &mut LentBook, booking: &Booking) -> u32 {
        let number = book(lent, booking);
        match number == 15 && lent.fields().deals >= 1024 {
            true => 16,
            false => number,
        }
    }

    fn refuses_dealer_before_scoring(lent: &mut LentBook, booking: &Booking) -> u32 {
        let number = book(lent, booking);
        let winner = booking.won.map(|won| won.winner.seat);
        let is_dealers = winner == Some(booking.deal.dealer);
        match is_dealers && number < 15 && lent.fields().counter == 255 && number > 0 {
            true => 16,
            false => number,
        }
    }

    #[test]
    fn another_order_of_refusals_is_told() {
        assert!(is_told(refuses_book_after_scoring));
        assert!(is_told(refuses_book_before_seats));
        assert!(is_told(refuses_dealer_before_scoring));
    }

    #[test]
    fn another_new_book_is_told() {
        let broken = BookOperations {
            new_book: || [0; SeatBook::BYTES],
            ..BOOK_OPERATIONS
        };
        let [bookings, new_books, others] = differ(broken);
        assert!(new_books > 0);
        assert_eq!([bookings, others], [0; 2]);
    }
}
