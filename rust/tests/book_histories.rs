//! The seat book over whole histories: each booking held to the rules in plain words, and what a
//! history keeps.

mod common;

use common::book::*;
use common::{counts, ron, tile, tiles, tsumo};
use ziwhakemo::*;

// ---- The rules in plain words ----

/// What a book that showed this shows after a booking, on plain numbers. The payments of a win are
/// those of `score_win`.
fn by_rules(before: Shown, booking: &Booking) -> Result<Shown, Refusal> {
    match booking {
        Booking::Draw { deal } => drawn(before, deal),
        Booking::Win {
            counts,
            calls,
            context,
            deal,
            winner,
        } => won(before, deal, winner, |seat_wind| {
            let context = GameContext {
                win_type: winner.win_type(),
                seat_wind,
                ..*context
            };
            Ok(score_win(counts, calls, &context)?.result.payment)
        }),
    }
}

fn has_room(book: Shown) -> bool {
    let is_within = |points: &i64| (-1_000_000_000..=1_000_000_000).contains(points);
    book.deals < 1024 && book.sticks <= 4096 && book.points.iter().all(is_within)
}

fn drawn(before: Shown, deal: &Deal) -> Result<Shown, Refusal> {
    if !has_room(before) || before.counter == 255 {
        return Err(Refusal::Book);
    }
    let mut book = declared(before, deal);
    book.counter += 1;
    Ok(book)
}

/// One deal more, with its sticks on the table.
fn declared(mut book: Shown, deal: &Deal) -> Shown {
    for (points, declared) in book.points.iter_mut().zip(deal.declared) {
        *points -= if declared { 1000 } else { 0 };
        book.sticks += u32::from(declared);
    }
    book.deals += 1;
    book
}

fn won(
    before: Shown,
    deal: &Deal,
    winner: &Winner,
    score: impl Fn(Honor) -> Result<Payment, Refusal>,
) -> Result<Shown, Refusal> {
    let seat = winner.seat();
    if winner.discarder() == Some(seat) {
        return Err(Refusal::Seats);
    }
    if !has_room(before) {
        return Err(Refusal::Book);
    }
    let payment = score(WINDS[(seat.index() + 4 - deal.dealer.index()) % 4])?;
    let is_dealer = seat == deal.dealer;
    if is_dealer && before.counter == 255 {
        return Err(Refusal::Book);
    }
    let mut book = declared(before, deal);
    for payer in Seat::ALL {
        let pays = pays(payer, payment, before.counter, deal, winner);
        book.points[payer.index()] -= pays;
        book.points[seat.index()] += pays;
    }
    book.points[seat.index()] += 1000 * i64::from(book.sticks);
    book.sticks = 0;
    book.counter = if is_dealer { before.counter + 1 } else { 0 };
    Ok(book)
}

/// What a seat pays to the winner.
fn pays(payer: Seat, payment: Payment, counter: u8, deal: &Deal, winner: &Winner) -> i64 {
    let counter = i64::from(counter);
    let amount = |amount: Option<u32>| i64::from(amount.unwrap());
    match *winner {
        Winner::Ron { discarder, .. } if payer == discarder => {
            amount(payment.from_discarder) + 300 * counter
        }
        Winner::Tsumo { seat } if payer != seat => match payer == deal.dealer {
            true => amount(payment.from_dealer) + 100 * counter,
            false => amount(payment.from_non_dealer) + 100 * counter,
        },
        _ => 0,
    }
}

// ---- Random bookings ----

/// Numbers without a pattern, the same in each run (xorshift).
struct Random(u64);

impl Random {
    fn below(&mut self, end: usize) -> usize {
        self.0 ^= self.0 << 13;
        self.0 ^= self.0 >> 7;
        self.0 ^= self.0 << 17;
        (self.0 % end as u64) as usize
    }

    fn any<T: Clone>(&mut self, values: &[T]) -> T {
        values[self.below(values.len())].clone()
    }

    /// Once in so many times.
    fn once_in(&mut self, times: usize) -> bool {
        self.below(times) == 0
    }

    fn deal(&mut self) -> Deal {
        Deal {
            dealer: self.any(&Seat::ALL),
            declared: Seat::ALL.map(|_| self.once_in(3)),
        }
    }

    /// Now and then the discarder is the winner.
    fn winner(&mut self) -> Winner {
        let [seat, discarder] = [(); 2].map(|()| self.any(&Seat::ALL));
        match self.once_in(2) {
            true => Winner::Tsumo { seat },
            false => Winner::Ron { seat, discarder },
        }
    }

    /// A win with one of these hands. The last two do not score, but for a yaku by the last tile.
    fn win(&mut self) -> Booking {
        let kan = vec![Meld::kan(tile("7z"), KanType::Closed)];
        let (hand, calls, winning_tile) = self.any(&[
            (PINFU, vec![], "8s"),
            ("222333444m567p88s", vec![], "8s"),
            ("223344m667788p55s", vec![], "4m"),
            (ORPHANS, vec![], "9m"),
            ("55m456p678s222z", chi(), "8s"),
            ("222333444m55z", kan, "4m"),
            (BUT_A_CALL, chi(), "8s"),
            (NO_READING, vec![], "8s"),
        ]);
        let context = GameContext {
            round_wind: self.any(&WINDS),
            is_riichi: self.once_in(2),
            is_last_tile: self.once_in(8),
            ..self.any(&[ron, tsumo])(winning_tile)
        };
        Booking::Win {
            counts: counts(hand),
            calls,
            context: context.with_dora(tiles(self.any(&["", "1m", "1m7s"]))),
            deal: self.deal(),
            winner: self.winner(),
        }
    }

    fn booking(&mut self) -> Booking {
        match self.once_in(3) {
            true => draw(self.deal()),
            false => self.win(),
        }
    }

    fn history(&mut self, length: usize) -> Vec<Booking> {
        (0..length).map(|_| self.booking()).collect()
    }

    /// What a book shows that is at a limit or beyond it here and there.
    fn book(&mut self) -> Shown {
        let limit = SeatBook::MOST_POINTS;
        let points = [limit + 1, limit, limit - 1, 30_100, 25_000, 1000, 100, 1, 0];
        let signed = points.map(|points| if self.once_in(2) { points } else { -points });
        Shown {
            points: Seat::ALL.map(|_| self.any(&signed)),
            sticks: self.any(&[0, 1, 2, 4095, 4096, 4097]),
            deals: self.any(&[0, 1, 511, 1022, 1023, 1024]),
            counter: self.any(&[0, 1, 2, 254, 255, 255]),
        }
    }
}

// ---- What a history keeps ----

fn is_win(booking: &Booking) -> bool {
    matches!(booking, Booking::Win { .. })
}

/// Is it a win of another than the dealer?
fn is_win_of_another(booking: &Booking) -> bool {
    match booking {
        Booking::Draw { .. } => false,
        Booking::Win { deal, winner, .. } => winner.seat() != deal.dealer,
    }
}

/// How many sticks a booking puts on the table.
fn sticks(booking: &Booking) -> usize {
    let (Booking::Draw { deal } | Booking::Win { deal, .. }) = booking;
    deal.declared
        .into_iter()
        .filter(|&declared| declared)
        .count()
}

/// The bookings after the last one that is so.
fn after_the_last<'a>(
    taken: &'a [&'a Booking],
    is_so: fn(&Booking) -> bool,
) -> impl Iterator<Item = &'a Booking> {
    let later = taken
        .iter()
        .rev()
        .take_while(move |booking| !is_so(booking));
    later.copied()
}

/// Holds what a book shows to the bookings that it took.
#[track_caller]
fn hold(book: &SeatBook, taken: &[&Booking]) {
    assert_eq!(book.total(), 100_000);
    assert_eq!(usize::from(book.deals()), taken.len());
    let since = after_the_last(taken, is_win_of_another);
    assert_eq!(usize::from(book.counter()), since.count());
    let declared = after_the_last(taken, is_win).map(sticks);
    assert_eq!(book.sticks() as usize, declared.sum());
}

#[test]
fn random_histories_go_by_the_rules() {
    let mut random = Random(1);
    for history in (0..300).map(|_| random.history(40)) {
        let mut book = SeatBook::new();
        let mut taken = vec![];
        for booking in &history {
            let expected = by_rules(shown(&book), booking);
            assert_eq!(after(shown(&book), booking), expected);
            let result = book.book(booking);
            assert_eq!(result.is_ok(), expected.is_ok());
            taken.extend(result.ok().map(|()| booking));
            hold(&book, &taken);
        }
        assert!((5..40).contains(&taken.len()), "{}", taken.len());
    }
}

#[test]
fn random_books_are_altered_by_the_rules() {
    let mut random = Random(2);
    let (mut accepted, mut refused) = (0, [0; 17]);
    for _ in 0..20_000 {
        let (before, booking) = (random.book(), random.booking());
        let result = after(before, &booking);
        assert_eq!(result, by_rules(before, &booking));
        match result {
            Ok(_) => accepted += 1,
            Err(refusal) => refused[usize::from(refusal.number())] += 1,
        }
    }
    // Each answer that there may be was there, and not by chance alone.
    let times = [10, 11, 15, 16].map(|number: usize| refused[number]);
    let is_often = |&times: &i32| times > 500;
    assert!(accepted > 2000 && times.iter().all(is_often), "{times:?}");
}

#[test]
fn a_history_that_is_replayed_gives_the_same_book() {
    let mut random = Random(3);
    for length in [0, 1, 2, 40, 200, 2500] {
        let history = random.history(length);
        let mut book = SeatBook::new();
        let one_by_one = history.iter().map(|booking| book.book(booking));
        let one_by_one: Vec<_> = one_by_one.collect();
        let (replayed, results) = SeatBook::replay(&history);
        assert_eq!(replayed.to_bytes(), book.to_bytes());
        assert_eq!(results, one_by_one);

        // Without what was refused it is the same book.
        let both = history.iter().zip(results);
        let taken = both.filter_map(|(booking, result)| result.ok().map(|()| booking));
        let taken: Vec<&Booking> = taken.collect();
        let (again, results) = SeatBook::replay(taken.iter().copied());
        assert_eq!((again, results), (book, vec![Ok(()); taken.len()]));
        hold(&replayed, &taken);
    }
}

#[test]
fn a_history_may_be_longer_than_a_book() {
    let (book, results) = SeatBook::replay(&Random(4).history(2500));
    assert_eq!(book.deals(), SeatBook::MOST_DEALS);
    assert_eq!(book.total(), 100_000);
    let taken = results.iter().filter(|result| result.is_ok()).count();
    assert_eq!(taken, 1024);
    let last = results.iter().rposition(Result::is_ok).unwrap();
    let is_full =
        |result: &Result<(), Refusal>| [Err(Refusal::Seats), Err(Refusal::Book)].contains(result);
    assert!(results[last + 1..].iter().all(is_full));
}

#[test]
fn a_book_may_be_stored_and_loaded_between_any_two_deals() {
    let history = Random(5).history(100);
    let (book, results) = SeatBook::replay(&history);
    let mut stored = SeatBook::new().to_bytes();
    for (booking, result) in history.iter().zip(results) {
        let mut loaded = SeatBook::from_bytes(stored);
        assert_eq!(loaded.book(booking), result);
        stored = loaded.to_bytes();
    }
    assert_eq!(stored, book.to_bytes());
}
