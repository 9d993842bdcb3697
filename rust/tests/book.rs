//! The seat book: what a booking moves, and what is refused in which order.

mod common;

use common::book::*;
use common::{counts, ron, tile};
use ziwhakemo::*;

// ---- The version ----

#[test]
fn the_interface_is_of_version_8() {
    let header = include_str!("../../include/ziwhakemo.h");
    let is_eight = |line: &str| line == "#define ZIWHAKEMO_VERSION 8";
    assert!(header.lines().any(is_eight));
    // A call to an archive of another version panics.
    assert_eq!(shown(&SeatBook::new()), NEW);
}

// ---- Books, seats, winners ----

#[test]
fn a_new_book() {
    let book = SeatBook::new();
    assert_eq!(shown(&book), NEW);
    assert_eq!(book, SeatBook::default());
    assert_eq!(book.points(), [SeatBook::START_POINTS; 4]);
    assert_eq!(book.total(), 100_000);
    // 25,000 is 0x61a8.
    let seat = [0xa8, 0x61, 0, 0, 0, 0, 0, 0];
    let bytes = [&[seat; 4].concat()[..], &[0; 8]].concat();
    assert_eq!(book.to_bytes(), bytes[..]);
    let said = "SeatBook { points: [25000, 25000, 25000, 25000], sticks: 0, deals: 0, \
                counter: 0, reserved: 0 }";
    assert_eq!(format!("{book:?}"), said);
}

#[test]
fn a_stored_book_is_the_same_when_it_is_loaded() {
    let odd = Shown {
        points: [-1, i64::MIN, i64::MAX, 0x0102_0304_0506_0708],
        sticks: 0x0102_0304,
        deals: 0x0506,
        counter: 7,
    };
    for book in [NEW, odd] {
        let bytes = loaded(book).to_bytes();
        assert_eq!(shown(&SeatBook::from_bytes(bytes)), book);
        assert_eq!(SeatBook::from_bytes(bytes).to_bytes(), bytes);
        let points = Seat::ALL.map(|seat| loaded(book).points_of(seat));
        assert_eq!(points, book.points);
    }
    // Each of the 40 bytes is kept, and two books that differ in one of them are different.
    let counted: [u8; SeatBook::BYTES] = std::array::from_fn(|place| place as u8);
    assert_eq!(SeatBook::from_bytes(counted).to_bytes(), counted);
    for place in 0..SeatBook::BYTES {
        let mut other = counted;
        other[place] ^= 0x80;
        assert_ne!(SeatBook::from_bytes(other), SeatBook::from_bytes(counted));
    }
}

#[test]
fn the_total_of_a_loaded_book_may_be_any() {
    let total = |points, sticks| {
        let book = Shown {
            points: [points; 4],
            sticks,
            ..NEW
        };
        loaded(book).total()
    };
    assert_eq!(total(0, 0), 0);
    assert_eq!(total(-25_000, 100), 0);
    let [most, sticks] = [i128::from(i64::MAX), i128::from(u32::MAX)];
    assert_eq!(total(i64::MAX, u32::MAX), 4 * most + 1000 * sticks);
    assert_eq!(total(i64::MIN, 0), -4 * (most + 1));
}

#[test]
fn seats_are_0_to_3() {
    for number in 0..=255 {
        let seat = Seat::new(number);
        let expected = Seat::ALL.get(usize::from(number)).copied();
        assert_eq!(seat, expected.ok_or(Refusal::Seats));
        if let Ok(seat) = seat {
            assert_eq!((seat.number(), seat.index()), (number, number.into()));
        }
    }
    assert_eq!((Refusal::Seats.number(), Refusal::Book.number()), (15, 16));
}

#[test]
fn a_winner_says_how_it_was_won() {
    let [ron, tsumo] = [by_ron(2, 1), by_tsumo(3)];
    assert_eq!((ron.seat(), ron.discarder()), (seat(2), Some(seat(1))));
    assert_eq!(ron.win_type(), WinType::Ron);
    assert_eq!((tsumo.seat(), tsumo.discarder()), (seat(3), None));
    assert_eq!(tsumo.win_type(), WinType::Tsumo);
}

// ---- What is moved ----

/// A deal of a game, and the points, sticks and counter after it.
type Played = (Booking, [i64; 4], u32, u8);

fn short_game() -> [Played; 7] {
    // Seats 0 and 1 declare, and the dealer wins by riichi and pinfu: 2 han 30 fu, 2,900, and both
    // sticks.
    let riichi = win(PINFU, ron("8s").riichi(), deal(0, [0, 1]), by_ron(0, 2));
    // A draw moves two sticks.
    let drawn = draw(deal(0, [2, 3]));
    // 700 and 400, 200 more from each for the counter, and three sticks, one of them the winner's.
    let tsumo = pinfu(deal(0, [1]), by_tsumo(1));
    // 700 from each, and then again, with 100 more.
    let by_dealer = pinfu(deal(1, []), by_tsumo(1));
    // 1,000, 600 for the counter, and the discarder's stick.
    let ron_of_north = pinfu(deal(1, [1]), by_ron(3, 1));
    // 64,000: a seat falls below zero.
    let orphans = win(ORPHANS, ron("1m"), deal(2, [0]), by_ron(0, 2));
    [
        (riichi, [28_900, 24_000, 22_100, 25_000], 0, 1),
        (drawn, [28_900, 24_000, 21_100, 24_000], 2, 2),
        (tsumo, [28_000, 28_100, 20_500, 23_400], 0, 0),
        (by_dealer.clone(), [27_300, 30_200, 19_800, 22_700], 0, 1),
        (by_dealer, [26_500, 32_600, 19_000, 21_900], 0, 2),
        (ron_of_north, [26_500, 30_000, 19_000, 24_500], 0, 0),
        (orphans, [90_500, 30_000, -45_000, 24_500], 0, 0),
    ]
}

#[test]
fn a_short_game() {
    let mut book = SeatBook::new();
    for ((booking, points, sticks, counter), deals) in short_game().into_iter().zip(1..) {
        assert_eq!(book.book(&booking), Ok(()));
        let expected = Shown {
            points,
            sticks,
            deals,
            counter,
        };
        assert_eq!(shown(&book), expected);
        assert_eq!(book.total(), 100_000);
    }
}

#[test]
fn booking_is_drawing_or_winning() {
    let [mut one, mut other] = [SeatBook::new(), SeatBook::new()];
    let deal = deal(3, [0, 2]);
    assert_eq!(one.draw(deal), Ok(()));
    assert_eq!(other.book(&draw(deal)), Ok(()));
    assert_eq!(one, other);
    let winner = by_ron(1, 2);
    let won = one.win(&counts(PINFU), &[], &ron("8s"), deal, winner);
    assert_eq!(won, Ok(()));
    assert_eq!(other.book(&pinfu(deal, winner)), Ok(()));
    assert_eq!(one, other);
}

#[test]
fn each_seat_that_declared_puts_down_a_stick() {
    for declared in 0..16u32 {
        let has = Seat::ALL.map(|seat| declared >> seat.number() & 1 == 1);
        let deal = Deal {
            declared: has,
            ..deal(0, [])
        };
        let drawn = Shown {
            points: has.map(|has| if has { 24_000 } else { 25_000 }),
            sticks: declared.count_ones(),
            deals: 1,
            counter: 1,
        };
        assert_eq!(after(NEW, &draw(deal)), Ok(drawn));
        // Seat 3 wins by tsumo and takes them all.
        let [a, b, c, d] = drawn.points;
        let taken = 1000 * i64::from(drawn.sticks);
        let won = Shown {
            points: [a - 700, b - 400, c - 400, d + 1500 + taken],
            sticks: 0,
            counter: 0,
            ..drawn
        };
        assert_eq!(after(NEW, &pinfu(deal, by_tsumo(3))), Ok(won));
    }
}

#[test]
fn each_counter_is_300_in_all() {
    for counter in 0..=255 {
        let before = Shown { counter, ..NEW };
        let points = |winner| {
            let booked = after(before, &pinfu(deal(0, []), winner));
            booked.map(|book| book.points)
        };
        let each = 100 * i64::from(counter);
        let [dealer, other] = [25_000 - 700 - each, 25_000 - 400 - each];
        let by_tsumo = points(by_tsumo(1));
        assert_eq!(by_tsumo, Ok([dealer, 26_500 + 3 * each, other, other]));
        let by_ron = points(by_ron(1, 3));
        let discarder = 25_000 - 1000 - 3 * each;
        assert_eq!(by_ron, Ok([25_000, 26_000 + 3 * each, 25_000, discarder]));
    }
}

#[test]
fn the_riichi_flag_is_not_compared_with_who_declared() {
    let by_riichi = ron("8s").riichi();
    for (context, points) in [(ron("8s"), 26_000), (by_riichi, 27_000)] {
        // The winner gets back what the winner put down.
        for deal in [deal(0, []), deal(0, [1])] {
            let booked = after(NEW, &win(PINFU, context, deal, by_ron(1, 2)));
            assert_eq!(booked.map(|book| book.points[1]), Ok(points));
        }
    }
}

#[test]
fn the_counter_goes_by_the_dealer() {
    for (deal, winner) in each_win() {
        for counter in [0, 1, 7, 254] {
            let before = Shown { counter, ..NEW };
            let counter_after = |booking| after(before, &booking).map(|book| book.counter);
            let is_dealer = winner.seat() == deal.dealer;
            let expected = if is_dealer { counter + 1 } else { 0 };
            assert_eq!(counter_after(pinfu(deal, winner)), Ok(expected));
            assert_eq!(counter_after(draw(deal)), Ok(counter + 1));
        }
    }
}

// ---- Winds ----

/// A win with a chi, and with a triplet of a wind, from 1 for East, as the only yaku that there may
/// be. Another wind is the round wind.
fn triplet(wind: usize, deal: Deal, winner: Winner) -> Booking {
    Booking::Win {
        counts: counts(&format!("55m456p678s{wind}{wind}{wind}z")),
        calls: chi(),
        context: GameContext {
            round_wind: WINDS[wind % 4],
            ..ron("8s")
        },
        deal,
        winner,
    }
}

#[test]
fn the_seat_after_the_dealer_is_south() {
    // South South South in the West round: of four seats the one after the dealer wins by it.
    for dealer in 0..4 {
        let results = [0, 1, 2, 3].map(|onward| {
            let winner = by_tsumo((dealer + onward) % 4);
            after(NEW, &triplet(2, deal(dealer, []), winner)).err()
        });
        let no_yaku = Some(Refusal::NoYaku);
        assert_eq!(results, [no_yaku, None, no_yaku, no_yaku], "{dealer}");
    }
}

#[test]
fn the_seat_wind_follows_from_the_dealer() {
    for (deal, winner) in each_win() {
        let onward = (winner.seat().index() + 4 - deal.dealer.index()) % 4;
        for wind in 1..=4 {
            let refusal = after(NEW, &triplet(wind, deal, winner)).err();
            let expected = (wind != onward + 1).then_some(Refusal::NoYaku);
            assert_eq!(refusal, expected, "{wind} {deal:?} {winner:?}");
        }
    }
}

#[test]
fn win_type_and_seat_wind_of_the_context_are_not_read() {
    for (deal, winner) in each_win() {
        let expected = after(NEW, &pinfu(deal, winner));
        assert!(expected.is_ok());
        for (seat_wind, win_type) in Honor::ALL
            .into_iter()
            .flat_map(|wind| [WinType::Ron, WinType::Tsumo].map(|win_type| (wind, win_type)))
        {
            let context = GameContext {
                win_type,
                seat_wind,
                ..ron("8s")
            };
            let booking = win(PINFU, context, deal, winner);
            assert_eq!(after(NEW, &booking), expected);
        }
    }
}

#[test]
fn the_context_of_a_winner_scores_what_is_booked() {
    for (deal, winner) in each_win() {
        let context = winner.context(deal.dealer, &ron("8s"));
        let score = score_win(&counts(PINFU), &[], &context).unwrap();
        let booked = after(NEW, &pinfu(deal, winner)).unwrap();
        // The dealer declared, so that one stick lies on the table, his own where he wins.
        let is_dealer = winner.seat() == deal.dealer;
        let stick = if is_dealer { 0 } else { 1000 };
        let gained = booked.points[winner.seat().index()] - 25_000;
        assert_eq!(gained, i64::from(score.result.payment.total) + stick);
    }
}

// ---- Refusals ----

/// Wins that scoring refuses.
fn not_scored() -> Vec<(Vec<u8>, Vec<Meld>, GameContext, Refusal)> {
    let of = |hand: &str| counts(hand).to_vec();
    let five_calls = [chi(), chi(), chi(), chi(), chi()].concat();
    let closed = vec![Meld::koutsu(tile("1m"))];
    let pon = vec![Meld::koutsu_open(tile("5m"), Source::Left)];
    let mut above = of(PINFU);
    above[0] = 5;
    let on_8s = ron("8s");
    let eleven = on_8s.with_dora([tile("4m"); 11]);
    let dragon = GameContext {
        round_wind: Honor::Red,
        ..on_8s
    };
    vec![
        (vec![0; 33], vec![], on_8s, Refusal::CountsLength),
        (of("55z"), five_calls, on_8s, Refusal::TooManyCalls),
        (of(BUT_A_CALL), closed, on_8s, Refusal::NotACall),
        (above, vec![], on_8s, Refusal::CountAboveFour),
        (of(BUT_A_CALL), pon, on_8s, Refusal::FiveOfAKind),
        (of(BUT_A_CALL), vec![], on_8s, Refusal::NumberOfTiles),
        (of(PINFU), vec![], dragon, Refusal::OutOfRange),
        (of(PINFU), vec![], eleven, Refusal::Indicators),
        (of(PINFU), vec![], ron("1z"), Refusal::WinningTile),
        (of(NO_READING), vec![], on_8s, Refusal::NoReading),
        (of(BUT_A_CALL), chi(), on_8s, Refusal::NoYaku),
    ]
}

/// Books that take no deal more, whatever it is.
fn full_books() -> Vec<Shown> {
    let beyond = (0..4).flat_map(|seat| [(seat, 1), (seat, -1)]);
    let beyond = beyond.map(|(seat, sign)| {
        let mut book = NEW;
        book.points[seat] = sign * (SeatBook::MOST_POINTS + 1);
        book
    });
    let far = [i64::MIN, i64::MAX].map(|points| Shown {
        points: [points; 4],
        ..NEW
    });
    let deals = [1024, 1025, u16::MAX].map(|deals| Shown { deals, ..NEW });
    let sticks = [4097, u32::MAX].map(|sticks| Shown { sticks, ..NEW });
    let books = beyond.chain(far).chain(deals).chain(sticks);
    // At either end of the counter.
    let at = |counter| move |book| Shown { counter, ..book };
    books.clone().map(at(0)).chain(books.map(at(255))).collect()
}

/// Holds each win that scoring refuses to the refusal that is expected, by its own one.
#[track_caller]
fn hold_refused(before: Shown, deal: Deal, winner: Winner, expected: fn(Refusal) -> Refusal) {
    for (counts, calls, context, refusal) in not_scored() {
        let mut book = loaded(before);
        let booked = book.win(&counts, &calls, &context, deal, winner);
        assert_eq!(booked, Err(expected(refusal)));
        assert_eq!(book, loaded(before));
    }
}

#[test]
fn number_15_comes_first_of_all() {
    let own = Seat::ALL.map(|seat| Winner::Ron {
        seat,
        discarder: seat,
    });
    for before in full_books().into_iter().chain([NEW, AT_255]) {
        for (dealer, winner) in (0..4).flat_map(|dealer| own.map(|winner| (dealer, winner))) {
            let deal = deal(dealer, [0]);
            let booked = after(before, &pinfu(deal, winner));
            assert_eq!(booked, Err(Refusal::Seats));
            hold_refused(before, deal, winner, |_| Refusal::Seats);
        }
    }
}

#[test]
fn number_16_comes_before_those_of_scoring() {
    for before in full_books() {
        for (deal, winner) in each_win() {
            let booked = after(before, &pinfu(deal, winner));
            assert_eq!(booked, Err(Refusal::Book));
            assert_eq!(after(before, &draw(deal)), Err(Refusal::Book));
            hold_refused(before, deal, winner, |_| Refusal::Book);
        }
    }
}

#[test]
fn a_win_that_does_not_score_answers_its_own_number() {
    // A dealer's at a counter of 255 too: only one that scores would raise it.
    for before in [NEW, AT_255] {
        for (deal, winner) in each_win() {
            hold_refused(before, deal, winner, |refusal| refusal);
        }
    }
}

#[test]
fn number_16_for_what_would_raise_a_counter_of_255() {
    for (deal, winner) in each_win() {
        assert_eq!(after(AT_255, &draw(deal)), Err(Refusal::Book));
        let booked = after(AT_255, &pinfu(deal, winner)).map(|book| book.counter);
        // Another's win is taken and brings it back.
        let expected = match winner.seat() == deal.dealer {
            true => Err(Refusal::Book),
            false => Ok(0),
        };
        assert_eq!(booked, expected, "{deal:?} {winner:?}");
    }
}

#[test]
fn number_16_at_1_024_deals() {
    let deals = |deals| {
        let before = Shown { deals, ..NEW };
        [draw(deal(0, [])), pinfu(deal(0, []), by_tsumo(1))]
            .map(|booking| after(before, &booking).map(|book| book.deals))
    };
    assert_eq!(deals(1023), [Ok(1024); 2]);
    assert_eq!(deals(1024), [Err(Refusal::Book); 2]);
}

#[test]
fn a_new_book_takes_1_024_deals() {
    // Four times 255 draws, to the end of the counter, and a win that brings it back.
    let mut book = SeatBook::new();
    for number in 1..=SeatBook::MOST_DEALS {
        let booking = match number % 256 {
            0 => pinfu(deal(0, []), by_ron(1, 2)),
            _ => draw(deal(0, [])),
        };
        assert_eq!(book.book(&booking), Ok(()), "{number}");
    }
    // 1,000 and 300 times 255 by each win.
    let won = 4 * (1000 + 300 * 255);
    let full = Shown {
        points: [25_000, 25_000 + won, 25_000 - won, 25_000],
        sticks: 0,
        deals: 1024,
        counter: 0,
    };
    assert_eq!(shown(&book), full);
    assert_eq!(book.draw(deal(0, [])), Err(Refusal::Book));
    assert_eq!(shown(&book), full);
}

#[test]
fn number_16_for_points_beyond_a_thousand_million() {
    // Bookings, and what they move.
    let bookings = [
        (draw(deal(0, [0])), [-1000, 0, 0, 0]),
        (pinfu(deal(0, [3]), by_ron(0, 1)), [2500, -1500, 0, -1000]),
        (pinfu(deal(0, []), by_tsumo(2)), [-700, -400, 1500, -400]),
    ];
    let limit = SeatBook::MOST_POINTS;
    for (seat, points) in (0..4).flat_map(|seat| [-limit, limit].map(|points| (seat, points))) {
        for (booking, moved) in &bookings {
            let mut before = NEW;
            before.points[seat] = points;
            let expected = [0, 1, 2, 3].map(|seat| before.points[seat] + moved[seat]);
            let booked = after(before, booking).map(|book| book.points);
            assert_eq!(booked, Ok(expected));
            before.points[seat] += points.signum();
            assert_eq!(after(before, booking), Err(Refusal::Book));
        }
    }
}

#[test]
fn a_deal_that_leads_beyond_the_points_is_taken_and_is_the_last() {
    let before = Shown {
        points: [SeatBook::MOST_POINTS, -SeatBook::MOST_POINTS, 0, 0],
        ..NEW
    };
    let mut book = loaded(before);
    let booking = win(ORPHANS, ron("1m"), deal(0, [1]), by_ron(0, 1));
    assert_eq!(book.book(&booking), Ok(()));
    let points = [1_000_097_000, -1_000_097_000, 0, 0];
    assert_eq!(book.points(), points);
    assert_eq!(book.book(&booking), Err(Refusal::Book));
    assert_eq!(book.draw(deal(0, [])), Err(Refusal::Book));
    assert_eq!((book.points(), book.deals()), (points, 1));
}

#[test]
fn number_16_for_more_than_4_096_sticks() {
    let everyone = deal(0, [0, 1, 2, 3]);
    let [drawn, won] = [draw(everyone), pinfu(everyone, by_tsumo(1))].map(|booking| {
        [4096, 4097].map(|sticks| {
            let booked = after(Shown { sticks, ..NEW }, &booking);
            booked.map(|book| (book.sticks, book.points))
        })
    });
    assert_eq!(drawn, [Ok((4100, [24_000; 4])), Err(Refusal::Book)]);
    let points = [23_300, 24_000 + 1500 + 4_100_000, 23_600, 23_600];
    assert_eq!(won, [Ok((0, points)), Err(Refusal::Book)]);
}
