//! The library as C sees it (`include/ziwhakemo.h`), and a safe function for each of its own. All
//! `unsafe` of this crate is here.

use crate::OTHER_VERSION;
use crate::rules::Variant;

/// The version of the interface that is declared here: `ZIWHAKEMO_VERSION` of the header.
pub const VERSION: u32 = 8;

/// A meld: the number of its lowest tile, its kind, and who its tile was called from: 1 to 3 seats onward,
/// with three players 1 or 2, or 0.
#[repr(C)]
#[derive(Clone, Copy, Debug, PartialEq, Eq)]
pub struct Meld {
    pub tile: u8,
    pub kind: u8,
    pub source: u8,
}

/// Indicators: how many are shown, and the numbers of their tiles. What stands behind the count is not read.
#[repr(C)]
#[derive(Clone, Copy, Debug, PartialEq, Eq)]
pub struct Indicators {
    pub count: u8,
    pub tiles: [u8; 10],
}

/// A win, apart from its hand. Behind the flags stands the room's setting, 4 or 2.
#[repr(C)]
#[derive(Clone, Copy, Debug)]
pub struct GameContext {
    pub win_type: u8,
    pub winning_tile: u8,
    pub round_wind: u8,
    pub seat_wind: u8,
    pub is_riichi: bool,
    pub is_double_riichi: bool,
    pub is_ippatsu: bool,
    pub is_rinshan: bool,
    pub is_chankan: bool,
    pub is_last_tile: bool,
    pub is_tenhou: bool,
    pub is_chiihou: bool,
    pub double_wind_fu: u8,
    pub dora_indicators: Indicators,
    pub ura_dora_indicators: Indicators,
}

/// The answer to a listing: 0 with what was written, or a refusal's number alone.
#[repr(C)]
#[derive(Clone, Copy, Debug, PartialEq, Eq)]
pub struct ListingAnswer {
    pub number: u32,
    pub readings: usize,
    pub bytes: usize,
}

/// A level, and how many times a yakuman counts.
#[repr(C)]
#[derive(Clone, Copy, Debug, PartialEq, Eq)]
pub struct LevelAnswer {
    pub level: u8,
    pub count: u8,
}

/// The answer to a payment: 0 with the amounts, or a refusal's number alone. The settlement is 1 by ron,
/// 2 by tsumo of the dealer, 3 by tsumo of another.
#[repr(C)]
#[derive(Clone, Copy, Debug, PartialEq, Eq)]
pub struct PaymentAnswer {
    pub number: u32,
    pub settlement: u32,
    pub from_non_dealer: u32,
    pub from_dealer: u32,
    pub from_discarder: u32,
    pub total: u64,
}

/// The answer to a scored win or reading: 0 with the score, or a refusal's number alone. The yakuman
/// flag is C's `bool`, taken as a byte, so that no value of it is invalid here.
#[repr(C)]
#[derive(Clone, Copy, Debug, PartialEq, Eq)]
pub struct ScoreAnswer {
    pub number: u32,
    pub settlement: u32,
    pub reading: usize,
    pub tallies: [u8; 47],
    pub han: u8,
    pub fu: u8,
    pub is_yakuman: u8,
    pub level: u8,
    pub yakuman_count: u8,
    pub regular_dora: u8,
    pub ura_dora: u8,
    pub basic_points: u32,
    pub from_non_dealer: u32,
    pub from_dealer: u32,
    pub from_discarder: u32,
    pub total: u64,
}

/// The answer to naming waits: 0 with the tallies, or a refusal's number alone.
#[repr(C)]
#[derive(Clone, Copy, Debug, PartialEq, Eq)]
pub struct WaitsAnswer {
    pub number: u32,
    pub waits: [u8; 6],
}

/// The book of a table: the points of seats 0 to 3, the riichi sticks on the table, how many deals
/// are booked, and the repeat counter. `reserved` is 0 in a new book and is kept by every booking;
/// with it there is no padding.
#[repr(C)]
#[derive(Clone, Copy, Debug, PartialEq, Eq, Hash)]
pub struct SeatBook {
    pub points: [i64; 4],
    pub sticks: u32,
    pub deals: u16,
    pub counter: u8,
    pub reserved: u8,
}

/// A deal: the dealer's seat, and which seats declared riichi.
#[repr(C)]
#[derive(Clone, Copy, Debug)]
pub struct Deal {
    pub dealer: u8,
    pub declared: [bool; 4],
}

/// Who won, and by whose discard. Without a discarder the win is by tsumo, and `discarder` is not
/// read.
#[repr(C)]
#[derive(Clone, Copy, Debug)]
pub struct Winner {
    pub seat: u8,
    pub has_discarder: bool,
    pub discarder: u8,
}

// Each declaration is that of the header: a lent slice is a pointer and a count.
unsafe extern "C" {
    fn ziwhakemo_list_readings(
        counts: *const u8,
        counts_length: usize,
        calls: *const Meld,
        calls_length: usize,
        out: *mut u8,
        out_length: usize,
    ) -> ListingAnswer;
    fn ziwhakemo_score_win(
        counts: *const u8,
        counts_length: usize,
        calls: *const Meld,
        calls_length: usize,
        win: GameContext,
    ) -> ScoreAnswer;
    fn ziwhakemo_score_reading(
        counts: *const u8,
        counts_length: usize,
        calls: *const Meld,
        calls_length: usize,
        win: GameContext,
        reading: usize,
    ) -> ScoreAnswer;
    fn ziwhakemo_name_waits(
        counts: *const u8,
        counts_length: usize,
        calls: *const Meld,
        calls_length: usize,
        win: GameContext,
        reading: usize,
    ) -> WaitsAnswer;

    // The same with three players.
    fn ziwhakemo_three_list_readings(
        counts: *const u8,
        counts_length: usize,
        calls: *const Meld,
        calls_length: usize,
        out: *mut u8,
        out_length: usize,
    ) -> ListingAnswer;
    fn ziwhakemo_three_score_win(
        counts: *const u8,
        counts_length: usize,
        calls: *const Meld,
        calls_length: usize,
        win: GameContext,
    ) -> ScoreAnswer;
    fn ziwhakemo_three_score_reading(
        counts: *const u8,
        counts_length: usize,
        calls: *const Meld,
        calls_length: usize,
        win: GameContext,
        reading: usize,
    ) -> ScoreAnswer;
    fn ziwhakemo_three_name_waits(
        counts: *const u8,
        counts_length: usize,
        calls: *const Meld,
        calls_length: usize,
        win: GameContext,
        reading: usize,
    ) -> WaitsAnswer;

    // The seat book, with four players.
    fn ziwhakemo_book_draw(book: *mut SeatBook, deal: Deal) -> u32;
    fn ziwhakemo_book_win(
        book: *mut SeatBook,
        counts: *const u8,
        counts_length: usize,
        calls: *const Meld,
        calls_length: usize,
        win: GameContext,
        deal: Deal,
        winner: Winner,
    ) -> u32;

    // Safe: these take plain values, any of them, and no pointer.
    safe fn ziwhakemo_version() -> u32;
    safe fn ziwhakemo_new_book() -> SeatBook;
    safe fn ziwhakemo_score_level(han: u8, fu: u8, is_yakuman: bool) -> LevelAnswer;
    safe fn ziwhakemo_basic_points(han: u8, fu: u8, is_yakuman: bool) -> u32;
    safe fn ziwhakemo_payment(basic_points: u32, is_dealer: bool, win_type: u8) -> PaymentAnswer;
    safe fn ziwhakemo_three_payment(
        basic_points: u32,
        is_dealer: bool,
        win_type: u8,
    ) -> PaymentAnswer;
}

/// The version of the archive.
pub fn version() -> u32 {
    ziwhakemo_version()
}

/// Stops where the archive is of another version: its answers may be laid out or meant otherwise.
fn check_version() {
    assert!(version() == VERSION, "{OTHER_VERSION}");
}

/// Lists the readings of a hand into the lent buffer.
pub fn list_readings(
    variant: Variant,
    counts: &[u8],
    calls: &[Meld],
    out: &mut [u8],
) -> ListingAnswer {
    check_version();
    let list_readings = match variant {
        Variant::Yonma => ziwhakemo_list_readings,
        Variant::Sanma => ziwhakemo_three_list_readings,
    };
    // SAFETY: three slices, each handed over as its pointer and its length. `out` is borrowed alone, so
    // it overlaps neither of the others. The library keeps no pointer and is of the version declared here.
    unsafe {
        list_readings(
            counts.as_ptr(),
            counts.len(),
            calls.as_ptr(),
            calls.len(),
            out.as_mut_ptr(),
            out.len(),
        )
    }
}

/// Scores a win.
pub fn score_win(variant: Variant, counts: &[u8], calls: &[Meld], win: GameContext) -> ScoreAnswer {
    check_version();
    let score_win = match variant {
        Variant::Yonma => ziwhakemo_score_win,
        Variant::Sanma => ziwhakemo_three_score_win,
    };
    // SAFETY: two slices, each handed over as its pointer and its length, which are only read. The
    // flags of a `GameContext` are bools. The library keeps no pointer and is of the version declared here.
    unsafe {
        score_win(
            counts.as_ptr(),
            counts.len(),
            calls.as_ptr(),
            calls.len(),
            win,
        )
    }
}

/// Scores the reading with a number.
pub fn score_reading(
    variant: Variant,
    counts: &[u8],
    calls: &[Meld],
    win: GameContext,
    reading: usize,
) -> ScoreAnswer {
    check_version();
    let score_reading = match variant {
        Variant::Yonma => ziwhakemo_score_reading,
        Variant::Sanma => ziwhakemo_three_score_reading,
    };
    // SAFETY: as for `score_win`. Any number may be asked for.
    unsafe {
        score_reading(
            counts.as_ptr(),
            counts.len(),
            calls.as_ptr(),
            calls.len(),
            win,
            reading,
        )
    }
}

/// Names the waits of the reading with a number.
pub fn name_waits(
    variant: Variant,
    counts: &[u8],
    calls: &[Meld],
    win: GameContext,
    reading: usize,
) -> WaitsAnswer {
    check_version();
    let name_waits = match variant {
        Variant::Yonma => ziwhakemo_name_waits,
        Variant::Sanma => ziwhakemo_three_name_waits,
    };
    // SAFETY: as for `score_win`. Any number may be asked for.
    unsafe {
        name_waits(
            counts.as_ptr(),
            counts.len(),
            calls.as_ptr(),
            calls.len(),
            win,
            reading,
        )
    }
}

/// The level of han and fu.
pub fn score_level(han: u8, fu: u8, is_yakuman: bool) -> LevelAnswer {
    check_version();
    ziwhakemo_score_level(han, fu, is_yakuman)
}

/// The basic points of han and fu.
pub fn basic_points(han: u8, fu: u8, is_yakuman: bool) -> u32 {
    check_version();
    ziwhakemo_basic_points(han, fu, is_yakuman)
}

/// The payment of basic points.
pub fn payment(
    variant: Variant,
    basic_points: u32,
    is_dealer: bool,
    win_type: u8,
) -> PaymentAnswer {
    check_version();
    match variant {
        Variant::Yonma => ziwhakemo_payment(basic_points, is_dealer, win_type),
        Variant::Sanma => ziwhakemo_three_payment(basic_points, is_dealer, win_type),
    }
}

/// A book in which nothing is booked.
pub fn new_book() -> SeatBook {
    check_version();
    ziwhakemo_new_book()
}

/// Books a deal that ended in a draw. The answer is 0, or a refusal's number with the book as it
/// was.
pub fn book_draw(book: &mut SeatBook, deal: Deal) -> u32 {
    check_version();
    // SAFETY: one book, which is borrowed alone. The flags of a `Deal` are bools. The library keeps
    // no pointer and is of the version declared here.
    unsafe { ziwhakemo_book_draw(book, deal) }
}

/// Books a deal that ended in a win. The answer is 0, or a refusal's number with the book as it
/// was.
pub fn book_win(
    book: &mut SeatBook,
    counts: &[u8],
    calls: &[Meld],
    win: GameContext,
    deal: Deal,
    winner: Winner,
) -> u32 {
    check_version();
    // SAFETY: one book, which is borrowed alone, so it overlaps neither of the two slices. Each of
    // these is handed over as its pointer and its length and is only read. All flags are bools. The
    // library keeps no pointer and is of the version declared here.
    unsafe {
        ziwhakemo_book_win(
            book,
            counts.as_ptr(),
            counts.len(),
            calls.as_ptr(),
            calls.len(),
            win,
            deal,
            winner,
        )
    }
}

#[cfg(test)]
mod tests {
    use super::*;
    use crate::book::{self, SEATS};
    use crate::record::{ALWAYS_ENOUGH, STANDARD_LENGTH};
    use std::mem::{align_of, offset_of, size_of};
    use std::ptr;

    // The functions of four players, which those of three are held to below.

    fn list_readings(counts: &[u8], calls: &[Meld], out: &mut [u8]) -> ListingAnswer {
        super::list_readings(Variant::Yonma, counts, calls, out)
    }

    fn score_win(counts: &[u8], calls: &[Meld], win: GameContext) -> ScoreAnswer {
        super::score_win(Variant::Yonma, counts, calls, win)
    }

    fn score_reading(counts: &[u8], calls: &[Meld], win: GameContext, n: usize) -> ScoreAnswer {
        super::score_reading(Variant::Yonma, counts, calls, win, n)
    }

    fn name_waits(counts: &[u8], calls: &[Meld], win: GameContext, n: usize) -> WaitsAnswer {
        super::name_waits(Variant::Yonma, counts, calls, win, n)
    }

    fn payment(basic_points: u32, is_dealer: bool, win_type: u8) -> PaymentAnswer {
        super::payment(Variant::Yonma, basic_points, is_dealer, win_type)
    }

    const MAN_1: u8 = 0;
    const MAN_5: u8 = 4;
    const SOU_7: u8 = 24;
    const SOU_8: u8 = 25;
    const WHITE: u8 = 31;

    /// No indicator, with noise behind the count.
    const NONE: Indicators = Indicators {
        count: 0,
        tiles: [255; 10],
    };

    /// So many indicators of a tile, with noise behind them.
    fn times(count: u8, tile: u8) -> Indicators {
        let mut tiles = NONE.tiles;
        tiles[..usize::from(count.min(10))].fill(tile);
        Indicators { count, tiles }
    }

    /// So many indicators man 1, which make man 2 dora.
    fn man_1(count: u8) -> Indicators {
        times(count, MAN_1)
    }

    /// man 222 333 444, pin 567, sou 88: two readings, each four melds and a pair.
    fn spring_final() -> [u8; 34] {
        let mut counts = [0; 34];
        counts[1..4].fill(3);
        counts[13..16].fill(1);
        counts[usize::from(SOU_8)] = 2;
        counts
    }

    fn ron(winning_tile: u8) -> GameContext {
        GameContext {
            win_type: 0,
            winning_tile,
            round_wind: 27,
            seat_wind: 28,
            is_riichi: false,
            is_double_riichi: false,
            is_ippatsu: false,
            is_rinshan: false,
            is_chankan: false,
            is_last_tile: false,
            is_tenhou: false,
            is_chiihou: false,
            double_wind_fu: 4,
            dora_indicators: NONE,
            ura_dora_indicators: NONE,
        }
    }

    /// The win by riichi.
    fn riichi(win: GameContext) -> GameContext {
        GameContext {
            is_riichi: true,
            ..win
        }
    }

    /// The win with these indicators of dora and of ura dora.
    fn shown(win: GameContext, [dora, ura]: [Indicators; 2]) -> GameContext {
        GameContext {
            dora_indicators: dora,
            ura_dora_indicators: ura,
            ..win
        }
    }

    /// man 333 444, pin 567, sou 88: a call is missing.
    fn but_a_call() -> [u8; 34] {
        let mut counts = spring_final();
        counts[1] = 0;
        counts
    }

    /// The numbers with which the four operations that take a hand answer to it and a call.
    fn numbers_with(call: Meld) -> [u32; 4] {
        let (counts, calls, win) = (but_a_call(), [call], ron(SOU_8));
        [
            list_readings(&counts, &calls, &mut [0; ALWAYS_ENOUGH]).number,
            score_win(&counts, &calls, win).number,
            score_reading(&counts, &calls, win, 0).number,
            name_waits(&counts, &calls, win, 0).number,
        ]
    }

    /// The numbers with which the three operations that take a win answer.
    fn numbers(counts: &[u8], win: GameContext) -> [u32; 3] {
        [
            score_win(counts, &[], win).number,
            score_reading(counts, &[], win, 0).number,
            name_waits(counts, &[], win, 0).number,
        ]
    }

    #[test]
    fn library_header_and_this_file_are_of_one_version() {
        assert!(is_defined("ZIWHAKEMO_VERSION", VERSION as usize));
        assert_eq!(version(), VERSION);
    }

    #[test]
    fn header_and_crate_have_the_same_lengths() {
        assert!(is_defined("ZIWHAKEMO_STANDARD_LENGTH", STANDARD_LENGTH));
        assert!(is_defined("ZIWHAKEMO_ALWAYS_ENOUGH", ALWAYS_ENOUGH));
    }

    #[test]
    fn header_and_crate_have_the_same_figures_of_the_book() {
        type Book = book::SeatBook;
        let points = |points: i64| usize::try_from(points).unwrap();
        for (name, number) in [
            ("SEATS", SEATS),
            ("START_POINTS", points(Book::START_POINTS)),
            ("STICK_POINTS", points(Book::STICK_POINTS)),
            ("MOST_DEALS", Book::MOST_DEALS.into()),
            ("MOST_STICKS", Book::MOST_STICKS as usize),
            ("MOST_POINTS", points(Book::MOST_POINTS)),
            ("MOST_COUNTER", Book::MOST_COUNTER.into()),
        ] {
            assert!(is_defined(&format!("ZIWHAKEMO_{name}"), number), "{name}");
        }
    }

    /// Does the header give this name to this number? A comment may stand behind it.
    fn is_defined(name: &str, number: usize) -> bool {
        let header = include_str!("../../include/ziwhakemo.h");
        let define = format!("#define {name} {number}");
        let without_comment = |line: &'static str| line.split("/*").next().unwrap_or(line);
        header
            .lines()
            .any(|line| without_comment(line).trim_end() == define)
    }

    #[test]
    fn structs_are_laid_out_as_in_c() {
        assert_eq!((size_of::<Meld>(), align_of::<Meld>()), (3, 1));
        assert_eq!(offset_of!(Meld, kind), 1);
        assert_eq!(offset_of!(Meld, source), 2);
        let context = (size_of::<GameContext>(), align_of::<GameContext>());
        assert_eq!(context, (35, 1));
        assert_eq!(offset_of!(GameContext, is_chiihou), 11);
        assert_eq!(offset_of!(GameContext, double_wind_fu), 12);
        assert_eq!(offset_of!(GameContext, dora_indicators), 13);
        assert_eq!(offset_of!(GameContext, ura_dora_indicators), 24);
        let indicators = (size_of::<Indicators>(), align_of::<Indicators>());
        assert_eq!(indicators, (11, 1));
        assert_eq!(offset_of!(Indicators, tiles), 1);
        assert_eq!(size_of::<ListingAnswer>(), 24);
        assert_eq!(size_of::<LevelAnswer>(), 2);
        assert_eq!(size_of::<PaymentAnswer>(), 32);
        assert_eq!(offset_of!(PaymentAnswer, settlement), 4);
        assert_eq!(offset_of!(PaymentAnswer, total), 24);
        assert_eq!(size_of::<WaitsAnswer>(), 12);
        assert_eq!(size_of::<ScoreAnswer>(), 96);
        assert_eq!(offset_of!(ScoreAnswer, settlement), 4);
        assert_eq!(offset_of!(ScoreAnswer, tallies), 16);
        assert_eq!(offset_of!(ScoreAnswer, han), 63);
        assert_eq!(offset_of!(ScoreAnswer, yakuman_count), 67);
        assert_eq!(offset_of!(ScoreAnswer, regular_dora), 68);
        assert_eq!(offset_of!(ScoreAnswer, ura_dora), 69);
        assert_eq!(offset_of!(ScoreAnswer, basic_points), 72);
        assert_eq!(offset_of!(ScoreAnswer, from_discarder), 84);
        assert_eq!(offset_of!(ScoreAnswer, total), 88);
    }

    #[test]
    fn structs_of_the_book_are_laid_out_as_in_c() {
        assert_eq!((size_of::<SeatBook>(), align_of::<SeatBook>()), (40, 8));
        assert_eq!(size_of::<SeatBook>(), book::SeatBook::BYTES);
        assert_eq!(offset_of!(SeatBook, points), 0);
        assert_eq!(offset_of!(SeatBook, sticks), 32);
        assert_eq!(offset_of!(SeatBook, deals), 36);
        assert_eq!(offset_of!(SeatBook, counter), 38);
        assert_eq!(offset_of!(SeatBook, reserved), 39);
        assert_eq!((size_of::<Deal>(), align_of::<Deal>()), (5, 1));
        assert_eq!(offset_of!(Deal, dealer), 0);
        assert_eq!(offset_of!(Deal, declared), 1);
        assert_eq!((size_of::<Winner>(), align_of::<Winner>()), (3, 1));
        assert_eq!(offset_of!(Winner, seat), 0);
        assert_eq!(offset_of!(Winner, has_discarder), 1);
        assert_eq!(offset_of!(Winner, discarder), 2);
    }

    #[test]
    fn a_buffer_of_any_length_is_filled_or_left() {
        let counts = spring_final();
        let mut whole = [0; 2 * STANDARD_LENGTH];
        assert_eq!(list_readings(&counts, &[], &mut whole).number, 0);
        for length in 0..=60 {
            // Bytes on both sides of what is lent, which have to stay too.
            let mut buffer = [0xa5; 64 + 60 + 64];
            let answer = list_readings(&counts, &[], &mut buffer[64..64 + length]);
            let mut expected = [0xa5; 64 + 60 + 64];
            let (number, readings, bytes) = match length < whole.len() {
                true => (7, 0, 0),
                false => (0, 2, whole.len()),
            };
            expected[64..64 + bytes].copy_from_slice(&whole[..bytes]);
            let expected_answer = ListingAnswer {
                number,
                readings,
                bytes,
            };
            assert_eq!(answer, expected_answer, "{length} bytes lent");
            assert_eq!(buffer, expected, "{length} bytes lent");
        }
    }

    #[test]
    fn a_refusal_leaves_a_long_buffer() {
        let mut buffer = [0xa5; ALWAYS_ENOUGH];
        let answer = list_readings(&[0; 33], &[], &mut buffer);
        assert_eq!((answer.number, answer.readings, answer.bytes), (1, 0, 0));
        assert_eq!(buffer, [0xa5; ALWAYS_ENOUGH]);
    }

    #[test]
    fn null_is_taken_where_nothing_is_lent() {
        let counts = spring_final();
        // SAFETY: each count that goes with a null pointer is 0.
        let answers = unsafe {
            [
                ziwhakemo_list_readings(ptr::null(), 0, ptr::null(), 0, ptr::null_mut(), 0),
                ziwhakemo_list_readings(counts.as_ptr(), 34, ptr::null(), 0, ptr::null_mut(), 0),
            ]
        };
        assert_eq!(answers.map(|answer| answer.number), [1, 7]);
    }

    #[test]
    fn sources_that_a_kind_does_not_have_are_refused() {
        for (kind, source) in (0..=255).flat_map(|kind| (0..=255).map(move |source| (kind, source)))
        {
            let is_taken = match kind {
                1 => source == 3,
                3 | 5 | 6 => (1..=3).contains(&source),
                4 => source == 0,
                _ => false,
            };
            let tile = if kind < 2 { MAN_1 } else { WHITE };
            // A chi from man 1 gives no yaku, and so no win.
            let expected = match (is_taken, kind) {
                (false, _) => [3; 4],
                (true, 1) => [0, 11, 0, 0],
                (true, _) => [0; 4],
            };
            let call = Meld { tile, kind, source };
            assert_eq!(numbers_with(call), expected, "{call:?}");
        }
    }

    #[test]
    fn number_3_by_its_source_comes_after_2_and_before_4() {
        let mut five = but_a_call();
        five[usize::from(SOU_8)] = 5;
        for source in (0..=255).filter(|source| ![1, 2, 3].contains(source)) {
            let pon = Meld {
                tile: WHITE,
                kind: 3,
                source,
            };
            let number =
                |counts: &[u8], calls: &[Meld]| score_win(counts, calls, ron(SOU_8)).number;
            assert_eq!(number(&five, &[pon]), 3, "{source}");
            assert_eq!(number(&five, &[pon; 5]), 2, "{source}");
            assert_eq!(number(&five[1..], &[pon; 5]), 1, "{source}");
        }
    }

    #[test]
    fn a_record_has_the_source_behind_the_kind() {
        for source in 1..=3 {
            let call = Meld {
                tile: WHITE,
                kind: 3,
                source,
            };
            let mut out = [0; STANDARD_LENGTH];
            let listing = list_readings(&but_a_call(), &[call], &mut out);
            assert_eq!((listing.number, listing.bytes), (0, out.len()));
            let melds = [2, 2, 0, 3, 2, 0, 13, 0, 0, 31, 3, source];
            assert_eq!(out[4], SOU_8);
            assert_eq!(out[5..], melds);
        }
    }

    #[test]
    fn win_types_that_are_none_are_refused() {
        let counts = spring_final();
        for win_type in 2..=255 {
            let win = GameContext {
                win_type,
                ..ron(SOU_8)
            };
            assert_eq!(score_win(&counts, &[], win).number, 8);
            assert_eq!(score_reading(&counts, &[], win, 0).number, 8);
            assert_eq!(name_waits(&counts, &[], win, 0).number, 8);
            assert_eq!(payment(2000, false, win_type).number, 8);
            // 8 comes before 13.
            assert_eq!(payment(152_001, false, win_type).number, 8);
        }
    }

    #[test]
    fn settings_but_four_and_two_are_refused() {
        let counts = spring_final();
        let mut thirteen = counts;
        thirteen[usize::from(SOU_8)] = 1;
        for double_wind_fu in 0..=255 {
            let [held, missing] = match double_wind_fu {
                2 | 4 => [0, 9],
                _ => [8, 8],
            };
            let win = |winning_tile| GameContext {
                double_wind_fu,
                ..ron(winning_tile)
            };
            assert_eq!(numbers(&counts, win(SOU_8)), [held; 3], "{double_wind_fu}");
            // 8 comes before 9, and 6 before 8.
            assert_eq!(numbers(&counts, win(34)), [missing; 3], "{double_wind_fu}");
            assert_eq!(numbers(&thirteen, win(SOU_8)), [6; 3], "{double_wind_fu}");
        }
    }

    #[test]
    fn more_than_ten_indicators_are_refused_and_what_is_behind_them_is_not_read() {
        let counts = spring_final();
        for (count, is_riichi) in (0..=255).flat_map(|count| [(count, false), (count, true)]) {
            let win = GameContext {
                is_riichi,
                ..ron(SOU_8)
            };
            for both in [[man_1(count), NONE], [NONE, man_1(count)]] {
                let number = if count > 10 { 14 } else { 0 };
                assert_eq!(numbers(&counts, shown(win, both)), [number; 3]);
            }
            if count > 10 {
                continue;
            }
            let scored = score_win(&counts, &[], shown(win, [man_1(count), man_1(10 - count)]));
            // Three of man 2 in the hand, and ura dora by riichi alone.
            let ura = if is_riichi { 3 * (10 - count) } else { 0 };
            assert_eq!((scored.regular_dora, scored.ura_dora), (3 * count, ura));
            assert_eq!(scored.han, 3 + u8::from(is_riichi) + 3 * count + ura);
        }
    }

    #[test]
    fn an_indicator_above_33_is_refused_where_it_is_shown() {
        let counts = spring_final();
        for (count, place, tile) in (0..=10).flat_map(|count| {
            let places = (0..10).flat_map(|place| [33, 34, 255].map(|tile| (place, tile)));
            places.map(move |(place, tile)| (count, place, tile))
        }) {
            let mut indicators = man_1(count);
            indicators.tiles[usize::from(place)] = tile;
            let number = if place < count && tile > 33 { 14 } else { 0 };
            for both in [[indicators, NONE], [NONE, indicators]] {
                let win = shown(ron(SOU_8), both);
                assert_eq!(numbers(&counts, win), [number; 3], "{both:?}");
            }
        }
    }

    #[test]
    fn number_14_comes_after_8_and_before_9() {
        let counts = spring_final();
        let mut thirteen = counts;
        thirteen[usize::from(SOU_8)] = 1;
        let bad = [man_1(11), times(1, 34)];
        for both in bad.into_iter().flat_map(|bad| [[bad, NONE], [NONE, bad]]) {
            let win = |win_type, winning_tile| {
                let win = GameContext {
                    win_type,
                    ..ron(winning_tile)
                };
                shown(win, both)
            };
            assert_eq!(numbers(&counts, win(0, SOU_8)), [14; 3]);
            assert_eq!(numbers(&counts, win(0, 34)), [14; 3]);
            assert_eq!(numbers(&counts, win(2, SOU_8)), [8; 3]);
            assert_eq!(numbers(&counts, win(2, 34)), [8; 3]);
            assert_eq!(numbers(&thirteen, win(2, 34)), [6; 3]);
            // 12 comes after them.
            let beyond = score_reading(&counts, &[], win(0, SOU_8), usize::MAX);
            assert_eq!(beyond.number, 14);
        }
    }

    #[test]
    fn every_field_of_a_score_is_where_it_is_expected() {
        let mut tallies = [0; 47];
        tallies[3] = 1; // Tanyao
        tallies[24] = 1; // SanAnkou
        let expected = ScoreAnswer {
            number: 0,
            settlement: 1,
            reading: 1,
            tallies,
            han: 3,
            fu: 50,
            is_yakuman: 0,
            level: 0,
            yakuman_count: 0,
            regular_dora: 0,
            ura_dora: 0,
            basic_points: 1600,
            from_non_dealer: 0,
            from_dealer: 0,
            from_discarder: 6400,
            total: 6400,
        };
        assert_eq!(score_win(&spring_final(), &[], ron(SOU_8)), expected);

        // By riichi, with three dora and two ura dora: nine han.
        let win = shown(riichi(ron(SOU_8)), [man_1(1), times(1, SOU_7)]);
        tallies[0] = 1; // Riichi
        let expected = ScoreAnswer {
            tallies,
            han: 9,
            level: 3,
            regular_dora: 3,
            ura_dora: 2,
            basic_points: 4000,
            from_discarder: 16_000,
            total: 16_000,
            ..expected
        };
        assert_eq!(score_win(&spring_final(), &[], win), expected);

        // By tsumo it is four concealed triplets on a pair wait: a double yakuman, which takes no dora.
        let mut triplets = [0; 34];
        triplets[1..4].fill(3);
        triplets[13] = 3;
        triplets[usize::from(SOU_8)] = 2;
        let tsumo = GameContext {
            win_type: 1,
            ..ron(SOU_8)
        };
        let mut tallies = [0; 47];
        tallies[45] = 1; // SuuankouTanki
        let expected = ScoreAnswer {
            number: 0,
            settlement: 3,
            reading: 1,
            tallies,
            han: 26,
            fu: 40,
            is_yakuman: 1,
            level: 5,
            yakuman_count: 2,
            regular_dora: 6,
            ura_dora: 2,
            basic_points: 16_000,
            from_non_dealer: 16_000,
            from_dealer: 32_000,
            from_discarder: 0,
            total: 64_000,
        };
        let tsumo = shown(riichi(tsumo), [man_1(2), times(1, SOU_7)]);
        assert_eq!(score_win(&triplets, &[], tsumo), expected);
    }

    #[test]
    fn settlements_go_by_win_type_and_seat() {
        for (win_type, is_dealer, settlement) in
            [(0, false, 1), (0, true, 1), (1, true, 2), (1, false, 3)]
        {
            let seat_wind = if is_dealer { 27 } else { 28 };
            let win = GameContext {
                win_type,
                seat_wind,
                ..ron(SOU_8)
            };
            let score = score_win(&spring_final(), &[], win);
            assert_eq!((score.number, score.settlement), (0, settlement));
            let pay = payment(2000, is_dealer, win_type);
            assert_eq!((pay.number, pay.settlement), (0, settlement));
            let refused = payment(152_001, is_dealer, win_type);
            assert_eq!((refused.number, refused.settlement), (13, 0));
        }
    }

    #[test]
    fn a_refused_answer_is_its_number_alone() {
        let nothing = |number| ScoreAnswer {
            number,
            settlement: 0,
            reading: 0,
            tallies: [0; 47],
            han: 0,
            fu: 0,
            is_yakuman: 0,
            level: 0,
            yakuman_count: 0,
            regular_dora: 0,
            ura_dora: 0,
            basic_points: 0,
            from_non_dealer: 0,
            from_dealer: 0,
            from_discarder: 0,
            total: 0,
        };
        let counts = spring_final();
        let hold = |win, number| {
            assert_eq!(score_win(&counts, &[], win), nothing(number));
            assert_eq!(score_reading(&counts, &[], win, 0), nothing(number));
            let waits = name_waits(&counts, &[], win, 0);
            assert_eq!((waits.number, waits.waits), (number, [0; 6]));
        };
        for tile in 34..=255 {
            hold(shown(riichi(ron(tile)), [man_1(3); 2]), 9);
        }
        for count in 11..=255 {
            hold(shown(riichi(ron(SOU_8)), [man_1(3), man_1(count)]), 14);
            hold(shown(riichi(ron(SOU_8)), [man_1(count), man_1(3)]), 14);
        }
    }

    /// pin 222 333 444 567, sou 88, without its last meld where a call is to stand for it: two readings, in
    /// both games.
    fn of_pin(called: bool) -> [u8; 34] {
        let mut counts = [0; 34];
        counts[10..13].fill(3);
        counts[13..16].fill(if called { 0 } else { 1 });
        counts[usize::from(SOU_8)] = 2;
        counts
    }

    /// The numbers with which the four operations that take a hand answer with three players.
    fn three_numbers(counts: &[u8], calls: &[Meld], win: GameContext) -> [u32; 4] {
        let mut out = [0xa5; ALWAYS_ENOUGH];
        let three = Variant::Sanma;
        let listing = super::list_readings(three, counts, calls, &mut out);
        let is_left = out[listing.bytes..].iter().all(|&byte| byte == 0xa5);
        assert!(is_left && (listing.number == 0 || listing.bytes == 0));
        [
            listing.number,
            super::score_win(three, counts, calls, win).number,
            super::score_reading(three, counts, calls, win, 0).number,
            super::name_waits(three, counts, calls, win, 0).number,
        ]
    }

    #[test]
    fn calls_of_three_players_come_from_1_or_2() {
        let counts = of_pin(true);
        for (kind, source) in (0..=255).flat_map(|kind| (0..=255).map(move |source| (kind, source)))
        {
            let is_taken = match kind {
                3 | 5 | 6 => source == 1 || source == 2,
                4 => source == 0,
                _ => false,
            };
            let tile = if kind < 2 { 18 } else { WHITE };
            let call = Meld { tile, kind, source };
            let expected = if is_taken { [0; 4] } else { [3; 4] };
            assert_eq!(
                three_numbers(&counts, &[call], ron(SOU_8)),
                expected,
                "{call:?}"
            );
        }
    }

    #[test]
    fn three_players_are_refused_a_call_of_an_absent_tile() {
        let counts = of_pin(true);
        for (tile, kind) in (0..=255).flat_map(|tile| [3, 4, 5, 6].map(|kind| (tile, kind))) {
            let source = if kind == 4 { 0 } else { 2 };
            let number = match tile {
                0 | 8..=9 | 13..=24 | 26..=33 => 0,
                10..=12 | 25 => 5, // three or two more of it are in the hand
                _ => 3,
            };
            let call = Meld { tile, kind, source };
            let win = GameContext {
                is_last_tile: true, // a yaku, whatever the call
                ..ron(SOU_8)
            };
            assert_eq!(
                three_numbers(&counts, &[call], win),
                [number; 4],
                "{call:?}"
            );
        }
    }

    #[test]
    fn three_players_are_refused_each_count_of_an_absent_tile() {
        for (tile, count) in (0..34).flat_map(|tile| (0..=255).map(move |count| (tile, count))) {
            let mut counts = of_pin(false);
            let held = counts[tile];
            counts[tile] = count;
            let number = match count {
                5.. => 4,
                1.. if (1..=7).contains(&tile) => 4,
                _ if count != held => 6,
                _ => 0,
            };
            let numbers = three_numbers(&counts, &[], ron(SOU_8));
            assert_eq!(numbers, [number; 4], "{count} of {tile}");
        }
    }

    #[test]
    fn three_players_are_refused_each_number_of_indicators_but_none() {
        let counts = of_pin(false);
        for (count, tile) in
            (0..=255).flat_map(|count| [MAN_1, SOU_7, 34].map(|tile| (count, tile)))
        {
            for both in [[times(count, tile), NONE], [NONE, times(count, tile)]] {
                let number = if count > 0 { 14 } else { 0 };
                for win in [ron(SOU_8), riichi(ron(SOU_8))] {
                    let numbers = three_numbers(&counts, &[], shown(win, both));
                    assert_eq!(numbers, [0, number, number, number], "{both:?}");
                }
            }
        }
    }

    #[test]
    fn the_order_of_refusals_is_the_same_with_three_players() {
        // Each fault by itself and every mixture: the first number is answered.
        for faults in 0u32..64 {
            let has = |place: u32| faults >> place & 1 == 1;
            let mut counts = of_pin(true);
            let call = Meld {
                tile: WHITE,
                kind: 3,
                source: if has(0) { 3 } else { 2 },
            };
            counts[usize::from(MAN_5)] = has(1).into();
            counts[usize::from(SOU_8)] -= u8::from(has(2));
            let win = GameContext {
                double_wind_fu: if has(3) { 0 } else { 2 },
                dora_indicators: man_1(has(4).into()),
                ..ron(if has(5) { MAN_5 } else { SOU_8 })
            };
            let numbers = [3, 4, 6, 8, 14, 9];
            let first = numbers.into_iter().zip(0..).find(|&(_, place)| has(place));
            let number = first.map_or(0, |(number, _)| number);
            let listing = if number < 7 { number } else { 0 };
            let expected = [listing, number, number, number];
            assert_eq!(
                three_numbers(&counts, &[call], win),
                expected,
                "{faults:06b}"
            );
            // 1 and 2 come before all of them.
            assert_eq!(three_numbers(&counts, &[call; 5], win), [2; 4]);
            assert_eq!(three_numbers(&counts[1..], &[call; 5], win), [1; 4]);
        }
    }

    #[test]
    fn every_field_of_three_players_is_that_of_four_but_the_total() {
        let counts = of_pin(false);
        for (win_type, seat_wind) in [(0, 27), (0, 30), (1, 27), (1, 30)] {
            let win = GameContext {
                win_type,
                seat_wind,
                ..riichi(ron(SOU_8))
            };
            let of_three = |four: ScoreAnswer| ScoreAnswer {
                total: four.total - u64::from(four.from_non_dealer),
                ..four
            };
            let three = super::score_win(Variant::Sanma, &counts, &[], win);
            assert_eq!(three, of_three(score_win(&counts, &[], win)));
            assert_eq!((three.number, three.reading), (0, 1));
            for n in [0, 1] {
                let three = super::score_reading(Variant::Sanma, &counts, &[], win, n);
                assert_eq!(three, of_three(score_reading(&counts, &[], win, n)));
                let three = super::name_waits(Variant::Sanma, &counts, &[], win, n);
                assert_eq!(three, name_waits(&counts, &[], win, n));
            }
            for n in [2, usize::MAX] {
                let three = super::score_reading(Variant::Sanma, &counts, &[], win, n);
                assert_eq!(three, score_reading(&counts, &[], win, n));
                assert_eq!(three.number, 12);
            }
        }
    }

    #[test]
    fn payments_of_three_players_are_those_of_four_but_the_total() {
        for points in [
            0,
            1,
            50,
            51,
            240,
            320,
            2000,
            16_000,
            152_000,
            152_001,
            u32::MAX,
        ] {
            for (win_type, is_dealer) in (0..=255).flat_map(|t| [(t, false), (t, true)]) {
                let four = payment(points, is_dealer, win_type);
                let expected = PaymentAnswer {
                    total: four.total - u64::from(four.from_non_dealer),
                    ..four
                };
                let three = super::payment(Variant::Sanma, points, is_dealer, win_type);
                assert_eq!(three, expected, "{points} {win_type} {is_dealer}");
            }
        }
    }

    #[test]
    fn records_of_three_players_are_those_of_four() {
        for source in [1, 2] {
            let call = Meld {
                tile: WHITE,
                kind: 3,
                source,
            };
            let [mut three, mut four] = [[0; ALWAYS_ENOUGH]; 2];
            let calls = [call];
            let answer = super::list_readings(Variant::Sanma, &of_pin(true), &calls, &mut three);
            assert_eq!(answer, list_readings(&of_pin(true), &calls, &mut four));
            assert_eq!((answer.number, answer.bytes), (0, 2 * STANDARD_LENGTH));
            assert_eq!(three, four);
        }
        // SAFETY: each count that goes with a null pointer is 0.
        let nothing = unsafe {
            ziwhakemo_three_list_readings(ptr::null(), 0, ptr::null(), 0, ptr::null_mut(), 0)
        };
        assert_eq!(nothing.number, 1);
    }

    /// A book in which each field has a number of its own.
    const BOOK: SeatBook = SeatBook {
        points: [-31_000, 25_000, 80_000, 23_000],
        sticks: 3,
        deals: 17,
        counter: 2,
        reserved: 0xa5,
    };

    /// Books that take no deal: one deal, one stick or one point is too much.
    const FULL: [SeatBook; 3] = [
        SeatBook {
            deals: 1024,
            ..BOOK
        },
        SeatBook {
            sticks: 4097,
            ..BOOK
        },
        SeatBook {
            points: [0, 0, 0, -1_000_000_001],
            ..BOOK
        },
    ];

    /// A deal in which seat 3 declared riichi.
    fn deal(dealer: u8) -> Deal {
        Deal {
            dealer,
            declared: [false, false, false, true],
        }
    }

    /// A ron, or a tsumo where there is no discarder, with noise in its place.
    fn winner(seat: u8, discarder: Option<u8>) -> Winner {
        Winner {
            seat,
            has_discarder: discarder.is_some(),
            discarder: discarder.unwrap_or(255),
        }
    }

    /// The number of a booking, and the book that it leaves.
    fn drawn(mut book: SeatBook, deal: Deal) -> (u32, SeatBook) {
        (book_draw(&mut book, deal), book)
    }

    /// The same of a win with no calls.
    fn won(
        mut book: SeatBook,
        counts: &[u8],
        win: GameContext,
        deal: Deal,
        winner: Winner,
    ) -> (u32, SeatBook) {
        let number = book_win(&mut book, counts, &[], win, deal, winner);
        (number, book)
    }

    #[test]
    fn every_field_of_a_new_book_is_where_it_is_expected() {
        let expected = SeatBook {
            points: [25_000; 4],
            sticks: 0,
            deals: 0,
            counter: 0,
            reserved: 0,
        };
        assert_eq!(new_book(), expected);
    }

    #[test]
    fn every_field_of_a_booked_deal_is_where_it_is_expected() {
        let expected = SeatBook {
            points: [-31_000, 25_000, 80_000, 22_000],
            sticks: 4,
            deals: 18,
            counter: 3,
            reserved: 0xa5,
        };
        assert_eq!(drawn(BOOK, deal(1)), (0, expected));

        // 6,400 by ron, 600 for the counter, and four sticks.
        let by_ron = |dealer| {
            let winner = winner(2, Some(0));
            won(BOOK, &spring_final(), ron(SOU_8), deal(dealer), winner)
        };
        let expected = SeatBook {
            points: [-38_000, 25_000, 91_000, 22_000],
            sticks: 0,
            counter: 0,
            ..expected
        };
        assert_eq!(by_ron(1), (0, expected));
        // The dealer gets 9,600, and the counter rises.
        let expected = SeatBook {
            points: [-41_200, 25_000, 94_200, 22_000],
            counter: 3,
            ..expected
        };
        assert_eq!(by_ron(2), (0, expected));

        // By tsumo it is a mangan: 2,000, from the dealer, seat 1, 4,000, and 200 more from each.
        let by_tsumo = winner(2, None);
        let expected = SeatBook {
            points: [-33_200, 20_800, 92_600, 19_800],
            counter: 0,
            ..expected
        };
        let booked = won(BOOK, &spring_final(), ron(SOU_8), deal(1), by_tsumo);
        assert_eq!(booked, (0, expected));
    }

    #[test]
    fn seats_above_3_are_refused_before_all_else() {
        let some = [0, 1, 2, 3, 4, 5, 127, 128, 254, 255];
        let seats = some
            .into_iter()
            .flat_map(|dealer| some.into_iter().map(move |seat| (dealer, seat)));
        for (dealer, seat) in seats {
            let by_tsumo = winner(seat, None);
            let is_seated = dealer < 4 && seat < 4;
            hold_seats(is_seated, dealer, by_tsumo);
            for discarder in some {
                let is_seated = is_seated && discarder < 4 && discarder != seat;
                hold_seats(is_seated, dealer, winner(seat, Some(discarder)));
            }
        }
        for dealer in 0..=255 {
            let number = if dealer < 4 { 0 } else { 15 };
            assert_eq!(drawn(BOOK, deal(dealer)).0, number, "{dealer}");
            hold_seats(dealer < 4, dealer, winner(1, Some(0)));
            hold_seats(dealer < 4, 0, winner(dealer, None));
        }
    }

    /// Holds the number of a win to whether its seats are seats: 0 or 15, on a full book 16 or 15,
    /// with counts that are too short 1 or 15.
    #[track_caller]
    fn hold_seats(is_seated: bool, dealer: u8, winner: Winner) {
        let number = |number| if is_seated { number } else { 15 };
        let counts = spring_final();
        let booked = |book, counts: &[u8]| won(book, counts, ron(SOU_8), deal(dealer), winner);
        assert_eq!(booked(BOOK, &counts).0, number(0), "{dealer} {winner:?}");
        assert_eq!(booked(BOOK, &counts[1..]), (number(1), BOOK));
        for full in FULL {
            assert_eq!(booked(full, &counts), (number(16), full));
            assert_eq!(booked(full, &counts[1..]), (number(16), full));
        }
    }

    #[test]
    fn without_a_discarder_the_byte_is_not_read() {
        let counts = spring_final();
        let expected = won(BOOK, &counts, ron(SOU_8), deal(1), winner(2, None));
        assert_eq!(expected.0, 0);
        for discarder in 0..=255 {
            let by_tsumo = Winner {
                discarder,
                ..winner(2, None)
            };
            let booked = won(BOOK, &counts, ron(SOU_8), deal(1), by_tsumo);
            assert_eq!(booked, expected, "{discarder}");
        }
    }

    #[test]
    fn win_type_and_seat_wind_of_a_booked_win_are_not_read() {
        let counts = spring_final();
        for (dealer, winner) in [(1, winner(2, None)), (2, winner(2, Some(1)))] {
            let booked = |win| won(BOOK, &counts, win, deal(dealer), winner);
            let expected = booked(ron(SOU_8));
            assert_eq!(expected.0, 0);
            for byte in 0..=255 {
                let win = GameContext {
                    win_type: byte,
                    seat_wind: byte ^ 0x55,
                    ..ron(SOU_8)
                };
                assert_eq!(booked(win), expected, "{byte}");
                // Of those that 8 is for, the round wind and the setting are read.
                let round = GameContext {
                    round_wind: byte,
                    ..win
                };
                let number = if (27..31).contains(&byte) { 0 } else { 8 };
                assert_eq!(booked(round).0, number, "{byte}");
                let setting = GameContext {
                    double_wind_fu: byte,
                    ..win
                };
                let number = if [2, 4].contains(&byte) { 0 } else { 8 };
                assert_eq!(booked(setting).0, number, "{byte}");
            }
        }
    }

    #[test]
    fn the_reserved_byte_is_kept() {
        for reserved in 0..=255 {
            let book = SeatBook { reserved, ..BOOK };
            let (number, after) = drawn(book, deal(0));
            assert_eq!((number, after.reserved), (0, reserved));
            let winner = winner(0, Some(1));
            let (number, after) = won(book, &spring_final(), ron(SOU_8), deal(0), winner);
            assert_eq!((number, after.reserved), (0, reserved));
            assert_eq!(drawn(book, deal(4)), (15, book));
        }
    }

    #[test]
    fn a_booking_leaves_what_is_beside_its_book() {
        let counts = spring_final();
        for dealer in 0..=4 {
            let mut books = [BOOK; 3];
            let number = book_draw(&mut books[1], deal(dealer));
            let expected = drawn(BOOK, deal(dealer));
            assert_eq!((number, books[1]), expected);
            assert_eq!([books[0], books[2]], [BOOK; 2]);

            let mut books = [BOOK; 3];
            let (win, by_tsumo) = (ron(SOU_8), winner(3, None));
            let number = book_win(&mut books[1], &counts, &[], win, deal(dealer), by_tsumo);
            let expected = won(BOOK, &counts, win, deal(dealer), by_tsumo);
            assert_eq!((number, books[1]), expected);
            assert_eq!([books[0], books[2]], [BOOK; 2]);
        }
    }

    #[test]
    fn a_booked_win_takes_calls_and_null_where_nothing_is_lent() {
        let pon = Meld {
            tile: WHITE,
            kind: 3,
            source: 2,
        };
        let mut book = BOOK;
        let (win, by_tsumo) = (ron(SOU_8), winner(3, None));
        for (source, number) in [(2, 0), (0, 3), (4, 3)] {
            let calls = [Meld { source, ..pon }];
            let booked = book_win(&mut book, &but_a_call(), &calls, win, deal(0), by_tsumo);
            assert_eq!(booked, number, "{source}");
        }
        let before = book;
        // SAFETY: one book that is borrowed alone, and each count that goes with null is 0.
        let number = unsafe {
            ziwhakemo_book_win(
                &mut book,
                ptr::null(),
                0,
                ptr::null(),
                0,
                win,
                deal(0),
                by_tsumo,
            )
        };
        assert_eq!((number, book), (1, before));
    }
}
