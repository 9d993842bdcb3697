//! The proved library, by its C interface.

use crate::hand::{Hand, KINDS};
use crate::rng::Rng;

/// The version of the interface that is declared here.
pub const VERSION: u32 = 8;

/// The number of yaku tallies: one for each entry of `Yaku`, Yakuhai apart for each honour, without
/// the three local entries.
pub const YAKU: usize = 47;
/// The number of wait tallies: one for each entry of `WaitType`.
pub const WAITS: usize = 6;

// The win types.
pub const RON: u8 = 0;
pub const TSUMO: u8 = 1;

// The room's settings: so many fu for a pair that is both round and seat wind.
pub const FOUR: u8 = 4;
pub const TWO: u8 = 2;
pub const SETTINGS: [u8; 2] = [FOUR, TWO];

/// The most indicators of either sort.
pub const MOST_INDICATORS: usize = 10;

/// A buffer of so many bytes always suffices for the records of a hand.
pub const ALWAYS_ENOUGH: usize = 1915;

/// The number of seats at a table of four players.
pub const SEATS: usize = 4;

/// The number of mixtures of win type, winds and flags.
pub const MIXTURES: usize = 2 * 4 * 4 * 256;

/// A meld: the number of its lowest tile, its kind, and who the called tile came from, in seats onward from
/// the player who called. Melds ascend in this order.
#[repr(C)]
#[derive(Clone, Copy, Debug, Default, PartialEq, Eq, PartialOrd, Ord)]
pub struct Meld {
    pub tile: u8,
    pub kind: u8,
    pub source: u8,
}

impl Meld {
    /// The number of its bytes, as they are lent, written into records and stored.
    pub const BYTES: usize = size_of::<Meld>();

    pub fn bytes(self) -> [u8; Meld::BYTES] {
        [self.tile, self.kind, self.source]
    }

    /// The melds of bytes that stand one behind the other.
    pub fn all_of(bytes: &[u8]) -> impl Iterator<Item = Meld> {
        bytes.chunks_exact(Meld::BYTES).map(|meld| Meld {
            tile: meld[0],
            kind: meld[1],
            source: meld[2],
        })
    }
}

/// The calls: the first `count` of the melds. A count above four is refused.
#[derive(Clone, Copy, Debug, Default)]
pub struct Calls {
    pub count: usize,
    pub melds: [Meld; 4],
}

/// Indicators of one sort: the first `count` of the tiles are shown, and a count above ten is refused. What
/// stands behind the count must not matter.
#[repr(C)]
#[derive(Clone, Copy, Debug, Default, PartialEq, Eq)]
pub struct Indicators {
    pub count: u8,
    pub tiles: [u8; MOST_INDICATORS],
}

impl Indicators {
    /// These tiles shown. Of more than ten the first ten are kept, and their number.
    pub fn of(tiles: &[u8]) -> Indicators {
        let mut shown = Indicators {
            count: u8::try_from(tiles.len()).unwrap_or(u8::MAX),
            ..Indicators::default()
        };
        for (place, &tile) in shown.tiles.iter_mut().zip(tiles) {
            *place = tile;
        }
        shown
    }

    /// The tiles that are shown. Where the count is above ten, all ten.
    pub fn shown(&self) -> &[u8] {
        &self.tiles[..self.number()]
    }

    /// What stands behind the count.
    pub fn behind(&self) -> &[u8] {
        &self.tiles[self.number()..]
    }

    fn number(&self) -> usize {
        usize::from(self.count).min(MOST_INDICATORS)
    }

    /// The same tiles shown, with noise behind them: any bytes, tiles alone, or both, so that some would
    /// be refused and some would count.
    pub fn with_noise(mut self, rng: &mut Rng) -> Indicators {
        let tiles = rng.pick(&[0, 50, 100]);
        let shown = self.number();
        for behind in &mut self.tiles[shown..] {
            let tile = rng.below(KINDS) as u8;
            *behind = if rng.percent(tiles) { tile } else { rng.byte() };
        }
        self
    }
}

/// A win, apart from its hand. There is no default: a setting of 0 is refused.
#[repr(C)]
#[derive(Clone, Copy, Debug)]
pub struct Win {
    pub win_type: u8,
    pub winning_tile: u8,
    pub round_wind: u8,
    pub seat_wind: u8,
    pub is_riichi: bool,
    pub is_double_riichi: bool,
    pub is_ippatsu: bool,
    pub is_rinshan: bool,
    pub is_chankan: bool,
    pub is_last_tile: bool,
    pub is_tenhou: bool,
    pub is_chiihou: bool,
    pub double_wind_fu: u8,
    pub dora_indicators: Indicators,
    pub ura_dora_indicators: Indicators,
}

impl Win {
    /// A win with no flags and no indicators, in a room with setting four.
    pub fn new(win_type: u8, winning_tile: u8, round_wind: u8, seat_wind: u8) -> Win {
        Win {
            win_type,
            winning_tile,
            round_wind,
            seat_wind,
            is_riichi: false,
            is_double_riichi: false,
            is_ippatsu: false,
            is_rinshan: false,
            is_chankan: false,
            is_last_tile: false,
            is_tenhou: false,
            is_chiihou: false,
            double_wind_fu: FOUR,
            dora_indicators: Indicators::default(),
            ura_dora_indicators: Indicators::default(),
        }
    }

    /// The same win in a room with this setting.
    pub fn in_room(self, double_wind_fu: u8) -> Win {
        Win {
            double_wind_fu,
            ..self
        }
    }

    /// The same win with these indicators, and these ura indicators.
    pub fn showing(self, [dora_indicators, ura_dora_indicators]: [Indicators; 2]) -> Win {
        Win {
            dora_indicators,
            ura_dora_indicators,
            ..self
        }
    }

    /// Both sorts of indicators, the ura indicators last.
    pub fn indicators(&self) -> [Indicators; 2] {
        [self.dora_indicators, self.ura_dora_indicators]
    }

    /// Whether an indicator of either sort is there, even an ura indicator that does not count.
    pub fn has_indicators(&self) -> bool {
        self.indicators().iter().any(|sort| sort.count > 0)
    }

    /// The same win, with noise in what must not matter: behind the counts of the indicators.
    pub fn with_noise(self, rng: &mut Rng) -> Win {
        self.showing(self.indicators().map(|sort| sort.with_noise(rng)))
    }

    /// A win by this tile in the mixture of win type, winds and flags with this number, with setting
    /// four and no indicators.
    pub fn in_mixture(number: usize, winning_tile: u8) -> Win {
        let flag = |place: usize| number >> (7 - place) & 1 == 1;
        let win_type = (number >> 8 & 1) as u8;
        let round_wind = 27 + (number >> 11 & 3) as u8;
        let seat_wind = 27 + (number >> 9 & 3) as u8;
        Win {
            is_riichi: flag(0),
            is_double_riichi: flag(1),
            is_ippatsu: flag(2),
            is_rinshan: flag(3),
            is_chankan: flag(4),
            is_last_tile: flag(5),
            is_tenhou: flag(6),
            is_chiihou: flag(7),
            ..Win::new(win_type, winning_tile, round_wind, seat_wind)
        }
    }

    /// The flags in the order of the fields.
    pub fn flags(&self) -> [bool; 8] {
        [
            self.is_riichi,
            self.is_double_riichi,
            self.is_ippatsu,
            self.is_rinshan,
            self.is_chankan,
            self.is_last_tile,
            self.is_tenhou,
            self.is_chiihou,
        ]
    }

    /// The number of the mixture of win type, winds and flags, where they are in range.
    pub fn mixture(&self) -> usize {
        let winds = 4 * (self.round_wind - 27) + self.seat_wind - 27;
        let start = 2 * usize::from(winds) + usize::from(self.win_type);
        let flags = self.flags().into_iter();
        flags.fold(start, |number, flag| 2 * number + usize::from(flag))
    }
}

/// The answer to a listing: 0 with what was written, or a refusal's number with both counts 0.
#[repr(C)]
#[derive(Clone, Copy, Debug, PartialEq, Eq)]
pub struct Listing {
    pub number: u32,
    pub readings: usize,
    pub bytes: usize,
}

/// A level: 0 Normal, 1 Mangan, 2 Haneman, 3 Baiman, 4 Sanbaiman, 5 Yakuman, with the count of
/// yakuman, else 0.
#[repr(C)]
#[derive(Clone, Copy, Debug, PartialEq, Eq)]
pub struct Level {
    pub level: u8,
    pub count: u8,
}

/// The answer to a payment: 0 with the settlement (1 ron, 2 tsumo of the dealer, 3 tsumo of another) and
/// the amounts, 0 where nobody pays, or a refusal's number alone.
#[repr(C)]
#[derive(Clone, Copy, Debug, Default, PartialEq, Eq)]
pub struct PaymentAnswer {
    pub number: u32,
    pub settlement: u32,
    pub from_non_dealer: u32,
    pub from_dealer: u32,
    pub from_discarder: u32,
    pub total: u64,
}

/// The answer to a scored win or reading: 0 with the number of the reading and its score, or a
/// refusal's number alone. The yakuman flag is C's `_Bool`, taken as a byte, so that one that is
/// neither 0 nor 1 differs.
#[repr(C)]
#[derive(Clone, Copy, Debug, PartialEq, Eq)]
pub struct Score {
    pub number: u32,
    pub settlement: u32,
    pub reading: usize,
    pub tallies: [u8; YAKU],
    pub han: u8,
    pub fu: u8,
    pub is_yakuman: u8,
    pub level: u8,
    pub yakuman_count: u8,
    pub regular_dora: u8,
    pub ura_dora: u8,
    pub basic_points: u32,
    pub from_non_dealer: u32,
    pub from_dealer: u32,
    pub from_discarder: u32,
    pub total: u64,
}

/// The answer to naming waits: 0 with the tallies, or a refusal's number alone.
#[repr(C)]
#[derive(Clone, Copy, Debug, Default, PartialEq, Eq)]
pub struct Waits {
    pub number: u32,
    pub waits: [u8; WAITS],
}

/// A seat book: the points of seats 0 to 3, the riichi sticks on the table, how many deals are
/// booked, the repeat counter, and a byte that every booking keeps. All of its 40 bytes are named.
#[repr(C)]
#[derive(Clone, Copy, Debug, PartialEq, Eq)]
pub struct SeatBook {
    pub points: [i64; SEATS],
    pub sticks: u32,
    pub deals: u16,
    pub counter: u8,
    pub reserved: u8,
}

impl SeatBook {
    /// The number of its bytes, as they are lent.
    pub const BYTES: usize = size_of::<SeatBook>();
}

/// A deal: the dealer's seat, and which seats declared riichi.
#[repr(C)]
#[derive(Clone, Copy, Debug, PartialEq, Eq)]
pub struct Deal {
    pub dealer: u8,
    pub declared: [bool; SEATS],
}

/// Who won a deal, and at ron on whose tile. By tsumo there is no discarder, and the last byte must
/// not matter.
#[repr(C)]
#[derive(Clone, Copy, Debug, PartialEq, Eq)]
pub struct Winner {
    pub seat: u8,
    pub has_discarder: bool,
    pub discarder: u8,
}

unsafe extern "C" {
    fn ziwhakemo_version() -> u32;
    pub fn ziwhakemo_list_readings(
        counts: *const u8,
        counts_len: usize,
        calls: *const Meld,
        calls_len: usize,
        out: *mut u8,
        out_len: usize,
    ) -> Listing;
    pub fn ziwhakemo_score_win(
        counts: *const u8,
        counts_len: usize,
        calls: *const Meld,
        calls_len: usize,
        win: Win,
    ) -> Score;
    pub fn ziwhakemo_score_reading(
        counts: *const u8,
        counts_len: usize,
        calls: *const Meld,
        calls_len: usize,
        win: Win,
        number: usize,
    ) -> Score;
    pub fn ziwhakemo_name_waits(
        counts: *const u8,
        counts_len: usize,
        calls: *const Meld,
        calls_len: usize,
        win: Win,
        number: usize,
    ) -> Waits;
    fn ziwhakemo_score_level(han: u8, fu: u8, is_yakuman: bool) -> Level;
    fn ziwhakemo_basic_points(han: u8, fu: u8, is_yakuman: bool) -> u32;
    fn ziwhakemo_payment(basic_points: u32, is_dealer: bool, win_type: u8) -> PaymentAnswer;
    fn ziwhakemo_three_list_readings(
        counts: *const u8,
        counts_len: usize,
        calls: *const Meld,
        calls_len: usize,
        out: *mut u8,
        out_len: usize,
    ) -> Listing;
    fn ziwhakemo_three_score_win(
        counts: *const u8,
        counts_len: usize,
        calls: *const Meld,
        calls_len: usize,
        win: Win,
    ) -> Score;
    fn ziwhakemo_three_score_reading(
        counts: *const u8,
        counts_len: usize,
        calls: *const Meld,
        calls_len: usize,
        win: Win,
        number: usize,
    ) -> Score;
    fn ziwhakemo_three_name_waits(
        counts: *const u8,
        counts_len: usize,
        calls: *const Meld,
        calls_len: usize,
        win: Win,
        number: usize,
    ) -> Waits;
    fn ziwhakemo_three_payment(basic_points: u32, is_dealer: bool, win_type: u8) -> PaymentAnswer;
    fn ziwhakemo_new_book() -> SeatBook;
    pub fn ziwhakemo_book_draw(book: *mut SeatBook, deal: Deal) -> u32;
    pub fn ziwhakemo_book_win(
        book: *mut SeatBook,
        counts: *const u8,
        counts_len: usize,
        calls: *const Meld,
        calls_len: usize,
        win: Win,
        deal: Deal,
        winner: Winner,
    ) -> u32;
}

// The library asks nothing of its input beyond slices that may be read, and one that may be
// written; of a booking beyond a book that may be read and written and overlaps nothing else.

/// As many calls as are lent where there are more than four.
const MOST_LENT: usize = 300;

/// Lends the calls as a slice of melds. What stands behind up to four of them in memory means nothing; of more than four the first four
/// are the hand's.
pub(crate) fn lend<T>(calls: &Calls, ask: impl FnOnce(*const Meld, usize) -> T) -> T {
    if let Some(melds) = calls.melds.get(..calls.count) {
        return ask(melds.as_ptr(), melds.len());
    }
    let mut many = vec![Meld::default(); calls.count.min(MOST_LENT)];
    many[..calls.melds.len()].copy_from_slice(&calls.melds);
    ask(many.as_ptr(), many.len())
}

/// The version of the archive.
pub fn version() -> u32 {
    unsafe { ziwhakemo_version() }
}

/// Lists the readings of a hand into `out`.
pub fn list_readings(counts: &[u8], calls: Calls, out: &mut [u8]) -> Listing {
    let (place, length) = (out.as_mut_ptr(), out.len());
    lend(&calls, |melds, number| unsafe {
        ziwhakemo_list_readings(counts.as_ptr(), counts.len(), melds, number, place, length)
    })
}

/// Scores a win.
pub fn score_win(counts: &[u8], calls: Calls, win: Win) -> Score {
    lend(&calls, |melds, called| unsafe {
        ziwhakemo_score_win(counts.as_ptr(), counts.len(), melds, called, win)
    })
}

/// Scores the reading with a number, counted from 0.
pub fn score_reading(counts: &[u8], calls: Calls, win: Win, number: usize) -> Score {
    lend(&calls, |melds, called| unsafe {
        ziwhakemo_score_reading(counts.as_ptr(), counts.len(), melds, called, win, number)
    })
}

/// Names the waits of the reading with a number, counted from 0.
pub fn name_waits(counts: &[u8], calls: Calls, win: Win, number: usize) -> Waits {
    lend(&calls, |melds, called| unsafe {
        ziwhakemo_name_waits(counts.as_ptr(), counts.len(), melds, called, win, number)
    })
}

/// Lists the readings of a hand of three players into `out`.
fn three_list_readings(counts: &[u8], calls: Calls, out: &mut [u8]) -> Listing {
    let (place, length) = (out.as_mut_ptr(), out.len());
    lend(&calls, |melds, number| unsafe {
        ziwhakemo_three_list_readings(counts.as_ptr(), counts.len(), melds, number, place, length)
    })
}

/// Scores a win of three players.
fn three_score_win(counts: &[u8], calls: Calls, win: Win) -> Score {
    lend(&calls, |melds, called| unsafe {
        ziwhakemo_three_score_win(counts.as_ptr(), counts.len(), melds, called, win)
    })
}

/// Scores the reading with a number, counted from 0, of a win of three players.
fn three_score_reading(counts: &[u8], calls: Calls, win: Win, number: usize) -> Score {
    lend(&calls, |melds, called| unsafe {
        ziwhakemo_three_score_reading(counts.as_ptr(), counts.len(), melds, called, win, number)
    })
}

/// Names the waits of the reading with a number, counted from 0, of a win of three players.
fn three_name_waits(counts: &[u8], calls: Calls, win: Win, number: usize) -> Waits {
    lend(&calls, |melds, called| unsafe {
        ziwhakemo_three_name_waits(counts.as_ptr(), counts.len(), melds, called, win, number)
    })
}

/// The operations on a hand, so that a test may put others in their place.
#[derive(Clone, Copy)]
pub struct Operations {
    pub list_readings: fn(&[u8], Calls, &mut [u8]) -> Listing,
    pub score_win: fn(&[u8], Calls, Win) -> Score,
    pub score_reading: fn(&[u8], Calls, Win, usize) -> Score,
    pub name_waits: fn(&[u8], Calls, Win, usize) -> Waits,
}

/// The library's for four players.
pub const OPERATIONS: Operations = Operations {
    list_readings,
    score_win,
    score_reading,
    name_waits,
};

/// The library's for three.
pub const THREE_OPERATIONS: Operations = Operations {
    list_readings: three_list_readings,
    score_win: three_score_win,
    score_reading: three_score_reading,
    name_waits: three_name_waits,
};

pub fn level(han: u8, fu: u8, is_yakuman: bool) -> Level {
    unsafe { ziwhakemo_score_level(han, fu, is_yakuman) }
}

pub fn basic_points(han: u8, fu: u8, is_yakuman: bool) -> u32 {
    unsafe { ziwhakemo_basic_points(han, fu, is_yakuman) }
}

pub fn payment(basic_points: u32, is_dealer: bool, win_type: u8) -> PaymentAnswer {
    unsafe { ziwhakemo_payment(basic_points, is_dealer, win_type) }
}

pub fn three_payment(basic_points: u32, is_dealer: bool, win_type: u8) -> PaymentAnswer {
    unsafe { ziwhakemo_three_payment(basic_points, is_dealer, win_type) }
}

/// A new book.
pub fn new_book() -> SeatBook {
    unsafe { ziwhakemo_new_book() }
}

/// Books a draw, and answers its number.
pub fn book_draw(book: &mut SeatBook, deal: Deal) -> u32 {
    unsafe { ziwhakemo_book_draw(book, deal) }
}

/// Books a win of this hand, and answers its number.
pub fn book_win(book: &mut SeatBook, hand: &Hand, win: Win, deal: Deal, winner: Winner) -> u32 {
    let counts = hand.counts();
    let (place, length) = (counts.as_ptr(), counts.len());
    lend(&hand.calls, |melds, called| unsafe {
        ziwhakemo_book_win(book, place, length, melds, called, win, deal, winner)
    })
}

#[cfg(test)]
mod tests {
    use super::*;
    use std::mem::offset_of;

    #[test]
    fn every_mixture_has_its_number() {
        for number in 0..MIXTURES {
            assert_eq!(Win::in_mixture(number, 0).mixture(), number);
        }
    }

    #[test]
    fn a_meld_is_three_bytes_and_the_source_is_the_last() {
        assert_eq!((size_of::<Meld>(), align_of::<Meld>()), (3, 1));
        assert_eq!(offset_of!(Meld, kind), 1);
        assert_eq!(offset_of!(Meld, source), 2);
        let melds = [[7, 1, 3], [33, 6, 2]];
        let read: Vec<Meld> = Meld::all_of(melds.as_flattened()).collect();
        assert_eq!(read.len(), melds.len());
        assert!(read.iter().map(|meld| meld.bytes()).eq(melds));
    }

    #[test]
    fn a_win_is_35_bytes_and_the_indicators_are_the_last_22() {
        assert_eq!((size_of::<Win>(), align_of::<Win>()), (35, 1));
        assert_eq!(offset_of!(Win, double_wind_fu), 12);
        assert_eq!(offset_of!(Win, dora_indicators), 13);
        assert_eq!(offset_of!(Win, ura_dora_indicators), 24);
        assert_eq!(size_of::<Indicators>(), 11);
        assert_eq!(offset_of!(Indicators, tiles), 1);
    }

    #[test]
    fn the_dora_of_a_score_stand_where_nothing_else_does() {
        assert_eq!((size_of::<Score>(), align_of::<Score>()), (96, 8));
        assert_eq!(offset_of!(Score, yakuman_count), 67);
        assert_eq!(offset_of!(Score, regular_dora), 68);
        assert_eq!(offset_of!(Score, ura_dora), 69);
        assert_eq!(offset_of!(Score, basic_points), 72);
        assert_eq!(offset_of!(Score, total), 88);
    }

    #[test]
    fn a_book_is_40_bytes_a_deal_5_and_a_winner_3() {
        assert_eq!((size_of::<SeatBook>(), align_of::<SeatBook>()), (40, 8));
        assert_eq!(offset_of!(SeatBook, points), 0);
        assert_eq!(offset_of!(SeatBook, sticks), 32);
        assert_eq!(offset_of!(SeatBook, deals), 36);
        assert_eq!(offset_of!(SeatBook, counter), 38);
        assert_eq!(offset_of!(SeatBook, reserved), 39);
        assert_eq!((size_of::<Deal>(), align_of::<Deal>()), (5, 1));
        assert_eq!(offset_of!(Deal, declared), 1);
        assert_eq!((size_of::<Winner>(), align_of::<Winner>()), (3, 1));
        assert_eq!(offset_of!(Winner, discarder), 2);
    }

    #[test]
    fn noise_stands_behind_the_count_alone() {
        let mut rng = Rng::new(3);
        let mut are_tiles = [false; 2];
        for count in (0..=u8::MAX).cycle().take(2000) {
            let plain = Indicators {
                count,
                tiles: [7; MOST_INDICATORS],
            };
            let noisy = plain.with_noise(&mut rng);
            let number = usize::from(count).min(MOST_INDICATORS);
            assert_eq!(noisy.count, count);
            assert_eq!(noisy.shown(), &[7; MOST_INDICATORS][..number]);
            assert_eq!(noisy.behind().len(), MOST_INDICATORS - number);
            for &tile in noisy.behind() {
                are_tiles[usize::from(tile < KINDS as u8)] = true;
            }
        }
        assert_eq!(are_tiles, [true; 2]);
    }

    #[test]
    fn more_than_ten_indicators_are_counted() {
        assert_eq!(Indicators::of(&[3, 5]).shown(), [3, 5]);
        let eleven = Indicators::of(&[0, 1, 2, 3, 4, 5, 6, 7, 8, 9, 10]);
        assert_eq!((eleven.count, eleven.shown().len()), (11, 10));
        assert_eq!(Indicators::of(&[0; 300]).count, 255);
        let ura = Win::new(RON, 0, 27, 27).showing([Indicators::default(), Indicators::of(&[0])]);
        assert!(ura.has_indicators());
        assert!(!Win::new(RON, 0, 27, 27).has_indicators());
    }

    #[test]
    fn the_archive_is_of_this_version() {
        assert_eq!(version(), VERSION);
    }
}
