//! The win (agari's `context.rs`), with a setting of the room, which agari does not have, and with the
//! indicators of dora.
//!
//! Whether the hand is open is not part of it: the library reads that off the calls.

use crate::ffi;
use crate::tile::{Honor, NO_TILE, Suit, Tile};
use core::fmt;

/// How the hand was won.
#[derive(Debug, Clone, Copy, PartialEq, Eq)]
pub enum WinType {
    /// By another player's discard
    Ron,
    /// By self-draw
    Tsumo,
}

impl WinType {
    /// Its number: 0 ron, 1 tsumo.
    pub(crate) fn number(self) -> u8 {
        match self {
            WinType::Ron => 0,
            WinType::Tsumo => 1,
        }
    }
}

/// What the room gives for a pair that is both round and seat wind. Only the fu of that pair go by it: no
/// yaku, no han, no wait. agari has no such setting and gives four.
///
/// ```
/// use ziwhakemo::{DoubleWindFu, GameContext, Honor, WinType};
///
/// let win = GameContext::new(WinType::Tsumo, Honor::East, Honor::East);
/// assert_eq!(win.double_wind_fu, DoubleWindFu::Four);
/// let win = win.with_double_wind_fu(DoubleWindFu::Two);
/// assert_eq!(win.double_wind_fu, DoubleWindFu::Two);
/// ```
#[derive(Debug, Clone, Copy, PartialEq, Eq)]
pub enum DoubleWindFu {
    /// Four fu, two for each of the winds that it is
    Four,
    /// Two fu, like a pair of dragons or of one of the winds alone
    Two,
}

impl DoubleWindFu {
    /// Its number: the fu.
    pub(crate) fn number(self) -> u8 {
        match self {
            DoubleWindFu::Four => 4,
            DoubleWindFu::Two => 2,
        }
    }
}

/// The indicators that are shown, of dora or of ura dora: the tiles shown, not the dora themselves. Up to
/// ten are taken.
///
/// Nothing is refused here: a win with more than ten, or with one that is no tile, is refused with 14 where
/// it is scored, and with three players a win with any. Of more than ten, the first ten are kept and how many
/// there are.
///
/// ```
/// use ziwhakemo::{Indicators, Suit, Tile};
///
/// let shown = [1, 4].map(|value| Tile::suited(Suit::Pin, value));
/// let indicators = Indicators::new(&shown);
/// assert_eq!((indicators.count(), indicators.tiles()), (2, &shown[..]));
/// assert_eq!(Indicators::new(&[]), Indicators::NONE);
/// ```
#[derive(Clone, Copy, PartialEq, Eq)]
pub struct Indicators {
    count: u8,
    /// Behind the count stands man 1, so that equal ones are equal in every field.
    tiles: [Tile; Indicators::MOST],
}

impl Indicators {
    /// At most so many of either sort.
    pub const MOST: usize = 10;

    /// None is shown.
    pub const NONE: Indicators = Indicators {
        count: 0,
        tiles: [Tile::Suited {
            suit: Suit::Man,
            value: 1,
        }; Indicators::MOST],
    };

    /// These are shown, in any order; one that is shown twice counts twice.
    pub fn new(tiles: &[Tile]) -> Indicators {
        let mut indicators = Indicators::NONE;
        indicators.count = tiles.len().try_into().unwrap_or(u8::MAX);
        for (place, &tile) in indicators.tiles.iter_mut().zip(tiles) {
            *place = tile;
        }
        indicators
    }

    /// How many there are. More than 255 count as 255.
    pub fn count(&self) -> usize {
        self.count.into()
    }

    /// The first ten of them.
    pub fn tiles(&self) -> &[Tile] {
        &self.tiles[..self.count().min(Indicators::MOST)]
    }

    /// The indicators as the library reads them. What is no tile stays none, and is refused there, as
    /// more than ten are.
    pub(crate) fn lent(&self) -> ffi::Indicators {
        ffi::Indicators {
            count: self.count,
            tiles: self.tiles.map(|tile| tile.number().unwrap_or(NO_TILE)),
        }
    }
}

impl Default for Indicators {
    fn default() -> Indicators {
        Indicators::NONE
    }
}

/// As a list of tiles is written; where more than ten are shown, the first ten and two dots.
impl fmt::Debug for Indicators {
    fn fmt(&self, f: &mut fmt::Formatter) -> fmt::Result {
        let mut list = f.debug_list();
        list.entries(self.tiles());
        match self.count() > Indicators::MOST {
            true => list.finish_non_exhaustive(),
            false => list.finish(),
        }
    }
}

/// How many dora a hand holds, by the sort of their indicators. Red fives and pulled Norths are not counted.
#[derive(Debug, Clone, Copy, Default, PartialEq, Eq)]
pub struct DoraCount {
    /// By the dora indicators
    pub regular: u8,
    /// By the ura dora indicators; 0 where there is no riichi
    pub ura: u8,
}

impl DoraCount {
    /// Both sorts together
    pub fn total(&self) -> u8 {
        self.regular + self.ura
    }
}

/// A win, apart from its hand. Every mixture of the flags is scored as agari scores it, where the room
/// gives four fu for a pair that is both winds.
#[derive(Debug, Clone, Copy, PartialEq, Eq)]
pub struct GameContext {
    /// Ron or tsumo. A booking does not read it ([`SeatBook::win`](crate::SeatBook::win))
    pub win_type: WinType,
    /// The tile that completed the hand. A win without one is refused with 9
    pub winning_tile: Option<Tile>,
    /// The round wind. A dragon is refused with 8
    pub round_wind: Honor,
    /// The winner's seat wind: East is the dealer. A dragon is refused with 8. A booking does not
    /// read it
    pub seat_wind: Honor,
    /// Riichi, also where it is a double one
    pub is_riichi: bool,
    /// Riichi on the first turn
    pub is_double_riichi: bool,
    /// Win within a turn of riichi
    pub is_ippatsu: bool,
    /// Win on the replacement tile of a kan
    pub is_rinshan: bool,
    /// Ron on the tile of an added kan
    pub is_chankan: bool,
    /// Win on the last tile, drawn or discarded
    pub is_last_tile: bool,
    /// The dealer's win on the first draw
    pub is_tenhou: bool,
    /// Another's win on the first draw
    pub is_chiihou: bool,
    /// The room's setting: four fu or two for a pair that is both round and seat wind
    pub double_wind_fu: DoubleWindFu,
    /// The dora indicators. More than ten are refused with 14, and so is one that is no tile
    pub dora_indicators: Indicators,
    /// The ura dora indicators, which count where `is_riichi` is set, on an open hand too, and are refused
    /// with 14 as the dora indicators are, whether they count or not
    pub ura_dora_indicators: Indicators,
}

impl GameContext {
    /// A win with no winning tile yet, no flags and no indicators, in a room that gives four fu for a pair
    /// that is both winds
    pub fn new(win_type: WinType, round_wind: Honor, seat_wind: Honor) -> GameContext {
        GameContext {
            win_type,
            winning_tile: None,
            round_wind,
            seat_wind,
            is_riichi: false,
            is_double_riichi: false,
            is_ippatsu: false,
            is_rinshan: false,
            is_chankan: false,
            is_last_tile: false,
            is_tenhou: false,
            is_chiihou: false,
            double_wind_fu: DoubleWindFu::Four,
            dora_indicators: Indicators::NONE,
            ura_dora_indicators: Indicators::NONE,
        }
    }

    /// Sets the winning tile
    pub fn with_winning_tile(mut self, tile: Tile) -> GameContext {
        self.winning_tile = Some(tile);
        self
    }

    /// Sets what the room gives for a pair that is both round and seat wind
    pub fn with_double_wind_fu(mut self, fu: DoubleWindFu) -> GameContext {
        self.double_wind_fu = fu;
        self
    }

    /// Sets the dora indicators, in place of those before: a `Vec` of tiles, an array or a slice
    pub fn with_dora(mut self, indicators: impl AsRef<[Tile]>) -> GameContext {
        self.dora_indicators = Indicators::new(indicators.as_ref());
        self
    }

    /// Sets the ura dora indicators, in place of those before, likewise
    pub fn with_ura_dora(mut self, indicators: impl AsRef<[Tile]>) -> GameContext {
        self.ura_dora_indicators = Indicators::new(indicators.as_ref());
        self
    }

    /// Sets riichi
    pub fn riichi(mut self) -> GameContext {
        self.is_riichi = true;
        self
    }

    /// Sets double riichi, and riichi with it
    pub fn double_riichi(mut self) -> GameContext {
        self.is_double_riichi = true;
        self.is_riichi = true;
        self
    }

    /// Sets ippatsu
    pub fn ippatsu(mut self) -> GameContext {
        self.is_ippatsu = true;
        self
    }

    /// Sets rinshan
    pub fn rinshan(mut self) -> GameContext {
        self.is_rinshan = true;
        self
    }

    /// Sets chankan
    pub fn chankan(mut self) -> GameContext {
        self.is_chankan = true;
        self
    }

    /// Sets the last tile
    pub fn last_tile(mut self) -> GameContext {
        self.is_last_tile = true;
        self
    }

    /// Sets tenhou
    pub fn tenhou(mut self) -> GameContext {
        self.is_tenhou = true;
        self
    }

    /// Sets chiihou
    pub fn chiihou(mut self) -> GameContext {
        self.is_chiihou = true;
        self
    }

    /// Is this wind the round wind or the seat wind?
    pub fn is_value_wind(&self, wind: Honor) -> bool {
        wind == self.round_wind || wind == self.seat_wind
    }

    /// Is the winner the dealer?
    pub fn is_dealer(&self) -> bool {
        self.seat_wind == Honor::East
    }

    /// The win as the library reads it. What is no tile stays none, and is refused there.
    pub(crate) fn lent(&self) -> ffi::GameContext {
        let winning_tile = self.winning_tile.and_then(Tile::number);
        ffi::GameContext {
            win_type: self.win_type.number(),
            winning_tile: winning_tile.unwrap_or(NO_TILE),
            round_wind: self.round_wind.number(),
            seat_wind: self.seat_wind.number(),
            is_riichi: self.is_riichi,
            is_double_riichi: self.is_double_riichi,
            is_ippatsu: self.is_ippatsu,
            is_rinshan: self.is_rinshan,
            is_chankan: self.is_chankan,
            is_last_tile: self.is_last_tile,
            is_tenhou: self.is_tenhou,
            is_chiihou: self.is_chiihou,
            double_wind_fu: self.double_wind_fu.number(),
            dora_indicators: self.dora_indicators.lent(),
            ura_dora_indicators: self.ura_dora_indicators.lent(),
        }
    }
}
