//! Tiles (agari's `tile.rs`), and the 34 counts of a hand.

use alloc::string::String;
use core::fmt;

/// How many tiles there are.
pub const TILES: usize = 34;

/// The number that stands for what is no tile. The library refuses it wherever a tile is asked for.
pub(crate) const NO_TILE: u8 = 255;

/// A suit.
#[derive(Debug, Clone, Copy, PartialEq, Eq, Hash, PartialOrd, Ord)]
pub enum Suit {
    /// Manzu
    Man,
    /// Pinzu
    Pin,
    /// Souzu
    Sou,
}

impl Suit {
    /// The suits in the order of the tile numbers.
    pub const ALL: [Suit; 3] = [Suit::Man, Suit::Pin, Suit::Sou];
}

/// A wind or a dragon.
#[derive(Debug, Clone, Copy, PartialEq, Eq, Hash, PartialOrd, Ord)]
#[allow(missing_docs)]
pub enum Honor {
    East,
    South,
    West,
    North,
    White,
    Green,
    Red,
}

impl Honor {
    /// The honors in the order of the tile numbers, which begin at 27.
    pub const ALL: [Honor; 7] = [
        Honor::East,
        Honor::South,
        Honor::West,
        Honor::North,
        Honor::White,
        Honor::Green,
        Honor::Red,
    ];

    /// Its tile number, from 27 to 33.
    pub fn number(self) -> u8 {
        27 + self as u8
    }
}

/// A tile.
#[derive(Debug, Clone, Copy, PartialEq, Eq, Hash, PartialOrd, Ord)]
pub enum Tile {
    /// A tile of a suit. Its value is 1 to 9; with any other it is no tile.
    Suited {
        /// The suit
        suit: Suit,
        /// From 1 to 9
        value: u8,
    },
    /// A wind or a dragon.
    Honor(Honor),
}

impl Tile {
    /// A tile of a suit, of a value from 1 to 9.
    pub fn suited(suit: Suit, value: u8) -> Tile {
        Tile::Suited { suit, value }
    }

    /// A wind or a dragon.
    pub fn honor(honor: Honor) -> Tile {
        Tile::Honor(honor)
    }

    /// The tile with a number from 0 to 33: man 1 to 9, pin, sou, the winds, the dragons.
    pub fn from_number(number: u8) -> Option<Tile> {
        match number {
            0..27 => {
                let suit = Suit::ALL[usize::from(number / 9)];
                Some(Tile::suited(suit, number % 9 + 1))
            }
            27..34 => Some(Tile::Honor(Honor::ALL[usize::from(number - 27)])),
            _ => None,
        }
    }

    /// Its number from 0 to 33, or nothing where its value is not 1 to 9.
    pub fn number(self) -> Option<u8> {
        match self {
            Tile::Suited { suit, value } => {
                (1..=9).contains(&value).then(|| 9 * suit as u8 + value - 1)
            }
            Tile::Honor(honor) => Some(honor.number()),
        }
    }

    /// Is this 2 to 8 of a suit?
    pub fn is_simple(&self) -> bool {
        matches!(self, Tile::Suited { value: 2..=8, .. })
    }

    /// Is this 1 or 9 of a suit?
    pub fn is_terminal(&self) -> bool {
        matches!(self, Tile::Suited { value: 1 | 9, .. })
    }

    /// Is this 1 or 9 of a suit, a wind or a dragon?
    pub fn is_terminal_or_honor(&self) -> bool {
        self.is_terminal() || self.is_honor()
    }

    /// Is this a wind or a dragon?
    pub fn is_honor(&self) -> bool {
        matches!(self, Tile::Honor(_))
    }

    /// Is this a wind?
    pub fn is_wind(&self) -> bool {
        matches!(self, Tile::Honor(honor) if *honor <= Honor::North)
    }

    /// Is this a dragon?
    pub fn is_dragon(&self) -> bool {
        self.is_honor() && !self.is_wind()
    }

    /// Is this a green tile: sou 2, 3, 4, 6, 8 or Green?
    pub fn is_green(&self) -> bool {
        match self {
            Tile::Suited { suit, value } => {
                *suit == Suit::Sou && matches!(value, 2 | 3 | 4 | 6 | 8)
            }
            Tile::Honor(honor) => *honor == Honor::Green,
        }
    }

    /// The suit of a tile of a suit.
    pub fn suit(&self) -> Option<Suit> {
        match self {
            Tile::Suited { suit, .. } => Some(*suit),
            Tile::Honor(_) => None,
        }
    }

    /// The value of a tile of a suit.
    pub fn value(&self) -> Option<u8> {
        match self {
            Tile::Suited { value, .. } => Some(*value),
            Tile::Honor(_) => None,
        }
    }
}

/// As agari writes it: `5m`, `5p`, `5s`, and `1z` to `7z` for East to Red.
impl fmt::Display for Tile {
    fn fmt(&self, f: &mut fmt::Formatter) -> fmt::Result {
        match self {
            Tile::Suited { suit, value } => {
                let letter = ['m', 'p', 's'][*suit as usize];
                write!(f, "{value}{letter}")
            }
            Tile::Honor(honor) => write!(f, "{}z", *honor as u8 + 1),
        }
    }
}

/// Reads what is written.
impl TryFrom<&str> for Tile {
    type Error = String;

    fn try_from(input: &str) -> Result<Tile, String> {
        let no_tile = || format!("Invalid tile: {input}");
        let [digit, letter] = input.as_bytes() else {
            return Err(no_tile());
        };
        let first = match letter {
            b'm' => 0,
            b'p' => 9,
            b's' => 18,
            b'z' => 27,
            _ => return Err(no_tile()),
        };
        if !(b'1'..=b'9').contains(digit) {
            return Err(no_tile());
        }
        Tile::from_number(first + digit - b'1').ok_or_else(no_tile)
    }
}

/// How often each tile is there, as agari keeps it.
#[cfg(feature = "std")]
pub type TileCounts = std::collections::HashMap<Tile, u8>;

/// The 34 counts of tiles, or nothing where one of them is no tile. More than 255 of a kind count as 255.
pub fn to_counts(tiles: &[Tile]) -> Option<[u8; TILES]> {
    let mut counts = [0u8; TILES];
    for tile in tiles {
        let count = &mut counts[usize::from(tile.number()?)];
        *count = count.saturating_add(1);
    }
    Some(counts)
}

/// The 34 counts of a map of counts, or nothing where one of its keys is no tile.
#[cfg(feature = "std")]
pub fn counts_of(map: &TileCounts) -> Option<[u8; TILES]> {
    let mut counts = [0; TILES];
    for (tile, &count) in map {
        counts[usize::from(tile.number()?)] = count;
    }
    Some(counts)
}

#[cfg(test)]
mod tests {
    use super::*;
    use alloc::string::ToString;

    #[test]
    fn numbers_and_tiles_are_one_to_one() {
        for number in 0..34 {
            let tile = Tile::from_number(number).unwrap();
            assert_eq!(tile.number(), Some(number));
            assert_eq!(Tile::try_from(tile.to_string().as_str()), Ok(tile));
        }
        assert_eq!(Tile::from_number(34), None);
        assert_eq!(Tile::from_number(NO_TILE), None);
        for value in [0, 10, 255] {
            assert_eq!(Tile::suited(Suit::Man, value).number(), None);
        }
    }

    #[test]
    fn tiles_stand_in_the_order_of_the_scope_paper() {
        let written = |text: &str| Tile::try_from(text).unwrap().number();
        let numbers = [
            ("1m", 0),
            ("9m", 8),
            ("1p", 9),
            ("9p", 17),
            ("1s", 18),
            ("9s", 26),
        ];
        let honors = [("1z", 27), ("4z", 30), ("5z", 31), ("6z", 32), ("7z", 33)];
        for (text, number) in numbers.into_iter().chain(honors) {
            assert_eq!(written(text), Some(number), "{text}");
        }
        for text in ["", "1", "0m", "8z", "1x", "11m", "一m"] {
            assert!(Tile::try_from(text).is_err(), "{text}");
        }
    }

    #[test]
    fn questions_are_answered_for_every_tile() {
        let count = |question: fn(&Tile) -> bool| {
            let tiles = (0..34).filter_map(Tile::from_number);
            tiles.filter(question).count()
        };
        assert_eq!(count(Tile::is_simple), 21);
        assert_eq!(count(Tile::is_terminal), 6);
        assert_eq!(count(Tile::is_terminal_or_honor), 13);
        assert_eq!(count(Tile::is_honor), 7);
        assert_eq!(count(Tile::is_wind), 4);
        assert_eq!(count(Tile::is_dragon), 3);
        assert_eq!(count(Tile::is_green), 6);
    }

    #[test]
    fn counts_are_by_tile_number() {
        let tiles = [Tile::suited(Suit::Pin, 5), Tile::suited(Suit::Pin, 5)];
        let mut expected = [0; TILES];
        expected[13] = 2;
        assert_eq!(to_counts(&tiles), Some(expected));
        let none = Tile::suited(Suit::Pin, 10);
        assert_eq!(to_counts(&[none]), None);
        assert_eq!(to_counts(&[tiles[0]; 300]).unwrap()[13], 255);
    }

    #[cfg(feature = "std")]
    #[test]
    fn counts_of_a_map_are_by_tile_number() {
        let mut expected = [0; TILES];
        expected[13] = 2;
        let map = TileCounts::from([(Tile::suited(Suit::Pin, 5), 2)]);
        assert_eq!(counts_of(&map), Some(expected));
        let none = Tile::suited(Suit::Pin, 10);
        assert_eq!(counts_of(&TileCounts::from([(none, 1)])), None);
    }
}
