//! Hands and wins as the tests write them.
#![allow(dead_code)]

pub mod book;

use ziwhakemo::{GameContext, Honor, Tile, WinType, to_counts};

/// The tile of a text such as `8s`.
pub fn tile(text: &str) -> Tile {
    Tile::try_from(text).unwrap()
}

/// The tiles of a text such as `12355m456p`, `1z` to `7z` for East to Red.
pub fn tiles(text: &str) -> Vec<Tile> {
    let mut tiles = Vec::new();
    let mut letter = ' ';
    for next in text.chars().rev() {
        if next.is_ascii_digit() {
            tiles.push(tile(&format!("{next}{letter}")));
        } else {
            letter = next;
        }
    }
    tiles
}

/// The counts of such a text.
pub fn counts(text: &str) -> [u8; 34] {
    to_counts(&tiles(text)).unwrap()
}

/// A win of seat South in the East round, with no flags.
pub fn win(win_type: WinType, winning_tile: &str) -> GameContext {
    GameContext::new(win_type, Honor::East, Honor::South).with_winning_tile(tile(winning_tile))
}

pub fn ron(winning_tile: &str) -> GameContext {
    win(WinType::Ron, winning_tile)
}

pub fn tsumo(winning_tile: &str) -> GameContext {
    win(WinType::Tsumo, winning_tile)
}
