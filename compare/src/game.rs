//! The two games: with four players, and with three.

use crate::differences::{self, FAULTS};
use crate::hand::{Hand, KINDS};
use crate::library::{OPERATIONS, Operations, THREE_OPERATIONS, Win};
use crate::three_checks;

/// Which game is played.
#[derive(Clone, Copy, Debug, PartialEq, Eq)]
pub enum Game {
    Four,
    Three,
}

impl Game {
    /// The library's operations on a hand of this game.
    pub fn operations(self) -> Operations {
        match self {
            Game::Four => OPERATIONS,
            Game::Three => THREE_OPERATIONS,
        }
    }

    /// The grounds for the refusals 1 to 6, each looked at by itself.
    pub fn hand_faults(self, hand: &Hand) -> [bool; FAULTS] {
        match self {
            Game::Four => differences::hand_faults(hand),
            Game::Three => three_checks::hand_faults(hand),
        }
    }

    /// The grounds for the refusals 8, 14 and 9, each looked at by itself.
    pub fn win_faults(self, hand: &Hand, win: &Win) -> [bool; 3] {
        match self {
            Game::Four => differences::win_faults(hand, win),
            Game::Three => three_checks::win_faults(hand, win),
        }
    }

    /// Whether the game has this tile: three players have no man 2 to 8.
    pub fn has_tile(self, tile: usize) -> bool {
        match self {
            Game::Four => tile < KINDS,
            Game::Three => tile < KINDS && !three_checks::is_absent(tile as u8),
        }
    }

    /// Whether the game has all tiles of a hand, those of its calls too.
    pub fn has_tiles_of(self, hand: &Hand) -> bool {
        let all = hand.with_calls();
        (0..KINDS).all(|tile| all[tile] == 0 || self.has_tile(tile))
    }
}
