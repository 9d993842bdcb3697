//! Which game is played (agari's `rules.rs`): that of four players or that of three.
//!
//! The functions of the crate's root are of four players. Both games have methods of [`Variant`] with the
//! same names and arguments: [`decompose_hand`](Variant::decompose_hand),
//! [`list_readings`](Variant::list_readings), [`score_win`](Variant::score_win),
//! [`score_reading`](Variant::score_reading), [`detect_wait_types`](Variant::detect_wait_types) and
//! [`calculate_payment`](Variant::calculate_payment). Levels and basic points are the same in both, and have
//! one form.
//!
//! | | four players | three players |
//! |---|---|---|
//! | tiles | all 34 | man 2 to 8 are absent: a count above 0 is refused with 4, a winning tile with 9 |
//! | calls | chi, pon and kans | pon and kans: a chi is refused with 3, and so is a call of an absent tile |
//! | who a tile is called from | the right, across, the left | the right, the left: across is refused with 3 |
//! | indicators | up to ten of each sort | none: any is refused with 14 |
//! | who pays by tsumo | three players | two, each as much as with four; the total is theirs |
//!
//! North is a wind like the others with three players too, as round and as seat wind, and no tile is set aside
//! (nukidora). The seat book ([`SeatBook`](crate::SeatBook)) is of four players alone.

use crate::tile::{Suit, Tile};

/// Which game is played: agari's `Variant`.
///
/// Nothing in a hand or a win says which game it is of. A win without man 2 to 8, chi and indicators is scored
/// in both, and by tsumo with different totals.
///
/// ```
/// use ziwhakemo::{GameContext, Honor, Suit, Tile, Variant, WinType, score_win, to_counts};
///
/// // pin 123 345 678 999, West West: the dealer's riichi, tsumo on pin 5
/// let pin = [1, 2, 3, 3, 4, 5, 6, 7, 8, 9, 9, 9].map(|value| Tile::suited(Suit::Pin, value));
/// let counts = to_counts(&[&pin[..], &[Tile::honor(Honor::West); 2]].concat()).unwrap();
/// let context = GameContext::new(WinType::Tsumo, Honor::East, Honor::East)
///     .with_winning_tile(Tile::suited(Suit::Pin, 5))
///     .riichi();
///
/// // Each pays 4,000: two players, or three.
/// let three = Variant::Sanma.score_win(&counts, &[], &context)?;
/// let four = Variant::Yonma.score_win(&counts, &[], &context)?;
/// assert_eq!(three.result.payment.from_non_dealer, Some(4000));
/// assert_eq!((three.result.payment.total, four.result.payment.total), (8000, 12_000));
///
/// // The functions without a variant are of four players.
/// assert_eq!(score_win(&counts, &[], &context)?, four);
/// assert_eq!(Variant::default(), Variant::Yonma);
/// # Ok::<(), ziwhakemo::Refusal>(())
/// ```
#[derive(Debug, Clone, Copy, PartialEq, Eq, Hash, Default)]
pub enum Variant {
    /// Four-player mahjong
    #[default]
    Yonma,
    /// Three-player mahjong: no man 2 to 8, no chi and no dora
    Sanma,
}

impl Variant {
    /// Both games.
    pub const ALL: [Variant; 2] = [Variant::Yonma, Variant::Sanma];

    /// How many players sit at the table
    pub fn players(&self) -> u32 {
        match self {
            Variant::Yonma => 4,
            Variant::Sanma => 3,
        }
    }

    /// Is this tile in the wall? What is no tile is not
    pub fn in_wall(&self, tile: Tile) -> bool {
        let is_absent = tile.suit() == Some(Suit::Man) && tile.is_simple();
        tile.number().is_some() && (*self == Variant::Yonma || !is_absent)
    }

    /// May a sequence be called?
    pub fn allows_chi(&self) -> bool {
        *self == Variant::Yonma
    }
}

#[cfg(test)]
mod tests {
    use super::*;

    #[test]
    fn a_wall_has_136_tiles_or_108() {
        let kinds = Variant::ALL.map(|variant| {
            let tiles = (0..34).filter_map(Tile::from_number);
            tiles.filter(|&tile| variant.in_wall(tile)).count()
        });
        assert_eq!(kinds.map(|kinds| 4 * kinds), [136, 108]);
        for (number, variant) in (0..34).flat_map(|n| Variant::ALL.map(|variant| (n, variant))) {
            let is_absent = variant == Variant::Sanma && (1..=7).contains(&number);
            let tile = Tile::from_number(number).unwrap();
            assert_eq!(variant.in_wall(tile), !is_absent, "{tile} {variant:?}");
        }
        for value in [0, 10, 255] {
            let no_tile = Tile::suited(Suit::Man, value);
            assert!(!Variant::Yonma.in_wall(no_tile) && !Variant::Sanma.in_wall(no_tile));
        }
    }
}
