//! Functions with agari's own signatures, for a table that changes over by its `use` lines.
//!
//! These signatures have no place for a [`Refusal`](crate::Refusal): what the library refuses is an
//! empty list or `false` here, and each function names the checked one that says why. Readings are
//! each once, in the order of records, and waits in the order of [`WaitType::ALL`], those of thirteen
//! orphans as players name them.
//!
//! agari's melds do not say who a tile was called from, and those here do ([`Source`](crate::Source)). A
//! chi is called from the left alone; for a pon or an open kan of which it is not known, any source does:
//! readings differ in it and in nothing else, and waits not at all.
//!
//! These signatures name no game, and what is checked is what is checked of four players.
//!
//! The levels and basic points of han and fu need no other signature, and stand here too.
//!
//! ```
//! use ziwhakemo::agari::{decompose_hand, is_winning_hand, to_counts};
//! use ziwhakemo::{Suit, Tile};
//!
//! // man 11123456789999: nine gates
//! let values = [1, 1, 1, 2, 3, 4, 5, 6, 7, 8, 9, 9, 9, 9];
//! let tiles = values.map(|value| Tile::suited(Suit::Man, value));
//! let counts = to_counts(&tiles);
//! assert_eq!(decompose_hand(&counts).len(), 1);
//! // 13 tiles are refused, and so have no reading.
//! assert!(is_winning_hand(&counts) && !is_winning_hand(&to_counts(&tiles[1..])));
//! ```

use crate::context::{GameContext, WinType};
use crate::hand::{self, HandStructure, Meld};
use crate::tile::{self, Honor, TILES, Tile, TileCounts, counts_of};
use crate::wait::{self, WaitType};
use alloc::string::{String, ToString};
use alloc::vec::Vec;

pub use crate::scoring::{calculate_basic_points, determine_score_level};

/// How often each tile is there. More than 255 of a kind count as 255.
pub fn to_counts(tiles: &[Tile]) -> TileCounts {
    let mut counts = TileCounts::new();
    for &tile in tiles {
        let count = counts.entry(tile).or_default();
        *count = count.saturating_add(1);
    }
    counts
}

/// All readings of a hand with no calls.
///
/// Empty where there is none, and where the hand is refused: a key that is no tile, a count above 4, or
/// other than 14 tiles. Checked: [`decompose_hand`](crate::decompose_hand).
pub fn decompose_hand(counts: &TileCounts) -> Vec<HandStructure> {
    readings(counts, &[])
}

/// All readings of a hand with calls, as four melds and a pair: without calls too, as in agari, which
/// finds seven pairs and thirteen orphans by [`decompose_hand`] alone.
///
/// Empty where there is none, and where hand or calls are refused, with 2 to 6. Checked:
/// [`decompose_hand`](crate::decompose_hand).
pub fn decompose_hand_with_melds(
    hand_tiles: &TileCounts,
    called_melds: &[Meld],
) -> Vec<HandStructure> {
    let mut readings = readings(hand_tiles, called_melds);
    readings.retain(is_standard);
    readings
}

/// Does the hand, with no calls, have a reading?
///
/// `false` where it is refused, as for [`decompose_hand`].
pub fn is_winning_hand(counts: &TileCounts) -> bool {
    !decompose_hand(counts).is_empty()
}

/// Is the hand, with no calls, four melds and a pair?
///
/// `false` where it is refused, as for [`decompose_hand`].
pub fn is_standard_hand(counts: &TileCounts) -> bool {
    decompose_hand(counts).iter().any(is_standard)
}

/// Is the hand seven different pairs?
///
/// `false` where it is refused, as for [`decompose_hand`].
pub fn is_chiitoitsu(counts: &TileCounts) -> bool {
    let is_pairs = |reading: &HandStructure| matches!(reading, HandStructure::Chiitoitsu { .. });
    decompose_hand(counts).iter().any(is_pairs)
}

/// Are these 14 tiles, at most four of a kind? The text says what the library says, not what agari does.
///
/// Checked: every function of the crate's root that takes a hand.
pub fn validate_hand(tiles: &[Tile]) -> Result<(), String> {
    let counts = tile::to_counts(tiles).ok_or("the value of a tile is not 1 to 9")?;
    match hand::decompose_hand(&counts, &[]) {
        Ok(_) => Ok(()),
        Err(refusal) => Err(refusal.to_string()),
    }
}

/// The waits of a reading. Its melds may stand in any order; kans and open melds are its calls.
/// Of thirteen orphans Kokushi13 on the pair's tile, else Tanki, where agari answers the other name.
///
/// Empty where the winning tile is not in the hand, and where this is no reading of a hand that the
/// library reads. Checked: [`detect_wait_types`](crate::detect_wait_types), which takes the reading by
/// its number.
pub fn detect_wait_types(structure: &HandStructure, winning_tile: Tile) -> Vec<WaitType> {
    waits(structure, winning_tile).unwrap_or_default()
}

/// The readings, none where they are refused.
fn readings(counts: &TileCounts, calls: &[Meld]) -> Vec<HandStructure> {
    let readings = counts_of(counts).map(|counts| hand::decompose_hand(&counts, calls));
    readings.and_then(Result::ok).unwrap_or_default()
}

fn is_standard(reading: &HandStructure) -> bool {
    matches!(reading, HandStructure::Standard { .. })
}

/// The waits, or nothing where this is no reading.
fn waits(structure: &HandStructure, winning_tile: Tile) -> Option<Vec<WaitType>> {
    let reading = in_order(structure);
    let (counts, calls) = hand_of(&reading)?;
    let readings = hand::decompose_hand(&counts, &calls).ok()?;
    let n = readings.iter().position(|other| *other == reading)?;
    // Neither win type, winds, the room's setting nor indicators matter for waits.
    let context = GameContext::new(WinType::Ron, Honor::East, Honor::East);
    let context = context.with_winning_tile(winning_tile);
    wait::detect_wait_types(&counts, &calls, &context, n).ok()
}

/// The reading with its melds or pairs ascending, as records have them.
fn in_order(structure: &HandStructure) -> HandStructure {
    let mut reading = structure.clone();
    match &mut reading {
        HandStructure::Standard { melds, .. } => {
            melds.sort_by_key(|meld| (meld.tile(), meld.kind(), meld.source()));
        }
        HandStructure::Chiitoitsu { pairs } => pairs.sort(),
        HandStructure::Kokushi { .. } => {}
    }
    reading
}

/// The counts of the tiles that are not called, and the calls, or nothing where a tile is none.
fn hand_of(reading: &HandStructure) -> Option<([u8; TILES], Vec<Meld>)> {
    let mut calls = Vec::new();
    let tiles = match reading {
        HandStructure::Standard { melds, pair } => {
            let mut tiles = vec![*pair; 2];
            for meld in melds {
                match *meld {
                    Meld::Shuntsu(first, None) => tiles.extend(sequence(first)?),
                    Meld::Koutsu(tile, None) => tiles.extend([tile; 3]),
                    _ => calls.push(meld.clone()),
                }
            }
            tiles
        }
        HandStructure::Chiitoitsu { pairs } => pairs.repeat(2),
        HandStructure::Kokushi { pair } => {
            let all = (0..34).filter_map(Tile::from_number);
            let orphans = all.filter(Tile::is_terminal_or_honor);
            orphans.chain([*pair]).collect()
        }
    };
    Some((tile::to_counts(&tiles)?, calls))
}

/// The tiles of a sequence, or nothing where none starts here.
fn sequence(first: Tile) -> Option<[Tile; 3]> {
    match first {
        Tile::Suited {
            suit,
            value: value @ 1..=7,
        } => Some([0, 1, 2].map(|step| Tile::suited(suit, value + step))),
        _ => None,
    }
}
