//! The records of readings.
//!
//! A record is its length and its kind, two bytes each, the low byte first, and then for kind 1 (seven
//! pairs) seven tiles, for kind 2 (thirteen orphans) the tile that is there twice, for kind 3 the pair's
//! tile and four melds of three bytes, tile, kind and source, 0 where no tile was called. A source is a number
//! of seats onward, so which player it is goes by the game.

use crate::hand::{HandStructure, Meld};
use crate::rules::Variant;
use crate::tile::Tile;
use alloc::vec::Vec;

/// A buffer of so many bytes holds the records of any hand.
pub const ALWAYS_ENOUGH: usize = 1915;

/// The length of the record of a pair and four melds.
pub const STANDARD_LENGTH: usize = HEAD + 1 + 4 * MELD;

/// The bytes before the content: length and kind.
const HEAD: usize = 4;

/// The bytes of a meld: tile, kind and source.
const MELD: usize = 3;

/// The readings of records, or nothing where the bytes are not whole records.
pub fn decode(bytes: &[u8]) -> Option<Vec<HandStructure>> {
    decode_in(bytes, Variant::Yonma)
}

/// The same of records that were listed in this game.
pub fn decode_in(mut bytes: &[u8], variant: Variant) -> Option<Vec<HandStructure>> {
    let mut readings = Vec::new();
    while !bytes.is_empty() {
        let &[low, high, ..] = bytes else {
            return None;
        };
        let length = usize::from(u16::from_le_bytes([low, high]));
        let (record, rest) = bytes.split_at_checked(length)?;
        readings.push(reading(record, variant)?);
        bytes = rest;
    }
    Some(readings)
}

/// The reading of one record.
fn reading(record: &[u8], variant: Variant) -> Option<HandStructure> {
    let (head, content) = record.split_at_checked(HEAD)?;
    let meld = |bytes: &[u8]| meld(bytes, variant);
    match (u16::from_le_bytes([head[2], head[3]]), content) {
        (1, [_, _, _, _, _, _, _]) => Some(HandStructure::Chiitoitsu {
            pairs: tiles(content)?,
        }),
        (2, &[pair]) => Some(HandStructure::Kokushi {
            pair: Tile::from_number(pair)?,
        }),
        (3, &[pair, ref melds @ ..]) if record.len() == STANDARD_LENGTH => {
            Some(HandStructure::Standard {
                melds: melds.chunks(MELD).map(meld).collect::<Option<_>>()?,
                pair: Tile::from_number(pair)?,
            })
        }
        _ => None,
    }
}

fn tiles(numbers: &[u8]) -> Option<Vec<Tile>> {
    numbers.iter().copied().map(Tile::from_number).collect()
}

/// The meld of three bytes.
fn meld(bytes: &[u8], variant: Variant) -> Option<Meld> {
    let &[tile, kind, source] = bytes else {
        return None;
    };
    Meld::of(Tile::from_number(tile)?, kind, source, variant)
}
