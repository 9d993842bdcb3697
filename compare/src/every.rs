//! Classes of hands that are gone through one by one.

use crate::hand::*;
use crate::library::Meld;

/// The counts of one suit's nine numbers.
pub type SuitCounts = [u8; 9];
/// The seven honours.
pub const HONOURS: [usize; 7] = [27, 28, 29, 30, 31, 32, 33];
/// The tiles beside pin and sou of three players: man 1, man 9 and the honours.
pub const BESIDE_OF_THREE: [usize; 9] = [0, 8, 27, 28, 29, 30, 31, 32, 33];

/// All counts of one suit, none above four, that hold so many tiles.
pub fn suit_counts(tiles: u8) -> Vec<SuitCounts> {
    let mut found = Vec::new();
    extend_suit([0; 9], 0, tiles, &mut found);
    found
}

fn extend_suit(counts: SuitCounts, number: usize, left: u8, found: &mut Vec<SuitCounts>) {
    if number == 9 {
        if left == 0 {
            found.push(counts);
        }
        return;
    }
    for count in 0..=left.min(4) {
        let mut next = counts;
        next[number] = count;
        extend_suit(next, number + 1, left - count, found);
    }
}

/// All counts of so many kinds of tiles made of so many pairs and so many triplets.
pub fn beside_counts<const N: usize>(pairs: usize, triplets: usize) -> Vec<[u8; N]> {
    let mut found = Vec::new();
    extend_beside([0; N], 0, pairs, triplets, &mut found);
    found
}

fn extend_beside<const N: usize>(
    counts: [u8; N],
    kind: usize,
    pairs: usize,
    triplets: usize,
    found: &mut Vec<[u8; N]>,
) {
    if kind == N {
        if pairs == 0 && triplets == 0 {
            found.push(counts);
        }
        return;
    }
    extend_beside(counts, kind + 1, pairs, triplets, found);
    let mut next = counts;
    if pairs > 0 {
        next[kind] = 2;
        extend_beside(next, kind + 1, pairs - 1, triplets, found);
    }
    if triplets > 0 {
        next[kind] = 3;
        extend_beside(next, kind + 1, pairs, triplets - 1, found);
    }
}

/// The hand of these numbers of a suit, with no call.
pub fn hand_of(suit: usize, numbers: &SuitCounts) -> Hand {
    let mut hand = Hand::empty();
    hand.counts[9 * suit..][..9].copy_from_slice(numbers);
    hand
}

/// The same hand with these counts of other tiles.
pub fn with_beside<const N: usize>(mut hand: Hand, tiles: &[usize; N], counts: &[u8; N]) -> Hand {
    for (&tile, &count) in tiles.iter().zip(counts) {
        hand.counts[tile] = count;
    }
    hand
}

/// Lists of so many calls outside a suit: of every kind, from each player, below and above the suit's tiles,
/// in ascending and in descending order.
pub fn calls_outside(suit: usize, calls: usize) -> Vec<Vec<Meld>> {
    let lower = 9 * ((suit + 1) % 3).min((suit + 2) % 3) as u8;
    let upper = 9 * ((suit + 1) % 3).max((suit + 2) % 3) as u8;
    let ascending = [
        Meld::new(lower, OPEN_SEQUENCE),
        Meld::new(lower, OPEN_TRIPLET).with_source(ACROSS),
        Meld::new(upper + 6, OPEN_SEQUENCE),
        Meld::new(33, ADDED_KAN).with_source(RIGHT),
    ];
    let descending = [
        Meld::new(27, OPEN_KAN).with_source(RIGHT),
        Meld::new(upper + 4, CLOSED_KAN),
        Meld::new(upper + 1, OPEN_SEQUENCE),
        Meld::new(lower + 8, OPEN_TRIPLET),
    ];
    [ascending, descending]
        .map(|list| list[..calls].to_vec())
        .to_vec()
}

/// Likewise of three players: no sequence, no absent tile, and nothing from the left; man 1, man 9 and North
/// among them.
pub fn three_calls_outside(suit: usize, calls: usize) -> Vec<Vec<Meld>> {
    let (lower, upper) = [(9, 18), (0, 18), (0, 9)][suit];
    let ascending = [
        Meld::new(lower, OPEN_TRIPLET).with_source(ACROSS),
        Meld::new(lower + 8, CLOSED_KAN),
        Meld::new(upper + 4, OPEN_KAN).with_source(RIGHT),
        Meld::new(30, ADDED_KAN).with_source(RIGHT),
    ];
    let descending = [
        Meld::new(33, OPEN_KAN).with_source(RIGHT),
        Meld::new(30, OPEN_TRIPLET).with_source(ACROSS),
        Meld::new(upper, CLOSED_KAN),
        Meld::new(lower + 8, OPEN_TRIPLET).with_source(RIGHT),
    ];
    [ascending, descending]
        .map(|list| list[..calls].to_vec())
        .to_vec()
}
