//! agari's side: its types from the table's numbers, and the records of its readings.

use crate::game::Game;
use crate::hand::*;
use crate::library;
use crate::probe;
use agari_core::hand::{HandStructure, KanType, Meld};
use agari_core::parse::TileCounts;
use agari_core::rules::Rules;
use agari_core::tile::{Honor, Suit, Tile};

const SUITS: [Suit; 3] = [Suit::Man, Suit::Pin, Suit::Sou];
const HONORS: [Honor; 7] = [
    Honor::East,
    Honor::South,
    Honor::West,
    Honor::North,
    Honor::White,
    Honor::Green,
    Honor::Red,
];

/// agari's rules of a game, with no local yaku.
pub fn rules(game: Game) -> Rules {
    match game {
        Game::Four => Rules::default(),
        Game::Three => Rules::sanma(),
    }
}

/// agari's tile of a number below 34.
pub fn tile(number: u8) -> Tile {
    match number {
        0..27 => Tile::suited(SUITS[usize::from(number / 9)], number % 9 + 1),
        _ => Tile::honor(honor(number)),
    }
}

/// agari's honour of a number from 27 to 33.
pub fn honor(number: u8) -> Honor {
    HONORS[usize::from(number - 27)]
}

/// The number of agari's tile.
fn number(tile: Tile) -> u8 {
    match tile {
        Tile::Suited { suit, value } => suit as u8 * 9 + value - 1,
        Tile::Honor(honor) => 27 + honor as u8,
    }
}

/// agari's map of counts, with no key for a tile that is not there.
pub fn tile_counts(counts: &[u8]) -> TileCounts {
    let mut map = TileCounts::with_capacity(14);
    for (number, &count) in counts.iter().enumerate() {
        if count > 0 {
            map.insert(tile(number as u8), count);
        }
    }
    map
}

/// agari's melds of well-formed calls.
pub fn called_melds(calls: &[library::Meld]) -> Vec<Meld> {
    calls.iter().map(|&call| called_meld(call)).collect()
}

fn called_meld(call: library::Meld) -> Meld {
    let tile = tile(call.tile);
    match call.kind {
        OPEN_SEQUENCE => Meld::shuntsu_open(tile),
        OPEN_TRIPLET => Meld::koutsu_open(tile),
        CLOSED_KAN => Meld::kan(tile, KanType::Closed),
        OPEN_KAN => Meld::kan(tile, KanType::Open),
        _ => Meld::kan(tile, KanType::Added),
    }
}

/// The table's meld of agari's, which has no source: it comes from nobody.
fn meld(meld: &Meld) -> library::Meld {
    let kind = match meld {
        Meld::Shuntsu(_, false) => CLOSED_SEQUENCE,
        Meld::Shuntsu(_, true) => OPEN_SEQUENCE,
        Meld::Koutsu(_, false) => CLOSED_TRIPLET,
        Meld::Koutsu(_, true) => OPEN_TRIPLET,
        Meld::Kan(_, KanType::Closed) => CLOSED_KAN,
        Meld::Kan(_, KanType::Open) => OPEN_KAN,
        Meld::Kan(_, KanType::Added) => ADDED_KAN,
    };
    library::Meld::new(number(meld.tile()), kind).with_source(NOBODY)
}

/// A record: its kind, and the bytes that follow the kind. Records ascend by the one and then by
/// the other, which is the order derived here.
#[derive(Clone, PartialEq, Eq, PartialOrd, Ord)]
pub struct Record {
    pub kind: u16,
    pub content: Vec<u8>,
}

impl Record {
    /// The record of four melds, which are put in order, and a pair.
    pub fn standard(pair: u8, mut melds: Vec<library::Meld>) -> Record {
        melds.sort();
        let melds = melds.into_iter().flat_map(library::Meld::bytes);
        Record {
            kind: probe::STANDARD.into(),
            content: [pair].into_iter().chain(melds).collect(),
        }
    }

    /// The pair and the melds of a standard reading.
    pub fn parts(&self) -> Option<(u8, Vec<library::Meld>)> {
        let is_standard = self.kind == u16::from(probe::STANDARD);
        let (&pair, melds) = self.content.split_first()?;
        is_standard.then(|| (pair, library::Meld::all_of(melds).collect()))
    }

    /// The same record with the sources of these calls: a meld has that of the call of its tile and kind,
    /// and one that is not called comes from nobody. Calls of equal tile and kind are open sequences, and
    /// have equal sources.
    pub fn with_sources(self, calls: &[library::Meld]) -> Record {
        let Some((pair, mut melds)) = self.parts() else {
            return self;
        };
        for meld in &mut melds {
            let is_same = |call: &&library::Meld| (call.tile, call.kind) == (meld.tile, meld.kind);
            let call = calls.iter().find(is_same);
            meld.source = call.map_or(NOBODY, |call| call.source);
        }
        Record::standard(pair, melds)
    }

    /// The same record, of which each meld comes from nobody.
    pub fn without_sources(self) -> Record {
        self.with_sources(&[])
    }
}

/// The record of a reading, without sources, as agari has none.
pub fn record(reading: &HandStructure) -> Record {
    match reading {
        HandStructure::Chiitoitsu { pairs } => {
            let mut content: Vec<u8> = pairs.iter().copied().map(number).collect();
            content.sort();
            Record { kind: 1, content }
        }
        HandStructure::Kokushi { pair } => Record {
            kind: 2,
            content: vec![number(*pair)],
        },
        HandStructure::Standard { melds, pair } => {
            Record::standard(number(*pair), melds.iter().map(meld).collect())
        }
    }
}
