//! A hand as it is handed over: counts of any length and calls of any content.

use crate::library::{Calls, Meld};
use crate::rng::Rng;
use std::fmt;

/// The number of tile kinds, and so the right length of the counts.
pub const KINDS: usize = 34;
/// The greatest length of counts that is tried.
pub const MOST_COUNTS: usize = 40;

// The kinds of melds.
pub const CLOSED_SEQUENCE: u8 = 0;
pub const OPEN_SEQUENCE: u8 = 1;
pub const CLOSED_TRIPLET: u8 = 2;
pub const OPEN_TRIPLET: u8 = 3;
pub const CLOSED_KAN: u8 = 4;
pub const OPEN_KAN: u8 = 5;
pub const ADDED_KAN: u8 = 6;

// The sources of melds: who the called tile came from, in seats onward from the player who called.
pub const NOBODY: u8 = 0;
pub const RIGHT: u8 = 1;
pub const ACROSS: u8 = 2;
pub const LEFT: u8 = 3;

/// The sources that a meld of a kind may have: none for an unknown kind.
pub fn sources(kind: u8) -> &'static [u8] {
    match kind {
        CLOSED_SEQUENCE | CLOSED_TRIPLET | CLOSED_KAN => &[NOBODY],
        OPEN_SEQUENCE => &[LEFT],
        OPEN_TRIPLET | OPEN_KAN | ADDED_KAN => &[RIGHT, ACROSS, LEFT],
        _ => &[],
    }
}

impl Meld {
    /// A meld of this tile and kind, an open one from the player before.
    pub fn new(tile: u8, kind: u8) -> Meld {
        let source = *sources(kind).last().unwrap_or(&NOBODY);
        Meld { tile, kind, source }
    }

    /// The same meld from this source.
    pub fn with_source(self, source: u8) -> Meld {
        Meld { source, ..self }
    }

    /// The same meld from any source that its kind may have.
    pub fn from_anyone(self, rng: &mut Rng) -> Meld {
        match sources(self.kind) {
            [] => self,
            sources => self.with_source(rng.pick(sources)),
        }
    }

    /// Whether it has one of several sources: an open triplet or kan.
    pub fn has_choice_of_source(self) -> bool {
        sources(self.kind).len() > 1
    }

    /// The tiles of the meld, each as often as it is there: none for an unknown kind.
    pub fn tiles(self) -> impl Iterator<Item = usize> {
        let (number, step) = match self.kind {
            CLOSED_SEQUENCE | OPEN_SEQUENCE => (3, 1),
            CLOSED_TRIPLET | OPEN_TRIPLET => (3, 0),
            CLOSED_KAN | OPEN_KAN | ADDED_KAN => (4, 0),
            _ => (0, 0),
        };
        (0..number).map(move |i| self.tile as usize + i * step)
    }
}

/// Whether a sequence may start at this tile.
pub fn starts_sequence(tile: u8) -> bool {
    tile < 27 && tile % 9 < 7
}

#[derive(Clone, Copy)]
pub struct Hand {
    /// The counts. Only the first `length` are lent; the others must not matter.
    pub counts: [u8; MOST_COUNTS],
    pub length: usize,
    /// The calls. Melds after the first `count` must not matter.
    pub calls: Calls,
}

impl Hand {
    /// No tiles and no calls.
    pub fn empty() -> Hand {
        Hand {
            counts: [0; MOST_COUNTS],
            length: KINDS,
            calls: Calls::default(),
        }
    }

    /// The counts that are lent.
    pub fn counts(&self) -> &[u8] {
        &self.counts[..self.length]
    }

    /// The calls that mean anything.
    pub fn called(&self) -> &[Meld] {
        &self.calls.melds[..self.calls.count.min(4)]
    }

    /// Whether a call opens the hand. A closed kan does not.
    pub fn is_open(&self) -> bool {
        self.called().iter().any(|meld| meld.kind != CLOSED_KAN)
    }

    /// Adds a call to fewer than four.
    pub fn call(&mut self, meld: Meld) {
        self.calls.melds[self.calls.count] = meld;
        self.calls.count += 1;
    }

    /// The same hand, with noise in what must not matter. Behind too short a length the counts stay,
    /// so that the hand is whole for whoever overlooks the length.
    pub fn with_noise(mut self, rng: &mut Rng) -> Hand {
        for meld in self.calls.melds.iter_mut().skip(self.calls.count) {
            let [tile, kind, source] = [(); Meld::BYTES].map(|_| rng.byte());
            *meld = Meld { tile, kind, source };
        }
        for count in self.counts.iter_mut().skip(self.length.max(KINDS)) {
            *count = rng.byte();
        }
        self
    }

    /// How often each kind of tile is there, calls included. Tiles that do not exist are left out.
    pub fn with_calls(&self) -> [u16; KINDS] {
        let mut all = [0; KINDS];
        for (tile, &count) in self.counts().iter().enumerate().take(KINDS) {
            all[tile] = u16::from(count);
        }
        for tile in self.called().iter().flat_map(|meld| meld.tiles()) {
            if tile < KINDS {
                all[tile] += 1;
            }
        }
        all
    }
}

impl fmt::Display for Hand {
    fn fmt(&self, f: &mut fmt::Formatter) -> fmt::Result {
        write!(f, "counts {:?}, {} calls", self.counts(), self.calls.count)?;
        for meld in self.called() {
            write!(f, " {meld}")?;
        }
        Ok(())
    }
}

impl fmt::Display for Meld {
    fn fmt(&self, f: &mut fmt::Formatter) -> fmt::Result {
        let Meld { tile, kind, source } = self;
        write!(f, "(tile {tile} kind {kind} source {source})")
    }
}

#[cfg(test)]
impl Hand {
    /// The hand of a text such as `123m55z`, with no call.
    pub fn written(text: &str) -> Hand {
        let mut hand = Hand::empty();
        let mut first = 27;
        for letter in text.chars().rev() {
            match letter {
                'm' => first = 0,
                'p' => first = 9,
                's' => first = 18,
                'z' => first = 27,
                number => hand.counts[first + number as usize - '1' as usize] += 1,
            }
        }
        hand
    }
}
