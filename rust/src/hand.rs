//! Melds, and the readings of a hand (agari's `hand.rs`). Sources are not in agari.

use crate::OTHER_VERSION;
use crate::ffi;
use crate::record::{self, ALWAYS_ENOUGH};
use crate::refusal::{Refusal, accepted};
use crate::rules::Variant;
use crate::tile::{NO_TILE, Tile};
use alloc::vec::Vec;

/// The number that stands for what is no source. The library refuses it.
const NO_SOURCE: u8 = 255;

/// Who a called tile came from, as seen by the player who called it. With three players nobody sits across,
/// and a call that says so is refused with 3.
///
/// Two lists of calls that differ in sources alone, and both pass, have as many readings in as many bytes,
/// reading `n` of the one is reading `n` of the other but for the sources, and scores and waits are alike.
#[derive(Debug, Clone, Copy, PartialEq, Eq, Hash, PartialOrd, Ord)]
#[repr(u8)]
pub enum Source {
    /// The next player, on the right (shimocha)
    Right = 1,
    /// The player across (toimen)
    Across = 2,
    /// The player before, on the left (kamicha), the only one from whom a sequence is called
    Left = 3,
}

impl Source {
    /// All sources, by their numbers from 1 to 3.
    pub const ALL: [Source; 3] = [Source::Right, Source::Across, Source::Left];

    /// Its number, from 1 to 3: how many seats onward from the player who called.
    pub fn number(self) -> u8 {
        self as u8
    }

    /// The source with a number. With seats from 0 to 3 in the order of play that is
    /// `(from + 4 - caller) % 4`.
    pub fn from_number(number: u8) -> Option<Source> {
        let place = usize::from(number).checked_sub(1)?;
        Source::ALL.get(place).copied()
    }

    /// Its number in a game: how many seats onward from the player who called. With three players the one on
    /// the left sits two seats onward, and nobody sits across.
    ///
    /// ```
    /// use ziwhakemo::{Source, Variant};
    ///
    /// let numbers = |variant| Source::ALL.map(|source| source.number_in(variant));
    /// assert_eq!(numbers(Variant::Yonma), [Some(1), Some(2), Some(3)]);
    /// assert_eq!(numbers(Variant::Sanma), [Some(1), None, Some(2)]);
    /// ```
    pub fn number_in(self, variant: Variant) -> Option<u8> {
        match (variant, self) {
            (Variant::Sanma, Source::Across) => None,
            (Variant::Sanma, Source::Left) => Some(2),
            (Variant::Sanma, Source::Right) | (Variant::Yonma, _) => Some(self.number()),
        }
    }

    /// The source with a number in a game. With seats from 0 in the order of play, `players` of them, that is
    /// `(from + players - caller) % players`.
    pub fn from_number_in(number: u8, variant: Variant) -> Option<Source> {
        let is_it = |source: &Source| source.number_in(variant) == Some(number);
        Source::ALL.into_iter().find(is_it)
    }
}

/// The kinds of kans, the open ones with their source.
#[derive(Debug, Clone, Copy, PartialEq, Eq, Hash)]
pub enum KanType {
    /// Closed kan (ankan): all four tiles drawn
    Closed,
    /// Open kan (daiminkan): called from a discard
    Open(Source),
    /// Added kan (shouminkan): a fourth tile added to a pon, whose source it keeps
    Added(Source),
}

impl KanType {
    /// Does it open the hand?
    pub fn is_open(&self) -> bool {
        self.source().is_some()
    }

    /// Who its tile was called from, if it was
    pub fn source(&self) -> Option<Source> {
        match *self {
            KanType::Closed => None,
            KanType::Open(source) | KanType::Added(source) => Some(source),
        }
    }
}

/// A meld. One that was called says who the tile came from.
///
/// ```
/// use ziwhakemo::{Honor, KanType, Meld, Source, Suit, Tile};
///
/// let chi = Meld::shuntsu_open(Tile::suited(Suit::Man, 1));
/// let pon = Meld::koutsu_open(Tile::honor(Honor::Red), Source::Across);
/// let kan = Meld::kan(Tile::honor(Honor::East), KanType::Open(Source::Right));
/// let closed = Meld::kan(Tile::honor(Honor::West), KanType::Closed);
/// let sources = [chi, pon, kan, closed].map(|call| call.source());
/// let [right, across, left] = Source::ALL.map(Some);
/// assert_eq!(sources, [left, across, right, None]);
/// ```
#[derive(Debug, Clone, PartialEq, Eq, Hash)]
pub enum Meld {
    /// A sequence: its lowest tile, and who it was called from (chi), if it was: the library takes
    /// [`Source::Left`] alone
    Shuntsu(Tile, Option<Source>),
    /// A triplet: its tile, and who it was called from (pon), if it was
    Koutsu(Tile, Option<Source>),
    /// A kan: its tile and its kind
    Kan(Tile, KanType),
}

impl Meld {
    /// A closed sequence
    pub fn shuntsu(start_tile: Tile) -> Meld {
        Meld::Shuntsu(start_tile, None)
    }

    /// A called sequence (chi), from the player on the left
    pub fn shuntsu_open(start_tile: Tile) -> Meld {
        Meld::Shuntsu(start_tile, Some(Source::Left))
    }

    /// A closed triplet
    pub fn koutsu(tile: Tile) -> Meld {
        Meld::Koutsu(tile, None)
    }

    /// A called triplet (pon), and who it was called from
    pub fn koutsu_open(tile: Tile, source: Source) -> Meld {
        Meld::Koutsu(tile, Some(source))
    }

    /// A kan
    pub fn kan(tile: Tile, kan_type: KanType) -> Meld {
        Meld::Kan(tile, kan_type)
    }

    /// Who a tile of it was called from, if one was
    pub fn source(&self) -> Option<Source> {
        match self {
            Meld::Shuntsu(_, source) | Meld::Koutsu(_, source) => *source,
            Meld::Kan(_, kan_type) => kan_type.source(),
        }
    }

    /// Was a tile of it called from another player?
    pub fn is_open(&self) -> bool {
        self.source().is_some()
    }

    /// Was no tile of it called from another player?
    pub fn is_concealed(&self) -> bool {
        !self.is_open()
    }

    /// Its tile: of a sequence, the lowest
    pub fn tile(&self) -> Tile {
        match self {
            Meld::Shuntsu(tile, _) | Meld::Koutsu(tile, _) | Meld::Kan(tile, _) => *tile,
        }
    }

    /// Is this a triplet or a kan?
    pub fn is_triplet_or_kan(&self) -> bool {
        !self.is_sequence()
    }

    /// Is this a sequence?
    pub fn is_sequence(&self) -> bool {
        matches!(self, Meld::Shuntsu(_, _))
    }

    /// Its kind as the library numbers it.
    pub(crate) fn kind(&self) -> u8 {
        match self {
            Meld::Shuntsu(_, None) => 0,
            Meld::Shuntsu(_, Some(_)) => 1,
            Meld::Koutsu(_, None) => 2,
            Meld::Koutsu(_, Some(_)) => 3,
            Meld::Kan(_, KanType::Closed) => 4,
            Meld::Kan(_, KanType::Open(_)) => 5,
            Meld::Kan(_, KanType::Added(_)) => 6,
        }
    }

    /// The meld of a tile, a kind and a source as the library numbers them in a game, 0 for no source. A
    /// closed meld has none, and an open one has one.
    pub(crate) fn of(tile: Tile, kind: u8, source: u8, variant: Variant) -> Option<Meld> {
        let source = match source {
            0 => None,
            number => Some(Source::from_number_in(number, variant)?),
        };
        match (kind, source) {
            (0, None) | (1, Some(_)) => Some(Meld::Shuntsu(tile, source)),
            (2, None) | (3, Some(_)) => Some(Meld::Koutsu(tile, source)),
            (4, None) => Some(Meld::Kan(tile, KanType::Closed)),
            (5, Some(source)) => Some(Meld::Kan(tile, KanType::Open(source))),
            (6, Some(source)) => Some(Meld::Kan(tile, KanType::Added(source))),
            _ => None,
        }
    }
}

/// The calls as the library reads them in a game. What is no tile stays none, and so does the player across
/// where there is none; both are refused there.
pub(crate) fn lent(calls: &[Meld], variant: Variant) -> Vec<ffi::Meld> {
    let number = |source: Source| source.number_in(variant).unwrap_or(NO_SOURCE);
    let melds = calls.iter().map(|call| ffi::Meld {
        tile: call.tile().number().unwrap_or(NO_TILE),
        kind: call.kind(),
        source: call.source().map_or(0, number),
    });
    melds.collect()
}

/// A reading of a hand.
#[derive(Debug, Clone, PartialEq, Eq)]
pub enum HandStructure {
    /// Four melds, the calls among them, ascending, and a pair
    Standard {
        /// The four melds
        melds: Vec<Meld>,
        /// The pair's tile
        pair: Tile,
    },
    /// Seven pairs
    Chiitoitsu {
        /// Their tiles, ascending
        pairs: Vec<Tile>,
    },
    /// Thirteen orphans
    Kokushi {
        /// The tile that is there twice
        pair: Tile,
    },
}

/// What a listing wrote.
#[derive(Debug, Clone, Copy, PartialEq, Eq)]
pub struct Listing {
    /// How many readings there are
    pub readings: usize,
    /// How many bytes were written, from the first on
    pub bytes: usize,
}

/// All readings of a finished hand, each once, in the order of their records: number `n` of
/// [`score_reading`](crate::score_reading) is the one at place `n`. No reading is no refusal.
///
/// Refuses with 1 to 6.
pub fn decompose_hand(counts: &[u8], calls: &[Meld]) -> Result<Vec<HandStructure>, Refusal> {
    Variant::Yonma.decompose_hand(counts, calls)
}

/// Writes the records of all readings into the lent bytes, which [`record::decode`] reads. The bytes
/// behind the records stay as they were; a refusal leaves all of them.
///
/// Refuses with 1 to 7.
pub fn list_readings(counts: &[u8], calls: &[Meld], out: &mut [u8]) -> Result<Listing, Refusal> {
    Variant::Yonma.list_readings(counts, calls, out)
}

/// Readings.
impl Variant {
    /// All readings of a finished hand in this game, as [`decompose_hand`] answers them for four players.
    ///
    /// Refuses with 1 to 6.
    ///
    /// ```
    /// use ziwhakemo::{Honor, Meld, Refusal, Source, Suit, Tile, Variant, to_counts};
    ///
    /// // man 111 999, sou 88, and two calls from the player on the left
    /// let hand = [(Suit::Man, 1, 3), (Suit::Man, 9, 3), (Suit::Sou, 8, 2)];
    /// let tiles = hand.map(|(suit, value, count)| vec![Tile::suited(suit, value); count]);
    /// let counts = to_counts(&tiles.concat()).unwrap();
    /// let pon = Meld::koutsu_open(Tile::honor(Honor::North), Source::Left);
    /// let other = Meld::koutsu_open(Tile::suited(Suit::Pin, 4), Source::Left);
    /// let readings = Variant::Sanma.decompose_hand(&counts, &[pon.clone(), other])?;
    /// assert_eq!(readings.len(), 1);
    ///
    /// // A chi in place of the second is refused, as is a pon of man 5.
    /// for no_call in [
    ///     Meld::shuntsu_open(Tile::suited(Suit::Pin, 4)),
    ///     Meld::koutsu_open(Tile::suited(Suit::Man, 5), Source::Left),
    /// ] {
    ///     let readings = Variant::Sanma.decompose_hand(&counts, &[pon.clone(), no_call]);
    ///     assert_eq!(readings, Err(Refusal::NotACall));
    /// }
    /// # Ok::<(), Refusal>(())
    /// ```
    pub fn decompose_hand(
        self,
        counts: &[u8],
        calls: &[Meld],
    ) -> Result<Vec<HandStructure>, Refusal> {
        let mut buffer = [0; ALWAYS_ENOUGH];
        let listing = self.list_readings(counts, calls, &mut buffer)?;
        Ok(record::decode_in(&buffer[..listing.bytes], self).expect(OTHER_VERSION))
    }

    /// Writes the records of all readings into the lent bytes, as [`list_readings`] does for four players.
    /// [`record::decode_in`] reads them.
    ///
    /// Refuses with 1 to 7.
    pub fn list_readings(
        self,
        counts: &[u8],
        calls: &[Meld],
        out: &mut [u8],
    ) -> Result<Listing, Refusal> {
        let answer = ffi::list_readings(self, counts, &lent(calls, self), out);
        accepted(answer.number as usize)?;
        Ok(Listing {
            readings: answer.readings,
            bytes: answer.bytes,
        })
    }
}

#[cfg(test)]
mod tests {
    use super::*;
    use crate::tile::Suit;

    #[test]
    fn numbers_and_sources_are_one_to_one() {
        for (source, number) in Source::ALL.into_iter().zip(1..) {
            assert_eq!(source.number(), number);
            assert_eq!(Source::from_number(number), Some(source));
        }
        for number in (0..=255).filter(|number| ![1, 2, 3].contains(number)) {
            assert_eq!(Source::from_number(number), None);
        }
    }

    #[test]
    fn a_number_in_a_game_is_that_of_the_seats_onward() {
        for number in 0..=255 {
            let [four, three] = Variant::ALL.map(|variant| Source::from_number_in(number, variant));
            assert_eq!(four, Source::from_number(number));
            let expected = match number {
                1 => Some(Source::Right),
                2 => Some(Source::Left),
                _ => None,
            };
            assert_eq!(three, expected);
        }
        for (source, variant) in Source::ALL
            .into_iter()
            .flat_map(|source| Variant::ALL.map(|variant| (source, variant)))
        {
            match source.number_in(variant) {
                Some(number) => assert_eq!(Source::from_number_in(number, variant), Some(source)),
                None => assert_eq!((source, variant), (Source::Across, Variant::Sanma)),
            }
        }
    }

    #[test]
    fn kinds_with_sources_and_melds_are_one_to_one() {
        let tile = Tile::suited(Suit::Sou, 3);
        let kinds = (0..=7).flat_map(|kind| (0..=255).map(move |source| (kind, source)));
        for ((kind, source), variant) in
            kinds.flat_map(|pair| Variant::ALL.map(|variant| (pair, variant)))
        {
            let is_one = match kind {
                0 | 2 | 4 => source == 0,
                1 | 3 | 5 | 6 => (1..variant.players()).contains(&source.into()),
                _ => false,
            };
            let meld = Meld::of(tile, kind, source, variant);
            assert_eq!(meld.is_some(), is_one, "{kind} {source}");
            let Some(meld) = meld else { continue };
            assert_eq!((meld.tile(), meld.kind()), (tile, kind));
            assert_eq!(meld.source(), Source::from_number_in(source, variant));
            assert_eq!(meld.is_open(), source > 0);
            assert_eq!(meld.is_sequence(), kind < 2);
            let lent = lent(&[meld], variant);
            assert_eq!((lent[0].kind, lent[0].source), (kind, source));
        }
    }

    #[test]
    fn what_is_no_tile_is_lent_as_none() {
        let no_tile = Meld::koutsu_open(Tile::suited(Suit::Sou, 0), Source::Right);
        let expected = ffi::Meld {
            tile: 255,
            kind: 3,
            source: 1,
        };
        for variant in Variant::ALL {
            assert_eq!(lent(core::slice::from_ref(&no_tile), variant), [expected]);
        }
    }

    #[test]
    fn the_player_across_is_lent_as_none_with_three_players() {
        let pon = [Meld::koutsu_open(
            Tile::suited(Suit::Sou, 3),
            Source::Across,
        )];
        let sources = Variant::ALL.map(|variant| lent(&pon, variant)[0].source);
        assert_eq!(sources, [2, NO_SOURCE]);
    }
}
