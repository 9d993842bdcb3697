//! Renamings of tiles, and with them of hands, wins and records, as the scope paper and document 02 define
//! them.

use crate::agari::Record;
use crate::game::Game;
use crate::hand::*;
use crate::library::{Indicators, Meld, Win};

const SOUTH: u8 = 28;
const WEST: u8 = 29;
const NORTH: u8 = 30;
const WHITE: u8 = 31;
const RED: u8 = 33;
/// What each of three becomes, man, pin and sou or South, West and North: no two the same.
const ORDERS: [[u8; 3]; 6] = [
    [0, 1, 2],
    [0, 2, 1],
    [1, 0, 2],
    [1, 2, 0],
    [2, 0, 1],
    [2, 1, 0],
];

/// One rule for all 34 tiles.
#[derive(Clone, Copy, Debug)]
pub struct Renaming {
    /// The suit that each suit becomes.
    suits: [u8; 3],
    /// Whether all numbers n become 10 - n.
    is_mirrored: bool,
    /// Whether White and Red change places.
    are_dragons_exchanged: bool,
    /// What South, West and North become, as places among these three.
    winds: [u8; 3],
}

impl Renaming {
    /// The number of renamings.
    pub const ALL: usize = Renaming::NO_WIND_MOVES * Renaming::ORDERS;
    /// The number of those that leave the winds: they come first.
    pub const NO_WIND_MOVES: usize = 4 * Renaming::ORDERS;
    /// The number of orders of the suits, and of the winds.
    pub const ORDERS: usize = ORDERS.len();

    /// The renaming with a number below that. The first leaves every tile as it is.
    pub fn numbered(number: usize) -> Renaming {
        Renaming {
            suits: ORDERS[number / 4 % Renaming::ORDERS],
            is_mirrored: number / 2 % 2 == 1,
            are_dragons_exchanged: number % 2 == 1,
            winds: ORDERS[number / Renaming::NO_WIND_MOVES],
        }
    }

    /// The numbers of the renamings that keep the tiles of a game: each that it has becomes one that it has.
    pub fn numbers_in(game: Game) -> Vec<usize> {
        let keeps = |renaming: Renaming| {
            let mut tiles = (0..KINDS as u8).filter(|&tile| game.has_tile(tile.into()));
            tiles.all(|tile| game.has_tile(renaming.tile(tile).into()))
        };
        let all = 0..Renaming::ALL;
        all.filter(|&number| keeps(Renaming::numbered(number)))
            .collect()
    }

    /// The number of the renaming that does the same to the suits, and no more.
    pub fn suits_alone(number: usize) -> usize {
        number % Renaming::NO_WIND_MOVES / 4 * 4
    }

    /// Whether it exchanges suits and no more: numbers, dragons and winds stay as they are.
    pub fn is_of_suits(&self) -> bool {
        self.others() == [false; 3]
    }

    /// Which of the other three it does: the mirror, the exchange of dragons, and one of winds.
    pub fn others(&self) -> [bool; 3] {
        let do_winds_move = self.winds != ORDERS[0];
        [self.is_mirrored, self.are_dragons_exchanged, do_winds_move]
    }

    /// Whether this wind becomes another.
    pub fn moves_wind(&self, wind: u8) -> bool {
        self.tile(wind) != wind
    }

    /// How many of South, West and North become another: none, two, or all three in a circle.
    pub fn winds_moved(&self) -> usize {
        (SOUTH..=NORTH)
            .filter(|&wind| self.moves_wind(wind))
            .count()
    }

    fn tile(&self, tile: u8) -> u8 {
        let (suit, place) = (tile / 9, tile % 9);
        match tile {
            0..=26 if self.is_mirrored => 9 * self.suits[usize::from(suit)] + 8 - place,
            0..=26 => 9 * self.suits[usize::from(suit)] + place,
            WHITE if self.are_dragons_exchanged => RED,
            RED if self.are_dragons_exchanged => WHITE,
            SOUTH | WEST | NORTH => SOUTH + self.winds[usize::from(tile - SOUTH)],
            _ => tile,
        }
    }

    /// A meld of its renamed tiles, of which the lowest names it. Kind and source stay.
    fn meld(&self, meld: Meld) -> Meld {
        let tiles = meld.tiles().map(|tile| self.tile(tile as u8));
        Meld {
            tile: tiles.min().expect("a meld has tiles"),
            ..meld
        }
    }

    /// A hand that passes the checks: each count becomes that of the renamed tile, and calls keep
    /// their order, kinds and sources.
    pub fn hand(&self, hand: &Hand) -> Hand {
        let mut renamed = Hand::empty();
        for (tile, &count) in hand.counts().iter().enumerate() {
            renamed.counts[usize::from(self.tile(tile as u8))] = count;
        }
        for &meld in hand.called() {
            renamed.call(self.meld(meld));
        }
        renamed
    }

    /// The same win by the renamed tile with the renamed winds, in the same room, its indicators renamed
    /// too. One above 33 stays, and so does what stands behind their counts.
    pub fn win(&self, win: &Win) -> Win {
        let renamed = Win {
            winning_tile: self.tile(win.winning_tile),
            round_wind: self.tile(win.round_wind),
            seat_wind: self.tile(win.seat_wind),
            ..*win
        };
        renamed.showing(win.indicators().map(|sort| self.indicators(sort)))
    }

    fn indicators(&self, mut indicators: Indicators) -> Indicators {
        let number = indicators.shown().len();
        for tile in &mut indicators.tiles[..number] {
            *tile = self.tile(*tile);
        }
        indicators
    }

    /// The record of a reading that is renamed in its pair or pairs and its melds, which are put in
    /// order again.
    pub fn record(&self, record: &Record) -> Record {
        if let Some((pair, melds)) = record.parts() {
            let melds = melds.into_iter().map(|meld| self.meld(meld));
            return Record::standard(self.tile(pair), melds.collect());
        }
        let mut content: Vec<u8> = record.content.iter().map(|&tile| self.tile(tile)).collect();
        content.sort();
        Record {
            kind: record.kind,
            content,
        }
    }
}

#[cfg(test)]
mod tests {
    use super::*;
    use std::collections::HashSet;

    fn renamed(renaming: &Renaming) -> Vec<u8> {
        (0..KINDS as u8).map(|tile| renaming.tile(tile)).collect()
    }

    #[test]
    fn renamings_are_144_and_no_two_tiles_become_the_same() {
        let all: HashSet<Vec<u8>> = (0..Renaming::ALL)
            .map(|number| renamed(&Renaming::numbered(number)))
            .collect();
        assert_eq!(all.len(), 144);
        for mut tiles in all {
            assert_eq!((tiles[27], tiles[32]), (27, 32));
            tiles.sort();
            assert!(tiles.into_iter().eq(0..KINDS as u8));
        }
    }

    #[test]
    fn of_144_renamings_48_keep_the_tiles_of_three_players() {
        assert_eq!(Renaming::numbers_in(Game::Four).len(), 144);
        let kept = Renaming::numbers_in(Game::Three);
        assert_eq!(kept.len(), 48);
        for number in 0..Renaming::ALL {
            let renaming = Renaming::numbered(number);
            let is_kept = kept.contains(&number);
            assert_eq!(renaming.suits[0] == 0, is_kept);
            for tile in (0..KINDS as u8).filter(|_| is_kept) {
                let tiles = [tile, renaming.tile(tile)].map(usize::from);
                let [before, after] = tiles.map(|tile| Game::Three.has_tile(tile));
                assert_eq!(before, after);
            }
        }
    }

    #[test]
    fn a_mirrored_sequence_starts_at_8_less_its_start() {
        // Man becomes pin, pin becomes man, numbers are mirrored, dragons stay.
        let renaming = Renaming::numbered(4 * 2 + 2);
        for start in 1..=7 {
            let meld = Meld::new(start - 1, OPEN_SEQUENCE);
            let mirrored = Meld::new(9 + 8 - start - 1, OPEN_SEQUENCE);
            assert_eq!(renaming.meld(meld), mirrored);
        }
        assert_eq!(renaming.meld(Meld::new(33, ADDED_KAN)).tile, 33);
    }

    #[test]
    fn a_renamed_meld_keeps_its_source() {
        for number in 0..Renaming::ALL {
            let renaming = Renaming::numbered(number);
            for (kind, source) in (0..=ADDED_KAN).flat_map(|kind| [0, 1, 2, 3].map(|of| (kind, of)))
            {
                let meld = renaming.meld(Meld::new(2, kind).with_source(source));
                assert_eq!((meld.kind, meld.source), (kind, source));
            }
        }
    }

    #[test]
    fn a_renamed_win_is_in_the_same_room() {
        let win = Win::new(0, 8, 27, 27);
        // Man becomes pin, and numbers are mirrored.
        let renaming = Renaming::numbered(4 * 2 + 2);
        for setting in 0..=u8::MAX {
            let renamed = renaming.win(&win.in_room(setting));
            assert_eq!((renamed.winning_tile, renamed.double_wind_fu), (9, setting));
        }
    }

    #[test]
    fn winds_are_renamed_in_tiles_and_in_the_win() {
        // South becomes West, West becomes North, North becomes South.
        let renaming = Renaming::numbered(24 * 3);
        assert_eq!(renaming.others(), [false, false, true]);
        assert_eq!(renaming.winds_moved(), 3);
        let winds = [27, 28, 29, 30].map(|wind| renaming.tile(wind));
        assert_eq!(winds, [27, 29, 30, 28]);
        for (round, seat) in [(27, 28), (29, 29), (30, 27)] {
            let renamed = renaming.win(&Win::new(0, 30, round, seat));
            assert_eq!(renamed.winning_tile, 28);
            let winds = [round, seat].map(|wind| winds[usize::from(wind) - 27]);
            assert_eq!([renamed.round_wind, renamed.seat_wind], winds);
        }
        // South and North change places.
        assert_eq!(Renaming::numbered(24 * 5).winds_moved(), 2);
    }

    #[test]
    fn indicators_are_renamed_and_one_above_33_stays() {
        let shown = [Indicators::of(&[0, 9, 31, 34]), Indicators::of(&[8, 255])];
        let mut win = Win::new(0, 8, 27, 27).showing(shown);
        win.dora_indicators.tiles[4] = 7;
        // Man becomes pin, pin becomes man, numbers are mirrored, White and Red change places.
        let renamed = Renaming::numbered(4 * 2 + 3).win(&win);
        assert_eq!(renamed.dora_indicators.shown(), [17, 8, 33, 34]);
        assert_eq!(renamed.ura_dora_indicators.shown(), [9, 255]);
        assert_eq!(renamed.dora_indicators.behind()[0], 7);
        // Of more than ten the ten are renamed, and the number stays.
        win.dora_indicators = Indicators::of(&[0; 12]);
        let renamed = Renaming::numbered(4 * 2).win(&win).dora_indicators;
        assert_eq!((renamed.count, renamed.tiles), (12, [9; 10]));
    }

    #[test]
    fn six_renamings_are_exchanges_of_suits() {
        let all = (0..Renaming::ALL).map(Renaming::numbered);
        assert_eq!(all.clone().filter(Renaming::is_of_suits).count(), 6);
        for (number, renaming) in all.enumerate() {
            let alone = Renaming::numbered(Renaming::suits_alone(number));
            assert!(alone.is_of_suits());
            assert_eq!(alone.suits, renaming.suits);
        }
    }

    #[test]
    fn a_renamed_record_is_in_order_again() {
        // Sou becomes man, man becomes sou, White and Red change places.
        let renaming = Renaming::numbered(4 * 5 + 1);
        let standard = |pair: u8, melds: [[u8; 3]; 4]| Record {
            kind: 3,
            content: [&[pair][..], melds.as_flattened()].concat(),
        };
        let record = standard(31, [[0, 0, 0], [4, 2, 0], [18, 1, 3], [33, 6, 2]]);
        let renamed = standard(33, [[0, 1, 3], [18, 0, 0], [22, 2, 0], [31, 6, 2]]);
        assert!(renaming.record(&record) == renamed);
        let pairs = Record {
            kind: 1,
            content: vec![0, 1, 9, 18, 31, 32, 33],
        };
        assert_eq!(renaming.record(&pairs).content, [0, 9, 18, 19, 31, 32, 33]);
    }
}
