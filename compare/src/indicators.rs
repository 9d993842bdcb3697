//! Random indicators of a win, most often such whose dora the hand or its calls hold.

use crate::hand::*;
use crate::library::{Indicators, MOST_INDICATORS};
use crate::rng::Rng;

/// Tiles that are dora by turns: the nine of each suit, the winds, the dragons. Each by its first tile
/// and its number of tiles.
const CYCLES: [(u8, u8); 5] = [(0, 9), (9, 9), (18, 9), (27, 4), (31, 3)];

/// The cycle of a tile below 34.
fn cycle(tile: u8) -> (u8, u8) {
    let holds = |&&(first, number): &&(u8, u8)| tile < first + number;
    *CYCLES.iter().find(holds).expect("a tile is below 34")
}

/// The dora that an indicator below 34 shows: the tile after it, after the last one the first.
pub fn dora_of(indicator: u8) -> u8 {
    let (first, number) = cycle(indicator);
    first + (indicator - first + 1) % number
}

/// The indicator that shows this dora.
pub fn indicator_of(dora: u8) -> u8 {
    let (first, number) = cycle(dora);
    first + (dora - first + number - 1) % number
}

/// Whether the dora of an indicator is the first tile of its suit, of the winds or of the dragons.
pub fn is_last(indicator: u8) -> bool {
    dora_of(indicator) < indicator
}

/// How indicators are drawn, in percent.
#[derive(Clone, Copy)]
pub struct Style {
    /// How often an indicator's dora is held, where anything is.
    pub hits: usize,
    /// How often one that is there already is shown again.
    pub repeats: usize,
}

impl Style {
    /// Every indicator hits the hand.
    pub const HITS: Style = Style {
        hits: 100,
        repeats: 30,
    };

    /// So many indicators of one sort, at most ten.
    pub fn shown(self, rng: &mut Rng, hand: &Hand, number: usize) -> Indicators {
        let mut tiles: Vec<u8> = Vec::with_capacity(MOST_INDICATORS);
        while tiles.len() < number {
            let is_again = !tiles.is_empty() && rng.percent(self.repeats);
            let tile = if is_again {
                rng.pick(&tiles)
            } else {
                self.one(rng, hand)
            };
            tiles.push(tile);
        }
        Indicators::of(&tiles)
    }

    fn one(self, rng: &mut Rng, hand: &Hand) -> u8 {
        let held = if rng.percent(self.hits) {
            held_with_calls(hand)
        } else {
            Vec::new()
        };
        match held.is_empty() {
            true => rng.below(KINDS) as u8,
            false => indicator_of(rng.pick(&held)),
        }
    }
}

/// Each kind that the hand or a call holds.
fn held_with_calls(hand: &Hand) -> Vec<u8> {
    let all = hand.with_calls();
    let kinds = (0..KINDS).filter(|&tile| all[tile] > 0);
    kinds.map(|tile| tile as u8).collect()
}

/// A number of indicators: most often few, at times ten.
fn number(rng: &mut Rng) -> usize {
    let any = 1 + rng.below(MOST_INDICATORS);
    rng.pick(&[1, 1, 1, 2, 2, 3, any, MOST_INDICATORS])
}

/// Indicators of both sorts: in half the cases none, else of either sort or of both, with riichi or
/// without, most often such that hit the hand.
pub fn any(rng: &mut Rng, hand: &Hand) -> [Indicators; 2] {
    let style = Style {
        hits: rng.pick(&[0, 70, 100]),
        repeats: rng.pick(&[0, 30, 90]),
    };
    let are_there = rng.pick(&[
        [false, false],
        [false, false],
        [false, false],
        [true, false],
        [false, true],
        [true, true],
    ]);
    are_there.map(|is_there| match is_there {
        true => {
            let number = number(rng);
            style.shown(rng, hand, number)
        }
        false => Indicators::default(),
    })
}

#[cfg(test)]
mod tests {
    use super::*;
    use crate::library::{RON, Win};
    use crate::win_oracle::ExpectedWin;

    #[test]
    fn each_tile_is_the_dora_of_one_indicator() {
        for tile in 0..KINDS as u8 {
            assert_eq!(dora_of(indicator_of(tile)), tile);
            assert_eq!(indicator_of(dora_of(tile)), tile);
        }
        let last: Vec<u8> = (0..KINDS as u8).filter(|&tile| is_last(tile)).collect();
        assert_eq!(last, [8, 17, 26, 30, 33]);
        assert_eq!([8, 17, 26, 30, 33].map(dora_of), [0, 9, 18, 27, 31]);
    }

    #[test]
    fn agari_counts_the_same_dora() {
        let orphans = crate::random::orphans_with(33);
        let pairs = Hand::written("11223344m556677s");
        for hand in [orphans, pairs] {
            for indicator in 0..KINDS as u8 {
                let shown = [Indicators::of(&[indicator]), Indicators::default()];
                let tile = crate::wins::held_tiles(&hand)[0];
                let win = Win::new(RON, tile, 27, 28).showing(shown);
                let score = ExpectedWin::of(&hand, &win).score_reading(0);
                let held = hand.counts[usize::from(dora_of(indicator))];
                assert_eq!(score.regular_dora, held);
            }
        }
    }

    #[test]
    fn indicators_hit_the_hand_and_its_calls() {
        let mut rng = Rng::new(9);
        let mut hand = Hand::written("55z");
        for (tile, kind) in [
            (8, OPEN_TRIPLET),
            (12, CLOSED_KAN),
            (18, OPEN_SEQUENCE),
            (33, OPEN_KAN),
        ] {
            hand.call(crate::library::Meld::new(tile, kind));
        }
        let shown = Style::HITS.shown(&mut rng, &hand, 10);
        assert_eq!((shown.count, shown.shown().len()), (10, 10));
        let all = hand.with_calls();
        let doras = shown.shown().iter().map(|&tile| dora_of(tile));
        assert!(doras.into_iter().all(|tile| all[usize::from(tile)] > 0));
        // Nothing to hit.
        assert_eq!(Style::HITS.shown(&mut rng, &Hand::empty(), 3).count, 3);
    }

    #[test]
    fn half_of_the_wins_show_nothing() {
        let mut rng = Rng::new(2);
        let hand = Hand::written("12355m456p234678s");
        let mut sorts = [0; 4];
        for _ in 0..6000 {
            let [dora, ura] = any(&mut rng, &hand).map(|sort| usize::from(sort.count > 0));
            sorts[2 * dora + ura] += 1;
        }
        assert!(sorts[0] > 2700 && sorts[1..].iter().all(|&wins| wins > 800));
    }
}
