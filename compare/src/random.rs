//! Random hands: winning ones, ones near to winning, and ones from the wall.

use crate::damage;
use crate::hand::*;
use crate::library::Meld;
use crate::oracle::Expected;
use crate::rng::Rng;

const SUIT: u64 = 0x1ff;
const HONOURS: u64 = 0x7f << 27;
pub const ORPHANS: [usize; 13] = [0, 8, 9, 17, 18, 26, 27, 28, 29, 30, 31, 32, 33];

/// The kinds of tiles that a hand is drawn from, one bit for each.
#[derive(Clone, Copy)]
pub struct Pool(u64);

impl Pool {
    pub fn all() -> Pool {
        Pool((1 << KINDS) - 1)
    }

    pub fn suit(suit: usize) -> Pool {
        Pool(SUIT << (9 * suit))
    }

    pub fn suit_and_honours(suit: usize) -> Pool {
        Pool(Pool::suit(suit).0 | HONOURS)
    }

    /// All suits but one, no honours.
    fn two_suits(left_out: usize) -> Pool {
        Pool(Pool::all().0 & !Pool::suit_and_honours(left_out).0)
    }

    /// The kinds that are listed.
    pub fn of(tiles: &[usize]) -> Pool {
        Pool(tiles.iter().fold(0, |kinds, tile| kinds | 1 << tile))
    }

    /// So many neighbouring numbers of a suit.
    fn window(rng: &mut Rng, width: usize) -> Pool {
        let first = 9 * rng.below(3) + rng.below(10 - width);
        Pool(((1 << width) - 1) << first)
    }

    /// One of the kinds.
    pub fn tile(self, rng: &mut Rng) -> u8 {
        let mut kinds = self.0;
        for _ in 0..rng.below(kinds.count_ones() as usize) {
            kinds &= kinds - 1;
        }
        kinds.trailing_zeros() as u8
    }

    /// One of the kinds at which a sequence inside the pool starts, of which there must be one.
    pub fn start(self, rng: &mut Rng) -> u8 {
        loop {
            let tile = self.tile(rng);
            if starts_sequence(tile) && self.0 >> tile & 7 == 7 {
                return tile;
            }
        }
    }
}

/// How the melds of a winning hand are drawn.
#[derive(Clone, Copy)]
pub struct Style {
    pub pool: Pool,
    /// The share of sequences, in percent.
    pub sequences: usize,
    /// The share of kans among called triplets and kans, in percent.
    pub kans: usize,
}

impl Style {
    pub fn closed_meld(self, rng: &mut Rng) -> Meld {
        if rng.percent(self.sequences) {
            Meld::new(self.pool.start(rng), CLOSED_SEQUENCE)
        } else {
            Meld::new(self.pool.tile(rng), CLOSED_TRIPLET)
        }
    }

    /// A call from any player that it may come from.
    fn call(self, rng: &mut Rng) -> Meld {
        let call = if rng.percent(self.sequences) {
            Meld::new(self.pool.start(rng), OPEN_SEQUENCE)
        } else if rng.percent(self.kans) {
            let kind = rng.pick(&[CLOSED_KAN, OPEN_KAN, ADDED_KAN]);
            Meld::new(self.pool.tile(rng), kind)
        } else {
            Meld::new(self.pool.tile(rng), OPEN_TRIPLET)
        };
        call.from_anyone(rng)
    }

    /// A winning hand with so many calls.
    pub fn winning(self, rng: &mut Rng, calls: usize) -> Hand {
        loop {
            let mut hand = Hand::empty();
            for _ in 0..calls {
                hand.call(self.call(rng));
            }
            for _ in calls..4 {
                add_meld(&mut hand, self.closed_meld(rng));
            }
            hand.counts[usize::from(self.pool.tile(rng))] += 2;
            if at_most_four(&hand) {
                return hand;
            }
        }
    }
}

pub fn add_meld(hand: &mut Hand, meld: Meld) {
    for tile in meld.tiles() {
        hand.counts[tile] += 1;
    }
}

pub fn at_most_four(hand: &Hand) -> bool {
    hand.with_calls().iter().all(|&number| number <= 4)
}

/// A winning hand with three neighbouring triplets, which are three equal sequences too, and a
/// fourth meld that may be called.
fn stacked(rng: &mut Rng, is_called: bool) -> Hand {
    let suit = rng.below(3);
    let style = Style {
        pool: rng.pick(&[Pool::suit(suit), Pool::all()]),
        sequences: 60,
        kans: 60,
    };
    loop {
        let mut hand = Hand::empty();
        let first = Pool::suit(suit).start(rng);
        for tile in first..first + 3 {
            add_meld(&mut hand, Meld::new(tile, CLOSED_TRIPLET));
        }
        if is_called {
            hand.call(style.call(rng));
        } else {
            add_meld(&mut hand, style.closed_meld(rng));
        }
        hand.counts[usize::from(style.pool.tile(rng))] += 2;
        if at_most_four(&hand) {
            return hand;
        }
    }
}

/// A winning hand, most often of few kinds, so that it has several readings more often.
pub fn winning(rng: &mut Rng) -> Hand {
    let calls = rng.share(&[45, 20, 15, 10, 10]);
    winning_with_calls(rng, calls)
}

/// A winning hand as from `winning`, with so many calls.
pub fn winning_with_calls(rng: &mut Rng, calls: usize) -> Hand {
    let suit = rng.below(3);
    let width = 5 + rng.below(3);
    let (pool, sequences) = match rng.share(&[20, 20, 30, 10, 10, 10]) {
        0 => (Pool::all(), 70),
        1 => (Pool::suit(suit), 70),
        2 => (Pool::window(rng, width), 60),
        3 => (Pool::suit_and_honours(suit), 50),
        4 => (Pool::two_suits(suit), 70),
        _ if calls < 2 => return stacked(rng, calls == 1),
        _ => (Pool::suit(suit), 40),
    };
    let style = Style {
        pool,
        sequences,
        kans: 60,
    };
    style.winning(rng, calls)
}

/// Puts another tile in the place of one.
pub fn change_one_tile(rng: &mut Rng, hand: &mut Hand) {
    let old = held_tile(rng, hand);
    hand.counts[old] -= 1;
    let all = hand.with_calls();
    loop {
        let new = rng.below(KINDS);
        if new != old && all[new] < 4 {
            hand.counts[new] += 1;
            return;
        }
    }
}

/// A kind of tile that the hand holds, of which there must be one.
pub fn held_tile(rng: &mut Rng, hand: &Hand) -> usize {
    other_held_tile(rng, hand, KINDS).expect("the hand holds a tile")
}

/// A kind of tile that the hand holds, other than this one.
pub fn other_held_tile(rng: &mut Rng, hand: &Hand, tile: usize) -> Option<usize> {
    let held: Vec<usize> = (0..KINDS)
        .filter(|&other| other != tile && hand.counts[other] > 0)
        .collect();
    (!held.is_empty()).then(|| rng.pick(&held))
}

/// A winning hand with one tile changed.
pub fn near_winning(rng: &mut Rng) -> Hand {
    let mut hand = winning(rng);
    change_one_tile(rng, &mut hand);
    hand
}

/// Seven different pairs, most often of few kinds, so that they make up melds too more often.
pub fn seven_pairs(rng: &mut Rng) -> Hand {
    let suit = rng.below(3);
    let pool = rng.pick(&[
        Pool::all(),
        Pool::suit(suit),
        Pool::suit(suit),
        Pool::two_suits(suit),
        Pool::suit_and_honours(suit),
    ]);
    distinct_pairs(rng, pool)
}

/// Seven different pairs from a pool of seven kinds or more.
pub fn distinct_pairs(rng: &mut Rng, pool: Pool) -> Hand {
    let mut hand = Hand::empty();
    for _ in 0..7 {
        let mut tile = pool.tile(rng);
        while hand.counts[usize::from(tile)] > 0 {
            tile = pool.tile(rng);
        }
        hand.counts[usize::from(tile)] = 2;
    }
    hand
}

/// Seven pairs spoilt: a pair twice over, a triplet beside a single tile, or one tile changed.
pub fn near_seven_pairs(rng: &mut Rng) -> Hand {
    let mut hand = seven_pairs(rng);
    let one = held_tile(rng, &hand);
    let other = other_held_tile(rng, &hand, one).expect("the hand holds seven kinds");
    match rng.below(3) {
        0 => (hand.counts[one], hand.counts[other]) = (4, 0),
        1 => (hand.counts[one], hand.counts[other]) = (3, 1),
        _ => change_one_tile(rng, &mut hand),
    }
    hand
}

/// Thirteen orphans.
pub fn orphans(rng: &mut Rng) -> Hand {
    orphans_with(rng.pick(&ORPHANS))
}

/// Thirteen orphans with this one doubled.
pub fn orphans_with(pair: usize) -> Hand {
    let mut hand = Hand::empty();
    for tile in ORPHANS {
        hand.counts[tile] = 1;
    }
    hand.counts[pair] = 2;
    hand
}

/// Thirteen orphans spoilt: one kind missing for a second pair or a triplet, or one tile changed.
pub fn near_orphans(rng: &mut Rng) -> Hand {
    let mut hand = orphans(rng);
    if rng.percent(50) {
        let (less, more) = (rng.pick(&ORPHANS), rng.pick(&ORPHANS));
        hand.counts[less] -= 1;
        hand.counts[more] += 1;
    } else {
        change_one_tile(rng, &mut hand);
    }
    hand
}

/// Tiles drawn from the wall, beside so many calls.
pub fn from_wall(rng: &mut Rng, calls: usize) -> Hand {
    let style = Style {
        pool: Pool::all(),
        sequences: 60,
        kans: 30,
    };
    let mut hand = style.winning(rng, calls);
    hand.counts = [0; MOST_COUNTS];
    let mut left = hand.with_calls().map(|called| 4 - called);
    for _ in 0..14 - 3 * calls {
        let mut place = rng.below(left.iter().map(|&number| usize::from(number)).sum());
        let mut tile = 0;
        while place >= usize::from(left[tile]) {
            place -= usize::from(left[tile]);
            tile += 1;
        }
        left[tile] -= 1;
        hand.counts[tile] += 1;
    }
    hand
}

/// Tiles drawn from the wall, most often with no call.
pub fn any_tiles(rng: &mut Rng) -> Hand {
    let calls = rng.share(&[80, 5, 5, 5, 5]);
    from_wall(rng, calls)
}

/// A hand of any class.
pub fn any(rng: &mut Rng) -> Hand {
    match rng.share(&[45, 13, 4, 3, 1, 2, 8, 24]) {
        0 => winning(rng),
        1 => near_winning(rng),
        2 => seven_pairs(rng),
        3 => near_seven_pairs(rng),
        4 => orphans(rng),
        5 => near_orphans(rng),
        6 => any_tiles(rng),
        _ => damage::damaged(rng),
    }
}

/// The first hand dealt for which the right answer is as asked.
pub fn until(
    rng: &mut Rng,
    deal: impl Fn(&mut Rng) -> Hand,
    fits: impl Fn(&Expected) -> bool,
) -> Hand {
    loop {
        let hand = deal(rng);
        if fits(&Expected::of(&hand)) {
            return hand;
        }
    }
}
