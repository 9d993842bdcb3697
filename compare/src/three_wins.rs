//! Random wins of three players: no man 2 to 8, no open sequence, calls from the right and from across, and no
//! indicators. Most often with man 1, man 9 or North.

use crate::every::HONOURS;
use crate::game::Game;
use crate::hand::*;
use crate::library::{Indicators, Meld, Win};
use crate::random::{self, ORPHANS, Pool, add_meld, at_most_four};
use crate::rng::Rng;
use crate::wins::{
    self, DRAGONS, GREENS, Shape, WINDS, completed, from_pool, gates_shape, sequence, triplet,
};

const NORTH: u8 = 30;
/// Man 1 and man 9.
const MAN: [u8; 2] = [0, 8];
const TERMINALS: [usize; 6] = [0, 8, 9, 17, 18, 26];
/// The suits that have sequences, by their numbers.
const SUITS: [usize; 2] = [1, 2];
/// Where their sequences with a terminal start.
const OUTER_STARTS: [u8; 4] = [9, 15, 18, 24];
/// Who a called tile comes from.
const SOURCES: [u8; 2] = [RIGHT, ACROSS];
/// The kinds of calls.
const CALLS: [u8; 4] = [OPEN_TRIPLET, CLOSED_KAN, OPEN_KAN, ADDED_KAN];

/// The tiles that three players have and that are as asked.
fn pool(is_so: impl Fn(usize) -> bool) -> Pool {
    let tiles = (0..KINDS).filter(|&tile| Game::Three.has_tile(tile) && is_so(tile));
    Pool::of(&tiles.collect::<Vec<usize>>())
}

fn all() -> Pool {
    pool(|_| true)
}

/// Pin and sou.
fn two_suits() -> Pool {
    pool(|tile| (9..27).contains(&tile))
}

fn simples() -> Pool {
    pool(|tile| !ORPHANS.contains(&tile))
}

/// Pin or sou beside man 1 and man 9.
fn suit_and_man(suit: usize) -> Pool {
    pool(|tile| tile / 9 == suit || tile / 9 == 0)
}

/// From five to seven neighbouring numbers of pin or sou.
fn window(rng: &mut Rng) -> Pool {
    let width = 5 + rng.below(3);
    let first = 9 * rng.pick(&SUITS) + rng.below(10 - width);
    pool(|tile| (first..first + width).contains(&tile))
}

/// A hand with at least one reading.
pub fn hand(rng: &mut Rng) -> Hand {
    match rng.share(&[13, 22, 6, 3, 4, 52]) {
        0 => any_melds(rng),
        1 => random::until(rng, few_kinds, |expected| expected.readings > 1),
        2 => seven_pairs(rng),
        3 => random::orphans(rng),
        4 => nine_gates(rng),
        _ => shaped(rng, shape),
    }
}

/// Melds of any tiles, of two suits, or of a suit with honours or man.
fn any_melds(rng: &mut Rng) -> Hand {
    shaped(rng, |rng| {
        let suit = rng.pick(&SUITS);
        let pool = rng.pick(&[
            all(),
            all(),
            two_suits(),
            Pool::suit_and_honours(suit),
            suit_and_man(suit),
        ]);
        from_pool(rng, pool, 60)
    })
}

/// Melds of a suit or of neighbouring numbers, three neighbouring triplets, or twice two equal sequences: such
/// hands have several readings more often.
fn few_kinds(rng: &mut Rng) -> Hand {
    shaped(rng, |rng| {
        let suit = rng.pick(&SUITS);
        match rng.share(&[25, 35, 25, 15]) {
            0 => from_pool(rng, Pool::suit(suit), 70),
            1 => {
                let pool = window(rng);
                from_pool(rng, pool, 60)
            }
            2 => neighbours(rng),
            _ => twins(rng),
        }
    })
}

fn seven_pairs(rng: &mut Rng) -> Hand {
    let suit = rng.pick(&SUITS);
    let pool = rng.pick(&[
        all(),
        Pool::of(&HONOURS),
        Pool::of(&ORPHANS),
        simples(),
        Pool::suit(suit),
        two_suits(),
        suit_and_man(suit),
        Pool::suit_and_honours(suit),
    ]);
    random::distinct_pairs(rng, pool)
}

/// Nine gates of pin or sou, in half the cases with melds that may be called, which spoils them.
fn nine_gates(rng: &mut Rng) -> Hand {
    let first = 9 * rng.pick(&SUITS);
    if rng.percent(50) {
        let shape = gates_shape(rng, first as u8);
        return laid_out(rng, &shape);
    }
    let mut hand = Hand::empty();
    hand.counts[first..][..9].copy_from_slice(&[3, 1, 1, 1, 1, 1, 1, 1, 3]);
    hand.counts[first + rng.below(9)] += 1;
    hand
}

/// A hand of a shape that is drawn so, some of its triplets called.
fn shaped(rng: &mut Rng, shape: impl Fn(&mut Rng) -> Shape) -> Hand {
    loop {
        let shape = shape(rng);
        let hand = laid_out(rng, &shape);
        if at_most_four(&hand) {
            return hand;
        }
    }
}

/// A shape, in four of ten cases with man 1, man 9 or North put in.
fn shape(rng: &mut Rng) -> Shape {
    let mut shape = plain_shape(rng);
    if rng.percent(60) {
        return shape;
    }
    let man = rng.pick(&MAN);
    let place = rng.below(shape.melds.len());
    match rng.below(4) {
        0 => shape.melds[place] = triplet(man),
        1 => shape.pair = man,
        2 => shape.melds[place] = triplet(NORTH),
        _ => shape.pair = NORTH,
    }
    shape
}

fn plain_shape(rng: &mut Rng) -> Shape {
    let suit = rng.pick(&SUITS);
    match rng.share(&[7, 6, 6, 4, 6, 8, 8, 8, 8, 8, 8, 8, 6, 6, 6, 6]) {
        0 => from_pool(rng, Pool::of(&HONOURS), 0),
        1 => from_pool(rng, Pool::of(&TERMINALS), 0),
        2 => from_pool(rng, Pool::of(&ORPHANS), 0),
        3 => from_pool(rng, Pool::of(&GREENS), 50),
        4 => from_pool(rng, simples(), 60),
        5 => from_pool(rng, two_suits(), 100),
        6 => from_pool(rng, all(), 0),
        7 => from_pool(rng, Pool::suit_and_honours(suit), 40),
        8 => straight(rng, suit),
        9 => all_but_one(rng, &DRAGONS),
        10 => all_but_one(rng, &WINDS),
        11 => man(rng),
        12 => outside(rng),
        13 => twins(rng),
        14 => neighbours(rng),
        _ => three_suits(rng),
    }
}

/// The sequences 123, 456 and 789 of a suit; in one of five cases one is in the other.
fn straight(rng: &mut Rng, suit: usize) -> Shape {
    let mut melds = [0, 3, 6]
        .map(|number| sequence(9 * suit as u8 + number))
        .to_vec();
    if rng.percent(20) {
        let other = 9 * (3 - suit as u8);
        let meld = &mut melds[rng.below(3)];
        meld.tile = other + meld.tile % 9;
    }
    let pool = rng.pick(&[all(), Pool::suit(suit), Pool::suit_and_honours(suit)]);
    completed(rng, melds, pool, 50)
}

/// Triplets of all these honours but one, which is a triplet, the pair, or not there.
fn all_but_one(rng: &mut Rng, honours: &[u8]) -> Shape {
    let last = rng.pick(honours);
    let others = honours.iter().filter(|&&honour| honour != last);
    let mut melds: Vec<Meld> = others.map(|&honour| triplet(honour)).collect();
    let place = rng.share(&[40, 40, 20]);
    if place == 0 {
        melds.push(triplet(last));
    }
    let suit = rng.pick(&SUITS);
    let pool = rng.pick(&[all(), Pool::suit(suit), Pool::of(&ORPHANS)]);
    let mut shape = completed(rng, melds, pool, 0);
    if place == 1 {
        shape.pair = last;
    }
    shape
}

/// Triplets of man 1, of man 9 or of both beside any melds; now and then one of them is the pair.
fn man(rng: &mut Rng) -> Shape {
    let number = 1 + rng.below(2);
    let [one, other] = rng.pick(&[MAN, [MAN[1], MAN[0]]]);
    let melds = [one, other].map(triplet)[..number].to_vec();
    let suit = rng.pick(&SUITS);
    let pool = rng.pick(&[all(), two_suits(), Pool::suit_and_honours(suit)]);
    let mut shape = completed(rng, melds, pool, 60);
    if number == 1 && rng.percent(50) {
        shape.pair = other;
    }
    shape
}

/// Sequences with a terminal and triplets of terminals, with honours or without.
fn outside(rng: &mut Rng) -> Shape {
    let pool = rng.pick(&[Pool::of(&ORPHANS), Pool::of(&TERMINALS)]);
    let mut shape = from_pool(rng, pool, 0);
    for meld in &mut shape.melds {
        if rng.percent(60) {
            *meld = sequence(rng.pick(&OUTER_STARTS));
        }
    }
    shape
}

/// Two equal sequences, and two others that are most often equal too.
fn twins(rng: &mut Rng) -> Shape {
    let suit = rng.pick(&SUITS);
    let pool = rng.pick(&[Pool::suit(suit), two_suits()]);
    let [one, other, any] = [(); 3].map(|_| pool.start(rng));
    let last = rng.pick(&[other, other, any]);
    let melds = [one, one, other, last].map(sequence).to_vec();
    let pool = rng.pick(&[pool, all()]);
    completed(rng, melds, pool, 0)
}

/// Three neighbouring triplets of a suit, which are three equal sequences too.
fn neighbours(rng: &mut Rng) -> Shape {
    let suit = rng.pick(&SUITS);
    let first = Pool::suit(suit).start(rng);
    let melds = [first, first + 1, first + 2].map(triplet).to_vec();
    let pool = rng.pick(&[Pool::suit(suit), all()]);
    completed(rng, melds, pool, 60)
}

/// Triplets of 1 or of 9 in each suit; in one of five cases one is another.
fn three_suits(rng: &mut Rng) -> Shape {
    let number = rng.pick(&MAN);
    let mut melds = [0, 9, 18].map(|suit| triplet(suit + number)).to_vec();
    if rng.percent(20) {
        let other = all().tile(rng);
        melds[rng.below(3)] = triplet(other);
    }
    completed(rng, melds, all(), 50)
}

/// The hand of a shape: nothing called, closed kans alone, or any triplets called.
fn laid_out(rng: &mut Rng, shape: &Shape) -> Hand {
    let style = rng.share(&[30, 22, 48]);
    let share = rng.pick(&[30, 60, 90, 100]);
    let mut hand = Hand::empty();
    for &meld in &shape.melds {
        let is_called = meld.kind == CLOSED_TRIPLET && rng.percent(share);
        match style {
            1 if is_called => hand.call(Meld::new(meld.tile, CLOSED_KAN)),
            2 if is_called => hand.call(call(rng, meld.tile)),
            _ => add_meld(&mut hand, meld),
        }
    }
    hand.counts[usize::from(shape.pair)] += 2;
    hand
}

/// A call of this tile, an open one from the right or from across.
pub fn call(rng: &mut Rng, tile: u8) -> Meld {
    let kind = rng.pick(&CALLS);
    match kind {
        CLOSED_KAN => Meld::new(tile, kind),
        _ => Meld::new(tile, kind).with_source(rng.pick(&SOURCES)),
    }
}

/// A winning hand with one or more calls, at least one of them open.
pub fn open_hand(rng: &mut Rng) -> Hand {
    loop {
        let hand = hand(rng);
        if hand.is_open() {
            return hand;
        }
    }
}

/// A hand with no fault, most often with a reading.
pub fn sound_hand(rng: &mut Rng) -> Hand {
    match rng.share(&[90, 6, 4]) {
        0 => hand(rng),
        1 => near_winning(rng),
        _ => from_wall(rng),
    }
}

/// A winning hand with one tile changed.
fn near_winning(rng: &mut Rng) -> Hand {
    let mut hand = hand(rng);
    let old = random::held_tile(rng, &hand);
    hand.counts[old] -= 1;
    loop {
        let new = usize::from(all().tile(rng));
        if new != old && hand.with_calls()[new] < 4 {
            hand.counts[new] += 1;
            return hand;
        }
    }
}

/// Tiles drawn at random beside no, one or more calls.
fn from_wall(rng: &mut Rng) -> Hand {
    let calls = rng.share(&[80, 5, 5, 5, 5]);
    loop {
        let mut hand = Hand::empty();
        for _ in 0..calls {
            let tile = all().tile(rng);
            hand.call(call(rng, tile));
        }
        for _ in 0..14 - 3 * calls {
            hand.counts[usize::from(all().tile(rng))] += 1;
        }
        if at_most_four(&hand) {
            return hand;
        }
    }
}

/// A hand with no fault, and one or more wins with it, at most so many.
pub fn random_wins(rng: &mut Rng, most: u64) -> (Hand, Vec<Win>) {
    let hand = sound_hand(rng);
    let tiles = wins::winning_tiles(rng, &hand).into_iter();
    let tiles = tiles.take(most as usize);
    let wins = tiles.map(|tile| win(rng, &hand, tile)).collect();
    (hand, wins)
}

/// A win by this tile in any circumstances, with either setting and no indicators; more often in the round of
/// North, at the seat of North, or both.
pub fn win(rng: &mut Rng, hand: &Hand, winning_tile: u8) -> Win {
    let mut win = wins::win(rng, hand, winning_tile).showing([Indicators::default(); 2]);
    if rng.percent(15) {
        win.round_wind = NORTH;
    }
    if rng.percent(15) {
        win.seat_wind = NORTH;
    }
    if rng.percent(10) {
        win.seat_wind = win.round_wind;
    }
    win
}

#[cfg(test)]
mod tests {
    use super::*;
    use crate::library::SETTINGS;
    use crate::three_checks::{hand_faults, win_faults};

    #[test]
    fn only_tiles_calls_and_sources_of_three_players_are_dealt() {
        let mut rng = Rng::new(4);
        let mut held = [0; KINDS];
        let mut calls = [[0; 3]; 7];
        for _ in 0..30_000 {
            let (hand, wins) = random_wins(&mut rng, 14);
            assert!(Game::Three.has_tiles_of(&hand), "{hand}");
            assert_eq!(hand_faults(&hand), [false; 6], "{hand}");
            for (seen, number) in held.iter_mut().zip(hand.with_calls()) {
                *seen += usize::from(number > 0);
            }
            for call in hand.called() {
                calls[usize::from(call.kind)][usize::from(call.source)] += 1;
            }
            for win in &wins {
                assert_eq!(win_faults(&hand, win), [false; 3], "{win:?}");
                assert!(SETTINGS.contains(&win.double_wind_fu) && !win.has_indicators());
            }
        }
        for (tile, seen) in held.into_iter().enumerate() {
            assert_eq!(seen > 100, Game::Three.has_tile(tile), "{tile}");
            assert_eq!(seen > 0, Game::Three.has_tile(tile), "{tile}");
        }
        for (kind, seen) in (0..).zip(calls) {
            let from = |source| match kind {
                CLOSED_KAN => source == NOBODY,
                OPEN_TRIPLET | OPEN_KAN | ADDED_KAN => SOURCES.contains(&source),
                _ => false,
            };
            let is_seen = [NOBODY, RIGHT, ACROSS].map(from);
            assert_eq!(seen.map(|calls| calls > 100), is_seen, "{kind}");
            assert_eq!(seen.map(|calls| calls > 0), is_seen, "{kind}");
        }
    }

    #[test]
    fn open_hands_are_open_and_have_a_reading() {
        let mut rng = Rng::new(5);
        for _ in 0..2000 {
            let hand = open_hand(&mut rng);
            let expected = crate::oracle::Expected::in_game(Game::Three, &hand);
            assert!(hand.is_open() && expected.readings > 0, "{hand}");
        }
    }
}
