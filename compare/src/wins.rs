//! Random wins: hands with the shapes of the yaku and hands with several readings, won in any
//! circumstances.

use crate::hand::*;
use crate::indicators;
use crate::library::{Indicators, Meld, RON, SETTINGS, TSUMO, Win};
use crate::random::{self, ORPHANS, Pool, Style, add_meld, at_most_four};
use crate::rng::Rng;

pub const WINDS: [u8; 4] = [27, 28, 29, 30];
pub const DRAGONS: [u8; 3] = [31, 32, 33];
const HONOURS: [usize; 7] = [27, 28, 29, 30, 31, 32, 33];
const TERMINALS: [usize; 6] = [0, 8, 9, 17, 18, 26];
pub const GREENS: [usize; 6] = [19, 20, 21, 23, 25, 32];
/// Where sequences with a terminal start.
const OUTER_STARTS: [u8; 6] = [0, 6, 9, 15, 18, 24];

/// Four closed sequences and triplets, and a pair's tile, before anything is called.
pub struct Shape {
    pub melds: Vec<Meld>,
    pub pair: u8,
}

pub fn sequence(tile: u8) -> Meld {
    Meld::new(tile, CLOSED_SEQUENCE)
}

pub fn triplet(tile: u8) -> Meld {
    Meld::new(tile, CLOSED_TRIPLET)
}

/// How closed melds are drawn from a pool, with a share of sequences in percent.
fn style(pool: Pool, sequences: usize) -> Style {
    Style {
        pool,
        sequences,
        kans: 0,
    }
}

fn simples() -> Pool {
    let tiles: Vec<usize> = (0..KINDS).filter(|tile| !ORPHANS.contains(tile)).collect();
    Pool::of(&tiles)
}

/// A hand with at least one reading.
pub fn hand(rng: &mut Rng) -> Hand {
    match rng.share(&[15, 20, 6, 2, 3, 54]) {
        0 => random::winning(rng),
        1 => random::until(rng, random::winning, |expected| expected.readings > 1),
        2 => seven_pairs(rng),
        3 => random::orphans(rng),
        4 => nine_gates(rng),
        _ => shaped(rng),
    }
}

fn seven_pairs(rng: &mut Rng) -> Hand {
    let pool = match rng.below(6) {
        0 => Pool::of(&HONOURS),
        1 => Pool::of(&ORPHANS),
        2 => simples(),
        _ => return random::seven_pairs(rng),
    };
    random::distinct_pairs(rng, pool)
}

/// Nine gates, in half the cases with melds that may be called, which spoils them.
fn nine_gates(rng: &mut Rng) -> Hand {
    let first = 9 * rng.below(3);
    if rng.percent(50) {
        let shape = gates_shape(rng, first as u8);
        return laid_out(rng, &shape);
    }
    let mut hand = Hand::empty();
    hand.counts[first..][..9].copy_from_slice(&[3, 1, 1, 1, 1, 1, 1, 1, 3]);
    hand.counts[first + rng.below(9)] += 1;
    hand
}

/// Nine gates of the suit that begins here, as two triplets, two sequences and a pair.
pub fn gates_shape(rng: &mut Rng, first: u8) -> Shape {
    let (pair, lower, upper) = rng.pick(&[(1, 2, 5), (4, 1, 5), (7, 1, 4)]);
    let melds = vec![
        triplet(first),
        sequence(first + lower),
        sequence(first + upper),
        triplet(first + 8),
    ];
    Shape {
        melds,
        pair: first + pair,
    }
}

/// A hand of a shape, some of its melds called.
fn shaped(rng: &mut Rng) -> Hand {
    shaped_as(rng, shape)
}

/// A hand of a shape that is drawn so, some of its melds called.
fn shaped_as(rng: &mut Rng, shape: fn(&mut Rng) -> Shape) -> Hand {
    loop {
        let shape = shape(rng);
        let hand = laid_out(rng, &shape);
        if at_most_four(&hand) {
            return hand;
        }
    }
}

/// A hand with a pair of this tile: of a shape, or with three neighbouring triplets or two twice equal
/// sequences, which have several readings more often.
fn hand_with_pair(rng: &mut Rng, pair: u8) -> Hand {
    loop {
        let mut shape = match rng.share(&[60, 20, 20]) {
            0 => shape(rng),
            1 => neighbours(rng),
            _ => twins(rng),
        };
        shape.pair = pair;
        let hand = laid_out(rng, &shape);
        if at_most_four(&hand) {
            return hand;
        }
    }
}

fn shape(rng: &mut Rng) -> Shape {
    let suit = rng.below(3);
    match rng.share(&[7, 4, 6, 4, 6, 10, 10, 10, 8, 8, 8, 6, 8, 5]) {
        0 => from_pool(rng, Pool::of(&HONOURS), 0),
        1 => from_pool(rng, Pool::of(&TERMINALS), 0),
        2 => from_pool(rng, Pool::of(&ORPHANS), 0),
        3 => from_pool(rng, Pool::of(&GREENS), 50),
        4 => from_pool(rng, simples(), 60),
        5 => from_pool(rng, Pool::all(), 100),
        6 => from_pool(rng, Pool::all(), 0),
        7 => from_pool(rng, Pool::suit_and_honours(suit), 40),
        8 => three_suits(rng),
        9 => straight(rng, suit),
        10 => dragons(rng),
        11 => winds(rng),
        12 => outside(rng),
        _ => twins(rng),
    }
}

/// Melds and a pair from a pool, with a share of sequences in percent.
pub fn from_pool(rng: &mut Rng, pool: Pool, sequences: usize) -> Shape {
    completed(rng, vec![], pool, sequences)
}

/// These melds with others from a pool, and a pair from it.
pub fn completed(rng: &mut Rng, mut melds: Vec<Meld>, pool: Pool, sequences: usize) -> Shape {
    while melds.len() < 4 {
        melds.push(style(pool, sequences).closed_meld(rng));
    }
    Shape {
        melds,
        pair: pool.tile(rng),
    }
}

/// The same sequence or triplet in each suit; in one of five cases one is any meld of its suit.
fn three_suits(rng: &mut Rng) -> Shape {
    let (kind, numbers) = rng.pick(&[(CLOSED_SEQUENCE, 7), (CLOSED_TRIPLET, 9)]);
    let number = rng.below(numbers) as u8;
    let mut melds = [0, 9, 18]
        .map(|suit| Meld::new(suit + number, kind))
        .to_vec();
    if rng.percent(20) {
        let suit = rng.below(3);
        melds[suit] = style(Pool::suit(suit), 50).closed_meld(rng);
    }
    completed(rng, melds, Pool::all(), 50)
}

/// The sequences 123, 456 and 789 of a suit; in one of five cases one is in another suit.
fn straight(rng: &mut Rng, suit: usize) -> Shape {
    let mut melds = [0, 3, 6]
        .map(|number| sequence(9 * suit as u8 + number))
        .to_vec();
    if rng.percent(20) {
        let meld = &mut melds[rng.below(3)];
        meld.tile = (meld.tile + 9) % 27;
    }
    let pool = rng.pick(&[
        Pool::suit(suit),
        Pool::suit_and_honours(suit),
        Pool::all(),
        Pool::all(),
    ]);
    completed(rng, melds, pool, 50)
}

/// Triplets of all dragons but one, which is a triplet, the pair, or not there.
fn dragons(rng: &mut Rng) -> Shape {
    let last = rng.pick(&DRAGONS);
    all_but_one(rng, &DRAGONS, last)
}

/// Triplets of all winds but one, which is a triplet, the pair, or not there.
fn winds(rng: &mut Rng) -> Shape {
    let last = rng.pick(&WINDS);
    all_but_one(rng, &WINDS, last)
}

fn all_but_one(rng: &mut Rng, honours: &[u8], last: u8) -> Shape {
    let others = honours.iter().filter(|&&honour| honour != last);
    let mut melds: Vec<Meld> = others.map(|&honour| triplet(honour)).collect();
    let place = rng.share(&[40, 40, 20]);
    if place == 0 {
        melds.push(triplet(last));
    }
    let suit = rng.below(3);
    let pool = rng.pick(&[Pool::all(), Pool::suit(suit), Pool::of(&ORPHANS)]);
    let mut shape = completed(rng, melds, pool, 0);
    if place == 1 {
        shape.pair = last;
    }
    shape
}

/// Sequences with a terminal and triplets of terminals, with honours or without; in one of seven
/// cases a meld is any.
fn outside(rng: &mut Rng) -> Shape {
    let pool = rng.pick(&[Pool::of(&ORPHANS), Pool::of(&TERMINALS)]);
    let mut shape = from_pool(rng, pool, 0);
    for meld in &mut shape.melds {
        if rng.percent(60) {
            *meld = sequence(rng.pick(&OUTER_STARTS));
        }
    }
    if rng.percent(15) {
        shape.melds[0] = sequence(Pool::all().start(rng));
    }
    shape
}

/// Two equal sequences, and two others that are most often equal too.
fn twins(rng: &mut Rng) -> Shape {
    let suit = rng.below(3);
    let pool = rng.pick(&[Pool::suit(suit), Pool::all()]);
    let [one, other, any] = [(); 3].map(|_| pool.start(rng));
    let last = rng.pick(&[other, other, any]);
    let melds = [one, one, other, last].map(sequence).to_vec();
    completed(rng, melds, pool, 0)
}

/// Three neighbouring triplets of a suit, which are three equal sequences too.
fn neighbours(rng: &mut Rng) -> Shape {
    let suit = rng.below(3);
    let pool = rng.pick(&[Pool::suit(suit), Pool::all()]);
    let first = Pool::suit(suit).start(rng);
    let melds = [first, first + 1, first + 2].map(triplet).to_vec();
    completed(rng, melds, pool, 60)
}

/// Three neighbouring triplets and a fourth, nothing called but that one as a closed kan now and then:
/// four concealed triplets, or three equal sequences beside one.
pub fn concealed(rng: &mut Rng) -> Hand {
    let suit = rng.below(3);
    let pool = rng.pick(&[Pool::suit(suit), Pool::all()]);
    loop {
        let first = Pool::suit(suit).start(rng);
        let mut hand = Hand::empty();
        for tile in first..first + 3 {
            add_meld(&mut hand, triplet(tile));
        }
        let fourth = pool.tile(rng);
        match rng.percent(15) {
            true => hand.call(Meld::new(fourth, CLOSED_KAN)),
            false => add_meld(&mut hand, triplet(fourth)),
        }
        hand.counts[usize::from(pool.tile(rng))] += 2;
        if at_most_four(&hand) {
            return hand;
        }
    }
}

/// The hand of a shape: nothing called, closed kans alone, or any melds called.
fn laid_out(rng: &mut Rng, shape: &Shape) -> Hand {
    let style = rng.share(&[45, 20, 35]);
    let share = rng.pick(&[25, 50, 90]);
    let mut hand = Hand::empty();
    for &meld in &shape.melds {
        let is_triplet = meld.kind == CLOSED_TRIPLET;
        match style {
            1 if is_triplet && rng.percent(share) => hand.call(Meld::new(meld.tile, CLOSED_KAN)),
            2 if rng.percent(share) => hand.call(called(rng, meld)),
            _ => add_meld(&mut hand, meld),
        }
    }
    hand.counts[usize::from(shape.pair)] += 2;
    hand
}

/// A call of the tiles of a closed meld, or with a fourth tile, from any player that it may come from.
fn called(rng: &mut Rng, meld: Meld) -> Meld {
    let kind = match meld.kind {
        CLOSED_SEQUENCE => OPEN_SEQUENCE,
        _ => rng.pick(&[OPEN_TRIPLET, CLOSED_KAN, OPEN_KAN, ADDED_KAN]),
    };
    Meld::new(meld.tile, kind).from_anyone(rng)
}

/// The winning tiles to try: each kind that the hand holds in turn, or one of them.
pub fn winning_tiles(rng: &mut Rng, hand: &Hand) -> Vec<u8> {
    if rng.percent(90) {
        return vec![random::held_tile(rng, hand) as u8];
    }
    held_tiles(hand)
}

/// Each kind that the hand holds.
pub fn held_tiles(hand: &Hand) -> Vec<u8> {
    (0..KINDS)
        .filter(|&tile| hand.counts[tile] > 0)
        .map(|tile| tile as u8)
        .collect()
}

/// A win by this tile in any circumstances, with either setting and any indicators.
pub fn win(rng: &mut Rng, hand: &Hand, winning_tile: u8) -> Win {
    // The chance of each flag in percent, of tenhou and chiihou apart: they hide all other yaku of
    // a closed hand.
    let (share, first_draw) = rng.pick(&[(0, 0), (50, 50), (30, 2)]);
    let [dora_indicators, ura_dora_indicators] = indicators::any(rng, hand);
    Win {
        win_type: rng.pick(&[RON, TSUMO]),
        winning_tile,
        round_wind: wind(rng, hand),
        seat_wind: wind(rng, hand),
        is_riichi: rng.percent(share),
        is_double_riichi: rng.percent(share),
        is_ippatsu: rng.percent(share),
        is_rinshan: rng.percent(share),
        is_chankan: rng.percent(share),
        is_last_tile: rng.percent(share),
        is_tenhou: rng.percent(first_draw),
        is_chiihou: rng.percent(first_draw),
        double_wind_fu: rng.pick(&SETTINGS),
        dora_indicators,
        ura_dora_indicators,
    }
}

/// A win with a pair that is both round and seat wind, in any other circumstances.
pub fn double_wind(rng: &mut Rng) -> (Hand, Win) {
    let wind = rng.pick(&WINDS);
    let hand = hand_with_pair(rng, wind);
    let tile = random::held_tile(rng, &hand) as u8;
    let win = Win {
        round_wind: wind,
        seat_wind: wind,
        ..win(rng, &hand, tile)
    };
    (hand, win)
}

/// A win of a hand in which winds stand, most often as round or seat wind or both, and on a wind now and
/// then; in any other circumstances, three of four without indicators.
pub fn windy(rng: &mut Rng) -> (Hand, Win) {
    let hand = hand_with_winds(rng);
    let held = held_tiles(&hand);
    let winds: Vec<u8> = held
        .iter()
        .copied()
        .filter(|tile| WINDS.contains(tile))
        .collect();
    let tile = match winds.is_empty() || rng.percent(60) {
        true => rng.pick(&held),
        false => rng.pick(&winds),
    };
    let mut win = win(rng, &hand, tile);
    if rng.percent(40) {
        win.seat_wind = win.round_wind;
    }
    if rng.percent(50) {
        win = win.showing([Indicators::default(); 2]);
    }
    (hand, win)
}

/// A hand with pairs, triplets or calls of winds, or with all of them single.
fn hand_with_winds(rng: &mut Rng) -> Hand {
    match rng.share(&[30, 45, 15, 7, 3]) {
        0 => shaped_as(rng, winds),
        1 => shaped_as(rng, some_winds),
        2 => {
            let wind = rng.pick(&WINDS);
            hand_with_pair(rng, wind)
        }
        3 => {
            let pool = rng.pick(&[Pool::of(&HONOURS), Pool::of(&ORPHANS)]);
            random::distinct_pairs(rng, pool)
        }
        _ => random::orphans(rng),
    }
}

/// A triplet of one or two winds, any melds beside them, and most often a pair of a wind.
fn some_winds(rng: &mut Rng) -> Shape {
    let number = 1 + rng.below(2);
    let melds = (0..number).map(|_| triplet(rng.pick(&WINDS))).collect();
    let suit = rng.below(3);
    let pool = rng.pick(&[Pool::all(), Pool::suit(suit), Pool::suit_and_honours(suit)]);
    let mut shape = completed(rng, melds, pool, 60);
    if rng.percent(60) {
        shape.pair = rng.pick(&WINDS);
    }
    shape
}

/// A wind: in half the cases one that hand or calls hold, where they hold any.
fn wind(rng: &mut Rng, hand: &Hand) -> u8 {
    let all = hand.with_calls();
    let held: Vec<u8> = WINDS
        .into_iter()
        .filter(|&wind| all[usize::from(wind)] > 1)
        .collect();
    if !held.is_empty() && rng.percent(50) {
        rng.pick(&held)
    } else {
        rng.pick(&WINDS)
    }
}
