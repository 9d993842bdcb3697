//! Hands that have to be refused: one or two faults put into a winning hand.

use crate::differences::FAULTS;
use crate::hand::*;
use crate::library::Meld;
use crate::random::{held_tile, other_held_tile, winning, winning_with_calls};
use crate::rng::Rng;

/// A hand with one or two of the faults 1 to 6.
pub fn damaged(rng: &mut Rng) -> Hand {
    let one = 1 + rng.below(FAULTS);
    if rng.percent(60) {
        with_faults(rng, one, one)
    } else {
        let other = 1 + rng.below(FAULTS);
        with_faults(rng, one.min(other), one.max(other))
    }
}

/// A hand with two faults, or with one where they are the same. The later check's fault is put in
/// first, so that the earlier one's is not undone.
pub fn with_faults(rng: &mut Rng, earlier: usize, later: usize) -> Hand {
    let needs_call = [3, 5].contains(&earlier) || [3, 5].contains(&later);
    let mut hand = if needs_call {
        let calls = 1 + rng.below(4);
        winning_with_calls(rng, calls)
    } else {
        winning(rng)
    };
    if later != earlier {
        put_in(rng, &mut hand, later);
    }
    put_in(rng, &mut hand, earlier);
    hand
}

/// Puts a fault of this number in. For 3 and 5 the hand needs a call.
pub fn put_in(rng: &mut Rng, hand: &mut Hand, fault: usize) {
    match fault {
        1 => wrong_length(rng, hand),
        2 => too_many_calls(rng, hand),
        3 => no_call(rng, hand),
        4 => count_above_four(rng, hand),
        5 => fifth_tile(rng, hand),
        _ => wrong_number(rng, hand),
    }
}

/// Any length up to 40 but 34. What stood behind a shorter length stays in memory.
fn wrong_length(rng: &mut Rng, hand: &mut Hand) {
    while hand.length == KINDS {
        hand.length = rng.below(MOST_COUNTS + 1);
    }
}

/// More than four calls: some numbers that are near, and some that overflow when multiplied.
fn too_many_calls(rng: &mut Rng, hand: &mut Hand) {
    let used = hand.calls.count.min(4);
    for meld in &mut hand.calls.melds[used..] {
        *meld = Meld::new(rng.below(7) as u8, OPEN_SEQUENCE);
    }
    let any = 5 + rng.below(usize::MAX - 4);
    let overflowing = usize::MAX / 3 + 1 + rng.below(8);
    hand.calls.count = rng.pick(&[5, 6, 200, 256, usize::MAX, overflowing, any]);
}

/// A call with a kind, a tile or a source that no call has.
fn no_call(rng: &mut Rng, hand: &mut Hand) {
    let place = rng.below(hand.called().len());
    let meld = &mut hand.calls.melds[place];
    let honour = 27 + rng.below(7) as u8;
    let no_tile = 34 + rng.below(222) as u8;
    let no_kind = 7 + rng.below(249) as u8;
    match rng.below(6) {
        0 => *meld = Meld::new(meld.tile, rng.pick(&[CLOSED_SEQUENCE, CLOSED_TRIPLET])),
        1 => meld.kind = rng.pick(&[7, 8, 255, no_kind]),
        2 => meld.tile = rng.pick(&[34, 255, no_tile]),
        3 => *meld = Meld::new(rng.pick(&[7, 8, 16, 17, 25, 26, honour]), OPEN_SEQUENCE),
        _ => meld.source = wrong_source(rng, meld.kind),
    }
}

/// A source that no meld of this kind has: one of another kind, one near, one with a bit more, or any.
fn wrong_source(rng: &mut Rng, kind: u8) -> u8 {
    loop {
        let any = rng.byte();
        let with_a_bit = rng.pick(&[4, 8, 64, 128]) + rng.below(4) as u8;
        let source = rng.pick(&[0, 1, 2, 3, 4, 255, with_a_bit, any, any]);
        if !sources(kind).contains(&source) {
            return source;
        }
    }
}

/// A count above four: with the right number of tiles, with the right number but for 256, or with
/// whatever comes of it.
fn count_above_four(rng: &mut Rng, hand: &mut Hand) {
    let tile = rng.below(KINDS);
    let few = 5 + rng.below(3) as u8;
    let any = 5 + rng.below(251) as u8;
    match rng.below(3) {
        0 => gather(rng, hand, tile, few),
        1 => {
            hand.counts[tile] += 128;
            hand.counts[(tile + 1 + rng.below(KINDS - 1)) % KINDS] += 128;
        }
        _ => hand.counts[tile] = rng.pick(&[5, 6, 252, 253, 254, 255, any]),
    }
}

/// More than four of a kind, no count above four: a call's tiles in the hand or in another call.
fn fifth_tile(rng: &mut Rng, hand: &mut Hand) {
    let called = hand.called().len();
    let place = rng.below(called);
    let meld = hand.calls.melds[place];
    if called > 1 && rng.percent(50) {
        for place in [place, (place + 1) % called] {
            let kind = rng.pick(&[OPEN_TRIPLET, CLOSED_KAN, OPEN_KAN, ADDED_KAN]);
            hand.calls.melds[place] = Meld::new(meld.tile, kind).from_anyone(rng);
        }
    } else {
        let tile = usize::from(meld.tile);
        let in_calls = hand.with_calls()[tile] as u8 - hand.counts[tile];
        let least = 5 - in_calls.min(4);
        let number = least + rng.below(usize::from(5 - least)) as u8;
        gather(rng, hand, tile, number);
    }
}

/// Brings a count up to a number, and takes as many other tiles away, as far as there are any.
fn gather(rng: &mut Rng, hand: &mut Hand, tile: usize, number: u8) {
    while hand.counts[tile] < number {
        hand.counts[tile] += 1;
        if let Some(other) = other_held_tile(rng, hand, tile) {
            hand.counts[other] -= 1;
        }
    }
}

/// A wrong number of tiles: some more, some fewer, none, or one of several calls forgotten.
fn wrong_number(rng: &mut Rng, hand: &mut Hand) {
    let tiles = 1 + rng.below(4);
    match rng.below(5) {
        0 if hand.calls.count > 1 => hand.calls.count -= 1,
        1 => hand.counts = [0; MOST_COUNTS],
        2 | 3 => {
            for _ in 0..tiles {
                add_tile(rng, hand);
            }
        }
        _ => {
            for _ in 0..tiles.min(2) {
                let tile = held_tile(rng, hand);
                hand.counts[tile] -= 1;
            }
        }
    }
}

/// Adds a tile of which fewer than four are there.
fn add_tile(rng: &mut Rng, hand: &mut Hand) {
    let all = hand.with_calls();
    loop {
        let tile = rng.below(KINDS);
        if all[tile] < 4 {
            hand.counts[tile] += 1;
            return;
        }
    }
}

#[cfg(test)]
mod tests {
    use super::*;
    use crate::differences::hand_faults;

    const CALLS: [u8; 5] = [OPEN_SEQUENCE, OPEN_TRIPLET, CLOSED_KAN, OPEN_KAN, ADDED_KAN];

    #[test]
    fn every_wrong_source_is_drawn_and_no_other() {
        let mut rng = Rng::new(7);
        for kind in CALLS {
            let mut drawn = [false; 256];
            for _ in 0..20_000 {
                drawn[usize::from(wrong_source(&mut rng, kind))] = true;
            }
            for source in 0..=u8::MAX {
                let is_wrong = !sources(kind).contains(&source);
                assert_eq!(drawn[usize::from(source)], is_wrong, "{kind} {source}");
            }
        }
    }

    #[test]
    fn a_source_alone_is_wrong_in_each_kind_of_call() {
        let mut rng = Rng::new(7);
        let mut alone = [0; CALLS.len()];
        for _ in 0..5000 {
            let hand = with_faults(&mut rng, 3, 3);
            assert!(hand_faults(&hand)[2], "{hand}");
            let mut sound = hand;
            for meld in &mut sound.calls.melds[..hand.calls.count] {
                *meld = Meld::new(meld.tile, meld.kind);
            }
            if !hand_faults(&sound).contains(&true) {
                let is_wrong = |meld: &&Meld| !sources(meld.kind).contains(&meld.source);
                let meld = hand.called().iter().find(is_wrong);
                let kind = meld.map(|meld| meld.kind).expect("a wrong source");
                alone[CALLS.iter().position(|&call| call == kind).unwrap()] += 1;
            }
        }
        assert!(alone.iter().all(|&hands| hands > 50), "{alone:?}");
    }
}
