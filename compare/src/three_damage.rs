//! Wins of three players that have to be refused: one fault or several put into a win, those that four players
//! would be refused for too, and those that are faults at three alone.

use crate::damage;
use crate::hand::*;
use crate::indicators::Style;
use crate::library::{Indicators, MOST_INDICATORS, Meld, Win};
use crate::random;
use crate::rng::Rng;
use crate::three_checks::{GROUNDS, is_absent, names};
use crate::three_wins;
use crate::win_damage;
use std::fmt;

/// A fault is put into a hand, or into the win behind it.
#[derive(Clone, Copy)]
enum Fault {
    OfHand(fn(&mut Rng, &mut Hand)),
    OfWin(fn(&mut Rng, &Hand, &mut Win)),
}

/// The faults in the order of their refusals. They are put in from the last to the first, so that an earlier one is
/// not undone.
const FAULTS: [Fault; 18] = [
    Fault::OfHand(|rng, hand| damage::put_in(rng, hand, 1)),
    Fault::OfHand(|rng, hand| damage::put_in(rng, hand, 2)),
    Fault::OfHand(open_sequence),
    Fault::OfHand(open_sequence_of_man),
    Fault::OfHand(absent_call),
    Fault::OfHand(source_of_four),
    Fault::OfHand(|rng, hand| damage::put_in(rng, hand, 3)),
    Fault::OfHand(absent_tiles),
    Fault::OfHand(pin_as_man),
    Fault::OfHand(|rng, hand| damage::put_in(rng, hand, 4)),
    Fault::OfHand(|rng, hand| damage::put_in(rng, hand, 5)),
    Fault::OfHand(|rng, hand| damage::put_in(rng, hand, 6)),
    Fault::OfWin(|rng, _, win| win_damage::put_out_of_range(rng, win)),
    Fault::OfWin(indicators),
    Fault::OfWin(ura_indicators),
    Fault::OfWin(win_damage::put_bad_indicators),
    Fault::OfWin(absent_winning_tile),
    Fault::OfWin(|rng, hand, win| win.winning_tile = win_damage::absent_tile(rng, hand)),
];

/// A win with one, two or three faults.
pub fn damaged(rng: &mut Rng) -> (Hand, Win) {
    let number = 1 + rng.share(&[45, 40, 15]);
    let mut places: Vec<usize> = (0..number).map(|_| rng.below(FAULTS.len())).collect();
    places.sort();
    places.dedup();
    with_faults(rng, &places)
}

/// A win with the faults at these places, which ascend. A hand that calls nothing open has no fault of calls.
fn with_faults(rng: &mut Rng, places: &[usize]) -> (Hand, Win) {
    let mut hand = match rng.percent(75) {
        true => three_wins::open_hand(rng),
        false => three_wins::sound_hand(rng),
    };
    for &place in places.iter().rev() {
        if let Fault::OfHand(put_in) = FAULTS[place] {
            put_in(rng, &mut hand);
        }
    }
    let tile = winning_tile(rng, &hand);
    let mut win = three_wins::win(rng, &hand, tile);
    for &place in places.iter().rev() {
        if let Fault::OfWin(put_in) = FAULTS[place] {
            put_in(rng, &hand, &mut win);
        }
    }
    (hand, win)
}

/// A tile that the hand holds, most often one that three players have; any where it holds none.
fn winning_tile(rng: &mut Rng, hand: &Hand) -> u8 {
    let held = |is_so: fn(u8) -> bool| -> Vec<u8> {
        let tiles = (0..KINDS as u8).filter(|&tile| hand.counts[usize::from(tile)] > 0);
        tiles.filter(|&tile| is_so(tile)).collect()
    };
    let (any, own) = (held(|_| true), held(|tile| !is_absent(tile)));
    match (any.is_empty(), own.is_empty()) {
        (true, _) => rng.below(KINDS) as u8,
        (false, false) if rng.percent(80) => rng.pick(&own),
        _ => rng.pick(&any),
    }
}

/// Puts another in the place of a call, where there is one.
fn change_call(rng: &mut Rng, hand: &mut Hand, change: impl Fn(&mut Rng, Meld) -> Meld) {
    let called = hand.called().len();
    if called > 0 {
        let place = rng.below(called);
        hand.calls.melds[place] = change(rng, hand.calls.melds[place]);
    }
}

/// An open sequence of pin or sou, most often from the left, where four players have it from.
fn open_sequence(rng: &mut Rng, hand: &mut Hand) {
    change_call(rng, hand, |rng, _| {
        let tile = rng.pick(&[9, 18]) + rng.below(7) as u8;
        let source = rng.pick(&[LEFT, LEFT, LEFT, RIGHT, ACROSS, NOBODY]);
        Meld::new(tile, OPEN_SEQUENCE).with_source(source)
    });
}

fn open_sequence_of_man(rng: &mut Rng, hand: &mut Hand) {
    change_call(rng, hand, |rng, _| {
        let source = rng.pick(&[LEFT, LEFT, RIGHT, ACROSS]);
        Meld::new(rng.below(7) as u8, OPEN_SEQUENCE).with_source(source)
    });
}

/// A triplet or kan of man 2 to 8.
fn absent_call(rng: &mut Rng, hand: &mut Hand) {
    change_call(rng, hand, |rng, _| {
        let tile = absent_tile(rng);
        three_wins::call(rng, tile)
    });
}

/// A call from the left, where nobody sits.
fn source_of_four(rng: &mut Rng, hand: &mut Hand) {
    change_call(rng, hand, |_, call| call.with_source(LEFT));
}

fn absent_tile(rng: &mut Rng) -> u8 {
    1 + rng.below(7) as u8
}

/// From one to four tiles of the hand become man 2 to 8, the same or others; now and then they are added.
fn absent_tiles(rng: &mut Rng, hand: &mut Hand) {
    let number = 1 + rng.below(4);
    let share = rng.pick(&[0, 100]);
    let is_added = rng.percent(20);
    let first = usize::from(absent_tile(rng));
    for _ in 0..number {
        let other = usize::from(absent_tile(rng));
        let tile = if rng.percent(share) { other } else { first };
        let old = random::other_held_tile(rng, hand, tile);
        if hand.counts[tile] > 3 {
            return;
        }
        hand.counts[tile] += 1;
        if let (false, Some(old)) = (is_added, old) {
            hand.counts[old] -= 1;
        }
    }
}

/// All tiles of pin in the hand become man, and man 1 and 9 pin: with four players a hand as good as before.
fn pin_as_man(_: &mut Rng, hand: &mut Hand) {
    let (man, others) = hand.counts.split_at_mut(9);
    man.swap_with_slice(&mut others[..9]);
}

/// From one to ten indicators, hits and others.
fn some(rng: &mut Rng, hand: &Hand) -> Indicators {
    let any = 1 + rng.below(MOST_INDICATORS);
    let number = rng.pick(&[1, 1, 2, 10, any]);
    let style = Style {
        hits: rng.pick(&[0, 50, 100]),
        ..Style::HITS
    };
    style.shown(rng, hand, number)
}

fn indicators(rng: &mut Rng, hand: &Hand, win: &mut Win) {
    win.dora_indicators = some(rng, hand);
}

/// Indicators of either sort, good ones and bad ones.
pub fn put_indicators(rng: &mut Rng, hand: &Hand, win: &mut Win) {
    let put_in = rng.pick(&[indicators, ura_indicators, win_damage::put_bad_indicators]);
    put_in(rng, hand, win);
}

fn ura_indicators(rng: &mut Rng, hand: &Hand, win: &mut Win) {
    win.ura_dora_indicators = some(rng, hand);
}

fn absent_winning_tile(rng: &mut Rng, _: &Hand, win: &mut Win) {
    win.winning_tile = absent_tile(rng);
}

/// How often each ground for a refusal was there, alone and with others.
pub struct GroundTally {
    wins: u64,
    alone: [u64; GROUNDS],
    /// Wins that have two grounds at once, and perhaps more.
    together: [[u64; GROUNDS]; GROUNDS],
}

impl Default for GroundTally {
    fn default() -> GroundTally {
        GroundTally {
            wins: 0,
            alone: [0; GROUNDS],
            together: [[0; GROUNDS]; GROUNDS],
        }
    }
}

impl GroundTally {
    /// Whether no win had a fault.
    pub fn is_empty(&self) -> bool {
        self.wins == 0
    }

    pub fn count(&mut self, grounds: &[bool; GROUNDS]) {
        let there: Vec<usize> = (0..GROUNDS).filter(|&place| grounds[place]).collect();
        self.wins += u64::from(!there.is_empty());
        if let [only] = there[..] {
            self.alone[only] += 1;
        }
        for &one in &there {
            for &other in &there {
                self.together[one][other] += 1;
            }
        }
    }
}

impl fmt::Display for GroundTally {
    fn fmt(&self, f: &mut fmt::Formatter) -> fmt::Result {
        let names = names();
        let named = |place: usize| format!("{} {}", names[place].0, names[place].1);
        writeln!(f, "  wins with a fault: {}", self.wins)?;
        writeln!(
            f,
            "  each is asked for readings that are not there too, which are 12 by themselves"
        )?;
        for place in 0..GROUNDS {
            let [all, alone] = [self.together[place][place], self.alone[place]];
            writeln!(f, "  {}: {all}, alone {alone}", named(place))?;
            let later = (place + 1..GROUNDS).map(|later| {
                let wins = self.together[place][later];
                format!("{} {wins}", named(later))
            });
            let later: Vec<String> = later.collect();
            if !later.is_empty() {
                writeln!(f, "    and {}", later.join(", "))?;
            }
        }
        Ok(())
    }
}

#[cfg(test)]
mod tests {
    use super::*;
    use crate::three_checks::grounds;

    #[test]
    fn every_ground_is_met_alone_and_with_every_other() {
        let mut rng = Rng::new(8);
        let mut tally = GroundTally::default();
        for _ in 0..200_000 {
            let (hand, win) = damaged(&mut rng);
            tally.count(&grounds(&hand, &win));
        }
        let names = names().map(|(_, name)| name);
        for (place, name) in names.iter().enumerate() {
            // More than four calls are always a wrong number of tiles, and a count above four is five of a kind.
            let is_never_alone = ["more than four calls", "count above four"].contains(name);
            assert_eq!(tally.alone[place] > 20, !is_never_alone, "{tally}");
            for (later, other) in names.iter().enumerate().skip(place + 1) {
                // A winning tile is one of the three.
                let is_never = [name, other].iter().all(|of| of.contains("winning tile"));
                let wins = tally.together[place][later];
                assert_eq!(wins > 20, !is_never, "{name}, {other}\n{tally}");
            }
        }
    }
}
