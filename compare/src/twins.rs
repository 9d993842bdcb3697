//! The comparison of random wins with the same wins renamed.

use crate::agreement::{ANSWERS, BAD, Class, Outcome, PARTS, Twins};
use crate::faults::{listed, listed_from};
use crate::game::Game;
use crate::hand::Hand;
use crate::library::{ALWAYS_ENOUGH, Operations, SETTINGS, Win};
use crate::renaming::Renaming;
use crate::rng::Rng;
use crate::scored_wins::random_wins;
use crate::win_oracle::ExpectedWin;
use crate::win_tally::{SETTING_NAMES, count_each, counted, setting};
use crate::wind_corners::WindCorners;
use crate::wins;
use std::fmt;
use std::time::Instant;

/// How many differences are printed.
const PRINTED: u64 = 5;

/// The classes of pairs.
const CLASSES: [&str; Class::ALL] = [
    "no indicators",
    "indicators, exchange of suits",
    "indicators, other renaming",
    "refused with 14",
];
/// What another renaming than an exchange of suits does: the place of a mixture is the sum of 1 for the
/// mirror, 2 for the dragons and 4 for the winds, less 1.
const OTHERS: [&str; 7] = [
    "mirror",
    "dragons",
    "mirror and dragons",
    "winds",
    "mirror and winds",
    "dragons and winds",
    "all three",
];

/// What to compare: so many wins of each class that is named.
pub struct Options {
    pub seed: u64,
    pub random: Option<u64>,
    pub winds: Option<u64>,
}

/// Compares the classes that are asked for, each win with one of the renamings by turns, and answers the
/// number of pairs that differ in what is promised.
pub fn compare(options: &Options) -> u64 {
    let seed = options.seed;
    let mut differ = 0;
    if let Some(wins) = options.random {
        println!("random wins and the same wins renamed, seed {seed}");
        differ += compare_class(TwinChecker::new(seed), seed, wins, random_wins);
    }
    if let Some(wins) = options.winds {
        println!("wins dealt for winds and the same wins renamed, seed {seed}");
        differ += compare_class(TwinChecker::new(seed), seed, wins, |rng, _| {
            let (hand, win) = wins::windy(rng);
            (hand, vec![win])
        });
    }
    differ
}

/// Compares so many wins of three players that are dealt so, each with one of the renamings that keep their tiles,
/// and answers how many pairs differ.
pub fn compare_three(
    operations: Operations,
    seed: u64,
    wins: u64,
    deal: impl Fn(&mut Rng, u64) -> (Hand, Vec<Win>),
) -> u64 {
    println!("random wins of three players and the same wins renamed, seed {seed}");
    let checker = TwinChecker::in_game(Game::Three, operations, seed);
    compare_class(checker, seed, wins, deal)
}

/// Compares so many wins that are dealt so, prints the tally, and answers how many pairs differ.
fn compare_class(
    mut checker: TwinChecker,
    seed: u64,
    wins: u64,
    deal: impl Fn(&mut Rng, u64) -> (Hand, Vec<Win>),
) -> u64 {
    let start = Instant::now();
    let mut rng = Rng::new(!seed);
    let mut left = wins;
    while left > 0 {
        let (hand, wins) = deal(&mut rng, left);
        for win in &wins {
            checker.check(&hand, win);
        }
        left -= wins.len() as u64;
    }
    let seconds = start.elapsed().as_secs_f64();
    println!("{}  {seconds:.1} s\n", checker.tally);
    checker.tally.differ
}

/// Compares pairs, and counts what it saw.
struct TwinChecker {
    game: Game,
    operations: Operations,
    /// The numbers of the renamings that are tried by turns.
    renamings: Vec<usize>,
    rng: Rng,
    /// What stands in the lent buffers before.
    old: Vec<u8>,
    tally: TwinTally,
}

impl TwinChecker {
    /// Compares wins of four players.
    fn new(seed: u64) -> TwinChecker {
        TwinChecker::in_game(Game::Four, Game::Four.operations(), seed)
    }

    /// Compares what these operations answer to wins of a game.
    fn in_game(game: Game, operations: Operations, seed: u64) -> TwinChecker {
        let mut rng = Rng::new(seed);
        let old = (0..ALWAYS_ENOUGH).map(|_| rng.byte()).collect();
        let renamings = Renaming::numbers_in(game);
        TwinChecker {
            tally: TwinTally::of(renamings.len()),
            game,
            operations,
            renamings,
            rng,
            old,
        }
    }

    /// Compares a win that passes the checks, or is refused with 14, with its renamed one. Where it has
    /// indicators and the renaming does more than exchange suits, the exchange alone is tried too.
    fn check(&mut self, hand: &Hand, win: &Win) {
        let turn = self.tally.wins % self.renamings.len() as u64;
        let number = self.renamings[turn as usize];
        self.tally.wins += 1;
        let expected = ExpectedWin::in_game(self.game, hand, win);
        let is_damaged = expected.faults.contains(&true);
        if is_damaged && expected.score_win().number != BAD {
            self.tally.damaged += 1;
            return;
        }
        let class = self.check_pair(hand, win, number);
        if class == Class::Others {
            self.check_pair(hand, win, Renaming::suits_alone(number));
        }
    }

    /// Compares a win with its renamed one by the renaming of this number, and answers their class.
    fn check_pair(&mut self, hand: &Hand, win: &Win, number: usize) -> Class {
        let renaming = Renaming::numbered(number);
        let twins = Twins {
            operations: self.operations,
            ..Twins::in_game(self.game, &mut self.rng, hand, win, renaming)
        };
        let class = twins.class;
        let outcome = twins.outcome(&mut self.rng, &self.old);
        let green = twins.are_green().iter().position(|&green| green);
        match green {
            Some(unit) if class != Class::Bad => {
                self.tally.count_green(unit, &outcome);
                return class;
            }
            _ => self.tally.count(number, &twins, &outcome),
        }
        if outcome.broken(class).contains(&true) && self.tally.differ <= PRINTED {
            print(&twins, &outcome);
        }
        class
    }
}

fn print(twins: &Twins, outcome: &Outcome) {
    let parts = PARTS.iter().zip(outcome.broken(twins.class));
    let differing: Vec<&str> = parts.filter(|part| part.1).map(|part| *part.0).collect();
    println!("DIFFERS: {}, {:?}", differing.join(", "), twins.renaming);
    for unit in 0..2 {
        println!("  {}", twins.hands[unit]);
        println!("  {:?}", twins.wins[unit]);
        println!("  scored {}", outcome.scores[unit]);
    }
}

/// A pair is a win and the same win renamed.
#[derive(Default)]
struct TwinTally {
    /// How many renamings are tried.
    tried: usize,
    wins: u64,
    /// Wins that are refused with 1 to 6, 8 or 9, of which nothing is promised.
    damaged: u64,
    /// Pairs whose first hand is all green, and those whose second alone is.
    green: [u64; 2],
    /// Those of them that differ.
    green_differ: [u64; 2],
    /// The other pairs by class, by renaming, those of one order of the winds together, and by readings,
    /// five or more together.
    classes: [u64; Class::ALL],
    renamings: [[u64; Renaming::NO_WIND_MOVES]; Renaming::ORDERS],
    readings: [u64; 6],
    /// The same by setting, which both wins share, and by the answer to the first scored win.
    settings: [u64; SETTINGS.len()],
    answers: [u64; ANSWERS.len()],
    /// Those whose records did not fit into the shorter buffer.
    too_short: u64,
    /// Those with indicators by what another renaming does, and of these those whose scores differ, which
    /// is not promised otherwise.
    others: [u64; OTHERS.len()],
    others_differ: [u64; OTHERS.len()],
    /// What was seen of the winds where they move, no indicator is shown, and so everything has to agree.
    winds: WindCorners,
    /// Those that differ in what is promised, all together and part by part.
    differ: u64,
    parts: [u64; PARTS.len()],
}

impl TwinTally {
    /// Nothing counted yet, where so many renamings are tried.
    fn of(tried: usize) -> TwinTally {
        TwinTally {
            tried,
            ..TwinTally::default()
        }
    }

    fn count_green(&mut self, unit: usize, outcome: &Outcome) {
        self.green[unit] += 1;
        self.green_differ[unit] += u64::from(outcome.differ.contains(&true));
    }

    fn count(&mut self, renaming: usize, twins: &Twins, outcome: &Outcome) {
        self.classes[twins.class as usize] += 1;
        let no_wind_moves = Renaming::NO_WIND_MOVES;
        self.renamings[renaming / no_wind_moves][renaming % no_wind_moves] += 1;
        self.settings[setting(&twins.wins[0])] += 1;
        self.readings[outcome.readings.min(5)] += 1;
        let number = outcome.scores[0].number as usize;
        if let Some(place) = ANSWERS.iter().position(|&answer| answer == number) {
            self.answers[place] += 1;
        }
        self.too_short += u64::from(outcome.is_too_short);
        match twins.class {
            Class::Plain => self.count_winds(twins, outcome),
            Class::Others => self.count_other(twins, outcome),
            Class::Suits | Class::Bad => (),
        }
        let broken = outcome.broken(twins.class);
        self.differ += u64::from(broken.contains(&true));
        count_each(&mut self.parts, broken);
    }

    /// Counts what stands for winds in a pair without indicators.
    fn count_winds(&mut self, twins: &Twins, outcome: &Outcome) {
        let (hand, win, score) = (&twins.hands[0], &twins.wins[0], &outcome.scores[0]);
        self.winds.count(hand, win, score, &twins.renaming);
    }

    /// Counts a pair with indicators whose renaming does more than exchange suits.
    fn count_other(&mut self, twins: &Twins, outcome: &Outcome) {
        let [mirror, dragons, winds] = twins.renaming.others().map(usize::from);
        let place = mirror + 2 * dragons + 4 * winds - 1;
        self.others[place] += 1;
        self.others_differ[place] += u64::from(outcome.differ.contains(&true));
    }
}

impl fmt::Display for TwinTally {
    fn fmt(&self, f: &mut fmt::Formatter) -> fmt::Result {
        let renamings = self.renamings.iter().flatten();
        let occurring = renamings.clone().filter(|&&pairs| pairs > 0);
        let occurred = occurring.clone().count();
        let rarest = match occurred < self.tried {
            true => 0,
            false => *occurring.min().unwrap_or(&0),
        };
        let pairs: u64 = renamings.sum();
        let readings = listed_from(0, &self.readings);
        let answers = listed(&ANSWERS, &self.answers);
        let parts = counted(&PARTS, &self.parts);
        let [first, second] = self.green;
        let [first_differ, second_differ] = self.green_differ;
        writeln!(f, "  wins {}, pairs {pairs}", self.wins)?;
        writeln!(f, "  left out, refused by a check: {}", self.damaged)?;
        write!(f, "  left out, first hand all green: {first}, ")?;
        writeln!(f, "of which differ: {first_differ}")?;
        write!(f, "  left out, second hand alone all green: {second}, ")?;
        writeln!(f, "of which differ: {second_differ}")?;
        write!(f, "  renamings: {occurred} of {}, ", self.tried)?;
        writeln!(f, "the rarest in {rarest} pairs")?;
        let classes = counted(&CLASSES, &self.classes);
        writeln!(f, "  pairs: {classes}")?;
        writeln!(f, "    by readings: {readings}")?;
        let settings = counted(&SETTING_NAMES, &self.settings);
        writeln!(f, "    by setting: {settings}")?;
        writeln!(f, "    by answer to the scored wins: {answers}")?;
        writeln!(f, "    refused alike with 7: {}", self.too_short)?;
        let others = counted(&OTHERS, &self.others);
        let others_differ = counted(&OTHERS, &self.others_differ);
        writeln!(f, "  indicators, other renaming: {others}")?;
        writeln!(
            f,
            "    of which scores differ, as they may: {others_differ}"
        )?;
        write!(f, "{}", self.winds)?;
        writeln!(f, "  differ: {} ({parts})", self.differ)
    }
}

#[cfg(test)]
mod tests {
    use super::*;

    #[test]
    fn pairs_of_every_class_are_compared_and_none_differs() {
        let mut rng = Rng::new(3);
        let mut checker = TwinChecker::new(3);
        for _ in 0..12_000 {
            let (hand, wins) = random_wins(&mut rng, 1);
            checker.check(&hand, &wins[0]);
        }
        let tally = checker.tally;
        assert_eq!(tally.differ, 0, "{tally}");
        assert!(tally.classes.iter().all(|&pairs| pairs > 20), "{tally}");
        assert!(
            tally.others_differ.iter().all(|&pairs| pairs > 2),
            "{tally}"
        );
    }

    #[test]
    fn wins_dealt_for_winds_meet_every_corner_and_none_differs() {
        let mut rng = Rng::new(5);
        let mut checker = TwinChecker::new(5);
        for _ in 0..12_000 {
            let (hand, win) = wins::windy(&mut rng);
            checker.check(&hand, &win);
        }
        let tally = checker.tally;
        assert_eq!(tally.differ, 0, "{tally}");
        assert!(tally.winds.are_all_above(100), "{tally}");
        assert!(tally.others_differ[3] > 100, "{tally}");
    }
}
