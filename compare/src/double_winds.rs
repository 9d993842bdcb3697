//! Wins with a pair that is most often both round and seat wind, in rooms with either setting, and with
//! settings that are none.

use crate::hand::*;
use crate::library::{SETTINGS, Score, Win};
use crate::rng::Rng;
use crate::win_checker::WinChecker;
use crate::win_damage::{absent_tile, no_setting, put_out_of_range, refused_hand};
use crate::win_oracle::{ExpectedHand, ExpectedWin};
use crate::win_tally::{count_each, counted};
use crate::wins::{self, WINDS};
use std::fmt;

/// Of a hundred wins so many at least have a reading whose fu the setting changes.
const CHANGED: usize = 60;
/// One of so many wins is tried with every setting.
const EVERY_SETTING: u64 = 1000;
/// One of so many wins is tried with faults.
const FAULTY: u64 = 20;

const WIND_NAMES: [&str; 4] = ["East", "South", "West", "North"];
const SORTS: [&str; 4] = [
    "open",
    "with kans",
    "all of several readings with such a pair",
    "some of several readings",
];
const CHANGES: [&str; 4] = ["fu", "level", "total", "chosen reading"];

/// Compares so many wins, each with setting four and with two, and prints what the setting changed.
pub fn compare(checker: &mut WinChecker, seed: u64, wins: u64) {
    let mut rng = Rng::new(!seed);
    let mut corners = Corners::default();
    for number in 0..wins {
        let dealt = Dealt::new(&mut rng);
        corners.count(&dealt, dealt.check_both(checker));
        if number % EVERY_SETTING == 0 {
            dealt.check_every_setting(checker, &mut rng);
            corners.with_every_setting += 1;
        }
        if number % FAULTY == 0 {
            dealt.check_faults(checker, &mut rng);
        }
    }
    print!("{corners}");
}

/// A win with no fault, and what is expected of its hand.
struct Dealt {
    hand: Hand,
    expected: ExpectedHand,
    win: Win,
}

impl Dealt {
    fn new(rng: &mut Rng) -> Dealt {
        let must_change = rng.percent(CHANGED);
        loop {
            let dealt = Dealt::any(rng);
            if !must_change || dealt.changes_fu() {
                return dealt;
            }
        }
    }

    fn any(rng: &mut Rng) -> Dealt {
        let (hand, win) = wins::double_wind(rng);
        Dealt {
            hand,
            expected: ExpectedHand::of(&hand),
            win: with_other_winds(rng, win),
        }
    }

    /// Whether the setting changes the fu of a reading.
    fn changes_fu(&self) -> bool {
        let [four, two] = SETTINGS.map(|setting| self.expected.fu(&self.win.in_room(setting)));
        four != two
    }

    /// Compares the win with setting four and with two, and answers what was expected.
    fn check_both(&self, checker: &mut WinChecker) -> [ExpectedWin; 2] {
        SETTINGS.map(|setting| {
            let win = self.win.in_room(setting);
            let expected = self.expected.won(&self.hand, &win);
            checker.check(&self.hand, &win, &expected);
            expected
        })
    }

    /// Compares the win with every setting: as it is, with an absent tile, and with a hand that is
    /// refused.
    fn check_every_setting(&self, checker: &mut WinChecker, rng: &mut Rng) {
        let absent = self.with_absent_tile(rng);
        let (refused, win) = refused_hand(rng);
        for setting in 0..=u8::MAX {
            for win in [self.win, absent].map(|win| win.in_room(setting)) {
                checker.check(&self.hand, &win, &self.expected.won(&self.hand, &win));
            }
            let win = win.in_room(setting);
            checker.check(&refused, &win, &ExpectedWin::of(&refused, &win));
        }
    }

    /// Compares a setting that is none with another fault beside it: an absent tile, and one of the
    /// hand; and the win with its type, a wind or the setting out of range, or all of them.
    fn check_faults(&self, checker: &mut WinChecker, rng: &mut Rng) {
        let absent = self.with_absent_tile(rng).in_room(no_setting(rng));
        let mut beyond = self.win;
        put_out_of_range(rng, &mut beyond);
        for win in [absent, beyond] {
            checker.check(&self.hand, &win, &self.expected.won(&self.hand, &win));
        }
        let (refused, win) = refused_hand(rng);
        let win = win.in_room(no_setting(rng));
        checker.check(&refused, &win, &ExpectedWin::of(&refused, &win));
    }

    fn with_absent_tile(&self, rng: &mut Rng) -> Win {
        Win {
            winning_tile: absent_tile(rng, &self.hand),
            ..self.win
        }
    }
}

/// The win, in 15 of 100 cases with any round wind, any seat wind, or both.
fn with_other_winds(rng: &mut Rng, mut win: Win) -> Win {
    let place = rng.share(&[85, 5, 5, 5]);
    if [1, 3].contains(&place) {
        win.round_wind = rng.pick(&WINDS);
    }
    if [2, 3].contains(&place) {
        win.seat_wind = rng.pick(&WINDS);
    }
    win
}

/// What was seen in wins that were scored with both settings.
#[derive(Default)]
struct Corners {
    dealt: u64,
    with_every_setting: u64,
    /// Wins whose chosen reading has a pair that is both round and seat wind, by that wind and by sort.
    winds: [u64; WINDS.len()],
    sorts: [u64; SORTS.len()],
    /// Wins of which the setting changes something in the answer, and those whose fu it changes by sort.
    changes: [u64; CHANGES.len()],
    changed_sorts: [u64; SORTS.len()],
    /// Readings whose fu it changes.
    readings: u64,
}

impl Corners {
    fn count(&mut self, dealt: &Dealt, expected: [ExpectedWin; 2]) {
        self.dealt += 1;
        let [four, two] = expected.each_ref().map(ExpectedWin::score_win);
        let double_winds = &expected[0].double_winds;
        let sorts = sorts(&dealt.hand, double_winds);
        if four.number == 0 && double_winds[four.reading] {
            self.winds[usize::from(dealt.win.round_wind - WINDS[0])] += 1;
            count_each(&mut self.sorts, sorts);
        }
        count_each(&mut self.changes, changes(&four, &two));
        if four.fu != two.fu {
            count_each(&mut self.changed_sorts, sorts);
        }
        let pairs = expected[0].scores.iter().zip(&expected[1].scores);
        self.readings += pairs.filter(|(four, two)| four.fu != two.fu).count() as u64;
    }
}

/// Which sorts a hand is of, whose readings have such a pair or not.
fn sorts(hand: &Hand, double_winds: &[bool]) -> [bool; SORTS.len()] {
    let kans = [CLOSED_KAN, OPEN_KAN, ADDED_KAN];
    let are_several = double_winds.len() > 1;
    let have_all = !double_winds.contains(&false);
    [
        hand.is_open(),
        hand.called().iter().any(|meld| kans.contains(&meld.kind)),
        are_several && have_all,
        are_several && !have_all,
    ]
}

/// What is not the same in two answers to a win.
fn changes(four: &Score, two: &Score) -> [bool; CHANGES.len()] {
    [
        four.fu != two.fu,
        four.level != two.level,
        four.total != two.total,
        four.reading != two.reading,
    ]
}

impl fmt::Display for Corners {
    fn fmt(&self, f: &mut fmt::Formatter) -> fmt::Result {
        let (dealt, every) = (self.dealt, self.with_every_setting);
        writeln!(f, "  wins dealt {dealt}, each with setting four and two")?;
        writeln!(f, "    with every setting from 0 to 255: {every}")?;
        let winds = counted(&WIND_NAMES, &self.winds);
        writeln!(
            f,
            "  chosen reading with a pair both round and seat wind: {winds}"
        )?;
        writeln!(f, "    of them: {}", counted(&SORTS, &self.sorts))?;
        let changes = counted(&CHANGES, &self.changes);
        writeln!(f, "  the setting changes: {changes}")?;
        let sorts = counted(&SORTS, &self.changed_sorts);
        writeln!(f, "    of those whose fu it changes: {sorts}")?;
        writeln!(f, "    readings whose fu it changes: {}", self.readings)
    }
}

#[cfg(test)]
mod tests {
    use super::*;

    #[test]
    fn most_wins_that_are_dealt_are_changed_by_the_setting() {
        let mut rng = Rng::new(7);
        let mut corners = Corners::default();
        for _ in 0..2000 {
            let dealt = Dealt::new(&mut rng);
            let both = SETTINGS.map(|setting| {
                let win = dealt.win.in_room(setting);
                dealt.expected.won(&dealt.hand, &win)
            });
            corners.count(&dealt, both);
        }
        let are_many = |counts: &[u64]| counts.iter().all(|&wins| wins > 10);
        assert!(corners.readings > 1200, "{corners}");
        assert!(are_many(&corners.winds), "{corners}");
        assert!(are_many(&corners.sorts), "{corners}");
        assert!(are_many(&corners.changes[..3]), "{corners}");
        assert!(are_many(&corners.changed_sorts[..3]), "{corners}");
    }
}
