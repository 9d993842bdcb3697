//! Counts of what was seen in wins with indicators, by the expected answers.

use crate::differences::{FAULTS, bad_indicators};
use crate::hand::*;
use crate::indicators::{dora_of, is_last};
use crate::library::{Indicators, Score, Win, YAKU};
use crate::win_oracle::ExpectedWin;
use crate::win_tally::{RULES, counted};
use std::cmp::Ordering;
use std::fmt;

/// The number with which bad indicators are refused.
const BAD: u32 = 14;
const YAKUMAN_LEVEL: u8 = 5;

/// Counts with their names, under a title.
struct Group {
    title: &'static str,
    names: &'static [&'static str],
    counts: Vec<u64>,
}

impl Group {
    fn new(title: &'static str, names: &'static [&'static str]) -> Group {
        Group {
            title,
            names,
            counts: vec![0; names.len()],
        }
    }

    fn count(&mut self, place: usize) {
        self.counts[place] += 1;
    }

    /// Counts what is so, place by place.
    fn count_each(&mut self, are_so: &[bool]) {
        for (count, &is_so) in self.counts.iter_mut().zip(are_so) {
            *count += u64::from(is_so);
        }
    }
}

pub const NUMBERS: [&str; 7] = ["0", "1", "2 to 9", "10", "11", "12 to 254", "255"];
pub const RIICHI: [&str; 8] = [
    "none",
    "riichi",
    "double riichi",
    "both riichi",
    "ura",
    "riichi and ura",
    "double riichi and ura",
    "all three",
];
pub const PLACES: [&str; 6] = [
    "the hand",
    "an open sequence",
    "an open triplet",
    "a closed kan",
    "an open kan",
    "an added kan",
];
pub const LAST: [&str; 3] = ["9 before 1", "North before East", "Red before White"];
pub const SHOWN: [&str; 5] = [
    "the same twice",
    "the same of both sorts",
    "ura held and not counted",
    "likewise, with double riichi",
    "ura counted on an open hand",
];
pub const CHANGES: [&str; 4] = ["han", "level", "total", "chosen reading"];
pub const CHOICES: [&str; 2] = [
    "the greatest total beside a reading with more han",
    "a yakuman beside a counted yakuman that pays the same",
];
pub const CHOSEN: [&str; 3] = [
    "a yakuman with dora in the hand",
    "a counted yakuman",
    "a counted yakuman that is none without dora",
];
pub const NO_YAKU: [&str; 3] = [
    "refused with 11",
    "likewise, beside 13 or more han",
    "in a reading beside the chosen one",
];
const PAID: [&str; 3] = [
    "less than the chosen one",
    "the same",
    "more than the chosen one",
];
const FAULT_MIXTURES: [&str; 8] = [
    "none",
    "8",
    "14",
    "8 and 14",
    "9",
    "8 and 9",
    "14 and 9",
    "8, 14 and 9",
];
pub const REFUSED: [&str; 3] = [
    "both sorts bad",
    "ura alone bad, no riichi",
    "one of 1 to 6 before bad indicators",
];

/// What was seen.
pub struct Corners {
    /// Wins by the number of indicators, and of ura indicators.
    numbers: [Group; 2],
    /// Wins that pass the checks by riichi, double riichi and ura indicators.
    riichi: Group,
    /// Those with dora that count, by where they are held and by the last tiles before the first ones.
    places: Group,
    last: Group,
    /// Those with indicators that are the same, and with ura indicators that count or would count.
    shown: Group,
    /// What the indicators change in the answer to the win.
    changes: Group,
    /// Scored wins by the rule that told the chosen reading from the next, and those in which han alone
    /// would have chosen otherwise.
    rules: Group,
    choices: Group,
    chosen: Group,
    no_yaku: Group,
    /// What readings without a yaku pay.
    paid: Group,
    /// Wins whose hand is good by the faults 8, 14 and 9.
    faults: Group,
    /// Wins that are refused, by what is wrong with the indicators.
    refused: Group,
    /// Hands that were tried with every number of indicators and every number as an indicator.
    every: u64,
    /// The most dora and ura dora in one reading, and the greatest han without a yakuman.
    most: [u8; 3],
}

impl Default for Corners {
    fn default() -> Corners {
        Corners {
            numbers: [
                Group::new("wins by number of indicators", &NUMBERS),
                Group::new("by number of ura indicators", &NUMBERS),
            ],
            riichi: Group::new("wins that pass the checks with", &RIICHI),
            places: Group::new("dora that count are in", &PLACES),
            last: Group::new("dora that count are shown by", &LAST),
            shown: Group::new("indicators", &SHOWN),
            changes: Group::new("the indicators change", &CHANGES),
            rules: Group::new("told from the next reading by", &RULES),
            choices: Group::new("chosen", &CHOICES),
            chosen: Group::new("chosen", &CHOSEN),
            no_yaku: Group::new("no yaku", &NO_YAKU),
            paid: Group::new("a reading without a yaku pays", &PAID),
            faults: Group::new("wins whose hand is good, by faults", &FAULT_MIXTURES),
            refused: Group::new("bad indicators", &REFUSED),
            every: 0,
            most: [0; 3],
        }
    }
}

impl Corners {
    /// Counts a win.
    pub fn count(&mut self, hand: &Hand, win: &Win, expected: &ExpectedWin) {
        for (group, sort) in self.numbers.iter_mut().zip(win.indicators()) {
            group.count(number(&sort));
        }
        let (of_hand, of_win) = expected.faults.split_at(FAULTS);
        if !of_hand.contains(&true) {
            self.faults.count(mixture(of_win));
        }
        self.refused.count_each(&refused(win, expected));
        if expected.faults.contains(&true) {
            return;
        }
        self.riichi.count(riichi(win));
        self.places.count_each(&places(hand, win));
        self.last.count_each(&last(hand, win));
        self.shown.count_each(&shown(hand, win));
        self.choices.count_each(&choices(expected));
        self.no_yaku.count_each(&no_yaku(expected));
        self.count_readings(expected);
    }

    /// Counts a hand that was tried with every number.
    pub fn count_every(&mut self) {
        self.every += 1;
    }

    /// Counts the readings of a win that passes the checks.
    fn count_readings(&mut self, expected: &ExpectedWin) {
        if let Some(rule) = expected.deciding_rule() {
            self.rules.count(rule);
        }
        let win = expected.score_win();
        for score in &expected.scores {
            let [dora, ura, han] = &mut self.most;
            *dora = score.regular_dora.max(*dora);
            *ura = score.ura_dora.max(*ura);
            if score.is_yakuman == 0 {
                *han = score.han.max(*han);
            }
            if win.number == 0 && !has_yaku(score) {
                self.paid.count(match score.total.cmp(&win.total) {
                    Ordering::Less => 0,
                    Ordering::Equal => 1,
                    Ordering::Greater => 2,
                });
            }
        }
    }

    /// Counts what the indicators change in a win that is scored with and without them.
    pub fn count_changes(&mut self, plain: &ExpectedWin, shown: &ExpectedWin) {
        self.changes.count_each(&changes(plain, shown));
        self.chosen.count_each(&chosen(plain, shown));
    }

    fn groups(&self) -> Vec<&Group> {
        let [numbers, ura_numbers] = &self.numbers;
        vec![
            numbers,
            ura_numbers,
            &self.riichi,
            &self.places,
            &self.last,
            &self.shown,
            &self.changes,
            &self.rules,
            &self.choices,
            &self.chosen,
            &self.no_yaku,
            &self.paid,
            &self.faults,
            &self.refused,
        ]
    }
}

/// The place of a number of indicators among their names.
pub fn number(indicators: &Indicators) -> usize {
    match indicators.count {
        0 => 0,
        1 => 1,
        2..=9 => 2,
        10 => 3,
        11 => 4,
        12..=254 => 5,
        255 => 6,
    }
}

/// The place of a mixture among their names: the first is worth 1, the next 2, the last 4.
fn mixture(are_so: &[bool]) -> usize {
    let bits = are_so.iter().enumerate();
    bits.map(|(place, &is_so)| usize::from(is_so) << place)
        .sum()
}

/// The place of a win among the mixtures of riichi, double riichi and ura indicators.
pub fn riichi(win: &Win) -> usize {
    let has_ura = win.ura_dora_indicators.count > 0;
    mixture(&[win.is_riichi, win.is_double_riichi, has_ura])
}

/// Whether hand or calls hold the dora of an indicator.
fn is_held(hand: &Hand, indicator: u8) -> bool {
    hand.with_calls()[usize::from(dora_of(indicator))] > 0
}

/// The indicators of a win that count.
fn counted_indicators(win: &Win) -> Vec<u8> {
    let [dora, ura] = win.indicators();
    let none = Indicators::default();
    let ura = if win.is_riichi { ura } else { none };
    [dora.shown(), ura.shown()].concat()
}

/// Where the dora that count are held.
pub fn places(hand: &Hand, win: &Win) -> [bool; PLACES.len()] {
    let kinds = [OPEN_SEQUENCE, OPEN_TRIPLET, CLOSED_KAN, OPEN_KAN, ADDED_KAN];
    let mut places = [false; PLACES.len()];
    for indicator in counted_indicators(win) {
        let dora = usize::from(dora_of(indicator));
        places[0] |= hand.counts[dora] > 0;
        for (place, kind) in (1..).zip(kinds) {
            let mut called = hand.called().iter().filter(|meld| meld.kind == kind);
            places[place] |= called.any(|meld| meld.tiles().any(|tile| tile == dora));
        }
    }
    places
}

/// Which of the last tiles show a dora that counts and is held.
pub fn last(hand: &Hand, win: &Win) -> [bool; LAST.len()] {
    let mut last = [false; LAST.len()];
    for indicator in counted_indicators(win) {
        let place = match indicator {
            0..27 => 0,
            27..31 => 1,
            _ => 2,
        };
        last[place] |= is_last(indicator) && is_held(hand, indicator);
    }
    last
}

/// How the indicators are repeated, and whether ura indicators count.
pub fn shown(hand: &Hand, win: &Win) -> [bool; SHOWN.len()] {
    let [dora, ura] = win.indicators();
    let is_ura_held = ura.shown().iter().any(|&tile| is_held(hand, tile));
    let is_uncounted = is_ura_held && !win.is_riichi;
    [
        is_repeated(&dora) || is_repeated(&ura),
        dora.shown().iter().any(|tile| ura.shown().contains(tile)),
        is_uncounted,
        is_uncounted && win.is_double_riichi,
        is_ura_held && win.is_riichi && hand.is_open(),
    ]
}

fn is_repeated(indicators: &Indicators) -> bool {
    let shown = indicators.shown();
    (1..shown.len()).any(|place| shown[..place].contains(&shown[place]))
}

/// What the indicators change in a win that is scored with and without them.
pub fn changes(plain: &ExpectedWin, shown: &ExpectedWin) -> [bool; CHANGES.len()] {
    let [plain, shown] = [plain, shown].map(ExpectedWin::score_win);
    let are_scored = plain.number == 0 && shown.number == 0;
    [
        plain.han != shown.han,
        plain.level != shown.level,
        plain.total != shown.total,
        plain.reading != shown.reading,
    ]
    .map(|is_changed| are_scored && is_changed)
}

/// Which yakuman, by yaku or by han, a win is that is scored with and without its indicators.
pub fn chosen(plain: &ExpectedWin, shown: &ExpectedWin) -> [bool; CHOSEN.len()] {
    let [plain, shown] = [plain, shown].map(ExpectedWin::score_win);
    let has_dora = shown.regular_dora > 0 || shown.ura_dora > 0;
    let is_counted = is_counted_yakuman(&shown);
    [
        shown.is_yakuman == 1 && has_dora,
        is_counted,
        is_counted && plain.level < YAKUMAN_LEVEL,
    ]
}

/// Whether it is a yakuman by han alone.
fn is_counted_yakuman(score: &Score) -> bool {
    score.level == YAKUMAN_LEVEL && score.is_yakuman == 0
}

fn has_yaku(score: &Score) -> bool {
    score.tallies != [0; YAKU]
}

/// Where han alone would have chosen otherwise, the rule that was followed.
pub fn choices(expected: &ExpectedWin) -> [bool; CHOICES.len()] {
    let win = expected.score_win();
    let with_yaku = || expected.scores.iter().filter(|score| has_yaku(score));
    let is_less = |other: &Score| other.total < win.total && other.han > win.han;
    let is_same = |other: &Score| other.total == win.total && is_counted_yakuman(other);
    [
        win.number == 0 && with_yaku().any(is_less),
        win.is_yakuman == 1 && with_yaku().any(is_same),
    ]
}

/// Where there is no yaku.
pub fn no_yaku(expected: &ExpectedWin) -> [bool; NO_YAKU.len()] {
    let is_refused = expected.score_win().number == 11;
    let mut yakuless = expected.scores.iter().filter(|score| !has_yaku(score));
    let is_beside = !is_refused && yakuless.clone().count() > 0;
    [
        is_refused,
        is_refused && yakuless.any(|score| score.han >= 13),
        is_beside,
    ]
}

/// What is wrong with the indicators of a win, beside other faults or not.
pub fn refused(win: &Win, expected: &ExpectedWin) -> [bool; REFUSED.len()] {
    let [many, above, many_ura, above_ura] = bad_indicators(win);
    let (is_bad, is_bad_ura) = (many || above, many_ura || above_ura);
    let is_refused = expected.score_win().number == BAD;
    let is_hand_refused = expected.faults[..FAULTS].contains(&true);
    [
        is_refused && is_bad && is_bad_ura,
        is_refused && !is_bad && !win.is_riichi,
        is_hand_refused && (is_bad || is_bad_ura),
    ]
}

impl fmt::Display for Corners {
    fn fmt(&self, f: &mut fmt::Formatter) -> fmt::Result {
        for group in self.groups() {
            let counts = counted(group.names, &group.counts);
            writeln!(f, "  {}: {counts}", group.title)?;
        }
        let [dora, ura, han] = self.most;
        writeln!(
            f,
            "  most dora {dora}, most ura dora {ura}, greatest han without a yakuman {han}"
        )?;
        writeln!(
            f,
            "  hands with every number of indicators, and as an indicator, from 0 to 255: {}",
            self.every
        )
    }
}

#[cfg(test)]
mod tests {
    use super::*;
    use crate::library::{Meld, RON, TSUMO};

    impl Corners {
        /// The corners that were seen less often, but for two that no win is in: dora are the same in all
        /// readings of a win, so that they neither change the choice nor lift a reading without a yaku.
        pub fn rarer_than(&self, least: u64) -> Vec<String> {
            let mut rare = Vec::new();
            for group in self.groups() {
                for (name, &count) in group.names.iter().zip(&group.counts) {
                    if count < least && ![CHANGES[3], PAID[2]].contains(name) {
                        rare.push(format!("{}: {name} {count}", group.title));
                    }
                }
            }
            rare
        }
    }

    const MAN_1: u8 = 0;
    const PIN_6: u8 = 14;
    const MAN_9: u8 = 8;
    const SOUTH: u8 = 28;

    fn counts(group: &Group) -> &[u64] {
        &group.counts
    }

    fn seen(hand: &Hand, win: &Win) -> Corners {
        let mut corners = Corners::default();
        corners.count(hand, win, &ExpectedWin::of(hand, win));
        corners
    }

    #[test]
    fn a_yakuman_goes_before_a_counted_one() {
        // Suuankou beside three equal sequences with 1 + 1 + 1 + 30 han.
        let hand = Hand::written("222333444m666p88s");
        let shown = [0, 0, 0, 0, 1, 1, 1, 2, 2, 2];
        let win = Win::new(TSUMO, PIN_6, 27, SOUTH);
        let win = win.showing([Indicators::of(&shown), Indicators::default()]);
        let corners = seen(&hand, &win);
        assert_eq!(counts(&corners.choices), [0, 1]);
        assert_eq!(counts(&corners.rules), [0, 1, 0, 0, 0]);
        assert_eq!(corners.most, [30, 0, 33]);
        assert_eq!(counts(&corners.shown), [1, 0, 0, 0, 0]);
    }

    #[test]
    fn the_greatest_total_goes_before_more_han() {
        let hand = Hand::written("77799m777888999s");
        let shown = [23, 23, 23, 23, 24, 24, 25, 25, 25, 25];
        let win = Win::new(TSUMO, MAN_9, SOUTH, SOUTH);
        let win = win.showing([Indicators::of(&shown), Indicators::default()]);
        let score = ExpectedWin::of(&hand, &win).score_win();
        assert_eq!(
            (score.total, score.han, score.regular_dora),
            (64_000, 26, 30)
        );
        let corners = seen(&hand, &win);
        assert_eq!(counts(&corners.choices), [1, 0]);
        assert_eq!(counts(&corners.rules), [1, 0, 0, 0, 0]);
    }

    #[test]
    fn dora_alone_are_no_yaku() {
        let mut hand = Hand::written("55m456p234678s");
        hand.call(Meld::new(MAN_1, OPEN_SEQUENCE));
        // Man 5 twice for each of seven indicators, and a called man 1, shown by man 9.
        let shown = [3, 3, 3, 3, 3, 3, 3, MAN_9];
        let win = Win::new(RON, 25, 27, SOUTH);
        let win = win.showing([Indicators::of(&shown), Indicators::of(&[3])]);
        let expected = ExpectedWin::of(&hand, &win);
        assert_eq!(expected.score_win().number, 11);
        let reading = expected.score_reading(0);
        assert_eq!(
            (reading.han, reading.total, reading.ura_dora),
            (15, 32_000, 0)
        );
        let corners = seen(&hand, &win);
        assert_eq!(counts(&corners.no_yaku), [1, 1, 0]);
        assert_eq!(counts(&corners.places)[..3], [1, 1, 0]);
        assert_eq!(counts(&corners.last), [1, 0, 0]);
        assert_eq!(counts(&corners.shown), [1, 1, 1, 0, 0]);
        assert_eq!(counts(&corners.riichi), [0, 0, 0, 0, 1, 0, 0, 0]);
    }

    #[test]
    fn faults_are_counted_by_mixture() {
        let hand = Hand::written("12355m456p234678s");
        let bad = Indicators::of(&[34]);
        let mut win = Win::new(2, 33, 27, SOUTH).showing([bad; 2]);
        assert_eq!(counts(&seen(&hand, &win).faults), [0, 0, 0, 0, 0, 0, 0, 1]);
        win.win_type = RON;
        let corners = seen(&hand, &win);
        assert_eq!(counts(&corners.faults), [0, 0, 0, 0, 0, 0, 1, 0]);
        assert_eq!(counts(&corners.refused), [1, 0, 0]);
        let win = win.showing([Indicators::default(), bad]);
        assert_eq!(counts(&seen(&hand, &win).refused), [0, 1, 0]);
        let short = Hand::written("1235m456p234678s");
        assert_eq!(counts(&seen(&short, &win).refused), [0, 0, 1]);
    }
}
