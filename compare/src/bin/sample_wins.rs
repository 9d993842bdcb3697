//! Writes a sample of wins with their right answers, which a proved program replays.
//!
//! The file is a row of records of 256 bytes, numbers little-endian, zero where nothing stands, flags
//! 0 or 1:
//!
//! | bytes    | content                                                                       |
//! |----------|-------------------------------------------------------------------------------|
//! | 0        | length of the counts                                                          |
//! | 1..41    | the counts                                                                    |
//! | 41..43   | number of calls                                                               |
//! | 43..55   | four melds, each its tile, its kind and its source                            |
//! | 55..59   | win type, winning tile, round wind, seat wind                                 |
//! | 59..67   | riichi, double riichi, ippatsu, rinshan, chankan, last tile, tenhou, chiihou  |
//! | 67       | the setting: fu of a pair that is both round and seat wind                    |
//! | 68..79   | how many indicators there are, and ten of them                                |
//! | 79..90   | how many ura indicators there are, and ten of them                            |
//! | 90..92   | the number of a reading                                                       |
//! | 92..168  | the score of the win                                                          |
//! | 168..244 | the score of that reading                                                     |
//! | 244      | the number answered where the waits of that reading are asked for             |
//! | 245..251 | the wait tallies                                                              |
//!
//! A score is the answer's number, the number of the reading, 47 yaku tallies, han, fu, whether it is
//! a yakuman, the level, the count of yakuman, the dora and the ura dora, each in one byte; then in four
//! bytes each basic points, what each non-dealer, the dealer and the discarder pays, and the total. There
//! is noise behind the counts of the indicators.

use compare::agari_scores::YAKU_ENTRIES;
use compare::differences::{self, FAULTS};
use compare::dora_corners as corners;
use compare::dora_wins;
use compare::hand::Hand;
use compare::library::{FOUR, Indicators, SETTINGS, Score, TWO, Win};
use compare::random;
use compare::rng::Rng;
use compare::stored::{self, MOST_CALLS, Sample, put_hand, put_u16, put_win};
use compare::win_damage::{no_setting, with_faults};
use compare::win_oracle::{CHECKS, ExpectedWin};
use compare::win_tally::{
    BAD_INDICATORS, LEVELS, Operation, RULES, SETTING_NAMES, SETTLEMENTS, WinTally, settlement,
};
use compare::wins;
use std::process::ExitCode;

const SEED: u64 = 74;
const RECORD: usize = 256;

/// A win with what is expected for it.
struct Dealt {
    hand: Hand,
    win: Win,
    expected: ExpectedWin,
}

/// Wins dealt until one fits.
type Part = stored::Part<(Hand, Win), Dealt>;

/// Scored wins of any hands, for which the score is as asked.
fn scored(title: &str, records: usize, fits: impl Fn(&Score) -> bool + 'static) -> Part {
    Part::new(title, records, any_win, move |dealt| {
        let score = dealt.expected.score_win();
        score.number == 0 && fits(&score)
    })
}

fn parts() -> Vec<Part> {
    let mut parts = Vec::new();
    for (readings, records) in [(1, 300), (2, 600), (3, 450), (4, 150)] {
        let title = format!("number of readings {readings}");
        parts.push(Part::new(&title, records, several_win, move |dealt| {
            dealt.expected.scores.len() == readings
        }));
    }
    parts.extend(choices());
    parts.extend(scores());
    for calls in 0..=4 {
        let title = format!("number of calls {calls}");
        parts.push(Part::new(&title, 50, any_win, move |dealt| {
            dealt.hand.calls.count == calls
        }));
    }
    parts.extend(settings());
    parts.extend(dora());
    parts.extend(dora_choices());
    parts.extend(bad_indicators());
    parts.extend(refusals());
    parts.push(Part::new("any", 300, any_win, |_| true));
    parts
}

/// Wins with a choice, by the rule that tells the chosen reading from the next, and wins of which the
/// chosen reading is not the first.
fn choices() -> Vec<Part> {
    let records = [100, 10, 60, 60, 60];
    let mut parts = Vec::new();
    for (rule, (name, records)) in RULES.iter().zip(records).enumerate() {
        let title = format!("told from the next reading by: {name}");
        parts.push(Part::new(&title, records, several_win, move |dealt| {
            dealt.expected.deciding_rule() == Some(rule)
        }));
    }
    let is_later = |score: &Score| score.reading > 0;
    parts.push(scored("chosen not the first", 100, is_later));
    parts
}

/// Scored wins with each yaku, with each level and settlement, and with several yakuman.
fn scores() -> Vec<Part> {
    let mut parts = Vec::new();
    for (place, yaku) in YAKU_ENTRIES.iter().enumerate() {
        let has_yaku = move |score: &Score| score.tallies[place] > 0;
        parts.push(scored(&format!("{yaku:?}"), 20, has_yaku));
    }
    for (level, name) in LEVELS.iter().enumerate() {
        for (kind, settled) in SETTLEMENTS.iter().enumerate() {
            let title = format!("{name}, {settled}");
            parts.push(Part::new(&title, 12, any_win, move |dealt| {
                let score = dealt.expected.score_win();
                let is_level = score.number == 0 && usize::from(score.level) == level;
                is_level && settlement(&dealt.win) == kind
            }));
        }
    }
    for count in 2..=4 {
        let title = format!("yakuman counted {count} times");
        parts.push(scored(&title, 20, move |score| {
            score.yakuman_count == count
        }));
    }
    parts
}

/// Wins whose fu, and whose level, the setting changes, with each setting.
fn settings() -> Vec<Part> {
    let mut parts = Vec::new();
    for (setting, name) in SETTINGS.into_iter().zip(SETTING_NAMES) {
        let mut push = |what: &str, records, changes: fn(&Score, &Score) -> bool| {
            let title = format!("setting {name}, the other changes the {what}");
            let deal = move |rng: &mut Rng| double_wind_win(rng, setting);
            parts.push(Part::new(&title, records, deal, move |dealt| {
                changes(&dealt.expected.score_win(), &with_other_setting(dealt))
            }));
        };
        push("fu", 60, |score, other| score.fu != other.fu);
        push("level", 20, |score, other| score.level != other.level);
    }
    parts
}

/// The score of the win with the other setting.
fn with_other_setting(dealt: &Dealt) -> Score {
    let other = FOUR + TWO - dealt.win.double_wind_fu;
    ExpectedWin::of(&dealt.hand, &dealt.win.in_room(other)).score_win()
}

/// So many wins with drawn indicators for each name, that pass the checks and are so at its place.
fn shown<const N: usize>(
    title: &str,
    names: [&str; N],
    records: usize,
    are_so: fn(&Dealt) -> [bool; N],
) -> Vec<Part> {
    let part = |(place, name): (usize, &str)| {
        let title = format!("{title}: {name}");
        Part::new(&title, records, dora_wins::shown_win, move |dealt| {
            !dealt.expected.faults.contains(&true) && are_so(dealt)[place]
        })
    };
    names.into_iter().enumerate().map(part).collect()
}

/// Whether each place is this one.
fn only<const N: usize>(place: usize) -> [bool; N] {
    std::array::from_fn(|other| other == place)
}

/// Wins by number of indicators, by riichi and ura indicators, and by where their dora are.
fn dora() -> Vec<Part> {
    let mut parts = Vec::new();
    for (place, name) in corners::NUMBERS.iter().enumerate() {
        for (sort, what) in ["indicators", "ura indicators"].iter().enumerate() {
            let title = format!("{name} {what}");
            let deal = dora_wins::shown_win;
            parts.push(Part::new(&title, 5, deal, move |dealt| {
                corners::number(&dealt.win.indicators()[sort]) == place
            }));
        }
    }
    parts.extend(shown("riichi and ura", corners::RIICHI, 8, |dealt| {
        only(corners::riichi(&dealt.win))
    }));
    parts.extend(shown("dora in", corners::PLACES, 10, |dealt| {
        corners::places(&dealt.hand, &dealt.win)
    }));
    parts.extend(shown("dora shown by", corners::LAST, 10, |dealt| {
        corners::last(&dealt.hand, &dealt.win)
    }));
    parts.extend(shown("indicators", corners::SHOWN, 15, |dealt| {
        corners::shown(&dealt.hand, &dealt.win)
    }));
    parts
}

/// Wins whose score the indicators change, those with a yakuman by yaku or by han, those with a choice
/// that han alone would have made otherwise, and those without a yaku.
fn dora_choices() -> Vec<Part> {
    let [han, level, total, _] = corners::CHANGES;
    let mut parts = shown("indicators change", [han, level, total], 20, |dealt| {
        let [han, level, total, _] = corners::changes(&without_indicators(dealt), &dealt.expected);
        [han, level, total]
    });
    parts.extend(shown("chosen", corners::CHOSEN, 15, |dealt| {
        corners::chosen(&without_indicators(dealt), &dealt.expected)
    }));
    parts.extend(shown("chosen", corners::CHOICES, 20, |dealt| {
        corners::choices(&dealt.expected)
    }));
    parts.extend(shown("no yaku", corners::NO_YAKU, 20, |dealt| {
        corners::no_yaku(&dealt.expected)
    }));
    parts
}

/// What is expected of the win without its indicators.
fn without_indicators(dealt: &Dealt) -> ExpectedWin {
    let none = [Indicators::default(); 2];
    ExpectedWin::of(&dealt.hand, &dealt.win.showing(none))
}

/// Refusals with 14 in each way, and with 8, 14 and 9 at once.
fn bad_indicators() -> Vec<Part> {
    let mut parts = Vec::new();
    let bad = |rng: &mut Rng| dora_wins::faulty_win(rng, [false, true, false]);
    for (place, name) in BAD_INDICATORS.iter().enumerate() {
        let title = format!("refusal 14 by {name} alone");
        parts.push(Part::new(&title, 10, bad, move |dealt| {
            let is_refused = dealt.expected.score_win().number == 14;
            is_refused && differences::bad_indicators(&dealt.win) == only(place)
        }));
    }
    for (place, name) in corners::REFUSED.iter().enumerate().take(2) {
        let title = format!("refusal 14, {name}");
        parts.push(Part::new(&title, 10, bad, move |dealt| {
            corners::refused(&dealt.win, &dealt.expected)[place]
        }));
    }
    let all = |rng: &mut Rng| dora_wins::faulty_win(rng, [true; 3]);
    let title = "refusal 8, ground for 14 and 9 too";
    parts.push(Part::new(title, 20, all, |dealt| {
        dealt.expected.faults[FAULTS..] == [true; 3]
    }));
    parts
}

/// Each refusal, and each two faults at once.
fn refusals() -> Vec<Part> {
    let mut parts = Vec::new();
    for (place, &earlier) in CHECKS.iter().enumerate() {
        parts.push(faulty(earlier, earlier, 60));
        for &later in &CHECKS[place + 1..] {
            parts.push(faulty(earlier, later, 8));
        }
    }
    parts.push(with_no_setting("refusal 8 by the setting alone", 60, 8));
    parts.push(with_no_setting("likewise, ground for 9 too", 20, 9));
    let number = |dealt: &Dealt| dealt.expected.score_win().number;
    parts.push(Part::new("refusal 10", 150, near_win, move |dealt| {
        number(dealt) == 10
    }));
    parts.push(Part::new("refusal 11", 200, any_win, move |dealt| {
        number(dealt) == 11
    }));
    parts
}

fn faulty(earlier: usize, later: usize, records: usize) -> Part {
    let title = if earlier == later {
        format!("refusal {earlier}")
    } else {
        format!("refusal {earlier}, ground for {later} too")
    };
    let place = check_place(later);
    let deal = move |rng: &mut Rng| with_faults(rng, earlier, later);
    Part::new(&title, records, deal, move |dealt| {
        dealt.expected.score_win().number as usize == earlier && dealt.expected.faults[place]
    })
}

/// Wins whose setting is none and whose type and winds are in range, with this fault.
fn with_no_setting(title: &str, records: usize, fault: usize) -> Part {
    let place = check_place(fault);
    let deal = move |rng: &mut Rng| {
        let (hand, win) = if fault == 9 {
            with_faults(rng, fault, fault)
        } else {
            any_win(rng)
        };
        (hand, win.in_room(no_setting(rng)))
    };
    Part::new(title, records, deal, move |dealt| {
        dealt.expected.score_win().number == 8 && dealt.expected.faults[place]
    })
}

/// The place of a fault among the checks.
fn check_place(fault: usize) -> usize {
    let place = CHECKS.iter().position(|&number| number == fault);
    place.expect("a fault is one of the checks")
}

fn any_win(rng: &mut Rng) -> (Hand, Win) {
    let hand = wins::hand(rng);
    won(rng, hand)
}

/// A win of a hand that has several readings more often.
fn several_win(rng: &mut Rng) -> (Hand, Win) {
    let hand = random::winning(rng);
    won(rng, hand)
}

/// A win with a pair that is both round and seat wind, with this setting.
fn double_wind_win(rng: &mut Rng, setting: u8) -> (Hand, Win) {
    let (hand, win) = wins::double_wind(rng);
    (hand, win.in_room(setting))
}

fn near_win(rng: &mut Rng) -> (Hand, Win) {
    let hand = random::near_winning(rng);
    won(rng, hand)
}

fn won(rng: &mut Rng, hand: Hand) -> (Hand, Win) {
    let tile = random::held_tile(rng, &hand) as u8;
    let win = wins::win(rng, &hand, tile);
    (hand, win)
}

/// The number of a reading: most often of one that is there, where there are any.
fn number(rng: &mut Rng, readings: usize) -> usize {
    let past = rng.pick(&[readings, readings, readings + 1, 255, 256, 65_535]);
    if readings > 0 && rng.percent(75) {
        rng.below(readings)
    } else {
        past
    }
}

fn put_score(record: &mut [u8], score: &Score) {
    let total = u32::try_from(score.total).expect("a total fits in four bytes");
    record[0] = score.number as u8;
    record[1] = score.reading as u8;
    record[2..49].copy_from_slice(&score.tallies);
    record[49] = score.han;
    record[50] = score.fu;
    record[51] = score.is_yakuman;
    record[52] = score.level;
    record[53] = score.yakuman_count;
    record[54] = score.regular_dora;
    record[55] = score.ura_dora;
    let points = [
        score.basic_points,
        score.from_non_dealer,
        score.from_dealer,
        score.from_discarder,
        total,
    ];
    for (place, points) in points.iter().enumerate() {
        record[56 + 4 * place..][..4].copy_from_slice(&points.to_le_bytes());
    }
}

/// The record of a win and the number of a reading.
fn record(dealt: &Dealt, number: usize) -> [u8; RECORD] {
    let expected = &dealt.expected;
    let waits = expected.name_waits(number);
    let mut record = [0; RECORD];
    put_hand(&mut record, &dealt.hand);
    put_win(&mut record[55..90], &dealt.win);
    put_u16(&mut record, 90, number);
    put_score(&mut record[92..168], &expected.score_win());
    put_score(&mut record[168..244], &expected.score_reading(number));
    record[244] = waits.number as u8;
    record[245..251].copy_from_slice(&waits.waits);
    record
}

/// Deals a win, and adds its record if it fits the part.
fn add_one(part: &Part, rng: &mut Rng, tally: &mut WinTally, sample: &mut Sample<RECORD>) -> bool {
    let (hand, win) = (part.deal)(rng);
    let win = win.with_noise(rng);
    let mut hand = hand.with_noise(rng);
    hand.calls.count = hand.calls.count.min(MOST_CALLS);
    let expected = ExpectedWin::of(&hand, &win);
    let dealt = Dealt {
        hand,
        win,
        expected,
    };
    let number = number(rng, dealt.expected.scores.len());
    let is_added = (part.fits)(&dealt) && sample.add(record(&dealt, number));
    if is_added {
        let Dealt {
            hand,
            win,
            expected,
        } = &dealt;
        tally.count_win(hand, win, expected);
        tally.count_answer(Operation::ScoreWin, expected.score_win().number);
        tally.count_answer(
            Operation::ScoreReading,
            expected.score_reading(number).number,
        );
        tally.count_answer(Operation::NameWaits, expected.name_waits(number).number);
    }
    is_added
}

fn main() -> ExitCode {
    stored::write("sample_wins", SEED, parts(), WinTally::default(), add_one)
}

#[cfg(test)]
mod tests {
    use super::*;
    use compare::library::TSUMO;
    use compare::wins::held_tiles;

    #[test]
    fn a_record_has_the_win_and_both_scores_at_their_places() {
        let mut hand = Hand::empty();
        // Man 123 55, pin 456, sou 234 678.
        for tile in [0, 1, 2, 4, 4, 12, 13, 14, 19, 20, 21, 23, 24, 25] {
            hand.counts[tile] += 1;
        }
        assert_eq!(held_tiles(&hand).len(), 13);
        // Man 4 shows both man 5.
        let shown = [Indicators::of(&[3]), Indicators::of(&[9, 9])];
        let win = Win::new(TSUMO, 25, 27, 28).showing(shown);
        let expected = ExpectedWin::of(&hand, &win);
        let dealt = Dealt {
            hand,
            win,
            expected,
        };
        let record = record(&dealt, 0);
        assert_eq!(record[55..59], [1, 25, 27, 28]);
        assert_eq!((record[67], record[68], record[69]), (4, 1, 3));
        assert_eq!(record[79..82], [2, 9, 9]);
        assert_eq!(record[90..92], [0, 0]);
        // 2 + 2 han, 20 fu, no yakuman, Normal, 2 dora and no ura, 1,280 basic points.
        for score in [&record[92..168], &record[168..244]] {
            assert_eq!(score[..2], [0, 0]);
            assert_eq!(score[49..56], [4, 20, 0, 0, 0, 2, 0]);
            assert_eq!(score[56..60], 1280_u32.to_le_bytes());
            assert_eq!(score[72..76], 5200_u32.to_le_bytes());
        }
        assert_eq!(record[244..251], [0, 1, 0, 0, 0, 0, 0]);
        assert_eq!(record[251..], [0; 5]);
    }
}
