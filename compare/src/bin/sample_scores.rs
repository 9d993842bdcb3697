//! Writes a sample of readings with agari's scores, which a proved program replays.
//!
//! The file is a row of records of 160 bytes, zero where nothing stands, flags 0 or 1:
//!
//! | bytes    | content                                                                       |
//! |----------|-------------------------------------------------------------------------------|
//! | 0        | kind of the reading: 1 seven pairs, 2 thirteen orphans, 3 standard            |
//! | 1        | the pair's tile                                                               |
//! | 2..14    | four melds, each its tile, its kind and its source                            |
//! | 14..21   | the tiles of seven pairs                                                      |
//! | 21..55   | the counts of hand and calls together                                         |
//! | 55..59   | win type, winning tile, round wind, seat wind                                 |
//! | 59..67   | riichi, double riichi, ippatsu, rinshan, chankan, last tile, tenhou, chiihou  |
//! | 67       | the setting: fu of a pair that is both round and seat wind                    |
//! | 68..79   | how many indicators there are, and ten of them                                |
//! | 79..90   | how many ura indicators there are, and ten of them                            |
//! | 90       | whether the hand is open                                                      |
//! | 91..138  | the yaku tallies                                                              |
//! | 138..144 | the wait tallies                                                              |
//! | 144      | han of the yaku, without dora                                                 |
//! | 145      | fu                                                                            |
//! | 146      | whether it is a yakuman                                                       |
//!
//! There is noise behind the counts of the indicators.

use compare::agari_scores::{ReadHand, WAIT_ENTRIES, YAKU_ENTRIES};
use compare::hand::{CLOSED_SEQUENCE, KINDS};
use compare::library::{FOUR, SETTINGS, TWO, Win};
use compare::probe::{Reading, ReadingScore, STANDARD};
use compare::rng::Rng;
use compare::score_tally::*;
use compare::stored::{self, Sample, put_melds, put_win};
use compare::win_tally::SETTING_NAMES;
use compare::wins;
use std::ops::Range;
use std::process::ExitCode;

const SEED: u64 = 47;
const RECORD: usize = 160;
// Places among the yaku tallies and the wait tallies.
const PINFU: usize = 4;
const WINDS: Range<usize> = 6..10;
const NINE_GATES: [usize; 2] = [42, 46];
const RYANMEN: usize = 0;

/// A reading of a win with agari's score.
struct Scored {
    reading: Reading,
    counts: [u8; KINDS],
    win: Win,
    is_open: bool,
    score: ReadingScore,
    /// The fu with the other setting.
    other_fu: u8,
}

/// Readings dealt until one fits.
type Part = stored::Part<Scored, Scored>;

fn part(title: &str, records: usize, fits: impl Fn(&Scored) -> bool + 'static) -> Part {
    Part::new(title, records, deal, fits)
}

fn parts() -> Vec<Part> {
    let mut parts = Vec::new();
    for (place, yaku) in YAKU_ENTRIES.iter().enumerate() {
        let title = format!("{yaku:?}");
        parts.push(part(&title, 50, move |scored| {
            scored.score.tallies[place] > 0
        }));
    }
    for place in WINDS {
        let title = format!("{:?} twice", YAKU_ENTRIES[place]);
        parts.push(part(&title, 25, move |scored| {
            scored.score.tallies[place] == 2
        }));
    }
    for (place, wait) in WAIT_ENTRIES.iter().enumerate() {
        let title = format!("{wait:?}");
        parts.push(part(&title, 50, move |scored| {
            scored.score.waits[place] > 0
        }));
    }
    parts.extend([
        part("several waits", 150, |scored| {
            has_several_waits(&scored.score)
        }),
        part("a wait twice or more", 50, |scored| {
            has_equal_waits(&scored.score)
        }),
        part(
            "ron tile in a closed triplet and a closed sequence",
            100,
            |scored| has_spared_triplet(&scored.reading, &scored.win),
        ),
        part(
            "winning tile in an open sequence or triplet too",
            100,
            |scored| has_called_tile(&scored.reading, &scored.win),
        ),
        part("pinfu but for the pair", 50, is_nearly_pinfu),
        part("nine gates but for the calls", 50, is_nearly_nine_gates),
        part("no yaku", 150, |scored| scored.score.han == 0),
    ]);
    parts.extend(settings());
    parts.push(part("any", 450, |_| true));
    parts
}

/// Readings with a pair that is both round and seat wind, with each setting: those whose fu the other
/// setting changes, and those whose fu stay.
fn settings() -> Vec<Part> {
    let mut parts = Vec::new();
    for (setting, name) in SETTINGS.into_iter().zip(SETTING_NAMES) {
        for (changes, what, records) in [(true, "changes", 50), (false, "leaves", 25)] {
            let title = format!("setting {name}, the other {what} the fu of such a pair");
            let deal = move |rng: &mut Rng| deal_double_wind(rng, setting);
            parts.push(Part::new(&title, records, deal, move |scored| {
                let has_pair = scored.reading.has_double_wind(&scored.win);
                has_pair && (scored.score.fu != scored.other_fu) == changes
            }));
        }
    }
    parts
}

/// Closed sequences and a two-sided wait, and no pinfu.
fn is_nearly_pinfu(scored: &Scored) -> bool {
    let melds = scored.reading.melds;
    let is_fitting = scored.reading.kind == STANDARD
        && melds.iter().all(|meld| meld.kind == CLOSED_SEQUENCE)
        && scored.score.waits[RYANMEN] > 0;
    is_fitting && scored.score.tallies[PINFU] == 0 && scored.score.is_yakuman == 0
}

/// At least the tiles 1112345678999 of a suit, and no nine gates.
fn is_nearly_nine_gates(scored: &Scored) -> bool {
    const LEAST: [u8; 9] = [3, 1, 1, 1, 1, 1, 1, 1, 3];
    let mut suits = scored.counts[..27].chunks(9);
    let is_fitting = suits.any(|counts| counts.iter().zip(LEAST).all(|(&n, least)| n >= least));
    is_fitting && NINE_GATES.map(|place| scored.score.tallies[place]) == [0; 2]
}

/// One reading of a random win.
fn deal(rng: &mut Rng) -> Scored {
    let hand = wins::hand(rng);
    let read = ReadHand::of(&hand);
    let winning_tiles = wins::winning_tiles(rng, &hand);
    let winning_tile = rng.pick(&winning_tiles);
    let win = wins::win(rng, &hand, winning_tile);
    scored(rng, &read, win)
}

/// One reading of a random win with a pair that is both round and seat wind, with this setting.
fn deal_double_wind(rng: &mut Rng, setting: u8) -> Scored {
    let (hand, win) = wins::double_wind(rng);
    scored(rng, &ReadHand::of(&hand), win.in_room(setting))
}

/// One of the readings, scored.
fn scored(rng: &mut Rng, read: &ReadHand, win: Win) -> Scored {
    let number = rng.below(read.readings.len());
    let (reading, structure) = &read.readings[number];
    let other = win.in_room(FOUR + TWO - win.double_wind_fu);
    Scored {
        reading: *reading,
        counts: read.counts,
        win: win.with_noise(rng),
        is_open: read.is_open,
        score: read.score(structure, &win),
        other_fu: read.fu(&other)[number],
    }
}

fn record(scored: &Scored) -> [u8; RECORD] {
    let Scored {
        reading,
        counts,
        win,
        is_open,
        score,
        ..
    } = scored;
    let mut record = [0; RECORD];
    record[0] = reading.kind;
    record[1] = reading.pair;
    put_melds(&mut record[2..14], &reading.melds);
    record[14..21].copy_from_slice(&reading.pairs);
    record[21..55].copy_from_slice(counts);
    put_win(&mut record[55..90], win);
    record[90] = u8::from(*is_open);
    record[91..138].copy_from_slice(&score.tallies);
    record[138..144].copy_from_slice(&score.waits);
    record[144] = score.han;
    record[145] = score.fu;
    record[146] = score.is_yakuman;
    record
}

/// Deals a reading, and adds its record if it fits the part.
fn add_one(
    part: &Part,
    rng: &mut Rng,
    tally: &mut ScoreTally,
    sample: &mut Sample<RECORD>,
) -> bool {
    let scored = (part.deal)(rng);
    let is_taken = (part.fits)(&scored) && sample.add(record(&scored));
    if is_taken {
        tally.count(&scored.reading, &scored.win, scored.is_open, &scored.score);
    }
    is_taken
}

fn main() -> ExitCode {
    stored::write("sample_scores", SEED, parts(), ScoreTally::new(), add_one)
}

#[cfg(test)]
mod tests {
    use super::*;
    use compare::library::Meld;
    use std::collections::HashSet;

    #[test]
    fn a_record_has_the_win_and_its_yaku_at_their_places() {
        let mut rng = Rng::new(1);
        let mut sources = HashSet::new();
        for _ in 0..200 {
            let scored = deal(&mut rng);
            let record = record(&scored);
            let [dora, ura] = scored.win.indicators();
            let melds = scored.reading.melds.map(Meld::bytes);
            assert_eq!(record[2..14], *melds.as_flattened());
            assert_eq!(record[21..55], scored.counts);
            assert_eq!(record[55], scored.win.win_type);
            assert_eq!((record[68], &record[69..79]), (dora.count, &dora.tiles[..]));
            assert_eq!((record[79], &record[80..90]), (ura.count, &ura.tiles[..]));
            assert_eq!(record[90], u8::from(scored.is_open));
            assert_eq!(record[91..138], scored.score.tallies);
            assert_eq!(record[138..144], scored.score.waits);
            let score = [scored.score.han, scored.score.fu, scored.score.is_yakuman];
            assert_eq!(record[144..147], score);
            assert_eq!(record[147..], [0; 13]);
            sources.extend(scored.reading.melds.map(|meld| meld.source));
        }
        assert_eq!(sources.len(), 4);
    }
}
