//! The comparison of wins whose calls differ only in who the tile came from, and of every source byte.

use crate::faults::{add_each, listed, listed_from};
use crate::game::Game;
use crate::hand::*;
use crate::library::{self, Meld, Win};
use crate::rng::Rng;
use crate::scored_wins::random_wins;
use crate::source_bytes::{self, MOST_OTHERS};
use crate::source_pairs::{Holder, INPUTS, Outcome, PARTS, Pair};
use crate::win_tally::{count_each, counted};
use crate::wins::WINDS;
use std::fmt;
use std::time::Instant;

/// How many differences are printed.
const PRINTED: u64 = 5;
/// The answers 0 to 14.
const ANSWERS: usize = 15;

/// The kinds of calls.
const CALLS: [(u8, &str); 5] = [
    (OPEN_SEQUENCE, "open sequence"),
    (OPEN_TRIPLET, "open triplet"),
    (CLOSED_KAN, "closed kan"),
    (OPEN_KAN, "open kan"),
    (ADDED_KAN, "added kan"),
];
/// The sources of calls, by their numbers.
const SOURCES: [&str; 4] = ["nobody", "right", "across", "left"];
/// From whom the same call is, in the first win and in the second.
const EXCHANGES: [([u8; 2], &str); 6] = [
    ([RIGHT, ACROSS], "right and across"),
    ([RIGHT, LEFT], "right and left"),
    ([ACROSS, RIGHT], "across and right"),
    ([ACROSS, LEFT], "across and left"),
    ([LEFT, RIGHT], "left and right"),
    ([LEFT, ACROSS], "left and across"),
];
const SEATS: [&str; WINDS.len()] = ["East", "South", "West", "North"];
/// What may stand beside open triplets and kans, and how a hand was won.
const OTHERS: [&str; 5] = [
    "an open sequence beside",
    "a closed kan beside",
    "several readings",
    "chosen not the first",
    "by tsumo",
];

/// What to compare: every source byte, and so many pairs of wins that pass the checks.
pub struct Options {
    pub seed: u64,
    pub pairs: u64,
}

/// Compares both classes, and answers how many inputs and pairs differ.
pub fn compare(options: &Options) -> u64 {
    let seed = options.seed;
    println!("every source byte of a call, with every kind and tile");
    let start = Instant::now();
    let bytes = source_bytes::compare(Game::Four, seed, library::OPERATIONS, MOST_OTHERS);
    println!("{bytes}  {:.1} s\n", start.elapsed().as_secs_f64());
    println!("random wins and the same wins with calls from others, seed {seed}");
    let start = Instant::now();
    let holder = Holder::new(&mut Rng::new(seed));
    let pairs = compare_pairs(seed, options.pairs, &holder);
    println!("{pairs}  {:.1} s", start.elapsed().as_secs_f64());
    bytes.differ() + pairs.differ
}

/// Compares random wins, and damaged ones between them, until so many have passed the checks.
fn compare_pairs(seed: u64, pairs: u64, holder: &Holder) -> SourceTally {
    let mut dealer = Rng::new(!seed);
    let mut rng = Rng::new(seed);
    let mut tally = SourceTally::default();
    while tally.pairs < pairs {
        let (hand, wins) = random_wins(&mut dealer, pairs - tally.pairs);
        for win in &wins {
            check(&mut rng, &hand, win, holder, &mut tally);
        }
    }
    tally
}

/// Compares a win with the same win whose calls are from others, if it has calls that may be.
fn check(rng: &mut Rng, hand: &Hand, win: &Win, holder: &Holder, tally: &mut SourceTally) {
    let Some(pair) = Pair::new(rng, hand, win) else {
        tally.left_out += 1;
        return;
    };
    let outcome = holder.outcome(&pair);
    tally.count(&pair, &outcome);
    if outcome.differ.contains(&true) && tally.differ <= PRINTED {
        print(&pair, &outcome);
    }
}

fn print(pair: &Pair, outcome: &Outcome) {
    let parts = PARTS.iter().zip(outcome.differ);
    let differing: Vec<&str> = parts.filter(|part| part.1).map(|part| *part.0).collect();
    println!("DIFFERS: {}", differing.join(", "));
    for unit in 0..2 {
        println!("  {}", pair.hands[unit]);
        println!("  {:?}", pair.wins[unit]);
        println!("  scored {}", outcome.scores[unit]);
    }
}

/// A pair is a win and the same win with at least one call from another player.
#[derive(Default)]
struct SourceTally {
    /// Wins with no call that may be from another, or with one that is none.
    left_out: u64,
    /// Pairs that pass the checks, and pairs that are refused by another check than 3.
    pairs: u64,
    damaged: u64,
    /// Both by the answer to the first scored win.
    answers: [u64; ANSWERS],
    /// What was asked of both wins of these, and listings that were refused alike with 7.
    inputs: [u64; INPUTS.len()],
    too_short: u64,
    /// Pairs that pass the checks, by readings, five or more together, by number of calls and of calls that
    /// differ, and by the winner's seat.
    readings: [u64; 6],
    calls: [u64; 5],
    differing: [u64; 5],
    seats: [u64; SEATS.len()],
    others: [u64; OTHERS.len()],
    /// Calls of both wins of these by kind and source, and calls that differ by their two sources.
    sources: [[u64; SOURCES.len()]; CALLS.len()],
    exchanges: [u64; EXCHANGES.len()],
    /// Pairs that differ, all together and part by part.
    differ: u64,
    parts: [u64; PARTS.len()],
}

impl SourceTally {
    fn count(&mut self, pair: &Pair, outcome: &Outcome) {
        self.answers[(outcome.scores[0].number as usize).min(ANSWERS - 1)] += 1;
        add_each(&mut self.inputs, &outcome.inputs);
        self.too_short += outcome.too_short;
        self.differ += u64::from(outcome.differ.contains(&true));
        count_each(&mut self.parts, outcome.differ);
        match pair.is_sound() {
            true => self.count_corners(pair, outcome),
            false => self.damaged += 1,
        }
    }

    /// Counts a pair that passes the checks.
    fn count_corners(&mut self, pair: &Pair, outcome: &Outcome) {
        let ([one, other], win) = (&pair.hands, &pair.wins[0]);
        self.pairs += 1;
        self.readings[outcome.readings.min(5)] += 1;
        self.calls[one.calls.count] += 1;
        count_each(&mut self.seats, WINDS.map(|wind| win.seat_wind == wind));
        count_each(&mut self.others, others(one, win, outcome));
        let calls = one.called().iter().zip(other.called());
        let differing = calls.filter(|(call, other)| call != other);
        self.differing[differing.clone().count()] += 1;
        for (call, other) in differing {
            let is_so = EXCHANGES.map(|(sources, _)| sources == [call.source, other.source]);
            count_each(&mut self.exchanges, is_so);
        }
        for call in one.called().iter().chain(other.called()) {
            self.count_source(call);
        }
    }

    fn count_source(&mut self, call: &Meld) {
        let kind = CALLS.iter().position(|&(kind, _)| kind == call.kind);
        let kind = kind.expect("a call that passes the checks");
        self.sources[kind][usize::from(call.source)] += 1;
    }
}

fn others(hand: &Hand, win: &Win, outcome: &Outcome) -> [bool; OTHERS.len()] {
    let has = |kind| hand.called().iter().any(|call| call.kind == kind);
    [
        has(OPEN_SEQUENCE),
        has(CLOSED_KAN),
        outcome.readings > 1,
        outcome.scores[0].reading > 0,
        win.win_type == library::TSUMO,
    ]
}

impl fmt::Display for SourceTally {
    fn fmt(&self, f: &mut fmt::Formatter) -> fmt::Result {
        writeln!(
            f,
            "  pairs {}, and damaged ones {}; left out {}",
            self.pairs, self.damaged, self.left_out
        )?;
        let answers: Vec<usize> = (0..ANSWERS).filter(|&of| self.answers[of] > 0).collect();
        let numbers: Vec<u64> = answers.iter().map(|&of| self.answers[of]).collect();
        let answers = listed(&answers, &numbers);
        writeln!(f, "  by answer to the scored wins: {answers}")?;
        let inputs = counted(&INPUTS, &self.inputs);
        writeln!(f, "  inputs, asked of both: {inputs}")?;
        writeln!(f, "    listings refused alike with 7: {}", self.too_short)?;
        let readings = listed_from(0, &self.readings);
        writeln!(f, "  pairs that pass the checks, by readings: {readings}")?;
        writeln!(f, "    by calls: {}", listed_from(1, &self.calls[1..]))?;
        let differing = listed_from(1, &self.differing[1..]);
        writeln!(f, "    by calls that differ: {differing}")?;
        writeln!(
            f,
            "    by the winner's seat: {}",
            counted(&SEATS, &self.seats)
        )?;
        writeln!(f, "    {}", counted(&OTHERS, &self.others))?;
        for ((_, kind), counts) in CALLS.iter().zip(&self.sources) {
            writeln!(f, "    {kind} from: {}", counted(&SOURCES, counts))?;
        }
        let exchanges = counted(&EXCHANGES.map(|(_, name)| name), &self.exchanges);
        writeln!(f, "    calls that differ, from: {exchanges}")?;
        let parts = counted(&PARTS, &self.parts);
        writeln!(f, "  differ: {} ({parts})", self.differ)
    }
}

#[cfg(test)]
mod tests {
    use super::*;
    use crate::agari::Record;
    use crate::library::{Calls, Listing, Operations, Score, Waits};
    use crate::win_oracle::refused;

    fn holder() -> Holder {
        Holder::new(&mut Rng::new(4))
    }

    #[test]
    fn pairs_meet_every_corner_and_none_differs() {
        let tally = compare_pairs(3, 20_000, &holder());
        assert_eq!(tally.differ, 0, "{tally}");
        for (number, &pairs) in tally.answers.iter().enumerate() {
            let never = [3, 7, 12, 13].contains(&number);
            assert!(never == (pairs == 0) && (never || pairs > 20), "{tally}");
        }
        for ((kind, _), counts) in CALLS.iter().zip(tally.sources) {
            for (source, &calls) in (0..).zip(&counts) {
                let is_one = sources(*kind).contains(&source);
                assert_eq!(calls > 100, is_one, "{tally}");
                assert_eq!(calls > 0, is_one, "{tally}");
            }
        }
        let corners = [&tally.exchanges[..], &tally.seats, &tally.others];
        let seen = |counts: &&[u64]| counts.iter().all(|&count| count > 100);
        assert!(corners.iter().all(seen), "{tally}");
        let seen = |counts: &[u64; 5]| counts[0] == 0 && counts[1..].iter().all(|&of| of > 20);
        assert!(seen(&tally.calls) && seen(&tally.differing), "{tally}");
        assert!(tally.too_short > 0, "{tally}");
    }

    /// Whether a call has this source.
    fn has(calls: &Calls, source: u8) -> bool {
        let count = calls.count.min(4);
        calls.melds[..count]
            .iter()
            .any(|call| call.source == source)
    }

    /// The places of the source bytes in records of these lengths.
    fn source_places(bytes: &[u8]) -> Vec<usize> {
        let mut places = Vec::new();
        let mut start = 0;
        while start < bytes.len() {
            let length = usize::from(bytes[start]);
            if length == 17 {
                places.extend([7, 10, 13, 16].map(|place| start + place));
            }
            start += length;
        }
        places
    }

    /// Lists, and sets every source byte of an open meld to this.
    fn with_all(counts: &[u8], calls: Calls, out: &mut [u8], source: u8) -> Listing {
        let listing = library::list_readings(counts, calls, out);
        for place in source_places(&out[..listing.bytes]) {
            if out[place] != NOBODY {
                out[place] = source;
            }
        }
        listing
    }

    fn no_sources(counts: &[u8], calls: Calls, out: &mut [u8]) -> Listing {
        with_all(counts, calls, out, NOBODY)
    }

    fn all_from_left(counts: &[u8], calls: Calls, out: &mut [u8]) -> Listing {
        with_all(counts, calls, out, LEFT)
    }

    fn source_of_closed_melds(counts: &[u8], calls: Calls, out: &mut [u8]) -> Listing {
        let listing = library::list_readings(counts, calls, out);
        let places = source_places(&out[..listing.bytes]).into_iter();
        if has(&calls, RIGHT) {
            places.for_each(|place| out[place] = out[place].max(1));
        }
        listing
    }

    fn more_needed_from_across(counts: &[u8], calls: Calls, out: &mut [u8]) -> Listing {
        let lent = out.len() - usize::from(has(&calls, ACROSS) && !out.is_empty());
        library::list_readings(counts, calls, &mut out[..lent])
    }

    fn a_byte_behind_from_right(counts: &[u8], calls: Calls, out: &mut [u8]) -> Listing {
        let listing = library::list_readings(counts, calls, out);
        if let (true, Some(byte)) = (has(&calls, RIGHT), out.get_mut(listing.bytes)) {
            *byte = !*byte;
        }
        listing
    }

    fn another_pair_from_right(counts: &[u8], calls: Calls, out: &mut [u8]) -> Listing {
        let listing = library::list_readings(counts, calls, out);
        if has(&calls, RIGHT) && listing.bytes > 0 {
            out[4] ^= 1;
        }
        listing
    }

    fn more_fu_from_across(counts: &[u8], calls: Calls, win: Win) -> Score {
        let mut score = library::score_win(counts, calls, win);
        score.fu += 10 * u8::from(score.number == 0 && has(&calls, ACROSS));
        score
    }

    fn next_reading_from_right(counts: &[u8], calls: Calls, win: Win) -> Score {
        let mut score = library::score_win(counts, calls, win);
        score.reading += usize::from(score.number == 0 && has(&calls, RIGHT));
        score
    }

    fn other_refusal_from_left(counts: &[u8], calls: Calls, win: Win) -> Score {
        match library::score_win(counts, calls, win) {
            score if score.number == 6 && has(&calls, LEFT) => refused(5),
            score => score,
        }
    }

    fn more_total_from_left(counts: &[u8], calls: Calls, win: Win, number: usize) -> Score {
        let mut score = library::score_reading(counts, calls, win, number);
        score.total += u64::from(score.number == 0 && has(&calls, LEFT));
        score
    }

    fn no_waits_from_right(counts: &[u8], calls: Calls, win: Win, number: usize) -> Waits {
        match library::name_waits(counts, calls, win, number) {
            waits if waits.number == 0 && has(&calls, RIGHT) => Waits::default(),
            waits => waits,
        }
    }

    /// The parts that differ where the library is asked so.
    fn broken_parts(operations: Operations) -> [bool; PARTS.len()] {
        let mut broken = holder();
        broken.operations = operations;
        compare_pairs(3, 3_000, &broken)
            .parts
            .map(|pairs| pairs > 0)
    }

    /// These parts alone.
    fn only<const N: usize>(names: [&str; N]) -> [bool; PARTS.len()] {
        PARTS.map(|part| names.contains(&part))
    }

    #[test]
    fn listings_that_lose_or_read_a_source_differ() {
        let broken = |list_readings| {
            broken_parts(Operations {
                list_readings,
                ..library::OPERATIONS
            })
        };
        assert_eq!(broken(no_sources), only(["source bytes"]));
        assert_eq!(broken(all_from_left), only(["source bytes"]));
        assert_eq!(broken(source_of_closed_melds), only(["source bytes"]));
        // One is refused with 7 and has no records.
        let both = only(["listings", "records"]);
        assert_eq!(broken(more_needed_from_across), both);
        assert_eq!(broken(a_byte_behind_from_right), only(["listings"]));
        assert_eq!(broken(another_pair_from_right), only(["records"]));
    }

    #[test]
    fn scores_and_waits_that_read_a_source_differ() {
        let library = library::OPERATIONS;
        for score_win in [
            more_fu_from_across,
            next_reading_from_right,
            other_refusal_from_left,
        ] {
            let broken = Operations {
                score_win,
                ..library
            };
            assert_eq!(broken_parts(broken), only(["scored win"]));
        }
        let broken = Operations {
            score_reading: more_total_from_left,
            ..library
        };
        assert_eq!(broken_parts(broken), only(["scores by number"]));
        let broken = Operations {
            name_waits: no_waits_from_right,
            ..library
        };
        assert_eq!(broken_parts(broken), only(["waits by number"]));
    }

    /// Each meld with the source that is found for it, or from nobody.
    fn found(record: Record, find: impl Fn(&Meld) -> Option<u8>) -> Record {
        match record.parts() {
            Some((pair, melds)) => {
                let melds = melds.into_iter();
                let source = |meld: &Meld| find(meld).unwrap_or(NOBODY);
                Record::standard(
                    pair,
                    melds.map(|meld| meld.with_source(source(&meld))).collect(),
                )
            }
            None => record,
        }
    }

    fn by_kind_alone(record: Record, calls: &[Meld]) -> Record {
        found(record, |meld| {
            let call = calls.iter().find(|call| call.kind == meld.kind);
            call.map(|call| call.source)
        })
    }

    fn by_tile_alone(record: Record, calls: &[Meld]) -> Record {
        found(record, |meld| {
            let call = calls.iter().find(|call| call.tile == meld.tile);
            call.map(|call| call.source)
        })
    }

    fn usual(record: Record, _: &[Meld]) -> Record {
        found(record, |meld| Some(Meld::new(meld.tile, meld.kind).source))
    }

    #[test]
    fn sources_that_are_put_back_wrongly_differ() {
        let broken: [fn(Record, &[Meld]) -> Record; 4] =
            [by_kind_alone, by_tile_alone, usual, |record, _| {
                record.without_sources()
            }];
        for with_sources in broken {
            let mut broken = holder();
            broken.with_sources = with_sources;
            let parts = compare_pairs(3, 3_000, &broken)
                .parts
                .map(|pairs| pairs > 0);
            assert_eq!(parts, only(["source bytes"]));
        }
    }
}
