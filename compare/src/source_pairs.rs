//! A win and the same win with calls from other players: their answers have to be the same but for the
//! source bytes.

use crate::agari::Record;
use crate::agreement::records;
use crate::differences::{hand_faults, win_faults};
use crate::hand::Hand;
use crate::library::{self, ALWAYS_ENOUGH, Listing, Meld, Operations, Score, Win};
use crate::oracle::TOO_SHORT;
use crate::rng::Rng;
use crate::win_oracle::{CHECKS, NO_READING, NO_SUCH_READING, NO_YAKU};

/// What has to agree: the answers of listings with the bytes behind the records, the records but for the
/// source bytes, and these with those of the calls; scores and waits in every field.
pub const PARTS: [&str; 6] = [
    "listings",
    "records",
    "source bytes",
    "scored win",
    "scores by number",
    "waits by number",
];
/// What is asked of both.
pub const INPUTS: [&str; 4] = ["listings", "wins", "scores by number", "waits by number"];
/// Bytes behind the lent buffer, which have to stay as they were too.
const MARGIN: usize = 16;
/// A number of no reading.
const FAR: usize = usize::MAX;

/// Two wins whose calls differ in sources and in nothing else.
pub struct Pair {
    pub hands: [Hand; 2],
    pub wins: [Win; 2],
    /// The numbers with which the listings and the wins are refused by a check, whatever the readings.
    listing_refusal: Option<u32>,
    win_refusal: Option<u32>,
}

impl Pair {
    /// A win beside the same win with at least one call from another player, each with its own noise in what
    /// must not matter. Nothing where no call can come from another, or one is none.
    pub fn new(rng: &mut Rng, hand: &Hand, win: &Win) -> Option<Pair> {
        let has_choice = hand.called().iter().any(|call| call.has_choice_of_source());
        let [one, two, no_call, four, five, six] = hand_faults(hand);
        if !has_choice || no_call {
            return None;
        }
        let [range, indicators, tile] = win_faults(hand, win);
        let faults = [one, two, no_call, four, five, six, range, indicators, tile];
        let first = faults.iter().position(|&fault| fault);
        let win_refusal = first.map(|place| CHECKS[place] as u32);
        Some(Pair {
            hands: [*hand, from_others(rng, hand)].map(|hand| hand.with_noise(rng)),
            wins: [*win; 2].map(|win| win.with_noise(rng)),
            listing_refusal: win_refusal.filter(|&number| number < TOO_SHORT),
            win_refusal,
        })
    }

    /// Whether the win passes the checks.
    pub fn is_sound(&self) -> bool {
        self.win_refusal.is_none()
    }

    /// The number that a listing answers where so many bytes are lent and so many needed.
    fn listing_number(&self, lent: usize, need: usize) -> u32 {
        let too_short = if lent < need { TOO_SHORT } else { 0 };
        self.listing_refusal.unwrap_or(too_short)
    }

    /// The numbers that a scored win may answer where there are so many readings.
    fn win_numbers(&self, readings: usize) -> Vec<u32> {
        match (self.win_refusal, readings) {
            (Some(number), _) => vec![number],
            (None, 0) => vec![NO_READING],
            (None, _) => vec![0, NO_YAKU],
        }
    }

    /// The number that a reading's score or waits answer where there are so many readings.
    fn reading_number(&self, number: usize, readings: usize) -> u32 {
        let absent = if number < readings {
            0
        } else {
            NO_SUCH_READING
        };
        self.win_refusal.unwrap_or(absent)
    }
}

/// The same hand with at least one call from another player.
fn from_others(rng: &mut Rng, hand: &Hand) -> Hand {
    let share = rng.pick(&[30, 100]);
    loop {
        let mut other = *hand;
        for call in &mut other.calls.melds[..hand.called().len()] {
            if rng.percent(share) {
                *call = call.from_anyone(rng);
            }
        }
        if other.called() != hand.called() {
            return other;
        }
    }
}

/// How two wins were answered.
pub struct Outcome {
    /// The number of the first's readings.
    pub readings: usize,
    /// How often each operation was asked of both: listings, by each length of the buffer, scored wins, and
    /// scores and waits by number.
    pub inputs: [u64; INPUTS.len()],
    /// How many of these lengths were refused with 7.
    pub too_short: u64,
    pub scores: [Score; 2],
    /// Whether the answers differ, part by part.
    pub differ: [bool; PARTS.len()],
}

/// Asks for the answers to a pair, and holds them to each other.
pub struct Holder {
    pub operations: Operations,
    /// Puts the sources of calls into a record.
    pub with_sources: fn(Record, &[Meld]) -> Record,
    /// What stands in the lent buffers and behind them before.
    old: Vec<u8>,
}

impl Holder {
    /// Asks the library.
    pub fn new(rng: &mut Rng) -> Holder {
        Holder {
            operations: library::OPERATIONS,
            with_sources: Record::with_sources,
            old: (0..ALWAYS_ENOUGH + MARGIN).map(|_| rng.byte()).collect(),
        }
    }

    /// Asks everything of both wins. Their readings are listed into buffers of lengths around the need, and
    /// into one that always suffices.
    pub fn outcome(&self, pair: &Pair) -> Outcome {
        let (whole, _) = self.list(&pair.hands[0], ALWAYS_ENOUGH);
        let need = whole.bytes;
        let lengths = [need.saturating_sub(1), need, need + 1, ALWAYS_ENOUGH];
        let listings = lengths.map(|lent| self.listings_differ(pair, lent, need));
        let [listing, records, sources] =
            [0, 1, 2].map(|part| listings.iter().any(|differ| differ[part]));
        let scores = self.score_wins(pair);
        let numbers = numbers(whole.readings).count() as u64;
        let [readings, waits] = self.readings_differ(pair, whole.readings);
        let is_short = |lent: &&usize| pair.listing_number(**lent, need) == TOO_SHORT;
        Outcome {
            readings: whole.readings,
            inputs: [lengths.len() as u64, 1, numbers, numbers],
            too_short: lengths.iter().filter(is_short).count() as u64,
            scores,
            differ: [
                listing,
                records,
                sources,
                wins_differ(pair, &scores, whole.readings),
                readings,
                waits,
            ],
        }
    }

    /// The answer to a listing into a buffer of this length, and the buffer with what is behind it.
    fn list(&self, hand: &Hand, lent: usize) -> (Listing, Vec<u8>) {
        let mut buffer = self.old[..lent + MARGIN].to_vec();
        let list = self.operations.list_readings;
        let listing = list(hand.counts(), hand.calls, &mut buffer[..lent]);
        (listing, buffer)
    }

    /// Whether the listings differ where so many bytes are lent: in their answers or the bytes behind the
    /// records, in the records but for the sources, or in the sources.
    fn listings_differ(&self, pair: &Pair, lent: usize, need: usize) -> [bool; 3] {
        let listed = pair.hands.map(|hand| self.list(&hand, lent));
        let [one, other] = [&listed[0], &listed[1]].map(|(listing, _)| *listing);
        let stays = |(listing, buffer): &(Listing, Vec<u8>)| {
            buffer[listing.bytes..] == self.old[listing.bytes..buffer.len()]
        };
        let is_same = one == other && one.number == pair.listing_number(lent, need);
        let written = [0, 1].map(|unit| records(&listed[unit].1[..listed[unit].0.bytes]));
        let has_own = |unit: usize| {
            let calls = pair.hands[unit].called();
            let mut records = written[unit].iter();
            records.all(|record| (self.with_sources)(record.clone(), calls) == *record)
        };
        let are_own = has_own(0) && has_own(1);
        let [bare, other_bare] = written.map(without_sources);
        [
            !is_same || !listed.iter().all(stays),
            bare != other_bare,
            !are_own,
        ]
    }

    /// The scores of both wins.
    fn score_wins(&self, pair: &Pair) -> [Score; 2] {
        [0, 1].map(|unit| {
            let hand = &pair.hands[unit];
            (self.operations.score_win)(hand.counts(), hand.calls, pair.wins[unit])
        })
    }

    /// Whether the scores and the waits of the readings differ, by each number.
    fn readings_differ(&self, pair: &Pair, readings: usize) -> [bool; 2] {
        let mut differ = [false; 2];
        for number in numbers(readings) {
            let want = pair.reading_number(number, readings);
            let [one, other] = [0, 1].map(|unit| {
                let (hand, win) = (&pair.hands[unit], pair.wins[unit]);
                let (counts, calls) = (hand.counts(), hand.calls);
                let score = (self.operations.score_reading)(counts, calls, win, number);
                (
                    score,
                    (self.operations.name_waits)(counts, calls, win, number),
                )
            });
            differ[0] |= one.0 != other.0 || one.0.number != want;
            differ[1] |= one.1 != other.1 || one.1.number != want;
        }
        differ
    }
}

/// The numbers of readings that are asked for, where there are so many: the one past the last and one far
/// behind too.
fn numbers(readings: usize) -> impl Iterator<Item = usize> {
    (0..=readings).chain([FAR])
}

/// Whether the scored wins differ in any field, or are refused otherwise than they have to be.
fn wins_differ(pair: &Pair, [one, other]: &[Score; 2], readings: usize) -> bool {
    one != other || !pair.win_numbers(readings).contains(&one.number)
}

/// The records, of which each meld comes from nobody.
fn without_sources(records: Vec<Record>) -> Vec<Record> {
    let records = records.into_iter();
    records.map(Record::without_sources).collect()
}
