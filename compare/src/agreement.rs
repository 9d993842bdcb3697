//! A win and the same win renamed: their readings have to be the same but for the renaming, and their
//! scores and payments the same.

use crate::agari::Record;
use crate::game::Game;
use crate::hand::{Hand, KINDS};
use crate::library::{Listing, Operations, Score, Waits, Win, YAKU};
use crate::oracle::{self, TOO_SHORT};
use crate::renaming::Renaming;
use crate::rng::Rng;
use crate::win_oracle::ExpectedWin;
use crate::wins::GREENS;

/// What may agree: four answers of the library, and at last agari's waits and scores.
pub const PARTS: [&str; 6] = [
    "listing",
    "waits by number",
    "scores by number",
    "scored win",
    "agari's waits",
    "agari's scores",
];
/// The answers to a win of which something is promised.
pub const ANSWERS: [usize; 4] = [0, 10, 11, BAD as usize];
/// The refusal of indicators.
pub const BAD: u32 = 14;

/// What is promised of a win and its renamed one.
#[derive(Clone, Copy, PartialEq, Eq)]
pub enum Class {
    /// No indicator of either sort: everything agrees, under every renaming.
    Plain,
    /// Indicators, even ura indicators that do not count, and an exchange of suits: everything agrees.
    Suits,
    /// Indicators and another renaming, of winds too: listings and waits agree, scores need not.
    Others,
    /// The first is refused with 14: so is the second, under every renaming, and the listings agree.
    Bad,
}

impl Class {
    pub const ALL: usize = 4;

    /// The class of a win that passes the checks, or of one that is refused with 14.
    fn of(win: &Win, renaming: Renaming, is_bad: bool) -> Class {
        match (is_bad, win.has_indicators(), renaming.is_of_suits()) {
            (true, _, _) => Class::Bad,
            (false, false, _) => Class::Plain,
            (false, true, true) => Class::Suits,
            (false, true, false) => Class::Others,
        }
    }

    /// Which parts have to agree.
    pub fn promises(self) -> [bool; PARTS.len()] {
        match self {
            Class::Others => [true, true, false, false, true, false],
            Class::Plain | Class::Suits | Class::Bad => [true; PARTS.len()],
        }
    }
}

/// What is answered for a win: its score, and of each reading its score and its waits.
struct Answers {
    win: Score,
    readings: Vec<(Score, Waits)>,
}

impl Answers {
    /// The answers of these operations to a win, for so many numbers of readings.
    fn of_library(asked: &Operations, hand: &Hand, win: &Win, readings: usize) -> Answers {
        let (counts, calls) = (hand.counts(), hand.calls);
        let score = |number| (asked.score_reading)(counts, calls, *win, number);
        let waits = |number| (asked.name_waits)(counts, calls, *win, number);
        Answers {
            win: (asked.score_win)(counts, calls, *win),
            readings: (0..readings).map(|k| (score(k), waits(k))).collect(),
        }
    }

    /// agari's in a game, with the choice that the scope paper adds.
    fn of_agari(game: Game, hand: &Hand, win: &Win, readings: usize) -> Answers {
        let expected = ExpectedWin::in_game(game, hand, win);
        let reading = |k| (expected.score_reading(k), expected.name_waits(k));
        Answers {
            win: expected.score_win(),
            readings: (0..readings).map(reading).collect(),
        }
    }

    /// Whether waits by number, scores by number and the scored win agree with the others, where each
    /// reading has its renamed one at its place.
    fn agree(&self, other: &Answers, places: &[usize]) -> [bool; 3] {
        [
            self.waits_as(other, places),
            self.scores_as(other, places),
            self.win_as(other),
        ]
    }

    /// Whether each reading has the waits of the one at its place among the others.
    fn waits_as(&self, other: &Answers, places: &[usize]) -> bool {
        let mut pairs = self.readings.iter().zip(places);
        pairs.all(|((_, waits), &place)| waits.number == 0 && *waits == other.readings[place].1)
    }

    /// Whether each reading has the score of the one at its place among the others.
    fn scores_as(&self, other: &Answers, places: &[usize]) -> bool {
        let mut pairs = self.readings.iter().zip(places);
        pairs.all(|((score, _), &place)| {
            score.number == 0 && settled(score) == settled(&other.readings[place].0)
        })
    }

    /// Whether both scored wins have the same answer, and both pass the checks.
    fn win_as(&self, other: &Answers) -> bool {
        [0, 10, 11].contains(&self.win.number) && settled(&self.win) == settled(&other.win)
    }

    /// Whether waits by number, scores by number and the scored win are refused with 14.
    fn are_refused(&self) -> [bool; 3] {
        [
            self.readings.iter().all(|(_, waits)| waits.number == BAD),
            self.readings.iter().all(|(score, _)| score.number == BAD),
            self.win.number == BAD,
        ]
    }
}

/// A score without the number of its reading and its yaku, which a renaming may change.
fn settled(score: &Score) -> Score {
    Score {
        reading: 0,
        tallies: [0; YAKU],
        ..*score
    }
}

/// Two wins of one game, the second of which is the first renamed.
pub struct Twins {
    pub game: Game,
    pub operations: Operations,
    pub hands: [Hand; 2],
    pub wins: [Win; 2],
    pub renaming: Renaming,
    pub class: Class,
}

/// How two wins were answered.
pub struct Outcome {
    /// The number of the first's readings.
    pub readings: usize,
    /// Whether its records did not fit into the shorter buffer.
    pub is_too_short: bool,
    pub scores: [Score; 2],
    /// Whether the answers differ, part by part, promised or not.
    pub differ: [bool; PARTS.len()],
}

impl Outcome {
    /// Whether the answers differ in parts that are promised, part by part.
    pub fn broken(&self, class: Class) -> [bool; PARTS.len()] {
        let promises = class.promises();
        std::array::from_fn(|part| promises[part] && self.differ[part])
    }
}

impl Twins {
    /// A win of four players that passes the checks or is refused with 14, beside its renamed one, each with
    /// its own noise in what must not matter.
    pub fn new(rng: &mut Rng, hand: &Hand, win: &Win, renaming: Renaming) -> Twins {
        Twins::in_game(Game::Four, rng, hand, win, renaming)
    }

    /// Likewise of a game, under a renaming that keeps its tiles.
    pub fn in_game(game: Game, rng: &mut Rng, hand: &Hand, win: &Win, renaming: Renaming) -> Twins {
        let [_, is_bad, _] = game.win_faults(hand, win);
        Twins {
            game,
            operations: game.operations(),
            hands: [*hand, renaming.hand(hand)].map(|hand| hand.with_noise(rng)),
            wins: [*win, renaming.win(win)].map(|win| win.with_noise(rng)),
            renaming,
            class: Class::of(win, renaming, is_bad),
        }
    }

    /// Of each hand, whether it is all green with its calls.
    pub fn are_green(&self) -> [bool; 2] {
        self.hands.map(|hand| {
            let all = hand.with_calls();
            (0..KINDS).all(|tile| all[tile] == 0 || GREENS.contains(&tile))
        })
    }

    /// Asks everything of both wins. Their readings are listed into a buffer of these bytes, and into
    /// the first so many of them, at most as many as the records need.
    pub fn outcome(&self, rng: &mut Rng, old: &[u8]) -> Outcome {
        let (listing, places, whole) = self.listings(old);
        let lent = rng.below(listing.bytes + 1);
        let (shorter, _, part) = self.listings(&old[..lent]);
        let library = self.answers(places.len(), |hand, win, readings| {
            Answers::of_library(&self.operations, hand, win, readings)
        });
        let agari = self.answers(places.len(), |hand, win, readings| {
            Answers::of_agari(self.game, hand, win, readings)
        });
        let [waits, scores, win] = self.agree(&library, &places);
        let [agari_waits, agari_scores, agari_win] = self.agree(&agari, &places);
        Outcome {
            readings: listing.readings,
            is_too_short: shorter.number == TOO_SHORT,
            scores: library.map(|answers| answers.win),
            differ: [
                !whole || !part,
                !waits,
                !scores,
                !win,
                !agari_waits,
                !agari_scores || !agari_win,
            ],
        }
    }

    /// The answers to both wins, for their readings and for the number past the last.
    fn answers(
        &self,
        readings: usize,
        ask: impl Fn(&Hand, &Win, usize) -> Answers,
    ) -> [Answers; 2] {
        [0, 1].map(|win| ask(&self.hands[win], &self.wins[win], readings + 1))
    }

    /// Whether waits by number, scores by number and the scored wins are as they have to be, were all of
    /// them promised.
    fn agree(&self, [one, other]: &[Answers; 2], places: &[usize]) -> [bool; 3] {
        match self.class {
            Class::Bad => {
                let [first, second] = [one, other].map(Answers::are_refused);
                std::array::from_fn(|part| first[part] && second[part])
            }
            Class::Plain | Class::Suits | Class::Others => one.agree(other, places),
        }
    }

    /// Lists both hands into a buffer of these bytes. Answers the first listing, the place of each of
    /// its readings, renamed, among the second's, and whether the second is as it has to be: the same
    /// numbers, these readings' records alone, ascending, each once, and behind them the old bytes.
    fn listings(&self, old: &[u8]) -> (Listing, Vec<usize>, bool) {
        let [(one, first), (other, second)] = self.hands.map(|hand| self.list(&hand, old));
        let read = records(&first[..one.bytes]);
        let mut renamed: Vec<Record> = read
            .iter()
            .map(|record| self.renaming.record(record))
            .collect();
        let place = |record| renamed.iter().filter(|&other| other < record).count();
        let places: Vec<usize> = renamed.iter().map(place).collect();
        renamed.sort();
        let mut want: Vec<u8> = renamed.iter().flat_map(oracle::bytes).collect();
        want.extend_from_slice(&old[one.bytes..]);
        let once = renamed.is_sorted_by(|earlier, later| earlier < later);
        let counted = one == other && one.readings == places.len();
        (one, places, counted && once && second == want)
    }

    /// The answer to a listing into a buffer of these bytes, and the buffer behind it.
    fn list(&self, hand: &Hand, old: &[u8]) -> (Listing, Vec<u8>) {
        let mut buffer = old.to_vec();
        let listing = (self.operations.list_readings)(hand.counts(), hand.calls, &mut buffer);
        (listing, buffer)
    }
}

/// Records that stand one behind the other.
pub fn records(mut bytes: &[u8]) -> Vec<Record> {
    let mut found = Vec::new();
    while !bytes.is_empty() {
        let length = u16::from_le_bytes([bytes[0], bytes[1]]);
        let (record, rest) = bytes.split_at(length.into());
        found.push(Record {
            kind: u16::from_le_bytes([record[2], record[3]]),
            content: record[4..].to_vec(),
        });
        bytes = rest;
    }
    found
}

#[cfg(test)]
mod tests {
    use super::*;
    use crate::hand::{ACROSS, LEFT, OPEN_TRIPLET};
    use crate::library::{Indicators, Meld, RON};

    /// What differs where an all-green hand is won by ron of sou 2, and renamed.
    fn green_differ(renaming: usize) -> [bool; PARTS.len()] {
        let win = Win::new(RON, 19, 27, 28);
        let mut rng = Rng::new(1);
        let hand = Hand::written("234234666888s66z");
        let twins = Twins::new(&mut rng, &hand, &win, Renaming::numbered(renaming));
        assert!(twins.are_green()[0]);
        twins.outcome(&mut rng, &[0; 100]).differ
    }

    #[test]
    fn all_green_hands_differ_where_sou_is_renamed() {
        assert_eq!(green_differ(0), [false; 6]);
        assert_eq!(green_differ(20), [false, false, true, true, false, true]);
    }

    /// What differs, and what of it is promised, where this hand is won by ron of sou 8 with indicators, and
    /// renamed.
    fn shown_differ(text: &str, shown: &[u8], renaming: usize) -> ([bool; 6], [bool; 6]) {
        let win = Win::new(RON, 25, 27, 28);
        let win = win.showing([Indicators::of(shown), Indicators::default()]);
        let mut rng = Rng::new(1);
        let hand = Hand::written(text);
        let twins = Twins::new(&mut rng, &hand, &win, Renaming::numbered(renaming));
        let outcome = twins.outcome(&mut rng, &[0; 100]);
        (outcome.differ, outcome.broken(twins.class))
    }

    #[test]
    fn with_indicators_only_exchanges_of_suits_agree() {
        let scores = [false, false, true, true, false, true];
        // Man 1 shows man 2. Mirrored, man 9 shows man 1, and man 8 is not hit.
        let pinfu = "12355m456p234678s";
        assert_eq!(shown_differ(pinfu, &[0], 20), ([false; 6], [false; 6]));
        assert_eq!(shown_differ(pinfu, &[0], 2), (scores, [false; 6]));
        // White shows Green. With the dragons exchanged, Red shows White, of which there are three.
        let dragons = "123m55678s555777z";
        assert_eq!(shown_differ(dragons, &[31], 20), ([false; 6], [false; 6]));
        assert_eq!(shown_differ(dragons, &[31], 1), (scores, [false; 6]));
        assert_eq!(shown_differ(dragons, &[], 1), ([false; 6], [false; 6]));
        // South shows West. With South and West exchanged, West shows North, and there are three of South.
        let winds = "123m55678s333z555z";
        assert_eq!(shown_differ(winds, &[28], 20), ([false; 6], [false; 6]));
        assert_eq!(shown_differ(winds, &[28], 24 * 2), (scores, [false; 6]));
        assert_eq!(shown_differ(winds, &[], 24 * 2), ([false; 6], [false; 6]));
    }

    #[test]
    fn a_refusal_with_14_is_one_under_every_renaming() {
        let pinfu = "12355m456p234678s";
        for renaming in 0..Renaming::ALL {
            for shown in [&[0, 34][..], &[0; 11]] {
                let (differ, broken) = shown_differ(pinfu, shown, renaming);
                assert_eq!((differ, broken), ([false; 6], [false; 6]));
            }
        }
    }

    #[test]
    fn a_source_that_is_not_carried_along_differs_in_the_listing() {
        let mut rng = Rng::new(1);
        let mut hand = Hand::written("12355m456p234s");
        hand.call(Meld::new(33, OPEN_TRIPLET).with_source(ACROSS));
        let win = Win::new(RON, 4, 27, 28);
        // Man and sou exchanged, White and Red too.
        let mut twins = Twins::new(&mut rng, &hand, &win, Renaming::numbered(21));
        assert_eq!(twins.outcome(&mut rng, &[0; 100]).differ, [false; 6]);
        twins.hands[1].calls.melds[0].source = LEFT;
        let listing = PARTS.map(|part| part == "listing");
        assert_eq!(twins.outcome(&mut rng, &[0; 100]).differ, listing);
    }

    #[test]
    fn records_are_read_as_they_are_written() {
        let hand = Hand::written("223344m667788p55s");
        let written = oracle::Expected::of(&hand).records;
        let read = records(&written);
        assert_eq!(read.len(), 2);
        assert_eq!(
            read.iter().flat_map(oracle::bytes).collect::<Vec<u8>>(),
            written
        );
    }
}
