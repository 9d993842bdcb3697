//! What the library has to answer: the refusals as the scope paper lists them, and agari's readings.

use crate::agari::{self, Record};
use crate::answers;
use crate::differences::FAULTS;
use crate::game::Game;
use crate::hand::Hand;
use crate::library::Listing;
use agari_core::hand::HandStructure;

/// The refusal of a buffer that is too short.
pub const TOO_SHORT: u32 = 7;

/// What is expected for a hand, whatever buffer is lent.
pub struct Expected {
    /// Which of the refusals 1 to 6 have a ground in the hand. The first of them is the answer.
    pub faults: [bool; FAULTS],
    /// The number of readings; 0 where the hand is refused.
    pub readings: usize,
    /// The records of the readings; empty where the hand is refused.
    pub records: Vec<u8>,
}

impl Expected {
    /// For four players.
    pub fn of(hand: &Hand) -> Expected {
        Expected::in_game(Game::Four, hand)
    }

    pub fn in_game(game: Game, hand: &Hand) -> Expected {
        let faults = game.hand_faults(hand);
        let records = if faults.contains(&true) {
            Vec::new()
        } else {
            records(hand)
        };
        Expected {
            faults,
            readings: records.len(),
            records: records.iter().flat_map(bytes).collect(),
        }
    }

    /// The answer where so many bytes are lent.
    pub fn listing(&self, lent: usize) -> Listing {
        let fault = self.faults.iter().position(|&fault| fault);
        let number = match fault {
            Some(place) => place as u32 + 1,
            None if self.records.len() > lent => TOO_SHORT,
            None => 0,
        };
        if number == 0 {
            Listing {
                number,
                readings: self.readings,
                bytes: self.records.len(),
            }
        } else {
            Listing {
                number,
                readings: 0,
                bytes: 0,
            }
        }
    }

    /// Does to the lent buffer what the library has to do.
    pub fn write(&self, out: &mut [u8]) {
        let written = self.listing(out.len()).bytes;
        out[..written].copy_from_slice(&self.records[..written]);
    }
}

/// The records of agari's readings, ascending, each once.
fn records(hand: &Hand) -> Vec<Record> {
    let readings = readings(hand).into_iter();
    readings.map(|(record, _)| record).collect()
}

/// agari's readings with their records, ascending, each once. agari has no sources: those of the calls are
/// put back, which leaves the order.
pub fn readings(hand: &Hand) -> Vec<(Record, HandStructure)> {
    let counts = agari::tile_counts(hand.counts());
    let readings = answers::readings(&counts, &agari::called_melds(hand.called()));
    readings
        .into_iter()
        .map(|(record, reading)| (record.with_sources(hand.called()), reading))
        .collect()
}

/// The record as it is written: its length, its kind, its content.
pub fn bytes(record: &Record) -> Vec<u8> {
    let length = (4 + record.content.len()) as u16;
    [
        &length.to_le_bytes()[..],
        &record.kind.to_le_bytes()[..],
        &record.content[..],
    ]
    .concat()
}

#[cfg(test)]
mod tests {
    use super::*;
    use crate::hand::*;
    use crate::library::{ALWAYS_ENOUGH, Meld};
    use crate::random;
    use crate::rng::Rng;

    fn answer(hand: &Hand) -> (u32, usize) {
        let listing = Expected::of(hand).listing(ALWAYS_ENOUGH);
        (listing.number, listing.readings)
    }

    #[test]
    fn closed_hands_of_the_scope_paper() {
        let hands = [
            ("12355m456p234678s", (0, 1)),
            ("222333444m567p88s", (0, 2)),
            ("223344m667788p55s", (0, 2)),
            ("111123m456p789s11z", (0, 1)),
            ("19m19p19s12345677z", (0, 1)),
            ("66677778888999m", (0, 4)),
            ("1235m456p234678s", (6, 0)),
        ];
        for (text, expected) in hands {
            assert_eq!(answer(&Hand::written(text)), expected, "{text}");
        }
    }

    #[test]
    fn called_hands_of_the_scope_paper() {
        let mut one_call = Hand::written("55m456p234678s");
        one_call.call(Meld::new(0, OPEN_SEQUENCE));
        assert_eq!(answer(&one_call), (0, 1));

        let mut four_calls = Hand::written("55z");
        for tile in [3, 12, 21, 33] {
            four_calls.call(Meld::new(tile, ADDED_KAN));
        }
        assert_eq!(answer(&four_calls), (0, 1));
    }

    #[test]
    fn records_ascend_by_kind_and_then_content() {
        let expected = Expected::of(&Hand::written("223344m667788p55s"));
        let seven_pairs = [11, 0, 1, 0, 1, 2, 3, 14, 15, 16, 22];
        let melds = [[1, 0, 0], [1, 0, 0], [14, 0, 0], [14, 0, 0]].concat();
        let standard = [&[17, 0, 3, 0, 22][..], &melds].concat();
        assert_eq!(expected.records, [&seven_pairs[..], &standard].concat());
        assert_eq!(expected.listing(28).number, 0);
        assert_eq!(expected.listing(27).number, 7);
    }

    #[test]
    fn a_record_has_the_sources_of_the_calls() {
        let mut hand = Hand::written("66m234s");
        hand.call(Meld::new(33, OPEN_KAN).with_source(RIGHT));
        hand.call(Meld::new(0, OPEN_SEQUENCE));
        hand.call(Meld::new(4, OPEN_TRIPLET).with_source(ACROSS));
        let melds = [[0, 1, 3], [4, 3, 2], [19, 0, 0], [33, 5, 1]].concat();
        let standard = [&[17, 0, 3, 0, 5][..], &melds].concat();
        assert_eq!(Expected::of(&hand).records, standard);
        hand.calls.melds[1].source = RIGHT;
        assert_eq!(answer(&hand), (3, 0));
    }

    #[test]
    fn sources_leave_the_order_of_records() {
        let mut rng = Rng::new(10);
        let mut several = 0;
        for _ in 0..5000 {
            let calls = 1 + rng.below(3);
            let hand = random::winning_with_calls(&mut rng, calls);
            let records = records(&hand);
            assert!(records.is_sorted_by(|one, other| one < other), "{hand}");
            several += usize::from(records.len() > 1);
        }
        assert!(several > 100, "{several}");
    }
}
