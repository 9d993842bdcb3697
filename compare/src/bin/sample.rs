//! Writes a sample of inputs with their right answers, which a proved program replays.
//!
//! The file is a row of records of 256 bytes, numbers little-endian, zero where nothing stands:
//!
//! | bytes   | content                                                                |
//! |---------|------------------------------------------------------------------------|
//! | 0       | length of the counts                                                   |
//! | 1..41   | the counts                                                             |
//! | 41..43  | number of calls                                                        |
//! | 43..55  | four melds, each its tile, its kind and its source                     |
//! | 55..57  | number of bytes lent, at most 120                                      |
//! | 57      | the answer's number                                                    |
//! | 58..60  | the answer's count of readings                                         |
//! | 60..62  | the answer's count of bytes                                            |
//! | 64..184 | the buffer after the call, as far as it is lent                        |
//!
//! Before the call, byte i of the buffer is (7 i + 3) mod 256.

use compare::damage::with_faults;
use compare::differences::FAULTS;
use compare::hand::Hand;
use compare::oracle::Expected;
use compare::random;
use compare::rng::Rng;
use compare::stored::{self, MOST_CALLS, Sample, put_hand, put_u16};
use compare::tally::Tally;
use std::process::ExitCode;

const SEED: u64 = 34;
const RECORD: usize = 256;
const MOST_LENT: usize = 120;

/// Hands dealt until the right answer fits.
type Part = stored::Part<Hand, Expected>;

fn parts() -> Vec<Part> {
    let mut parts = vec![
        winning(1, 800),
        winning(2, 1000),
        winning(3, 450),
        winning(4, 150),
        Part::new("seven pairs", 200, random::seven_pairs, |_| true),
        Part::new("thirteen orphans", 50, random::orphans, |_| true),
        no_reading("winning", 250, random::near_winning),
        no_reading("seven pairs", 50, random::near_seven_pairs),
        no_reading("thirteen orphans", 50, random::near_orphans),
        Part::new("tiles from the wall", 100, random::any_tiles, |_| true),
    ];
    for earlier in 1..=FAULTS {
        parts.push(one_refusal(earlier, 100));
        for later in earlier + 1..=FAULTS {
            parts.push(two_faults(earlier, later, 20));
        }
    }
    parts
}

fn winning(readings: usize, records: usize) -> Part {
    let title = format!("winning hands, number of readings {readings}");
    Part::new(&title, records, random::winning, move |expected| {
        expected.readings == readings
    })
}

fn no_reading(name: &str, records: usize, deal: fn(&mut Rng) -> Hand) -> Part {
    let title = format!("near to {name}, no reading");
    Part::new(&title, records, deal, |expected| expected.readings == 0)
}

fn one_refusal(number: usize, records: usize) -> Part {
    let title = format!("refusal {number}");
    let deal = move |rng: &mut Rng| with_faults(rng, number, number);
    Part::new(&title, records, deal, move |expected| {
        expected.listing(0).number as usize == number
    })
}

fn two_faults(earlier: usize, later: usize, records: usize) -> Part {
    let title = format!("refusal {earlier}, ground for {later} too");
    let deal = move |rng: &mut Rng| with_faults(rng, earlier, later);
    Part::new(&title, records, deal, move |expected| {
        expected.listing(0).number as usize == earlier && expected.faults[later - 1]
    })
}

/// A number of bytes to lend: most often enough, else around the need.
fn lent(rng: &mut Rng, need: usize) -> usize {
    let any = rng.below(MOST_LENT + 1);
    if rng.percent(75) {
        rng.pick(&[need, need + 1, MOST_LENT, any.max(need)])
    } else {
        let one_less = need.saturating_sub(1);
        rng.pick(&[one_less, one_less, any % (need + 1), 0])
    }
}

/// The record of a hand and a number of bytes lent.
fn record(hand: &Hand, expected: &Expected, lent: usize) -> [u8; RECORD] {
    let mut buffer: Vec<u8> = (0..lent).map(|i| (i * 7 + 3) as u8).collect();
    expected.write(&mut buffer);
    let answer = expected.listing(lent);

    let mut record = [0; RECORD];
    put_hand(&mut record, hand);
    put_u16(&mut record, 55, lent);
    record[57] = answer.number as u8;
    put_u16(&mut record, 58, answer.readings);
    put_u16(&mut record, 60, answer.bytes);
    record[64..][..lent].copy_from_slice(&buffer);
    record
}

/// Deals a hand that fits the part, and adds its record.
fn add_one(part: &Part, rng: &mut Rng, tally: &mut Tally, sample: &mut Sample<RECORD>) -> bool {
    let mut hand = random::until(rng, &part.deal, &part.fits).with_noise(rng);
    hand.calls.count = hand.calls.count.min(MOST_CALLS);
    let expected = Expected::of(&hand);
    let lent = lent(rng, expected.records.len());
    let is_new = sample.add(record(&hand, &expected, lent));
    if is_new {
        tally.count_hand(&expected);
        tally.count_answer(&expected.listing(lent));
    }
    is_new
}

fn main() -> ExitCode {
    stored::write("sample", SEED, parts(), Tally::default(), add_one)
}

#[cfg(test)]
mod tests {
    use super::*;
    use compare::hand::{ACROSS, OPEN_TRIPLET};
    use compare::library::Meld;

    #[test]
    fn a_record_has_the_answer_and_the_buffer_at_their_places() {
        let mut hand = Hand::empty();
        // Man 123 55, pin 456, sou 234, and a pon of Red.
        for tile in [0, 1, 2, 4, 4, 12, 13, 14, 19, 20, 21] {
            hand.counts[tile] += 1;
        }
        hand.call(Meld::new(33, OPEN_TRIPLET).with_source(ACROSS));
        let record = record(&hand, &Expected::of(&hand), 18);
        assert_eq!(record[41..46], [1, 0, 33, 3, 2]);
        assert_eq!(record[46..55], [0; 9]);
        // 18 bytes lent, accepted, one reading, 17 bytes.
        assert_eq!(record[55..64], [18, 0, 0, 1, 0, 17, 0, 0, 0]);
        let standard = [17, 0, 3, 0, 4, 0, 0, 0, 12, 0, 0, 19, 0, 0, 33, 3, 2];
        assert_eq!(record[64..81], standard);
        assert_eq!(record[81], 17 * 7 + 3);
        assert_eq!(record[82..], [0; 174]);
    }
}
