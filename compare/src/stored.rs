//! What the programs that write stored samples share.

use crate::arguments;
use crate::hand::Hand;
use crate::library::{Meld, Win};
use crate::rng::Rng;
use std::collections::HashSet;
use std::fmt::Display;
use std::fs;
use std::process::ExitCode;

/// A row of records of one length, no record twice.
pub struct Sample<const RECORD: usize> {
    seen: HashSet<[u8; RECORD]>,
    bytes: Vec<u8>,
}

impl<const RECORD: usize> Sample<RECORD> {
    /// Adds a record unless it is there already, and says whether it was added.
    pub fn add(&mut self, record: [u8; RECORD]) -> bool {
        let is_new = self.seen.insert(record);
        if is_new {
            self.bytes.extend(record);
        }
        is_new
    }
}

/// A part of a sample: so many records of what is dealt until it fits.
pub struct Part<D, X> {
    title: String,
    records: usize,
    pub deal: Box<dyn Fn(&mut Rng) -> D>,
    pub fits: Box<dyn Fn(&X) -> bool>,
}

impl<D, X> Part<D, X> {
    pub fn new(
        title: &str,
        records: usize,
        deal: impl Fn(&mut Rng) -> D + 'static,
        fits: impl Fn(&X) -> bool + 'static,
    ) -> Part<D, X> {
        Part {
            title: title.into(),
            records,
            deal: Box::new(deal),
            fits: Box::new(fits),
        }
    }
}

/// Of so many records one is written into the second file.
const FEW: usize = 16;

/// Runs a program that makes a sample of these parts, writes it into the file that its first word
/// names, and the first of each sixteen records into the one that its second word names, if there is
/// one, and prints the tally. `add_one` deals one of a part, adds its record to the sample and to the
/// tally if it fits, and says whether it was added.
pub fn write<const RECORD: usize, D, X, T: Display>(
    program: &str,
    seed: u64,
    parts: Vec<Part<D, X>>,
    mut tally: T,
    add_one: fn(&Part<D, X>, &mut Rng, &mut T, &mut Sample<RECORD>) -> bool,
) -> ExitCode {
    arguments::run(&format!("usage: {program} FILE [FEW]"), |words| {
        let (path, few) = match words {
            [path] => (path, None),
            [path, few] => (path, Some(few)),
            _ => return None,
        };
        let mut sample = Sample {
            seen: HashSet::new(),
            bytes: Vec::new(),
        };
        println!("seed {seed}, no record twice; records of each part:");
        let rng = &mut Rng::new(seed);
        for part in &parts {
            let mut added = 0;
            while added < part.records {
                added += usize::from(add_one(part, rng, &mut tally, &mut sample));
            }
            println!("  {:5}  {}", part.records, part.title);
        }
        fs::write(path, &sample.bytes).expect("the file can be written");
        if let Some(few) = few {
            let records = sample.bytes.chunks(RECORD).step_by(FEW);
            let bytes = records.collect::<Vec<_>>().concat();
            fs::write(few, &bytes).expect("the file can be written");
            println!("{} bytes in {few}", bytes.len());
        }
        print!("{} bytes in {path}\n{tally}", sample.bytes.len());
        Some(ExitCode::SUCCESS)
    })
}

/// The greatest number of calls that a record can hold.
pub const MOST_CALLS: usize = u16::MAX as usize;

/// Writes a hand into 55 bytes: the length of the counts, room for 40 counts, the number of calls in
/// two bytes, and four melds.
pub fn put_hand(record: &mut [u8], hand: &Hand) {
    record[0] = hand.length as u8;
    record[1..][..hand.length].copy_from_slice(hand.counts());
    put_u16(record, 41, hand.calls.count);
    put_melds(&mut record[43..55], &hand.calls.melds);
}

/// Writes four melds into 12 bytes, of each its tile, its kind and its source.
pub fn put_melds(record: &mut [u8], melds: &[Meld; 4]) {
    let bytes = melds.map(Meld::bytes);
    record.copy_from_slice(bytes.as_flattened());
}

/// Writes a win into 35 bytes: its type, the winning tile, the winds, the flags, the setting, and of each
/// sort of indicators the count and ten tiles.
pub fn put_win(record: &mut [u8], win: &Win) {
    record[0] = win.win_type;
    record[1] = win.winning_tile;
    record[2] = win.round_wind;
    record[3] = win.seat_wind;
    record[4..12].copy_from_slice(&win.flags().map(u8::from));
    record[12] = win.double_wind_fu;
    for (place, sort) in win.indicators().iter().enumerate() {
        let start = 13 + 11 * place;
        record[start] = sort.count;
        record[start + 1..start + 11].copy_from_slice(&sort.tiles);
    }
}

/// Writes a number into two bytes, the lower one first.
pub fn put_u16(record: &mut [u8], at: usize, value: usize) {
    let value = u16::try_from(value).expect("the number fits in its two bytes");
    record[at..at + 2].copy_from_slice(&value.to_le_bytes());
}

#[cfg(test)]
mod tests {
    use super::*;
    use crate::hand::{ACROSS, ADDED_KAN, OPEN_SEQUENCE};
    use crate::library::{Indicators, TSUMO};

    #[test]
    fn a_hand_is_written_with_the_sources_of_its_calls() {
        let mut hand = Hand::written("55m456p678s");
        hand.call(Meld::new(0, OPEN_SEQUENCE));
        hand.call(Meld::new(33, ADDED_KAN).with_source(ACROSS));
        let mut record = [0; 56];
        put_hand(&mut record, &hand);
        assert_eq!((record[0], record[5]), (34, 2));
        assert_eq!(record[41..], [2, 0, 0, 1, 3, 33, 6, 2, 0, 0, 0, 0, 0, 0, 0]);
    }

    #[test]
    fn a_win_is_written_field_by_field() {
        let shown = [Indicators::of(&[1, 2]), Indicators::of(&[3; 12])];
        let win = Win {
            is_chiihou: true,
            ..Win::new(TSUMO, 5, 27, 28).showing(shown)
        };
        let mut record = [0; 35];
        put_win(&mut record, &win);
        let start = [1, 5, 27, 28, 0, 0, 0, 0, 0, 0, 0, 1, 4];
        assert_eq!(record[..13], start);
        assert_eq!(record[13..24], [2, 1, 2, 0, 0, 0, 0, 0, 0, 0, 0]);
        assert_eq!(record[24..], [12, 3, 3, 3, 3, 3, 3, 3, 3, 3, 3]);
    }
}
