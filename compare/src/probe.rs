//! What is asked of the proved code for one reading: the probe, a library for the comparison only.

use crate::agari::Record;
use crate::library::{Meld, WAITS, Win, YAKU};

// The kinds of readings.
pub const SEVEN_PAIRS: u8 = 1;
pub const ORPHANS: u8 = 2;
pub const STANDARD: u8 = 3;

/// A reading. What its kind has no use for is zero.
#[repr(C)]
#[derive(Clone, Copy, Debug, Default)]
pub struct Reading {
    pub kind: u8,
    pub pair: u8,
    pub melds: [Meld; 4],
    pub pairs: [u8; 7],
}

impl Reading {
    /// The reading of a record.
    pub fn of(record: &Record) -> Reading {
        let mut reading = Reading {
            kind: record.kind as u8,
            ..Reading::default()
        };
        match reading.kind {
            SEVEN_PAIRS => reading.pairs.copy_from_slice(&record.content),
            _ => reading.pair = record.content[0],
        }
        if reading.kind == STANDARD {
            for (place, meld) in Meld::all_of(&record.content[1..]).enumerate() {
                reading.melds[place] = meld;
            }
        }
        reading
    }

    /// Whether it is four melds and a pair that is both round and seat wind.
    pub fn has_double_wind(&self, win: &Win) -> bool {
        self.kind == STANDARD && [win.round_wind, win.seat_wind] == [self.pair; 2]
    }
}

/// What a reading scores, before points. The yakuman flag is C's `_Bool`, taken as a byte, so that
/// one that is neither 0 nor 1 differs.
#[repr(C)]
#[derive(Clone, Copy, Debug, PartialEq, Eq)]
pub struct ReadingScore {
    pub tallies: [u8; YAKU],
    pub waits: [u8; WAITS],
    pub han: u8,
    pub fu: u8,
    pub is_yakuman: u8,
}

unsafe extern "C" {
    fn probe_reading(
        reading: Reading,
        counts: *const u8,
        counts_len: usize,
        win: Win,
        opened: bool,
    ) -> ReadingScore;
}

/// Scores a reading of a hand. The counts are of hand and calls together.
pub fn reading_score(reading: Reading, counts: &[u8], win: Win, opened: bool) -> ReadingScore {
    unsafe { probe_reading(reading, counts.as_ptr(), counts.len(), win, opened) }
}
