//! Counts of what was compared.

use crate::differences::FAULTS;
use crate::faults::{FaultTally, add_each, listed_from};
use crate::library::Listing;
use crate::oracle::Expected;
use std::fmt;

/// An input is a hand, its calls and a number of bytes lent. Answers are counted as expected.
pub struct Tally {
    hands: u64,
    inputs: u64,
    /// Inputs by answer.
    answers: [u64; 8],
    /// Accepted inputs by readings, five or more together.
    readings: [u64; 6],
    most_bytes: usize,
    /// Hands by their faults.
    faults: FaultTally<FAULTS>,
    differ: u64,
}

impl Tally {
    /// The number of inputs on which the sides differ.
    pub fn differ(&self) -> u64 {
        self.differ
    }

    pub fn count_difference(&mut self) {
        self.differ += 1;
    }

    pub fn count_hand(&mut self, expected: &Expected) {
        self.hands += 1;
        self.faults.count(&expected.faults);
    }

    pub fn count_answer(&mut self, want: &Listing) {
        self.inputs += 1;
        self.answers[want.number as usize] += 1;
        if want.number == 0 {
            self.readings[want.readings.min(5)] += 1;
            self.most_bytes = self.most_bytes.max(want.bytes);
        }
    }

    /// Adds another tally.
    pub fn add(&mut self, other: &Tally) {
        self.hands += other.hands;
        self.inputs += other.inputs;
        add_each(&mut self.answers, &other.answers);
        add_each(&mut self.readings, &other.readings);
        self.most_bytes = self.most_bytes.max(other.most_bytes);
        self.faults.add(&other.faults);
        self.differ += other.differ;
    }
}

impl Default for Tally {
    fn default() -> Tally {
        Tally {
            hands: 0,
            inputs: 0,
            answers: [0; 8],
            readings: [0; 6],
            most_bytes: 0,
            faults: FaultTally::new("hands", [1, 2, 3, 4, 5, 6]),
            differ: 0,
        }
    }
}

impl fmt::Display for Tally {
    fn fmt(&self, f: &mut fmt::Formatter) -> fmt::Result {
        writeln!(f, "  hands {}, inputs {}", self.hands, self.inputs)?;
        writeln!(f, "  inputs by answer: {}", listed_from(0, &self.answers))?;
        let readings = listed_from(0, &self.readings[..5]);
        writeln!(
            f,
            "  accepted by readings: {readings}, more: {}",
            self.readings[5]
        )?;
        writeln!(f, "  most bytes: {}", self.most_bytes)?;
        write!(f, "{}", self.faults)
    }
}
