//! Counts of the faults of inputs that have to be refused.

use std::fmt;

/// Counts by fault. A fault's place is that of its refusal among the numbers.
pub struct FaultTally<const N: usize> {
    /// What the inputs are called.
    inputs: &'static str,
    numbers: [usize; N],
    /// Inputs by their only fault.
    alone: [u64; N],
    /// Inputs that have two faults at once, and perhaps more.
    together: [[u64; N]; N],
}

impl<const N: usize> FaultTally<N> {
    /// Nothing counted yet, for faults with these numbers of refusals.
    pub fn new(inputs: &'static str, numbers: [usize; N]) -> FaultTally<N> {
        FaultTally {
            inputs,
            numbers,
            alone: [0; N],
            together: [[0; N]; N],
        }
    }

    /// Counts the faults of an input.
    pub fn count(&mut self, faults: &[bool; N]) {
        let faults: Vec<usize> = (0..N).filter(|&place| faults[place]).collect();
        if let [only] = faults[..] {
            self.alone[only] += 1;
        }
        for (place, &later) in faults.iter().enumerate() {
            for &earlier in &faults[..place] {
                self.together[earlier][later] += 1;
            }
        }
    }

    /// Adds another tally.
    pub fn add(&mut self, other: &FaultTally<N>) {
        add_each(&mut self.alone, &other.alone);
        for (mine, others) in self.together.iter_mut().zip(&other.together) {
            add_each(mine, others);
        }
    }

    fn is_empty(&self) -> bool {
        self.alone == [0; N] && self.together == [[0; N]; N]
    }
}

impl<const N: usize> fmt::Display for FaultTally<N> {
    fn fmt(&self, f: &mut fmt::Formatter) -> fmt::Result {
        if self.is_empty() {
            return Ok(());
        }
        let inputs = self.inputs;
        let alone = listed(&self.numbers, &self.alone);
        writeln!(f, "  {inputs} with one fault alone: {alone}")?;
        for (place, counts) in self.together.iter().enumerate().take(N - 1) {
            let later = listed(&self.numbers[place + 1..], &counts[place + 1..]);
            let number = self.numbers[place];
            writeln!(f, "  {inputs} with fault {number} and a later one: {later}")?;
        }
        Ok(())
    }
}

/// Adds counts, place by place.
pub fn add_each(mine: &mut [u64], others: &[u64]) {
    for (mine, other) in mine.iter_mut().zip(others) {
        *mine += other;
    }
}

/// Counts with their numbers.
pub fn listed(numbers: &[usize], counts: &[u64]) -> String {
    let entries: Vec<String> = numbers
        .iter()
        .zip(counts)
        .map(|(number, count)| format!("{number}: {count}"))
        .collect();
    entries.join(", ")
}

/// Counts with their numbers, which go up from the first.
pub fn listed_from(first: usize, counts: &[u64]) -> String {
    let numbers: Vec<usize> = (first..first + counts.len()).collect();
    listed(&numbers, counts)
}
