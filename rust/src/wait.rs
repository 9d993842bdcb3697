//! The waits of a reading (agari's `wait.rs`).

use crate::context::GameContext;
use crate::ffi;
use crate::hand::{Meld, lent};
use crate::refusal::{Refusal, accepted};
use crate::rules::Variant;
use alloc::vec::Vec;

/// A wait.
#[derive(Debug, Clone, Copy, PartialEq, Eq, Hash)]
pub enum WaitType {
    /// Two-sided sequence wait
    Ryanmen,
    /// Middle wait
    Kanchan,
    /// Edge wait
    Penchan,
    /// Wait of two pairs, one of which becomes a triplet
    Shanpon,
    /// Pair wait; of thirteen orphans, the one tile missing, where the pair was there
    Tanki,
    /// Thirteen orphans, won on the tile that makes the pair: any of the thirteen would have served.
    /// It stands where the yaku `Kokushi13Wait` does. agari has the two names the other way round
    Kokushi13,
}

impl WaitType {
    /// The waits in the order of the tallies.
    pub const ALL: [WaitType; 6] = [
        WaitType::Ryanmen,
        WaitType::Kanchan,
        WaitType::Penchan,
        WaitType::Shanpon,
        WaitType::Tanki,
        WaitType::Kokushi13,
    ];

    /// The fu that it adds
    pub fn fu(&self) -> u8 {
        match self {
            WaitType::Kanchan | WaitType::Penchan | WaitType::Tanki => 2,
            WaitType::Ryanmen | WaitType::Shanpon | WaitType::Kokushi13 => 0,
        }
    }

    /// Does more than one tile complete it?
    pub fn is_good_wait(&self) -> bool {
        self.fu() == 0
    }
}

/// The waits of reading number `n` of [`decompose_hand`](crate::decompose_hand), in the order of
/// [`WaitType::ALL`], each once for each part of the reading that the winning tile may have completed.
///
/// Refuses with 1 to 6, 8, 14, 9, 12.
pub fn detect_wait_types(
    counts: &[u8],
    calls: &[Meld],
    context: &GameContext,
    n: usize,
) -> Result<Vec<WaitType>, Refusal> {
    Variant::Yonma.detect_wait_types(counts, calls, context, n)
}

/// Waits.
impl Variant {
    /// The waits of reading number `n` of [`decompose_hand`](Variant::decompose_hand) in this game, as
    /// [`detect_wait_types`] names them for four players.
    ///
    /// Refuses with 1 to 6, 8, 14, 9, 12.
    pub fn detect_wait_types(
        self,
        counts: &[u8],
        calls: &[Meld],
        context: &GameContext,
        n: usize,
    ) -> Result<Vec<WaitType>, Refusal> {
        let answer = ffi::name_waits(self, counts, &lent(calls, self), context.lent(), n);
        accepted(answer.number)?;
        Ok(each_as_often(&WaitType::ALL, &answer.waits))
    }
}

/// The entries, each as often as its tally says.
pub(crate) fn each_as_often<T: Copy>(entries: &[T], tallies: &[u8]) -> Vec<T> {
    let pairs = entries.iter().zip(tallies);
    pairs
        .flat_map(|(&entry, &tally)| core::iter::repeat_n(entry, tally.into()))
        .collect()
}
