//! The listed differences between agari and this work, all in one place.
//!
//! Each function takes an answer of agari and what was asked, and answers what this work has to answer
//! there; or says what agari leaves open or does not check. It names its rows of docs/DIFFERENCES.md,
//! in the table 'This work and the Rust'. Where it names none, nothing is listed and agari's answer
//! stays. A deliberate change of a rule is written here, and nowhere else.
//!
//! It reaches everything alike: `answers.rs` is the only file that asks agari, and passes each answer
//! through here, once. The oracles, the makers of stored samples, the benchmark and the shadow run ask
//! `answers.rs`; a test there reads the sources for it.
//!
//! Why a win of three players is refused stands in `three_checks.rs`, sentence by sentence of their request.
//!
//! Three rows lie in how agari is asked: row 'Keys with count 0' in `agari::tile_counts`, rows 'Whether
//! the hand is open' and 'No winning tile' in `agari_scores::context`. One lies in the records of its
//! readings: row 'Who the tile came from' in `oracle::readings`.

use crate::agari::{self, Record};
use crate::hand::*;
use crate::library::{MOST_INDICATORS, Meld, SETTINGS, TSUMO, TWO, Win};
use agari_core::context::{GameContext, WinType};
use agari_core::hand::HandStructure;
use agari_core::parse::TileCounts;
use agari_core::scoring::{FuBreakdown, FuResult, Payment, ScoreLevel};
use agari_core::tile::Tile;
use agari_core::wait::WaitType;
use agari_core::yaku::YakuResult;
use std::cmp::Reverse;

// ---- readings

/// Which readings a hand has, in any order.
pub fn readings(theirs: Vec<HandStructure>, _counts: &TileCounts) -> Vec<HandStructure> {
    theirs
}

/// The readings each once, ascending by record. Rows 'Readings in both meld orders' and 'Order of
/// readings'.
pub fn in_order(readings: Vec<HandStructure>) -> Vec<(Record, HandStructure)> {
    let mut readings: Vec<(Record, HandStructure)> = readings
        .into_iter()
        .map(|reading| (agari::record(&reading), reading))
        .collect();
    readings.sort_by(|(one, _), (other, _)| one.cmp(other));
    readings.dedup_by(|(one, _), (other, _)| one == other);
    readings
}

// ---- what a reading scores

/// The waits of a reading. Row 'The wait of thirteen orphans'.
pub fn waits(theirs: Vec<WaitType>, reading: &HandStructure, winning_tile: Tile) -> Vec<WaitType> {
    match reading {
        HandStructure::Kokushi { pair } => vec![orphans_wait(*pair, winning_tile)],
        HandStructure::Chiitoitsu { .. } | HandStructure::Standard { .. } => theirs,
    }
}

/// As document 02 has it: won on the tile that forms the pair Kokushi13, otherwise Tanki.
fn orphans_wait(pair: Tile, winning_tile: Tile) -> WaitType {
    if winning_tile == pair {
        WaitType::Kokushi13
    } else {
        WaitType::Tanki
    }
}

/// The yaku of a reading, their han, whether there is a yakuman, and the dora.
pub fn yaku(
    theirs: YakuResult,
    _reading: &HandStructure,
    _counts: &TileCounts,
    _context: &GameContext,
) -> YakuResult {
    theirs
}

/// The fu of a reading in a room with this setting. Row 'The pair of the double wind'.
pub fn fu(
    theirs: FuResult,
    reading: &HandStructure,
    context: &GameContext,
    setting: u8,
) -> FuResult {
    if setting == TWO && has_double_wind(reading, context) {
        with_pair_at_two(theirs, context.is_open)
    } else {
        theirs
    }
}

/// Whether the pair is both round and seat wind. Seven pairs and thirteen orphans have fixed fu.
fn has_double_wind(reading: &HandStructure, context: &GameContext) -> bool {
    let winds = [context.round_wind, context.seat_wind].map(Tile::honor);
    match reading {
        HandStructure::Standard { pair, .. } => winds == [*pair; 2],
        HandStructure::Chiitoitsu { .. } | HandStructure::Kokushi { .. } => false,
    }
}

/// agari's parts with the pair's 4 turned into 2, and their sum rounded up to ten again. An open hand
/// keeps its 30; pinfu by tsumo has no such pair.
fn with_pair_at_two(theirs: FuResult, is_open: bool) -> FuResult {
    assert_eq!(theirs.breakdown.pair, 4, "agari's fu for such a pair");
    let mut parts = FuBreakdown {
        pair: 2,
        ..theirs.breakdown
    };
    let hand = parts.base + parts.melds + parts.pair;
    parts.raw_total = hand + parts.menzen_ron + parts.tsumo + parts.wait;
    let rounded = parts.raw_total.div_ceil(10) * 10;
    FuResult {
        total: if is_open { rounded.max(30) } else { rounded },
        breakdown: parts,
    }
}

/// The level of han and fu.
pub fn level(theirs: ScoreLevel, _han: u8, _fu: u8, _is_yakuman: bool) -> ScoreLevel {
    theirs
}

/// The basic points of han and fu.
pub fn basic_points(theirs: u32, _han: u8, _fu: u8, _is_yakuman: bool) -> u32 {
    theirs
}

/// Who pays what. What is refused is said below.
pub fn payment(
    theirs: Payment,
    _basic_points: u32,
    _is_dealer: bool,
    _win_type: WinType,
) -> Payment {
    theirs
}

// ---- the choice

/// What the choice looks at, in its order; more is better.
pub type Worth = [u64; 4];

/// The worth of a reading with a yaku. Row 'Which reading counts'.
pub fn worth(total: u64, is_yakuman: bool, han: u8, fu: u8) -> Worth {
    [total, is_yakuman.into(), han.into(), fu.into()]
}

/// The readings with a worth, the one to choose first. Of two with the same worth the earlier record
/// stays before the later. Row 'Which reading counts'.
pub fn ranking<T>(readings: &[T], worth: impl Fn(&T) -> Option<Worth>) -> Vec<&T> {
    let mut ranking: Vec<&T> = readings.iter().collect();
    ranking.retain(|reading| worth(reading).is_some());
    ranking.sort_by_key(|reading| Reverse(worth(reading)));
    ranking
}

// ---- refusals

/// The number of refusals of a hand, 1 to 6.
pub const FAULTS: usize = 6;
/// The greatest basic points that are paid.
pub const MOST_BASIC_POINTS: u32 = 152_000;

/// The grounds for the refusals 1 to 6, each looked at by itself. Rows 'More than four calls' and
/// 'Malformed input'.
pub fn hand_faults(hand: &Hand) -> [bool; FAULTS] {
    let counts = hand.counts();
    let tiles: u128 = counts.iter().map(|&count| u128::from(count)).sum();
    [
        counts.len() != KINDS,
        hand.calls.count > 4,
        hand.called().iter().any(|&meld| !is_call(meld)),
        counts.iter().any(|&count| count > 4),
        hand.with_calls().iter().any(|&number| number > 4),
        tiles + 3 * hand.calls.count as u128 != 14,
    ]
}

/// Whether tile, kind and source are those of a call.
fn is_call(meld: Meld) -> bool {
    let is_of_its_kind = match meld.kind {
        OPEN_SEQUENCE => starts_sequence(meld.tile),
        OPEN_TRIPLET | CLOSED_KAN | OPEN_KAN | ADDED_KAN => usize::from(meld.tile) < KINDS,
        _ => false,
    };
    is_of_its_kind && sources(meld.kind).contains(&meld.source)
}

/// What is out of range in a win: its type, the round wind, the seat wind, the setting. Rows 'Win type',
/// 'A wind that is none' and 'A setting that is none'.
pub fn out_of_range(win: &Win) -> [bool; 4] {
    let is_wind = |tile: u8| (27..=30).contains(&tile);
    [
        win.win_type > TSUMO,
        !is_wind(win.round_wind),
        !is_wind(win.seat_wind),
        !SETTINGS.contains(&win.double_wind_fu),
    ]
}

/// What is wrong with the indicators: more than ten, or a shown one above 33; then the same of the ura
/// indicators, with riichi or without. Row 'Indicators that are none'.
pub fn bad_indicators(win: &Win) -> [bool; 4] {
    let [dora, ura] = win.indicators().map(|sort| {
        let is_none = |&tile: &u8| usize::from(tile) >= KINDS;
        let are_many = usize::from(sort.count) > MOST_INDICATORS;
        [are_many, sort.shown().iter().any(is_none)]
    });
    [dora[0], dora[1], ura[0], ura[1]]
}

/// The grounds for the refusals 8, 14 and 9, each looked at by itself. Row 'A winning tile that the hand
/// does not hold'.
pub fn win_faults(hand: &Hand, win: &Win) -> [bool; 3] {
    let held = hand.counts().get(usize::from(win.winning_tile));
    [
        out_of_range(win).contains(&true),
        bad_indicators(win).contains(&true),
        win.winning_tile > 33 || held.is_none_or(|&count| count == 0),
    ]
}

/// The number with which a payment is refused. Rows 'Win type' and 'Payment of large basic points'.
pub fn payment_refusal(basic_points: u32, win_type: u8) -> Option<u32> {
    if win_type > TSUMO {
        Some(8)
    } else if basic_points > MOST_BASIC_POINTS {
        Some(13)
    } else {
        None
    }
}

#[cfg(test)]
mod tests {
    use super::*;
    use std::fs;
    use std::path::Path;

    /// What stands between single quotes behind the word row or rows, in the comments of this file.
    fn named_rows() -> Vec<String> {
        let text = include_str!("differences.rs");
        let (text, _) = text.split_once("#[cfg(test)]").unwrap();
        let words: Vec<&str> = text.split_whitespace().collect();
        let text = words.join(" ").replace("//! ", "").replace("/// ", "");
        let sentences = text.split(". ").flat_map(|part| part.split(": "));
        let sentences = sentences.filter(|part| part.to_lowercase().starts_with("row"));
        let quoted = sentences.flat_map(|part| part.split('\'').skip(1).step_by(2));
        quoted.map(str::to_string).collect()
    }

    #[test]
    fn the_pairs_four_becomes_two_in_agaris_parts() {
        let parts = |pair, raw_total| FuBreakdown {
            base: 20,
            tsumo: 2,
            melds: 4,
            pair,
            wait: 2,
            raw_total,
            ..FuBreakdown::default()
        };
        let theirs = FuResult {
            total: 40,
            breakdown: parts(4, 32),
        };
        let ours = with_pair_at_two(theirs, false);
        assert_eq!(ours.total, 30);
        assert_eq!(
            format!("{:?}", ours.breakdown),
            format!("{:?}", parts(2, 30))
        );
    }

    #[test]
    fn every_row_that_is_named_stands_in_the_table() {
        let root = Path::new(env!("CARGO_MANIFEST_DIR")).join("..");
        let table = fs::read_to_string(root.join("docs/DIFFERENCES.md")).unwrap();
        let rows = named_rows();
        assert!(rows.len() > 12, "{rows:?}");
        for row in rows {
            assert!(table.contains(&format!("\n| {row} |")), "{row}");
        }
    }
}
