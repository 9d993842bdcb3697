//! agari's answers, each passed through the listed differences, once. No other file asks agari.

use crate::agari::Record;
use crate::differences;
use agari_core::context::{GameContext, WinType};
use agari_core::hand::{HandStructure, Meld, decompose_hand, decompose_hand_with_melds};
use agari_core::parse::{ParsedHand, TileCounts, parse_hand_with_aka};
use agari_core::rules::Rules;
use agari_core::scoring::{
    FuResult, Payment, ScoreLevel, ScoringResult, calculate_basic_points, calculate_fu,
    calculate_payment, calculate_score, determine_score_level,
};
use agari_core::tile::Tile;
use agari_core::wait::{WaitType, detect_wait_types};
use agari_core::yaku::{YakuResult, detect_yaku_with_context};

/// The tiles, calls and red fives that a text names, or nothing where it names none. What the program
/// for referees reads otherwise is listed where it is compared, in `bin/notation.rs`.
pub fn parsed(text: &str) -> Option<ParsedHand> {
    parse_hand_with_aka(text).ok()
}

/// The readings of a hand in agari's order, some perhaps twice.
pub fn found(counts: &TileCounts, called: &[Meld]) -> Vec<HandStructure> {
    let theirs = if called.is_empty() {
        decompose_hand(counts)
    } else {
        decompose_hand_with_melds(counts, called)
    };
    differences::readings(theirs, counts)
}

/// The readings of a hand with their records, in the order of these, each once.
pub fn readings(counts: &TileCounts, called: &[Meld]) -> Vec<(Record, HandStructure)> {
    differences::in_order(found(counts, called))
}

/// The waits of a reading.
pub fn waits(reading: &HandStructure, winning_tile: Tile) -> Vec<WaitType> {
    let theirs = detect_wait_types(reading, winning_tile);
    differences::waits(theirs, reading, winning_tile)
}

/// The yaku of a reading. The counts are of hand and calls together.
pub fn yaku(reading: &HandStructure, counts: &TileCounts, context: &GameContext) -> YakuResult {
    let theirs = detect_yaku_with_context(reading, counts, context);
    differences::yaku(theirs, reading, counts, context)
}

/// The fu of a reading in a room with this setting.
pub fn fu(reading: &HandStructure, context: &GameContext, setting: u8) -> FuResult {
    let theirs = calculate_fu(reading, context);
    differences::fu(theirs, reading, context, setting)
}

/// The level of han and fu.
pub fn level(han: u8, fu: u8, is_yakuman: bool) -> ScoreLevel {
    let theirs = determine_score_level(han, fu, is_yakuman);
    differences::level(theirs, han, fu, is_yakuman)
}

/// The basic points of han and fu.
pub fn basic_points(han: u8, fu: u8, is_yakuman: bool) -> u32 {
    let theirs = calculate_basic_points(han, fu, is_yakuman);
    differences::basic_points(theirs, han, fu, is_yakuman)
}

/// The payment of basic points under these rules.
pub fn payment(basic_points: u32, is_dealer: bool, win_type: WinType, rules: &Rules) -> Payment {
    let theirs = at_table(basic_points, is_dealer, win_type, rules);
    differences::payment(theirs, basic_points, is_dealer, win_type)
}

/// The payment of any basic points at the table of these rules. agari tells it for four players alone, and
/// for three inside `calculate_score`: what each pays is the same there, and one who is no dealer is not
/// there to pay. A test holds it to `calculate_score`.
fn at_table(basic_points: u32, is_dealer: bool, win_type: WinType, rules: &Rules) -> Payment {
    let four = calculate_payment(basic_points, is_dealer, win_type);
    let not_there = 4 - rules.players();
    Payment {
        total: four.total - not_there * four.from_non_dealer.unwrap_or(0),
        ..four
    }
}

/// Basic points and agari's own payment of them in a whole score, of a reading whose yaku are said to have so
/// many han: the way to ask agari itself for payments at a table of three.
pub fn payment_of_han(
    reading: &HandStructure,
    han: u8,
    is_yakuman: bool,
    context: &GameContext,
) -> (u32, Payment) {
    let yaku = YakuResult {
        yaku_list: Vec::new(),
        total_han: han,
        dora_count: 0,
        regular_dora: 0,
        ura_dora: 0,
        aka_dora: 0,
        is_yakuman,
        nuki_dora: 0,
    };
    let score = calculate_score(reading, &yaku, context);
    let (points, is_dealer) = (score.basic_points, score.is_dealer);
    let payment = differences::payment(score.payment, points, is_dealer, context.win_type);
    (points, payment)
}

/// The whole score of a reading under the context's rules, in a room with this setting: agari's own, and
/// where other fu or other basic points count here, what agari makes of these.
pub fn score(
    reading: &HandStructure,
    yaku: &YakuResult,
    context: &GameContext,
    setting: u8,
) -> ScoringResult {
    let theirs = calculate_score(reading, yaku, context);
    let (han, is_yakuman, win_type) = (theirs.han, yaku.is_yakuman, context.win_type);
    let fu = differences::fu(theirs.fu.clone(), reading, context, setting);
    let score = with_fu(theirs, fu, is_yakuman, context);
    let fu = score.fu.total;
    let points = differences::basic_points(score.basic_points, han, fu, is_yakuman);
    let mut score = with_points(score, points, context);
    score.score_level = differences::level(score.score_level, han, fu, is_yakuman);
    score.is_counted_yakuman = matches!(score.score_level, ScoreLevel::Yakuman(_)) && !is_yakuman;
    score.payment = differences::payment(score.payment, points, score.is_dealer, win_type);
    score
}

/// A score with these fu.
fn with_fu(
    mut score: ScoringResult,
    fu: FuResult,
    is_yakuman: bool,
    context: &GameContext,
) -> ScoringResult {
    let (han, total) = (score.han, fu.total);
    let is_same = total == score.fu.total;
    score.fu = fu;
    if is_same {
        return score;
    }
    score.score_level = determine_score_level(han, total, is_yakuman);
    let points = calculate_basic_points(han, total, is_yakuman);
    with_points(score, points, context)
}

/// A score with these basic points.
fn with_points(mut score: ScoringResult, points: u32, context: &GameContext) -> ScoringResult {
    if points != score.basic_points {
        score.basic_points = points;
        score.payment = at_table(points, score.is_dealer, context.win_type, &context.rules);
    }
    score
}

#[cfg(test)]
mod tests {
    use super::*;
    use crate::agari;
    use crate::agari_scores::context;
    use crate::game::Game;
    use crate::random;
    use crate::rng::Rng;
    use crate::wins;
    use std::fs;
    use std::path::{Path, PathBuf};

    /// The files of a folder and of those in it.
    fn files(folder: &Path) -> Vec<PathBuf> {
        let paths = fs::read_dir(folder)
            .unwrap()
            .map(|entry| entry.unwrap().path());
        let (folders, mut found): (Vec<_>, Vec<_>) = paths.partition(|path| path.is_dir());
        found.extend(folders.iter().flat_map(|folder| files(folder)));
        found
    }

    /// The names that a file takes from agari. A file may only do so by `use`.
    fn names(text: &str) -> Vec<&str> {
        let lines = text
            .lines()
            .filter(|line| !line.trim_start().starts_with("//"));
        let inline =
            |line: &str| line.contains("agari_core::") && !line.contains("use agari_core::");
        assert!(!lines.clone().any(inline), "agari is named by use alone");
        let uses = text.split("use agari_core::").skip(1);
        let lists = uses.filter_map(|rest| rest.split(';').next());
        let words = lists.flat_map(|list| list.split([' ', '\n', ',', '{', '}']));
        let last = words.filter_map(|word| word.rsplit("::").next());
        last.filter(|name| !name.is_empty()).collect()
    }

    #[test]
    fn what_follows_from_other_fu_is_agaris() {
        let mut rng = Rng::new(6);
        for _ in 0..2000 {
            let hand = wins::hand(&mut rng);
            let tile = random::held_tile(&mut rng, &hand) as u8;
            let game = rng.pick(&[Game::Four, Game::Three]);
            let context = context(&wins::win(&mut rng, &hand, tile), hand.is_open());
            let context = context.with_rules(agari::rules(game));
            let all = agari::tile_counts(&hand.with_calls().map(|count| count as u8));
            let counts = agari::tile_counts(hand.counts());
            let (_, reading) = &readings(&counts, &agari::called_melds(hand.called()))[0];
            let yaku = detect_yaku_with_context(reading, &all, &context);
            let theirs = calculate_score(reading, &yaku, &context);
            let (fu, is_yakuman, win_type) = (theirs.fu.total, yaku.is_yakuman, context.win_type);

            let more = FuResult {
                total: fu + 10,
                ..theirs.fu.clone()
            };
            let other = with_fu(theirs.clone(), more, is_yakuman, &context);
            let level = determine_score_level(theirs.han, fu + 10, is_yakuman);
            let points = calculate_basic_points(theirs.han, fu + 10, is_yakuman);
            let payment = at_table(points, context.is_dealer(), win_type, &context.rules);
            assert_eq!((other.fu.total, other.score_level), (fu + 10, level));
            assert_eq!(other.basic_points, points);
            assert_eq!(format!("{:?}", other.payment), format!("{payment:?}"));

            let back = with_fu(other, theirs.fu.clone(), is_yakuman, &context);
            assert_eq!(format!("{back:?}"), format!("{theirs:?}"));
        }
    }

    #[test]
    fn every_answer_is_passed_through() {
        let (answers, _) = include_str!("differences.rs")
            .split_once("// ---- the choice")
            .unwrap();
        let names = answers.split("\npub fn ").skip(1);
        let names: Vec<&str> = names.filter_map(|rest| rest.split('(').next()).collect();
        assert_eq!(names.len(), 8, "{names:?}");
        let (asking, _) = include_str!("answers.rs").split_once("cfg(test)").unwrap();
        for name in names {
            assert!(asking.contains(&format!("differences::{name}(")), "{name}");
        }
    }

    #[test]
    fn no_other_file_asks_agari() {
        let folder = Path::new(env!("CARGO_MANIFEST_DIR")).join("src");
        let mut asking = Vec::new();
        for file in files(&folder) {
            let text = fs::read_to_string(&file).unwrap();
            // Types begin with a capital letter, functions and modules do not.
            let is_type = |name: &&str| name.starts_with(char::is_uppercase);
            if !names(&text).iter().all(is_type) {
                asking.push(file.strip_prefix(&folder).unwrap().to_path_buf());
            }
        }
        assert_eq!(asking, [Path::new("answers.rs")]);
    }
}
