//! Compares the proved library with agari-core.

use compare::arguments::{self, Options};
use compare::{books, points, readings, scored_wins, scores, sources, three, twins};
use std::process::ExitCode;
use std::time::Duration;

const USAGE: &str = "usage: compare readings [--seed N] [--random N] [--suit] [--mixed SECONDS]
       compare points
       compare scores [--seed N] [--wins N]
       compare wins [--seed N] [--random N] [--suit] [--orphans] [--double-winds [N]] [--dora [N]]
       compare twins [--seed N] [--random N] [--winds [N]]
       compare sources [--seed N] [--pairs N]
       compare three [--seed N] [--random N] [--damaged [N]] [--twins [N]]
               [--payments] [--sources] [--suit] [--mixed SECONDS]
       compare books [--seed N] [--random N]";
const SEED: u64 = 1;
const RANDOM_HANDS: u64 = 5_000_000;
const MIXED_SECONDS: u64 = 600;
const SCORED_WINS: u64 = 3_000_000;
const RANDOM_WINS: u64 = 7_000_000;
const DOUBLE_WINDS: u64 = 2_000_000;
const DORA_WINS: u64 = 20_000_000;
const RANDOM_TWINS: u64 = 1_000_000;
const WIND_TWINS: u64 = 4_000_000;
const SOURCE_PAIRS: u64 = 2_000_000;
const THREE_WINS: u64 = 5_000_000;
const THREE_DAMAGED: u64 = 3_000_000;
const THREE_TWINS: u64 = 1_000_000;
const BOOK_HISTORIES: u64 = 1_000_000;

fn main() -> ExitCode {
    arguments::run(USAGE, |words| {
        let differ = compare(words)?;
        Some(if differ == 0 {
            ExitCode::SUCCESS
        } else {
            ExitCode::FAILURE
        })
    })
}

/// The number of inputs that differ; nothing where the words are not understood.
fn compare(words: &[&str]) -> Option<u64> {
    let (&command, words) = words.split_first()?;
    match command {
        "readings" => compare_readings(words),
        "points" => words.is_empty().then(points::compare),
        "scores" => compare_scores(words),
        "wins" => compare_wins(words),
        "twins" => compare_twins(words),
        "sources" => compare_sources(words),
        "three" => compare_three(words),
        "books" => compare_books(words),
        _ => None,
    }
}

/// Where no class is named, all are compared.
fn compare_readings(words: &[&str]) -> Option<u64> {
    let given = Options::read(words, &["--seed", "--random", "--mixed"], &["--suit"])?;
    let mut options = readings::Options {
        seed: given.number("--seed").unwrap_or(SEED),
        random: given.number("--random"),
        suit: given.has("--suit"),
        mixed: given.number("--mixed").map(Duration::from_secs),
    };
    if options.random.is_none() && !options.suit && options.mixed.is_none() {
        options.random = Some(RANDOM_HANDS);
        options.suit = true;
        options.mixed = Some(Duration::from_secs(MIXED_SECONDS));
    }
    Some(readings::compare(&options))
}

fn compare_scores(words: &[&str]) -> Option<u64> {
    let given = Options::read(words, &["--seed", "--wins"], &[])?;
    let seed = given.number("--seed").unwrap_or(SEED);
    let wins = given.number("--wins").unwrap_or(SCORED_WINS);
    Some(scores::compare(seed, wins))
}

/// Where no class is named, all are compared.
fn compare_wins(words: &[&str]) -> Option<u64> {
    let given = Options::read_with(
        words,
        &["--seed", "--random"],
        &["--suit", "--orphans"],
        &[("--double-winds", DOUBLE_WINDS), ("--dora", DORA_WINS)],
    )?;
    let mut options = scored_wins::Options {
        seed: given.number("--seed").unwrap_or(SEED),
        random: given.number("--random"),
        suit: given.has("--suit"),
        orphans: given.has("--orphans"),
        double_winds: given.number("--double-winds"),
        dora: given.number("--dora"),
    };
    let is_random = options.random.or(options.double_winds).or(options.dora);
    if is_random.is_none() && !options.suit && !options.orphans {
        options.random = Some(RANDOM_WINS);
        options.suit = true;
        options.orphans = true;
        options.double_winds = Some(DOUBLE_WINDS);
        options.dora = Some(DORA_WINS);
    }
    Some(scored_wins::compare(&options))
}

/// Where no class is named, both are compared.
fn compare_twins(words: &[&str]) -> Option<u64> {
    let usual = [("--winds", WIND_TWINS)];
    let given = Options::read_with(words, &["--seed", "--random"], &[], &usual)?;
    let mut options = twins::Options {
        seed: given.number("--seed").unwrap_or(SEED),
        random: given.number("--random"),
        winds: given.number("--winds"),
    };
    if options.random.or(options.winds).is_none() {
        options.random = Some(RANDOM_TWINS);
        options.winds = Some(WIND_TWINS);
    }
    Some(twins::compare(&options))
}

fn compare_sources(words: &[&str]) -> Option<u64> {
    let given = Options::read(words, &["--seed", "--pairs"], &[])?;
    Some(sources::compare(&sources::Options {
        seed: given.number("--seed").unwrap_or(SEED),
        pairs: given.number("--pairs").unwrap_or(SOURCE_PAIRS),
    }))
}

/// Where no class is named, all are compared.
fn compare_three(words: &[&str]) -> Option<u64> {
    let given = Options::read_with(
        words,
        &["--seed", "--random", "--mixed"],
        &["--payments", "--sources", "--suit"],
        &[("--damaged", THREE_DAMAGED), ("--twins", THREE_TWINS)],
    )?;
    let mut options = three::Options {
        seed: given.number("--seed").unwrap_or(SEED),
        random: given.number("--random"),
        damaged: given.number("--damaged"),
        twins: given.number("--twins"),
        payments: given.has("--payments"),
        sources: given.has("--sources"),
        suit: given.has("--suit"),
        mixed: given.number("--mixed").map(Duration::from_secs),
    };
    let is_random = options.random.or(options.damaged).or(options.twins);
    let is_listed = options.suit || options.mixed.is_some();
    let is_every = options.payments || options.sources || is_listed;
    if is_random.is_none() && !is_every {
        options.random = Some(THREE_WINS);
        options.damaged = Some(THREE_DAMAGED);
        options.twins = Some(THREE_TWINS);
        options.payments = true;
        options.sources = true;
        options.suit = true;
        options.mixed = Some(Duration::from_secs(MIXED_SECONDS));
    }
    Some(three::compare(&options))
}

fn compare_books(words: &[&str]) -> Option<u64> {
    let given = Options::read(words, &["--seed", "--random"], &[])?;
    Some(books::compare(&books::Options {
        seed: given.number("--seed").unwrap_or(SEED),
        histories: given.number("--random").unwrap_or(BOOK_HISTORIES),
    }))
}
