//! Tries the program for referees, crates/score/out/score.
//!
//! - Each case of compare/score_cases.txt: after a line '$ score WORDS' stands what the program has to
//!   write. Words are parted by spaces; 'single quotes' hold a word together, in which \n, \t and \xNN
//!   stand for bytes.
//! - Of each case, and of random words, the last line keeps its promise, the hand's line can be given
//!   back, as words and as one word, and then every line is the same, but for the one that says what was
//!   assumed: the hand's line says it.
//! - examples/score-status turns the last line of each case into an exit status.
//!
//! Prints how many of each there were and how many differ, and exits with status 1 if any does.

use compare::rng::Rng;
use std::ffi::OsString;
use std::fs;
use std::os::unix::ffi::OsStringExt;
use std::process::{Command, exit};

/// How the last line of every run begins, with the status that the wrapper makes of it.
const ENDINGS: [(&str, i32); 4] = [
    ("answer: reading", 0),
    ("help", 0),
    ("answer: refused", 1),
    ("bad input", 2),
];

/// How many random runs there are.
const RANDOM_RUNS: usize = 4_000;

/// How random runs begin: with a win, or with nothing.
const STARTS: &[&str] = &[
    "222333444m567p88s|ron|8s",
    "22334455667788m|tsumo|2m",
    "55m456p234678s (123m) ron 8s",
    "11m|pon|222m|(333p)(1111s)[4444z]|ron|1m",
    "19m19p19seswnwhgrr|ron|7z|dealer",
    "222m456p345678s11z|tsumo|5p|dealer",
    "double-wind-2 111222333m 567p 22z tsumo 3m|seat|south|round|south",
    "123m55m456p234678s ron 8s riichi dora 4m3m ura 1z4p",
    "three 111999m567p88s pon 555z tsumo 8s",
    "222333444p567s99m|ron|9m|sanma",
    "",
];

/// Words that follow.
const PIECES: &[&str] = &[
    "222333444m567p88s",
    "11122233344455m",
    "123m",
    "55z",
    "eee",
    "wh",
    "(123m)",
    "[1111z]",
    "(eee)",
    "chi",
    "pon",
    "kan",
    "ankan",
    "kakan",
    "left",
    "across",
    "right",
    "toimen",
    "ron",
    "tsumo",
    "8s",
    "1m",
    "round",
    "seat",
    "east",
    "s",
    "riichi",
    "double",
    "double-riichi",
    "ippatsu",
    "rinshan",
    "chankan",
    "haitei",
    "houtei",
    "last-tile",
    "tenhou",
    "chiihou",
    "dealer",
    "double-wind-2",
    "double-wind-4",
    "double-wind-2 riichi",
    "double-wind-3",
    "three",
    "Sanma",
    "four",
    "dora",
    "ura",
    "dora 3m",
    "ura 1z",
    "dora 1m1m2m3m",
    "ura 2m riichi",
    "dora 123456789m12z",
    "0m",
    "help",
    "hand:",
    "x",
    "(",
    "]",
    "9z",
    "123 m",
    "",
    " ",
    "12(345m)",
    "-h",
    "123m 456p",
    "\u{7f}",
    "m",
    "19m19p19s1234567z",
];

fn main() {
    let text = fs::read_to_string("compare/score_cases.txt").expect("compare/score_cases.txt");
    let cases: Vec<&str> = text.split("$ score").skip(1).collect();
    let mut differ = 0;
    let mut given_back = 0;
    for case in &cases {
        let (line, expected) = case.split_once('\n').expect("a line of words");
        let words = words_of(line);
        let written = written_for("crates/score/out/score", &words).0;
        if written != expected {
            differ += 1;
            println!("score{line}\nwrote:\n{written}expected:\n{expected}");
        }
        differ += promise_broken(&words, &written) + status_differs(&words, &written);
        given_back += usize::from(hand_line(&written).is_some());
    }
    println!(
        "{} cases, {given_back} with a hand to give back",
        cases.len()
    );
    differ += random_runs();
    println!("{differ} differ");
    exit(i32::from(differ > 0));
}

/// Runs random words, and answers how many break a promise.
fn random_runs() -> usize {
    let mut rng = Rng::new(1);
    let mut differ = 0;
    let mut given_back = 0;
    for _ in 0..RANDOM_RUNS {
        let mut words: Vec<OsString> = rng.pick(STARTS).split('|').map(OsString::from).collect();
        words.extend((0..rng.below(5)).map(|_| random_word(&mut rng)));
        let written = written_for("crates/score/out/score", &words).0;
        differ += promise_broken(&words, &written);
        given_back += usize::from(hand_line(&written).is_some());
    }
    println!("{RANDOM_RUNS} random runs, {given_back} with a hand to give back");
    differ
}

/// A piece, or one time in ten a few random bytes.
fn random_word(rng: &mut Rng) -> OsString {
    if rng.below(10) > 0 {
        return rng.pick(PIECES).into();
    }
    let bytes = (0..rng.below(6)).map(|_| 1 + rng.below(255) as u8);
    OsString::from_vec(bytes.collect())
}

/// What a program writes for these words, and its exit status.
fn written_for(program: &str, words: &[OsString]) -> (String, Option<i32>) {
    let output = Command::new(program).args(words).output();
    let output = output.expect("crates/score/out/score, made by `rt run` in crates/score");
    (
        String::from_utf8_lossy(&output.stdout).into(),
        output.status.code(),
    )
}

/// The exit status that the last line stands for.
fn status_of(written: &str) -> Option<i32> {
    let last = written.lines().last().unwrap_or("");
    let ending = ENDINGS.iter().find(|(start, _)| last.starts_with(start));
    ending.map(|&(_, status)| status)
}

/// The words of the hand's line.
fn hand_line(written: &str) -> Option<&str> {
    written.lines().find(|line| line.starts_with("hand:"))
}

/// What was written, without the line that says what was assumed.
fn but_assumed(written: &str) -> String {
    let lines = written.split_inclusive('\n');
    lines.filter(|line| !line.starts_with("assumed:")).collect()
}

/// 1 where the last line breaks its promise, or the hand's line cannot be given back.
fn promise_broken(words: &[OsString], written: &str) -> usize {
    let mut broken = status_of(written).is_none();
    if let Some(line) = hand_line(written) {
        let apart: Vec<OsString> = line.split(' ').map(OsString::from).collect();
        for again in [apart, vec![line.into()]] {
            broken |= written_for("crates/score/out/score", &again).0 != but_assumed(written);
        }
    }
    if broken {
        println!("score {words:?}\nbreaks a promise:\n{written}");
    }
    usize::from(broken)
}

/// 1 where the wrapper writes something else, or its exit status is not that of the last line.
fn status_differs(words: &[OsString], written: &str) -> usize {
    let (wrapped, status) = written_for("examples/score-status", words);
    let differs = status != status_of(written) || wrapped != written;
    if differs {
        println!("score-status {words:?}: status {status:?}");
    }
    usize::from(differs)
}

/// The words of a line: parted by spaces, held together by single quotes, with \n, \t and \xNN in them.
fn words_of(line: &str) -> Vec<OsString> {
    let mut words = Vec::new();
    let mut rest = line.trim_start();
    while !rest.is_empty() {
        let (word, after) = match rest.strip_prefix('\'') {
            Some(quoted) => quoted.split_once('\'').expect("a closing quote"),
            None => rest.split_once(' ').unwrap_or((rest, "")),
        };
        words.push(OsString::from_vec(bytes_of(word)));
        rest = after.trim_start();
    }
    words
}

/// The bytes of a word, its escapes read.
fn bytes_of(word: &str) -> Vec<u8> {
    let mut bytes = Vec::new();
    let mut rest = word;
    while let Some(next) = rest.chars().next() {
        if let Some(hex) = rest.strip_prefix("\\x") {
            bytes.push(u8::from_str_radix(&hex[..2], 16).expect("two hex digits"));
            rest = &hex[2..];
        } else if let Some(after) = rest.strip_prefix("\\n") {
            bytes.push(b'\n');
            rest = after;
        } else if let Some(after) = rest.strip_prefix("\\t") {
            bytes.push(b'\t');
            rest = after;
        } else {
            bytes.extend(next.to_string().bytes());
            rest = &rest[next.len_utf8()..];
        }
    }
    bytes
}
