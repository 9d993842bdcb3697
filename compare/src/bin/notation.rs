//! Compares what the program for referees, crates/score/out/score, reads with what agari's parser reads: random
//! texts of tiles, honors by letter, calls in brackets and blanks, good and bad ones. Where both read a
//! text, tiles and calls have to be the same. Where one of them alone does, the text has to show one of
//! the differences that docs/DIFFERENCES.md lists under 'Notation', a red five among them.
//!
//! Words that agari's texts have not stand before, behind or between what the program is given. Of those
//! for the room's setting it has to take one, and to refuse a second. Of those for indicators it has to
//! take the tiles of dora and those of ura, each in their order, to refuse a word that names no tiles,
//! and to lose none: of more than ten it writes no hand. Of those for whom a call came from, which agari
//! does not know, it has to take one behind a call that can come from there, and to refuse any other. Of
//! those for the game it has to take one and to refuse a second, and with three players to refuse a call
//! from across.
//!
//! Prints how many texts there were of each sort and how many differ; exits with status 1 if any does.

use agari_core::hand::{KanType, Meld};
use agari_core::parse::ParsedHand;
use agari_core::tile::{Suit, Tile};
use compare::arguments::{self, Options};
use compare::faults::listed_from;
use compare::rng::Rng;
use compare::{agari, answers};
use std::collections::BTreeMap;
use std::panic;
use std::process::{Command, ExitCode};

const USAGE: &str = "usage: notation [--seed N] [--texts N]";
const TEXTS: u64 = 20_000;

/// What stands for the words behind the winds where the program writes no hand.
const NOT_WRITTEN: &str = "not written";

/// Words for whom a call came from, with those that the program writes for them.
const SOURCES: &[(&str, &str)] = &[
    ("left", "left"),
    ("across", "across"),
    ("right", "right"),
    ("Kamicha", "left"),
    ("toimen", "across"),
    ("SHIMOCHA", "right"),
];

/// Words for the game, with whether three play.
const GAMES: &[(&str, bool)] = &[
    ("three", true),
    ("SANMA", true),
    ("Three-Players", true),
    ("four", false),
    ("yonma", false),
];

/// A hand as it was read: tiles and calls in the words of the program, and what stands behind the winds.
#[derive(PartialEq)]
struct Read {
    words: String,
    behind: String,
}

/// A word for indicators, of ura or of dora, with the tiles that it names; none where it is no word of
/// tiles.
struct Indicating {
    is_ura: bool,
    word: String,
    tiles: Vec<usize>,
}

/// What is said beside each other, in any order.
enum Piece {
    Text,
    Won,
    Setting(&'static str),
    Game(&'static str),
    Source(&'static str),
    Indicators(Indicating),
}

/// What the program is given: a text and words beside it, and their arguments.
struct Given {
    text: String,
    pieces: Vec<Piece>,
    arguments: Vec<String>,
}

// ---- random texts

/// A few numbers, seldom 0, 8 and 9, which are no honors.
fn numbers(rng: &mut Rng) -> String {
    let digits = (0..1 + rng.below(4)).map(|_| rng.pick(b"1122334455667789012345"));
    digits.map(char::from).collect()
}

/// A suit, seldom a capital, none at all or no suit.
fn suit(rng: &mut Rng) -> &'static str {
    rng.pick(&[
        "m", "p", "s", "z", "m", "p", "s", "z", "m", "p", "s", "M", "S", "", "x",
    ])
}

/// Honors by letter.
fn letters(rng: &mut Rng) -> String {
    let letter =
        |rng: &mut Rng| rng.pick(&["e", "s", "w", "n", "wh", "g", "r", "E", "Wh", "h", "m"]);
    (0..1 + rng.below(3)).map(|_| letter(rng)).collect()
}

/// The tiles of a call: in a row, alike, or neither.
fn called(rng: &mut Rng) -> String {
    let first = 1 + rng.below(9);
    let row: String = (first..first + 3).map(|n| (n % 10).to_string()).collect();
    let alike = first.to_string().repeat(2 + rng.below(4));
    let honors = rng
        .pick(&["e", "s", "w", "n", "wh", "g", "r"])
        .repeat(3 + rng.below(2));
    match rng.below(10) {
        0..3 => row + suit(rng),
        3..6 => alike + suit(rng),
        6..8 => honors,
        8 => format!("{first}m{first}m{first}m"),
        _ => numbers(rng) + suit(rng),
    }
}

/// A call in brackets, seldom in brackets that do not fit.
fn bracketed(rng: &mut Rng) -> String {
    let pairs = [
        ("(", ")"),
        ("(", ")"),
        ("[", "]"),
        ("[", "]"),
        ("(", "]"),
        ("", ")"),
    ];
    let (open, close) = pairs[rng.share(&[40, 20, 20, 16, 2, 2])];
    format!("{open}{}{close}", called(rng))
}

/// A text of some pieces, with blanks at some places.
fn text(rng: &mut Rng) -> String {
    let mut text = String::new();
    for _ in 0..1 + rng.below(4) {
        text += &match rng.below(10) {
            0..5 => numbers(rng) + suit(rng),
            5..7 => letters(rng),
            _ => bracketed(rng),
        };
        text += rng.pick(&["", "", "", " ", " ", "\t"]);
    }
    if rng.percent(10) {
        let place = rng.below(text.len() + 1);
        text.insert(place, ' ');
    }
    text
}

/// Words for the room's setting: none, one, or seldom two.
fn settings(rng: &mut Rng) -> Vec<&'static str> {
    let words = rng.share(&[50, 40, 10]);
    let word = |rng: &mut Rng| rng.pick(&["double-wind-2", "double-wind-4", "Double-Wind-2"]);
    (0..words).map(|_| word(rng)).collect()
}

/// Words for the game: none, one, or seldom two.
fn games(rng: &mut Rng) -> Vec<&'static str> {
    let words = rng.share(&[60, 37, 3]);
    (0..words).map(|_| rng.pick(GAMES).0).collect()
}

/// Words for whom a call came from: none, one, or seldom two.
fn sources(rng: &mut Rng) -> Vec<&'static str> {
    let words = rng.share(&[70, 27, 3]);
    (0..words).map(|_| rng.pick(SOURCES).0).collect()
}

/// Tiles as they may be written: by number and suit, those of a suit together or apart, honors also by
/// letter; seldom with a blank behind a number.
fn spelled(rng: &mut Rng, tiles: &[usize]) -> String {
    let mut word = String::new();
    for &tile in tiles {
        let letter = ["m", "p", "s", "z"][tile / 9];
        if tile >= 27 && rng.percent(50) {
            word += ["e", "s", "w", "n", "wh", "g", "r"][tile - 27];
            continue;
        }
        let number = word
            .strip_suffix(letter)
            .and_then(|word| word.chars().last());
        if number.is_some_and(|c| c.is_ascii_digit()) && rng.percent(50) {
            word.pop();
        }
        word += &named(tile, 1);
    }
    let number = word.chars().nth_back(1);
    if number.is_some_and(|c| c.is_ascii_digit()) && rng.percent(5) {
        word.insert(word.len() - 1, ' ');
    }
    word
}

/// A word for indicators: a few tiles, often the same, seldom many, and seldom a word that names none.
fn indicating(rng: &mut Rng) -> Indicating {
    let count = [1 + rng.below(2), 1 + rng.below(6), 8 + rng.below(5)][rng.share(&[70, 20, 10])];
    let often = rng.below(34);
    let tile = |rng: &mut Rng| [often, rng.below(34)][rng.share(&[30, 70])];
    let mut tiles: Vec<usize> = (0..count).map(|_| tile(rng)).collect();
    let mut word = spelled(rng, &tiles);
    if rng.percent(5) {
        word = rng
            .pick(&["0m", "50s", "8z", "q", "3mx", "m", "(1m)"])
            .to_string();
        tiles.clear();
    }
    Indicating {
        is_ura: rng.percent(40),
        word,
        tiles,
    }
}

impl Piece {
    /// The words of a piece, that of a text as it stands.
    fn words(&self, text: &str) -> Vec<String> {
        let words = match self {
            Piece::Text => vec![text],
            Piece::Won => vec!["ron", "1m"],
            Piece::Setting(word) | Piece::Game(word) | Piece::Source(word) => vec![*word],
            Piece::Indicators(said) if said.is_ura => vec!["ura", &said.word],
            Piece::Indicators(said) => vec!["dora", &said.word],
        };
        words.into_iter().map(String::from).collect()
    }
}

/// The words as arguments, some of them in one. A text, which may end with a number, ends its own.
fn arguments_of(rng: &mut Rng, pieces: &[Piece], text: &str) -> Vec<String> {
    let mut arguments: Vec<String> = Vec::new();
    let mut is_ended = true;
    for piece in pieces {
        for word in piece.words(text) {
            match arguments.last_mut() {
                Some(last) if !is_ended && rng.percent(50) => *last += &format!(" {word}"),
                _ => arguments.push(word),
            }
            is_ended = matches!(piece, Piece::Text);
        }
    }
    arguments
}

/// Puts a word for whom a call came from among the pieces: most behind the text, the others anywhere.
fn insert_source(rng: &mut Rng, pieces: &mut Vec<Piece>, word: &'static str) {
    let text = pieces.iter().position(|piece| matches!(piece, Piece::Text));
    let behind = text.map_or(0, |place| place + 1);
    let from = if rng.percent(80) { behind } else { 0 };
    let place = from + rng.below(pieces.len() + 1 - from);
    pieces.insert(place, Piece::Source(word));
}

/// A text, with the winning tile, words for the setting, for the game, for indicators and for whom a call
/// came from around it.
fn given(rng: &mut Rng) -> Given {
    let text = text(rng);
    let mut beside: Vec<Piece> = settings(rng).into_iter().map(Piece::Setting).collect();
    beside.extend(games(rng).into_iter().map(Piece::Game));
    let words = [0, 1 + rng.below(2), 3 + rng.below(3)][rng.share(&[40, 45, 15])];
    beside.extend((0..words).map(|_| Piece::Indicators(indicating(rng))));
    let mut pieces = vec![Piece::Text, Piece::Won];
    for piece in beside {
        pieces.insert(rng.below(pieces.len() + 1), piece);
    }
    for word in sources(rng) {
        insert_source(rng, &mut pieces, word);
    }
    let arguments = arguments_of(rng, &pieces, &text);
    Given {
        text,
        pieces,
        arguments,
    }
}

// ---- what the words beside a text say

impl Given {
    /// The words for the room's setting.
    fn settings(&self) -> Vec<&'static str> {
        let setting = |piece: &Piece| match piece {
            Piece::Setting(word) => Some(*word),
            _ => None,
        };
        self.pieces.iter().filter_map(setting).collect()
    }

    /// Whether three play, of each word for the game.
    fn games(&self) -> Vec<bool> {
        let is_three = |said: &str| {
            let known = GAMES.iter().find(|(word, _)| *word == said);
            known.expect("a word of the list").1
        };
        let game = |piece: &Piece| match piece {
            Piece::Game(word) => Some(is_three(word)),
            _ => None,
        };
        self.pieces.iter().filter_map(game).collect()
    }

    /// The words for whom a call came from, as the program writes them.
    fn sources(&self) -> Vec<&'static str> {
        let written = |said: &str| {
            let known = SOURCES.iter().find(|(word, _)| *word == said);
            known.expect("a word of the list").1
        };
        let source = |piece: &Piece| match piece {
            Piece::Source(word) => Some(written(word)),
            _ => None,
        };
        self.pieces.iter().filter_map(source).collect()
    }

    /// Does a word for whom a call came from stand before the text, and so before any call?
    fn has_early_source(&self) -> bool {
        let before = self.pieces.iter();
        before
            .take_while(|piece| !matches!(piece, Piece::Text))
            .any(|piece| matches!(piece, Piece::Source(_)))
    }

    /// The words for indicators.
    fn indicators(&self) -> impl Iterator<Item = &Indicating> {
        self.pieces.iter().filter_map(|piece| match piece {
            Piece::Indicators(said) => Some(said),
            _ => None,
        })
    }

    /// The tiles of a sort of indicators, in their order.
    fn shown(&self, is_ura: bool) -> Vec<usize> {
        let of_sort = self.indicators().filter(|said| said.is_ura == is_ura);
        of_sort.flat_map(|said| said.tiles.clone()).collect()
    }

    /// Is there a word for indicators that names no tiles?
    fn has_bad_indicator(&self) -> bool {
        self.indicators().any(|said| said.tiles.is_empty())
    }

    /// Are there more than ten indicators of a sort?
    fn has_many_indicators(&self) -> bool {
        self.shown(false).len() > 10 || self.shown(true).len() > 10
    }

    /// The indicators of a sort as the program says them; nothing where there are none.
    fn indicators_said(&self, word: &str, is_ura: bool) -> String {
        let shown = self.shown(is_ura);
        let tiles: String = shown.iter().map(|&number| named(number, 1)).collect();
        if tiles.is_empty() {
            tiles
        } else {
            format!(" {word} {tiles}")
        }
    }

    /// What the program says behind the winds: a setting of two, three players, and the indicators of each
    /// sort. Nothing where there are two settings.
    fn behind(&self) -> Option<String> {
        let setting = match self.settings()[..] {
            [] => "",
            [word] if word.ends_with('2') => " double-wind-2",
            [_] => "",
            _ => return None,
        };
        let game = ["", " three"][usize::from(self.games() == [true])];
        let dora = self.indicators_said("dora", false);
        let ura = self.indicators_said("ura", true);
        Some(format!("{setting}{game}{dora}{ura}"))
    }
}

// ---- what agari reads

/// The number of a tile.
fn number_of(tile: Tile) -> usize {
    (0..34)
        .find(|&number| agari::tile(number) == tile)
        .expect("a tile") as usize
}

/// Tiles with a number in the notation of the program, as 88s.
fn named(number: usize, times: usize) -> String {
    let letter = ["m", "p", "s", "z"][number / 9];
    (number % 9 + 1).to_string().repeat(times) + letter
}

/// Tiles of a kind, likewise.
fn alike(tile: Tile, times: usize) -> String {
    named(number_of(tile), times)
}

/// A sequence, as 234m.
fn sequence(tile: Tile) -> String {
    let Tile::Suited { suit, value } = tile else {
        panic!("a sequence of honors");
    };
    let letter = match suit {
        Suit::Man => "m",
        Suit::Pin => "p",
        Suit::Sou => "s",
    };
    format!("{value}{}{}{letter}", value + 1, value + 2)
}

/// A call in the words of the program, with whom it came from; nothing for a closed triplet or sequence,
/// which is none there.
fn call(meld: &Meld, source: &str) -> Option<String> {
    match meld {
        Meld::Shuntsu(tile, true) => Some(format!(" chi {}", sequence(*tile))),
        Meld::Koutsu(tile, true) => Some(format!(" pon {} {source}", alike(*tile, 3))),
        Meld::Kan(tile, KanType::Closed) => Some(format!(" ankan {}", alike(*tile, 4))),
        Meld::Kan(tile, _) => Some(format!(" kan {} {source}", alike(*tile, 4))),
        Meld::Shuntsu(_, false) | Meld::Koutsu(_, false) => None,
    }
}

/// Can the call come from there: an open sequence from the left alone, a closed meld from nobody?
fn can_come_from(meld: &Meld, source: &str) -> bool {
    match meld {
        Meld::Shuntsu(_, is_open) => *is_open && source == "left",
        Meld::Koutsu(_, is_open) => *is_open,
        Meld::Kan(_, kan) => !matches!(kan, KanType::Closed),
    }
}

/// Are words behind the calls good ones for whom the last came from? Of a fifth call they are not asked.
fn can_be_said(parsed: &ParsedHand, sources: &[&str]) -> bool {
    let calls = &parsed.called_melds;
    match (calls.last(), sources) {
        (_, []) => true,
        (Some(_), _) if calls.len() > 4 => true,
        (Some(last), [source]) => can_come_from(&last.meld, source),
        _ => false,
    }
}

/// Does the last call come from across, as far as calls are kept?
fn is_from_across(parsed: &ParsedHand, sources: &[&str]) -> bool {
    parsed.called_melds.len() <= 4 && sources.contains(&"across")
}

/// The tiles of a hand in the words of the program, suit by suit.
fn tiles(tiles: &[Tile]) -> String {
    let mut numbers: Vec<usize> = tiles.iter().map(|&tile| number_of(tile)).collect();
    numbers.sort();
    let suits = ["m", "p", "s", "z"].iter().enumerate();
    let words = suits.map(|(suit, letter)| {
        let of_suit = numbers.iter().filter(|&&number| number / 9 == suit);
        let digits: String = of_suit.map(|number| (number % 9 + 1).to_string()).collect();
        if digits.is_empty() {
            digits
        } else {
            format!(" {digits}{letter}")
        }
    });
    words.collect()
}

/// What agari read, as the program would say it with the last call from there and this behind the winds,
/// or, where there are more than ten indicators, not at all: all but a closed meld in brackets can be
/// said.
fn in_words(parsed: &ParsedHand, source: &str, behind: Option<&str>) -> Option<Read> {
    let melds = &parsed.called_melds;
    let from = |place| ["left", source][usize::from(place + 1 == melds.len())];
    let calls: Option<String> = melds
        .iter()
        .enumerate()
        .map(|(place, called)| call(&called.meld, from(place)))
        .collect();
    let words = tiles(&parsed.tiles) + &calls?;
    Some(match (melds.len(), behind) {
        (0..=4, Some(behind)) => Read {
            words,
            behind: behind.to_string(),
        },
        (0..=4, None) => not_written(""),
        (count, _) => not_written(&format!("{count} calls")),
    })
}

/// A hand that the program does not write, as it has more than four calls, of which it says how many
/// there are, or more than ten indicators.
fn not_written(calls: &str) -> Read {
    Read {
        words: calls.to_string(),
        behind: NOT_WRITTEN.to_string(),
    }
}

// ---- what the program reads

/// What the program read, or nothing where it is bad input.
fn by_program(arguments: &[String]) -> Option<Read> {
    let output = Command::new("crates/score/out/score").args(arguments).output();
    let output = output.expect("crates/score/out/score, made by `rt run` in crates/score");
    let written = String::from_utf8(output.stdout).expect("text");
    if let Some((_, count)) = written.split_once("more than four calls: ") {
        return Some(not_written(count.trim_end()));
    }
    let Some(line) = written.lines().next()?.strip_prefix("hand:") else {
        let last = written.lines().last()?;
        return last.starts_with("answer: refused").then(|| not_written(""));
    };
    let (hand, behind) = line.split_once(" ron 1m round east seat south")?;
    Some(Read {
        words: hand.to_string(),
        behind: behind.to_string(),
    })
}

// ---- the listed differences, by the text; blanks do not count where agari skips them

/// Each character of a text with the one before it, blanks left out.
fn pairs(text: &str) -> Vec<(char, char)> {
    let text: String = text.split_whitespace().collect();
    format!(".{text}").chars().zip(text.chars()).collect()
}

/// Where the program alone refuses a text, of which agari reads this.
fn why_refused(text: &str, parsed: &ParsedHand) -> Option<&'static str> {
    let pairs = pairs(text);
    let is_bare = |(before, c): &(char, char)| matches!(c, 'm' | 'z') && !before.is_ascii_digit();
    let is_kept = |(before, c): &(char, char)| before.is_ascii_digit() && matches!(c, '(' | '[');
    if pairs.iter().any(is_bare) {
        Some("a suit without numbers")
    } else if pairs.iter().any(is_kept) {
        Some("numbers kept over a bracket")
    } else if parsed.aka_count > 0 {
        Some("a red five")
    } else if in_words(parsed, "left", None).is_none() {
        Some("closed melds in brackets")
    } else {
        None
    }
}

/// Where the program alone reads a text.
fn why_read(text: &str) -> Option<&'static str> {
    let is_capital =
        |(before, c): &(char, char)| before.is_ascii_digit() && matches!(c, 'M' | 'P' | 'S' | 'Z');
    let is_free = |inside: &str| {
        let letters = inside.chars().filter(char::is_ascii_alphabetic).count();
        let has_number = inside.contains(|c: char| c.is_ascii_digit());
        inside.contains(char::is_whitespace) || (letters > 1 && has_number)
    };
    let opened = text.split(['(', '[']).skip(1);
    let mut inside = opened.filter_map(|rest| rest.split([')', ']']).next());
    let is_listed = pairs(text).iter().any(is_capital) || inside.any(is_free);
    is_listed.then_some("a tile more freely written")
}

// ---- the comparison

/// What came of what was given, and whether that is a difference which is not listed.
fn compared(given: &Given) -> (&'static str, bool) {
    let read = by_program(&given.arguments);
    let text = &given.text;
    let Some(behind) = given.behind() else {
        return ("refused for a second setting", read.is_some());
    };
    let games = given.games();
    if games.len() > 1 {
        return ("refused for a second game", read.is_some());
    }
    if given.has_bad_indicator() {
        return ("refused for an indicator that is none", read.is_some());
    }
    if given.has_early_source() {
        return ("refused for a source before any call", read.is_some());
    }
    let sources = given.sources();
    let source = sources.last().unwrap_or(&"left");
    let behind = (!given.has_many_indicators()).then_some(behind.as_str());
    let Ok(agari) = panic::catch_unwind(|| answers::parsed(text)) else {
        let is_read = read.is_some();
        return ("agari panics: an honor that is none, in brackets", is_read);
    };
    match (agari, read) {
        (None, None) => ("refused by both", false),
        (Some(parsed), read) if !can_be_said(&parsed, &sources) => {
            ("refused for a source that cannot be", read.is_some())
        }
        (Some(parsed), read) if games == [true] && is_from_across(&parsed, &sources) => (
            "refused for a call from across with three players",
            read.is_some(),
        ),
        (Some(parsed), Some(read)) => match in_words(&parsed, source, behind) {
            Some(words) if words != read => ("read by both, and not alike", true),
            Some(_) if !sources.is_empty() => ("read alike, with whom a call came from", false),
            Some(_) => ("read alike", false),
            None => ("read by both, and not alike", true),
        },
        (Some(parsed), None) => match why_refused(text, &parsed) {
            Some(why) => (why, false),
            None => ("agari alone reads it", true),
        },
        (None, Some(read)) => match why_read(text) {
            Some(why) => (why, read.behind != behind.unwrap_or(NOT_WRITTEN)),
            None => ("the program alone reads it", true),
        },
    }
}

/// How many inputs there were with so many words for the setting, for the game and for whom a call came
/// from, and with which indicators.
#[derive(Default)]
struct Beside {
    settings: [u64; 3],
    games: [u64; 3],
    sources: [u64; 3],
    dora: u64,
    ura: u64,
    many: u64,
    bad: u64,
}

impl Beside {
    /// One more.
    fn count(&mut self, given: &Given) {
        self.settings[given.settings().len()] += 1;
        self.games[given.games().len()] += 1;
        self.sources[given.sources().len()] += 1;
        self.dora += u64::from(!given.shown(false).is_empty());
        self.ura += u64::from(!given.shown(true).is_empty());
        self.many += u64::from(given.has_many_indicators());
        self.bad += u64::from(given.has_bad_indicator());
    }

    fn print(&self) {
        let settings = listed_from(0, &self.settings);
        println!("by words for the room's setting: {settings}");
        let games = listed_from(0, &self.games);
        println!("by words for the game: {games}");
        let sources = listed_from(0, &self.sources);
        println!("by words for whom a call came from: {sources}");
        println!(
            "with indicators of dora: {}, of ura: {}",
            self.dora, self.ura
        );
        println!("with more than ten of a sort: {}", self.many);
        println!("with a word for indicators that names none: {}", self.bad);
    }
}

fn main() -> ExitCode {
    arguments::run(USAGE, |words| {
        let options = Options::read(words, &["--seed", "--texts"], &[])?;
        let mut rng = Rng::new(options.number("--seed").unwrap_or(1));
        let texts = options.number("--texts").unwrap_or(TEXTS);
        panic::set_hook(Box::new(|_| ()));
        let mut sorts: BTreeMap<&str, u64> = BTreeMap::new();
        let mut beside = Beside::default();
        let mut differ = 0;
        for _ in 0..texts {
            let given = given(&mut rng);
            let (sort, differs) = compared(&given);
            *sorts.entry(sort).or_default() += 1;
            beside.count(&given);
            if differs {
                differ += 1;
                println!("{:?}: {sort}", given.arguments);
            }
        }
        println!("texts {texts}, differ: {differ}");
        beside.print();
        for (sort, count) in sorts {
            println!("{count:>8}  {sort}");
        }
        Some(if differ == 0 {
            ExitCode::SUCCESS
        } else {
            ExitCode::FAILURE
        })
    })
}
