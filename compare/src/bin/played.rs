//! Writes the rows of the proved tables of hands with their right answers, which a proved program plays.
//!
//! The rows are read where they are proved: the played hands of the scope paper, and the worked hands.
//! That each has its theorem, and that agari comes to what the row says, is looked at first; all that is
//! stored beside is agari's. Where a row differs, it is printed with agari's answer, and nothing is
//! written.
//!
//! The file is a row of records of 1,024 bytes, numbers little-endian, zero where nothing stands,
//! flags 0 or 1:
//!
//! | bytes     | content                                                                      |
//! |-----------|------------------------------------------------------------------------------|
//! | 0         | length of the text                                                           |
//! | 1..128    | the text                                                                     |
//! | 128..162  | the counts                                                                   |
//! | 162       | number of calls                                                              |
//! | 163..175  | four melds, each its tile, its kind and its source                           |
//! | 175..179  | win type, winning tile, round wind, seat wind                                |
//! | 179..187  | riichi, double riichi, ippatsu, rinshan, chankan, last tile, tenhou, chiihou |
//! | 187       | the setting: fu of a pair that is both round and seat wind                   |
//! | 188..199  | how many indicators there are, and ten of them                               |
//! | 199..210  | how many ura indicators there are, and ten of them                           |
//! | 210, 211  | listing: the answer's number, the count of readings                          |
//! | 212, 213  | the win: the answer's number, the chosen reading                             |
//! | 214, 215  | how many readings are scored, and the number that refuses the one after them |
//! | 216       | what is played: 0 a hand, 1 han and fu, 2 basic points                       |
//! | 217..220  | han, fu, whether there is a yakuman                                          |
//! | 220, 221  | win type, whether the dealer wins                                            |
//! | 222       | payment: the answer's number                                                 |
//! | 256..1024 | a slot of 96 bytes for each reading; of points, the first                    |
//!
//! A slot holds 47 yaku tallies, 6 wait tallies, han, fu, whether it is a yakuman, the level, the count of
//! yakuman, the dora and the ura dora, each in one byte; then from its byte 60 on in four bytes each basic
//! points, what each non-dealer, the dealer and the discarder pays, and the total.

use compare::agari_scores::{WAIT_ENTRIES, YAKU_ENTRIES, basic_points, level, payment};
use compare::arguments;
use compare::hand::*;
use compare::library::{
    ALWAYS_ENOUGH, FOUR, Indicators, Level, Meld, PaymentAnswer, RON, Score, TSUMO, WAITS, Win,
};
use compare::oracle::Expected;
use compare::rows::{EAST, FLAGS, Row, SOUTH, Term};
use compare::stored::{put_melds, put_win};
use compare::win_oracle::ExpectedWin;
use compare::win_tally::LEVELS;
use std::collections::HashSet;
use std::fmt::Debug;
use std::fs;
use std::path::Path;
use std::process::ExitCode;

/// The files of rows, each by its crate and its name, in the order in which they are played.
const TABLES: [(&str, &str); 9] = [
    ("played", "Played"),
    ("worked_hands", "OneHan"),
    ("worked_hands", "MoreHan"),
    ("worked_hands", "Yakuman"),
    ("worked_hands", "Fu"),
    ("worked_hands", "Dora"),
    ("worked_hands", "Points"),
    ("worked_hands", "Readings"),
    ("worked_hands", "Refusals"),
];
const RECORD: usize = 1024;
const SLOTS: usize = 256;
const SLOT: usize = 96;

/// A row played: its record, what it says, and what it has to say.
struct Played {
    record: [u8; RECORD],
    says: String,
    agari: String,
}

// ---- what agari comes to, in the words of the rows

/// Entries by name, each as often as its tally says.
fn names<T: Debug>(entries: &[T], tallies: &[u8]) -> String {
    let mut names = String::new();
    for (entry, &tally) in entries.iter().zip(tallies) {
        let name = format!("{entry:?}");
        let name = match name.strip_prefix("Yakuhai(") {
            Some(honor) => format!("yakuhai_name {}", honor.trim_end_matches(')')),
            None => name,
        };
        for _ in 0..tally {
            names += &format!("{name} ∷ ");
        }
    }
    names + "[]"
}

fn level_name(level: u8, count: u8) -> String {
    let name = LEVELS[usize::from(level)];
    match count {
        0 => name.into(),
        count => format!("({name} {count})"),
    }
}

fn settlement(win_type: u8, dealer: bool, paid: &PaymentAnswer) -> String {
    match (win_type, dealer) {
        (TSUMO, true) => format!("(DealerTsumo {})", paid.from_non_dealer),
        (TSUMO, false) => format!("(Tsumo {} {})", paid.from_dealer, paid.from_non_dealer),
        _ => format!("(Ron {})", paid.from_discarder),
    }
}

fn paid(score: &Score) -> PaymentAnswer {
    PaymentAnswer {
        number: 0,
        settlement: score.settlement,
        from_non_dealer: score.from_non_dealer,
        from_dealer: score.from_dealer,
        from_discarder: score.from_discarder,
        total: score.total,
    }
}

fn worth(win: &Win, score: &Score) -> String {
    format!(
        "worth ({}) {} {} {} {}",
        names(&YAKU_ENTRIES, &score.tallies),
        score.han,
        score.fu,
        level_name(score.level, score.yakuman_count),
        settlement(win.win_type, win.seat_wind == EAST, &paid(score)),
    )
}

/// What each reading comes to, and what scoring the win answers.
fn won(win: &Win, expected: &ExpectedWin) -> String {
    let worths = expected
        .scores
        .iter()
        .map(|score| worth(win, score) + " ∷ ");
    let worths: String = worths.collect();
    let chosen = expected.score_win();
    let outcome = match chosen.number {
        0 => format!("chooses {}", chosen.reading),
        refused => format!("refuses {refused}"),
    };
    format!("won ({worths}[]) ({outcome})")
}

fn waiting(expected: &ExpectedWin) -> String {
    let waits = expected.waits.iter();
    let waits: String = waits
        .map(|waits| format!("({}) ∷ ", names(&WAIT_ENTRIES, waits)))
        .collect();
    format!("waiting ({waits}[])")
}

// ---- the records

/// Writes the text that the program prints.
fn put_text(record: &mut [u8], text: &str) {
    assert!(text.len() < 128 && text.is_ascii(), "too long: {text}");
    record[0] = text.len() as u8;
    record[1..][..text.len()].copy_from_slice(text.as_bytes());
}

fn put_hand(record: &mut [u8], hand: &Hand) {
    record[128..162].copy_from_slice(hand.counts());
    record[162] = hand.calls.count as u8;
    put_melds(&mut record[163..175], &hand.calls.melds);
}

fn put_points(slot: &mut [u8], basic_points: u32, paid: &PaymentAnswer) {
    let total = u32::try_from(paid.total).expect("a total fits in four bytes");
    let points = [
        basic_points,
        paid.from_non_dealer,
        paid.from_dealer,
        paid.from_discarder,
        total,
    ];
    for (place, points) in points.iter().enumerate() {
        slot[60 + 4 * place..][..4].copy_from_slice(&points.to_le_bytes());
    }
}

fn put_reading(slot: &mut [u8], score: &Score, waits: &[u8; WAITS]) {
    slot[..47].copy_from_slice(&score.tallies);
    slot[47..53].copy_from_slice(waits);
    slot[53] = score.han;
    slot[54] = score.fu;
    slot[55] = score.is_yakuman;
    slot[56] = score.level;
    slot[57] = score.yakuman_count;
    slot[58] = score.regular_dora;
    slot[59] = score.ura_dora;
    put_points(slot, score.basic_points, &paid(score));
}

/// The record of a win.
fn hand_record(title: &str, hand: &Hand, win: &Win, expected: &ExpectedWin) -> [u8; RECORD] {
    let listing = Expected::of(hand).listing(ALWAYS_ENOUGH);
    let chosen = expected.score_win();
    let readings = expected.scores.len();
    let mut record = [0; RECORD];
    put_text(&mut record, &format!("{title}: {}", written(hand, win)));
    put_hand(&mut record, hand);
    put_win(&mut record[175..210], win);
    record[210] = listing.number as u8;
    record[211] = listing.readings as u8;
    record[212] = chosen.number as u8;
    record[213] = chosen.reading as u8;
    record[214] = readings as u8;
    record[215] = expected.score_reading(readings).number as u8;
    for (place, (score, waits)) in expected.scores.iter().zip(&expected.waits).enumerate() {
        put_reading(&mut record[SLOTS + SLOT * place..][..SLOT], score, waits);
    }
    record
}

/// Han and fu, with or without a yakuman, or basic points.
enum Points {
    Han(u8, u8, bool),
    Basic(u32),
}

/// The record of points won so.
fn points_record(title: &str, points: &Points, win_type: u8, dealer: bool) -> [u8; RECORD] {
    let mut record = [0; RECORD];
    let slot = &mut [0; SLOT];
    let (basic, text) = match *points {
        Points::Basic(basic) => {
            record[216] = 2;
            (basic, format!("basic {basic}"))
        }
        Points::Han(han, fu, is_yakuman) => {
            let Level { level, count } = level(han, fu, is_yakuman);
            record[216] = 1;
            record[217..220].copy_from_slice(&[han, fu, u8::from(is_yakuman)]);
            slot[56] = level;
            slot[57] = count;
            let yakuman = if is_yakuman { " yakuman" } else { "" };
            (
                basic_points(han, fu, is_yakuman),
                format!("{han} han {fu} fu{yakuman}"),
            )
        }
    };
    let who = if dealer { "dealer " } else { "" };
    put_text(
        &mut record,
        &format!("{title}: {text}, {who}{}", type_name(win_type)),
    );
    record[220] = win_type;
    record[221] = u8::from(dealer);
    let paid = payment(basic, dealer, win_type);
    record[222] = paid.number as u8;
    put_points(slot, basic, &paid);
    record[SLOTS..][..SLOT].copy_from_slice(slot);
    record
}

// ---- the texts

fn tile_name(tile: u8) -> String {
    let suit = ["m", "p", "s", "z"].get(usize::from(tile / 9));
    format!("{}{}", tile % 9 + 1, suit.unwrap_or(&"?"))
}

fn type_name(win_type: u8) -> String {
    match win_type {
        RON => "ron".into(),
        TSUMO => "tsumo".into(),
        other => format!("type-{other}"),
    }
}

/// Indicators in short, tiles of a suit together: `1123m5z`. One that is no tile stands by its number, and
/// behind the first ten of more how many there are.
fn indicator_names(indicators: &Indicators) -> String {
    let shown = indicators.shown();
    let mut text = String::new();
    for (place, &tile) in shown.iter().enumerate() {
        let is_same = |next: &u8| usize::from(*next) < KINDS && next / 9 == tile / 9;
        let is_followed = shown.get(place + 1).is_some_and(is_same);
        text += &match usize::from(tile) {
            KINDS.. => format!("({tile})"),
            _ if is_followed => (tile % 9 + 1).to_string(),
            _ => tile_name(tile),
        };
    }
    if shown.len() < usize::from(indicators.count) {
        text += &format!("..({})", indicators.count);
    }
    text
}

/// Who a call came from, in short: ` from across`. What is usual, an open call from the left and a closed one
/// from nobody, is left out.
fn source_name(meld: Meld) -> String {
    let usual = Meld::new(meld.tile, meld.kind);
    match meld.source {
        source if source == usual.source => String::new(),
        NOBODY => " from nobody".into(),
        RIGHT => " from right".into(),
        ACROSS => " from across".into(),
        LEFT => " from left".into(),
        other => format!(" from {other}"),
    }
}

/// A hand with its calls in short: `12355m456p234678s, chi 1m`.
fn hand_names(hand: &Hand) -> String {
    let mut text = String::new();
    for (suit, counts) in ["m", "p", "s", "z"].iter().zip(hand.counts().chunks(9)) {
        let before = text.len();
        for (number, &count) in (1..).zip(counts) {
            text += &number.to_string().repeat(usize::from(count));
        }
        if text.len() > before {
            text += suit;
        }
    }
    for meld in hand.called() {
        let call = match meld.kind {
            OPEN_SEQUENCE => "chi",
            OPEN_TRIPLET => "pon",
            CLOSED_KAN => "kan",
            OPEN_KAN => "open-kan",
            _ => "added-kan",
        };
        text += &format!(", {call} {}{}", tile_name(meld.tile), source_name(*meld));
    }
    text
}

/// A hand and its win in short: `12355m456p234678s, chi 1m, ron 8s seat=1z riichi double-wind-2 dora 1m`.
/// What is usual is left out.
fn written(hand: &Hand, win: &Win) -> String {
    let (by, tile) = (type_name(win.win_type), tile_name(win.winning_tile));
    let mut text = format!("{}, {by} {tile}", hand_names(hand));
    for (name, wind, usual) in [
        ("round", win.round_wind, EAST),
        ("seat", win.seat_wind, SOUTH),
    ] {
        if wind != usual {
            text += &format!(" {name}={}", tile_name(wind));
        }
    }
    for (flag, name) in win.flags().into_iter().zip(FLAGS) {
        if flag {
            text += &format!(" {name}");
        }
    }
    if win.double_wind_fu != FOUR {
        text += &format!(" double-wind-{}", win.double_wind_fu);
    }
    for (name, sort) in ["dora", "ura"].iter().zip(win.indicators()) {
        if sort.count > 0 {
            text += &format!(" {name} {}", indicator_names(&sort));
        }
    }
    text
}

// ---- the rows

/// A row with one reading is one of wins, said more shortly.
fn said(row: &Term) -> String {
    let answer = match row.parts() {
        ("won", [_, _, _, worths, outcome]) => format!("won ({worths}) ({outcome})"),
        ("scored", [_, _, _, yaku, han, fu, level, pays]) => {
            format!("won (worth ({yaku}) {han} {fu} ({level}) ({pays}) ∷ []) (chooses 0)")
        }
        ("yakuless", [_, _, _, fu, pays]) => {
            format!("won (worth [] 0 {fu} Normal ({pays}) ∷ []) (refuses 11)")
        }
        ("waiting", [_, _, _, waits]) => format!("waiting ({waits})"),
        (name, _) => panic!("no win: {name}"),
    };
    Term::of(&answer).to_string()
}

/// Plays a row.
fn play(row: &Row) -> Played {
    let title = row.title();
    match row.term.parts() {
        ("listed", [hand, calls, readings]) => {
            // played as won by ron on the lowest tile
            let hand = hand.hand(calls);
            let lowest = hand.counts().iter().position(|&count| count > 0);
            let lowest = lowest.expect("a tile") as u8;
            let win = Win::new(RON, lowest, EAST, SOUTH);
            let expected = ExpectedWin::of(&hand, &win);
            Played {
                record: hand_record(&title, &hand, &win, &expected),
                says: readings.to_string(),
                agari: Expected::of(&hand)
                    .listing(ALWAYS_ENOUGH)
                    .readings
                    .to_string(),
            }
        }
        ("valued", [han, fu, yakuman, says, basic]) => {
            let (han, fu) = (han.number() as u8, fu.number() as u8);
            let is_yakuman = yakuman.is("yakuman", "no_yakuman");
            let Level { level, count } = level(han, fu, is_yakuman);
            let agari = level_name(level, count);
            let points = Points::Han(han, fu, is_yakuman);
            Played {
                record: points_record(&title, &points, RON, false),
                says: format!("{says} {basic}"),
                agari: format!("{} {}", Term::of(&agari), basic_points(han, fu, is_yakuman)),
            }
        }
        ("paid", [han, fu, yakuman, by, dealer, says]) => {
            let (han, fu) = (han.number() as u8, fu.number() as u8);
            let is_yakuman = yakuman.is("yakuman", "no_yakuman");
            let (by, dealer) = (by.win_type(), dealer.is("dealer", "non_dealer"));
            let paid = payment(basic_points(han, fu, is_yakuman), dealer, by);
            let points = Points::Han(han, fu, is_yakuman);
            Played {
                record: points_record(&title, &points, by, dealer),
                says: says.to_string(),
                agari: Term::of(&settlement(by, dealer, &paid)).to_string(),
            }
        }
        ("asked", [basic, by, dealer, says]) => {
            let basic = basic.number() as u32;
            let (by, dealer) = (by.win_type(), dealer.is("dealer", "non_dealer"));
            let paid = payment(basic, dealer, by);
            let agari = match paid.number {
                0 => format!("Paid {}", settlement(by, dealer, &paid)),
                refused => format!("Refused {refused}"),
            };
            Played {
                record: points_record(&title, &Points::Basic(basic), by, dealer),
                says: says.to_string(),
                agari,
            }
        }
        (name, [hand, calls, win, ..]) => {
            let hand = hand.hand(calls);
            let win = win.win();
            let expected = ExpectedWin::of(&hand, &win);
            let agari = match name {
                "waiting" => waiting(&expected),
                _ => won(&win, &expected),
            };
            Played {
                record: hand_record(&title, &hand, &win, &expected),
                says: said(&row.term),
                agari: Term::of(&agari).to_string(),
            }
        }
        (name, _) => panic!("no row: {name}"),
    }
}

/// A file of the repository.
fn read(krate: &str, folder: &str, name: &str) -> String {
    let root = Path::new(env!("CARGO_MANIFEST_DIR")).join("..");
    let path = root.join(format!("crates/{krate}/{folder}/{name}.antt"));
    fs::read_to_string(&path).unwrap_or_else(|error| panic!("{}: {error}", path.display()))
}

/// Whether the row is claimed: by a theorem of its own, or in the list of a common one.
fn is_claimed(row: &Row, specs: &str, proofs: &str) -> bool {
    let theorem = format!("pub {} : T (holds {})\n", row.theorem(), row.name);
    let mut lines = specs
        .lines()
        .map(|line| line.trim().trim_start_matches("∷ "));
    proofs.contains(&theorem) || lines.any(|line| line == row.name)
}

fn main() -> ExitCode {
    arguments::run("usage: played FILE..", |words| {
        if words.is_empty() {
            return None;
        }
        let mut bytes = Vec::new();
        let mut seen = HashSet::new();
        let mut differ = 0;
        for (krate, name) in TABLES {
            let (specs, proofs) = (read(krate, "specs", name), read(krate, "proofs", name));
            for row in Row::all(&specs) {
                let played = play(&row);
                bytes.extend(played.record);
                let fault = if !is_claimed(&row, &specs, &proofs) {
                    "no theorem claims it".into()
                } else if played.says != played.agari {
                    format!(
                        "it says {}\n    but agari, listed differences put in, {}",
                        played.says, played.agari
                    )
                } else if !seen.insert(row.name.clone()) {
                    "its name stands twice".into()
                } else {
                    continue;
                };
                differ += 1;
                println!("{krate} {name} {}: {fault}", row.name);
            }
        }
        println!("{} played, {differ} differ", bytes.len() / RECORD);
        if differ > 0 {
            return Some(ExitCode::FAILURE);
        }
        for path in words {
            fs::write(path, &bytes).expect("the file can be written");
        }
        Some(ExitCode::SUCCESS)
    })
}

#[cfg(test)]
mod tests {
    use super::*;

    #[test]
    fn indicators_are_written_with_the_win() {
        let row = |win: &str| {
            let hand =
                Term::of("hand (mans 222333444 ++ pins 666 ++ sous 88)").hand(&Term::of("[]"));
            written(&hand, &Term::of(win).win())
        };
        assert_eq!(row("tsumo (pin 6)"), "222333444m666p88s, tsumo 6p");
        assert_eq!(
            row(
                "showing (replicate 2 (man 1) ++ (man 2 ∷ pin 9 ∷ Red ∷ 34 ∷ [])) [] (tsumo (pin 6))"
            ),
            "222333444m666p88s, tsumo 6p dora 112m9p7z(34)"
        );
        assert_eq!(
            row("showing [] (replicate 11 (man 1)) (in_room 2 (tsumo (pin 6)))"),
            "222333444m666p88s, tsumo 6p double-wind-2 ura 1111111111m..(11)"
        );
    }

    #[test]
    fn a_row_says_who_a_call_came_from() {
        let text = "won (hand (mans 123 ++ sous 88)) (from_across (pon Red) ∷ chi (man 1) ∷ closed_kan East \
            ∷ []) (ron (sou 8)) [] (chooses 0)";
        let row = Row {
            name: "some_row".into(),
            term: Term::of(text),
        };
        let record = play(&row).record;
        let title = "some-row: 123m88s, pon 7z from across, chi 1m, kan 1z, ron 8s";
        assert_eq!(record[1..][..usize::from(record[0])], *title.as_bytes());
        assert_eq!(record[162..175], [3, 33, 3, 2, 0, 1, 3, 27, 4, 0, 0, 0, 0]);
        assert_eq!(record[210..217], [0, 1, 0, 0, 1, 12, 0]);

        let name = |call: &str| {
            let calls = Term::of(&format!("{call} ∷ []"));
            hand_names(&Term::of("hand (mans 55)").hand(&calls))
        };
        assert_eq!(name("open_kan East"), "55m, open-kan 1z");
        assert_eq!(
            name("from_right (added_kan East)"),
            "55m, added-kan 1z from right"
        );
        assert_eq!(name("from_left (closed_kan East)"), "55m, kan 1z from left");
    }

    #[test]
    fn a_row_with_indicators_is_played() {
        let text = "won (hand (mans 222333444 ++ pins 666 ++ sous 88)) [] (showing (replicate 4 (man 1) ++ \
            replicate 3 (man 2) ++ replicate 3 (man 3)) (man 1 ∷ []) (south_wins by_tsumo (pin 6) [])) [] \
            (chooses 0)";
        let row = Row {
            name: "some_row".into(),
            term: Term::of(text),
        };
        let record = play(&row).record;
        let shown = [10, 0, 0, 0, 0, 1, 1, 1, 2, 2, 2];
        assert_eq!(record[175..179], [1, 14, 27, 28]);
        assert_eq!(record[188..199], shown);
        assert_eq!(record[199..210], [1, 0, 0, 0, 0, 0, 0, 0, 0, 0, 0]);
        // Two readings, of which the one with four triplets is chosen, with 30 dora and no ura.
        assert_eq!(record[210..217], [0, 2, 0, 1, 2, 12, 0]);
        let slot = &record[SLOTS + SLOT..][..SLOT];
        assert_eq!(
            (slot[53], slot[55], slot[56..60].to_vec()),
            (13, 1, vec![5, 1, 30, 0])
        );
        let slot = &record[SLOTS..][..SLOT];
        assert_eq!(
            (slot[53], slot[55], slot[56..60].to_vec()),
            (33, 0, vec![5, 1, 30, 0])
        );
    }
}
