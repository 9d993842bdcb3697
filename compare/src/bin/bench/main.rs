//! Measures both sides on the same hands and wins, in one run and one thread.

mod cases;
mod timing;
mod worst;

use cases::{Booked, CASES, Case, Won, wins_of_three, with_and_without_indicators};
use compare::agari;
use compare::agari_wins::AgariWin;
use compare::answers;
use compare::arguments;
use compare::game::Game;
use compare::hand::Hand;
use compare::library::{
    ALWAYS_ENOUGH, SeatBook, THREE_OPERATIONS, book_win, list_readings, score_win,
};
use compare::oracle::Expected;
use std::hint::black_box;
use std::process::ExitCode;

const USAGE: &str = "usage: bench [readings | wins | dora | three | books | worst]
       bench profile readings|wins|books CASE N
where CASE is mixture, several, flush, none or changing";
const NUMBER: usize = 20_000;
/// A book with sticks on the table and a counter to pay. Each win is booked in a copy of it.
const BOOK: SeatBook = SeatBook {
    points: [24_000, 25_000, 24_000, 25_000],
    sticks: 2,
    deals: 4,
    counter: 3,
    reserved: 0,
};

/// Lists into a buffer that is not cleared between hands.
fn list(hand: &Hand, out: &mut [u8]) {
    black_box(list_readings(hand.counts(), hand.calls, black_box(out)));
}

fn score(won: &Won) {
    black_box(score_win(won.hand.counts(), won.hand.calls, won.win));
}

fn score_of_three(won: &Won) {
    let score_win = THREE_OPERATIONS.score_win;
    black_box(score_win(won.hand.counts(), won.hand.calls, won.win));
}

/// Books a win in a book of its own, which is written anew in the time: 40 bytes.
fn book(booked: &Booked) {
    let Booked { won, deal, winner } = booked;
    let mut book = black_box(BOOK);
    let number = book_win(&mut book, &won.hand, won.win, *deal, *winner);
    black_box((number, book));
}

fn score_by_agari(win: &AgariWin) {
    black_box(black_box(win).score());
}

fn print_case(case: &Case, hands: &[Hand]) {
    let readings: usize = hands.iter().map(|hand| Expected::of(hand).readings).sum();
    let readings = readings as f64 / hands.len() as f64;
    println!(
        "{}: {}; {readings:.2} readings a hand",
        case.name, case.about
    );
}

/// Listing the readings. agari's map of counts is made in the time, its melds of the calls before.
fn measure_readings() {
    println!(
        "listing readings: {NUMBER} hands a case, {}",
        timing::about_passes()
    );
    for case in &CASES {
        let hands = case.hands(NUMBER);
        print_case(case, &hands);
        let theirs: Vec<_> = hands
            .iter()
            .map(|hand| (hand.counts(), agari::called_melds(hand.called())))
            .collect();
        let mut out = [0; ALWAYS_ENOUGH];
        timing::compare(
            &theirs,
            |(counts, called)| {
                let counts = agari::tile_counts(black_box(counts));
                black_box(answers::found(&counts, called));
            },
            &hands,
            |hand| list(hand, &mut out),
        );
    }
}

/// Scoring a win. agari reads the hand, scores every reading and chooses; its maps of counts are made
/// in the time, its melds of the calls and its context before.
fn measure_wins() {
    println!(
        "scoring a win: {NUMBER} wins a case, {}",
        timing::about_passes()
    );
    for case in &CASES {
        let wins = case.wins(NUMBER);
        let hands: Vec<Hand> = wins.iter().map(|won| won.hand).collect();
        print_case(case, &hands);
        let theirs: Vec<_> = wins
            .iter()
            .map(|won| AgariWin::of(&won.hand, &won.win))
            .collect();
        timing::compare(&theirs, score_by_agari, &wins, score);
    }
}

/// Scoring a win with five indicators, three and two ura, in riichi, so that all of them count, beside the
/// same win without them.
fn measure_dora() {
    println!(
        "scoring a win in riichi with five indicators: {NUMBER} wins a case, {}",
        timing::about_passes()
    );
    for case in &CASES {
        let wins = case.wins(NUMBER);
        let hands: Vec<Hand> = wins.iter().map(|won| won.hand).collect();
        print_case(case, &hands);
        let [with, without] = with_and_without_indicators(&wins);
        let theirs: Vec<_> = with
            .iter()
            .map(|won| AgariWin::of(&won.hand, &won.win))
            .collect();
        timing::compare_with(&theirs, score_by_agari, &with, &without, score);
    }
}

/// Scoring a win of three players on both sides, and the same wins as of four.
fn measure_three() {
    println!(
        "scoring a win of three players: {NUMBER} wins, {}",
        timing::about_passes()
    );
    let wins = wins_of_three(NUMBER);
    for (name, game, score) in [
        ("three players", Game::Three, score_of_three as fn(&Won)),
        ("the same wins of four players", Game::Four, score),
    ] {
        println!("{name}");
        let theirs: Vec<_> = wins
            .iter()
            .map(|won| AgariWin::in_game(game, &won.hand, &won.win))
            .collect();
        timing::compare(&theirs, score_by_agari, &wins, score);
    }
}

/// Booking a win, beside scoring the same win.
fn measure_books() {
    println!(
        "booking a win beside scoring it: {NUMBER} wins a case, {}",
        timing::about_passes()
    );
    for case in &CASES {
        let wins = case.wins(NUMBER);
        let hands: Vec<Hand> = wins.iter().map(|won| won.hand).collect();
        print_case(case, &hands);
        let booked: Vec<Booked> = wins.iter().map(Booked::of).collect();
        timing::compare_more(["scoring", "booking"], &wins, score, &booked, book);
    }
}

/// Runs the library alone, so many times, going round the hands or wins of a case.
fn profile(operation: &str, name: &str, times: usize) -> Option<()> {
    let case = CASES.iter().find(|case| case.name == name)?;
    let wins = case.wins(times.clamp(1, NUMBER));
    let wins = wins.iter().cycle().take(times);
    let mut out = [0; ALWAYS_ENOUGH];
    match operation {
        "readings" => wins.for_each(|won| list(&won.hand, &mut out)),
        "wins" => wins.for_each(score),
        "books" => wins.for_each(|won| book(&Booked::of(won))),
        _ => return None,
    }
    Some(())
}

fn main() -> ExitCode {
    arguments::run(USAGE, |words| {
        match words {
            [] => {
                measure_readings();
                measure_wins();
                measure_dora();
                measure_three();
                measure_books();
                worst::measure(NUMBER);
            }
            ["readings"] => measure_readings(),
            ["wins"] => measure_wins(),
            ["dora"] => measure_dora(),
            ["three"] => measure_three(),
            ["books"] => measure_books(),
            ["worst"] => worst::measure(NUMBER),
            ["profile", operation, case, times] => profile(operation, case, times.parse().ok()?)?,
            _ => return None,
        }
        Some(ExitCode::SUCCESS)
    })
}
