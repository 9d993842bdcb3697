//! The win that takes longest here, of all that are measured and of every closed flush.

use crate::cases::{CASES, Won};
use crate::{score, score_by_agari, timing};
use compare::agari_wins::AgariWin;
use compare::every::{hand_of, suit_counts};
use compare::library::{RON, TSUMO, Win};
use compare::oracle::Expected;
use compare::wins::held_tiles;

const EAST: u8 = 27;

/// Finds the slowest win of each set, and the one at which agari comes closest.
pub fn measure(number: usize) {
    println!("one win, least of the passes, each call timed by itself among changing wins");
    for case in &CASES {
        print_worst(case.name, &case.wins(number));
    }
    print_worst("every closed flush of man", &closed_flushes());
}

/// Every winning hand of man with no call, won by each of its tiles, by ron and by tsumo, by the
/// dealer in riichi.
fn closed_flushes() -> Vec<Won> {
    let hands = suit_counts(14)
        .into_iter()
        .map(|numbers| hand_of(0, &numbers));
    hands
        .filter(|hand| Expected::of(hand).readings > 0)
        .flat_map(|hand| {
            let tiles = held_tiles(&hand).into_iter();
            tiles
                .flat_map(move |tile| [RON, TSUMO].map(|win_type| (win_type, tile)))
                .map(move |(win_type, winning_tile)| Won {
                    hand,
                    win: Win {
                        is_riichi: true,
                        ..Win::new(win_type, winning_tile, EAST, EAST)
                    },
                })
        })
        .collect()
}

fn print_worst(name: &str, wins: &[Won]) {
    let theirs: Vec<_> = wins
        .iter()
        .map(|won| AgariWin::of(&won.hand, &won.win))
        .collect();
    let ours = timing::each(wins, score);
    let agari = timing::each(&theirs, score_by_agari);
    let ratio = |place: usize| agari[place] / ours[place];
    let places = || 0..wins.len();
    let slowest = places().max_by(|&one, &other| ours[one].total_cmp(&ours[other]));
    let closest = places().min_by(|&one, &other| ratio(one).total_cmp(&ratio(other)));
    println!("  {name}, {} wins", wins.len());
    for (title, place) in [("slowest", slowest), ("least ratio", closest)] {
        let place = place.expect("a set has wins");
        let won = &wins[place];
        let readings = Expected::of(&won.hand).readings;
        println!("    {title}: {}, {readings} readings", text(won));
        println!(
            "      agari {:6.0} ns, ours {:5.0} ns, ratio {:5.1}",
            agari[place],
            ours[place],
            ratio(place)
        );
    }
}

/// The tiles in the usual notation, the calls as their tile, kind and source, and how it was won.
fn text(won: &Won) -> String {
    let mut text = String::new();
    for (first, letter) in [(0, 'm'), (9, 'p'), (18, 's'), (27, 'z')] {
        let before = text.len();
        for number in 0..if first == 27 { 7 } else { 9 } {
            let count = won.hand.counts[first + number];
            text += &(number + 1).to_string().repeat(count.into());
        }
        if text.len() > before {
            text.push(letter);
        }
    }
    for meld in won.hand.called() {
        text += &format!(" {meld}");
    }
    let how = ["ron", "tsumo"][usize::from(won.win.win_type)];
    format!("{text}, {how} on tile {}", won.win.winning_tile)
}
