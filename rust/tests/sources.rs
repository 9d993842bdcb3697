//! Who the called tiles came from: scores, waits and the order of readings do not go by it.

mod common;

use common::{counts, ron, tsumo};
use ziwhakemo::*;

/// A hand with two readings, by a pair of man 2 and by one of man 5.
const HAND: &str = "22334455m";

/// Every pair of sources.
fn pairs_of_sources() -> impl Iterator<Item = [Source; 2]> {
    let all = Source::ALL.into_iter();
    all.flat_map(|first| Source::ALL.map(|second| [first, second]))
}

/// A pon of East and a kan of Red, from these.
fn calls([pon, kan]: [Source; 2], kan_type: fn(Source) -> KanType) -> [Meld; 2] {
    [
        Meld::koutsu_open(common::tile("1z"), pon),
        Meld::kan(common::tile("7z"), kan_type(kan)),
    ]
}

/// The reading without the sources: with each meld as called from the left.
fn but_sources(reading: &HandStructure) -> HandStructure {
    let HandStructure::Standard { melds, pair } = reading else {
        panic!("a hand with calls is four melds and a pair");
    };
    let melds = melds.iter().map(from_the_left).collect();
    HandStructure::Standard { melds, pair: *pair }
}

fn from_the_left(meld: &Meld) -> Meld {
    let left = Source::Left;
    match *meld {
        Meld::Shuntsu(tile, source) => Meld::Shuntsu(tile, source.and(Some(left))),
        Meld::Koutsu(tile, source) => Meld::Koutsu(tile, source.and(Some(left))),
        Meld::Kan(tile, KanType::Closed) => Meld::kan(tile, KanType::Closed),
        Meld::Kan(tile, KanType::Open(_)) => Meld::kan(tile, KanType::Open(left)),
        Meld::Kan(tile, KanType::Added(_)) => Meld::kan(tile, KanType::Added(left)),
    }
}

#[test]
fn readings_are_the_same_but_for_the_sources() {
    for kan_type in [KanType::Open, KanType::Added] {
        let first = decompose_hand(&counts(HAND), &calls([Source::Left; 2], kan_type)).unwrap();
        for sources in pairs_of_sources() {
            let readings = decompose_hand(&counts(HAND), &calls(sources, kan_type)).unwrap();
            let readings: Vec<_> = readings.iter().map(but_sources).collect();
            assert_eq!(readings, first, "{sources:?}");
        }
    }
}

#[test]
fn scores_and_waits_are_the_same() {
    let hand = counts(HAND);
    let contexts = [
        ron("2m"),
        tsumo("4m"),
        ron("4m").with_dora([common::tile("4z")]),
    ];
    for context in contexts {
        for kan_type in [KanType::Open, KanType::Added] {
            let first = calls([Source::Left; 2], kan_type);
            let readings = decompose_hand(&hand, &first).unwrap().len();
            let win = score_win(&hand, &first, &context);
            assert!(win.is_ok());
            for calls in pairs_of_sources().map(|sources| calls(sources, kan_type)) {
                assert_eq!(score_win(&hand, &calls, &context), win);
                for n in 0..=readings {
                    let scored = score_reading(&hand, &first, &context, n);
                    assert_eq!(score_reading(&hand, &calls, &context, n), scored);
                    let waits = detect_wait_types(&hand, &first, &context, n);
                    assert_eq!(detect_wait_types(&hand, &calls, &context, n), waits);
                }
            }
        }
    }
}

#[test]
fn a_source_is_told_by_two_seats() {
    for caller in 0..4 {
        let sources = [1, 2, 3].map(|onward| {
            let from = (caller + onward) % 4;
            Source::from_number((from + 4 - caller) % 4).unwrap()
        });
        assert_eq!(sources, Source::ALL);
        assert_eq!(Source::from_number((caller + 4 - caller) % 4), None);
    }
}
