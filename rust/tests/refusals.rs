//! Each refusal, and their order.

mod common;

use common::{counts, ron, tile};
use ziwhakemo::*;

const PINFU: &str = "12355m456p234678s";

/// What each of the four operations that take a hand says to it.
fn refusals(counts: &[u8], calls: &[Meld], context: &GameContext) -> [Option<Refusal>; 4] {
    [
        decompose_hand(counts, calls).err(),
        score_win(counts, calls, context).err(),
        score_reading(counts, calls, context, 0).err(),
        detect_wait_types(counts, calls, context, 0).err(),
    ]
}

#[track_caller]
fn all_refuse(counts: &[u8], calls: &[Meld], context: &GameContext, refusal: Refusal) {
    assert_eq!(refusals(counts, calls, context), [Some(refusal); 4]);
}

/// Those that take a win, while the readings are listed.
#[track_caller]
fn wins_refused(counts: &[u8], calls: &[Meld], context: &GameContext, refusal: Refusal) {
    let refusal = Some(refusal);
    let expected = [None, refusal, refusal, refusal];
    assert_eq!(refusals(counts, calls, context), expected);
}

#[test]
fn number_1_any_length_but_34() {
    let whole = [&counts(PINFU)[..], &[0; 6]].concat();
    for length in (0..=40).filter(|&length| length != 34) {
        all_refuse(&whole[..length], &[], &ron("8s"), Refusal::CountsLength);
    }
}

#[test]
fn number_2_more_than_four_calls() {
    let calls: Vec<Meld> = (1..=7)
        .map(|value| Meld::shuntsu_open(Tile::suited(Suit::Man, value)))
        .collect();
    for number in 5..=7 {
        all_refuse(
            &counts("55z"),
            &calls[..number],
            &ron("5z"),
            Refusal::TooManyCalls,
        );
    }
}

#[test]
fn number_3_no_call() {
    let hand = counts("55m456p234678s");
    let no_tile = Tile::suited(Suit::Man, 10);
    let melds = [
        Meld::shuntsu(tile("1m")),
        Meld::koutsu(tile("1m")),
        Meld::shuntsu_open(tile("8m")),
        Meld::shuntsu_open(tile("9s")),
        Meld::shuntsu_open(tile("1z")),
        Meld::shuntsu_open(no_tile),
        Meld::koutsu_open(no_tile, Source::Left),
        Meld::kan(no_tile, KanType::Closed),
        // A sequence is called from the left alone.
        Meld::Shuntsu(tile("1m"), Some(Source::Right)),
        Meld::Shuntsu(tile("1m"), Some(Source::Across)),
    ];
    for meld in melds {
        all_refuse(&hand, &[meld], &ron("8s"), Refusal::NotACall);
    }
}

#[test]
fn number_3_calls_are_taken_from_each_player_who_can_be_called_from() {
    let hand = counts("55m456p234678s");
    let tile = tile("7z");
    let mut calls = vec![
        Meld::shuntsu_open(common::tile("1m")),
        Meld::kan(tile, KanType::Closed),
    ];
    for source in Source::ALL {
        calls.push(Meld::koutsu_open(tile, source));
        calls.push(Meld::kan(tile, KanType::Open(source)));
        calls.push(Meld::kan(tile, KanType::Added(source)));
    }
    for call in calls {
        // By the last tile there is a yaku, whatever the call.
        let context = ron("8s").last_tile();
        assert_eq!(refusals(&hand, &[call], &context), [None; 4]);
    }
}

#[test]
fn number_4_a_count_above_four() {
    for count in [5, 14, 128, 255] {
        let mut counts = counts(PINFU);
        counts[0] = count;
        all_refuse(&counts, &[], &ron("8s"), Refusal::CountAboveFour);
    }
}

#[test]
fn number_5_more_than_four_of_a_kind_with_the_calls() {
    let hand = counts("55m456p234678s");
    let calls = [
        Meld::koutsu_open(tile("5m"), Source::Right),
        Meld::kan(tile("4p"), KanType::Closed),
        Meld::kan(tile("6s"), KanType::Added(Source::Left)),
    ];
    for call in calls {
        all_refuse(&hand, &[call], &ron("8s"), Refusal::FiveOfAKind);
    }
}

#[test]
fn number_6_a_wrong_number_of_tiles() {
    let hands = ["", "1235m456p234678s", "1123555m456p234678s"];
    for hand in hands {
        all_refuse(&counts(hand), &[], &ron("8s"), Refusal::NumberOfTiles);
    }
    let calls = [Meld::koutsu_open(tile("1z"), Source::Across)];
    all_refuse(&counts(PINFU), &calls, &ron("8s"), Refusal::NumberOfTiles);
}

#[test]
fn number_7_too_short_a_buffer() {
    let counts = counts("222333444m567p88s");
    let bytes = 2 * record::STANDARD_LENGTH;
    for length in 0..=record::ALWAYS_ENOUGH {
        let mut out = vec![0xa5; length];
        let listing = list_readings(&counts, &[], &mut out);
        if length < bytes {
            assert_eq!(listing, Err(Refusal::BufferTooShort));
            assert_eq!(out, vec![0xa5; length]);
        } else {
            let expected = Listing { readings: 2, bytes };
            assert_eq!(listing, Ok(expected));
            assert!(out[bytes..].iter().all(|&byte| byte == 0xa5));
        }
    }
    // 6 comes before 7.
    let thirteen = list_readings(&common::counts("1235m456p234678s"), &[], &mut []);
    assert_eq!(thirteen, Err(Refusal::NumberOfTiles));
}

#[test]
fn number_8_a_dragon_as_wind() {
    for dragon in [Honor::White, Honor::Green, Honor::Red] {
        for context in [
            GameContext::new(WinType::Ron, dragon, Honor::East),
            GameContext::new(WinType::Tsumo, Honor::East, dragon),
        ] {
            // 8 comes before 9: there is no winning tile either.
            wins_refused(&counts(PINFU), &[], &context, Refusal::OutOfRange);
        }
    }
}

#[test]
fn number_9_a_winning_tile_that_the_hand_does_not_hold() {
    let hand = counts("55m456p234678s");
    let calls = [Meld::shuntsu_open(tile("1m"))];
    let no_tile = ron("8s").with_winning_tile(Tile::suited(Suit::Man, 0));
    let none = GameContext::new(WinType::Ron, Honor::East, Honor::South);
    for context in [ron("1z"), ron("1m"), no_tile, none] {
        wins_refused(&hand, &calls, &context, Refusal::WinningTile);
    }
}

/// Indicators that are refused: one that is no tile among others, and more than ten.
fn bad_indicators() -> [Vec<Tile>; 6] {
    let no_tile = Tile::suited(Suit::Pin, 0);
    let shown = |number: usize| vec![tile("4m"); number];
    [
        vec![no_tile],
        [&shown(9)[..], &[no_tile]].concat(),
        shown(11),
        shown(255),
        shown(256),
        shown(300),
    ]
}

#[test]
fn number_14_bad_indicators_of_either_sort() {
    for bad in bad_indicators() {
        for context in [ron("8s"), ron("8s").riichi()] {
            for context in [context.with_dora(&bad), context.with_ura_dora(&bad)] {
                wins_refused(&counts(PINFU), &[], &context, Refusal::Indicators);
            }
        }
    }
    // Ten of each sort are taken, also in place of too many.
    let [ten, eleven] = [10, 11].map(|number| vec![tile("4m"); number]);
    let context = ron("8s").with_dora(eleven).with_dora(&ten);
    let context = context.with_ura_dora(ten);
    assert_eq!(refusals(&counts(PINFU), &[], &context), [None; 4]);
}

#[test]
fn number_14_comes_after_8_and_before_9() {
    let thirteen = counts("1235m456p234678s");
    let no_reading = counts("12345m456p234678s");
    for bad in bad_indicators() {
        let dragon = GameContext {
            round_wind: Honor::White,
            ..ron("8s")
        };
        let none = GameContext {
            winning_tile: None,
            ..ron("8s")
        };
        let neither = GameContext {
            winning_tile: None,
            ..dragon
        };
        for (context, refusal) in [
            (ron("8s"), Refusal::Indicators),
            (dragon, Refusal::OutOfRange),
            (none, Refusal::Indicators),
            (neither, Refusal::OutOfRange),
        ] {
            for context in [context.with_dora(&bad), context.with_ura_dora(&bad)] {
                wins_refused(&counts(PINFU), &[], &context, refusal);
                wins_refused(&no_reading, &[], &context, refusal);
                all_refuse(&thirteen, &[], &context, Refusal::NumberOfTiles);
            }
        }
    }
}

#[test]
fn numbers_10_and_12_no_reading() {
    let hand = counts("12345m456p234678s");
    assert_eq!(decompose_hand(&hand, &[]), Ok(vec![]));
    let win = score_win(&hand, &[], &ron("8s"));
    assert_eq!(win, Err(Refusal::NoReading));
    let by_number = score_reading(&hand, &[], &ron("8s"), 0);
    assert_eq!(by_number, Err(Refusal::NoSuchReading));
}

#[test]
fn number_11_no_yaku() {
    let calls = [Meld::shuntsu_open(tile("1m"))];
    let win = score_win(&counts("55m456p234678s"), &calls, &ron("8s"));
    assert_eq!(win, Err(Refusal::NoYaku));
    // Dora alone are no yaku.
    let shown = ron("8s").with_dora([tile("4m"); 10]);
    let win = score_win(&counts("55m456p234678s"), &calls, &shown);
    assert_eq!(win, Err(Refusal::NoYaku));
}

#[test]
fn number_12_no_such_reading() {
    let hand = counts("222333444m567p88s");
    for n in [0, 1] {
        assert!(score_reading(&hand, &[], &ron("8s"), n).is_ok());
    }
    for n in [2, 3, 256, 1 << 32, usize::MAX] {
        let scored = score_reading(&hand, &[], &ron("8s"), n);
        assert_eq!(scored, Err(Refusal::NoSuchReading));
        let waits = detect_wait_types(&hand, &[], &ron("8s"), n);
        assert_eq!(waits, Err(Refusal::NoSuchReading));
    }
}

#[test]
fn number_13_too_many_basic_points() {
    for points in [152_001, 715_827_883, 1 << 30, u32::MAX] {
        for win_type in [WinType::Ron, WinType::Tsumo] {
            let payment = calculate_payment(points, true, win_type);
            assert_eq!(payment, Err(Refusal::BasicPoints));
        }
    }
}
