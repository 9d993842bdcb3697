//! The room's setting: four fu or two for a pair that is both round and seat wind.

mod common;

use common::{counts, ron, tile, tsumo};
use ziwhakemo::*;

const SETTINGS: [DoubleWindFu; 2] = [DoubleWindFu::Four, DoubleWindFu::Two];
const WINDS: [Honor; 4] = [Honor::East, Honor::South, Honor::West, Honor::North];

/// man 222, pin 456, sou 345 678, without its pair: 28 fu by tsumo on pin 5.
const FOUR_MELDS: &str = "222m456p345678s";

/// The win with these winds.
fn with_winds(win: GameContext, round_wind: Honor, seat_wind: Honor) -> GameContext {
    GameContext {
        round_wind,
        seat_wind,
        ..win
    }
}

/// The dealer's win in the East round.
fn in_the_east(win: GameContext) -> GameContext {
    with_winds(win, Honor::East, Honor::East)
}

/// The win under each setting, four and two, scored with no calls.
fn under_both(hand: &str, win: GameContext) -> [ScoredWin; 2] {
    SETTINGS.map(|fu| score_win(&counts(hand), &[], &win.with_double_wind_fu(fu)).unwrap())
}

#[test]
fn a_pair_of_east_gives_four_or_two() {
    let hand = format!("{FOUR_MELDS}11z");
    let win = in_the_east(tsumo("5p"));
    let [four, two] = under_both(&hand, win);
    assert_eq!((four.result.fu.total, two.result.fu.total), (40, 30));
    assert_eq!(four.result.basic_points, 320);
    assert_eq!(two.result.basic_points, 240);
    let from_each = |total, each| Payment {
        total,
        from_non_dealer: Some(each),
        from_dealer: None,
        from_discarder: None,
    };
    assert_eq!(four.result.payment, from_each(2100, 700));
    assert_eq!(two.result.payment, from_each(1500, 500));

    // Yaku, han, level and the reading are the same, and so are the waits.
    let menzen_tsumo = YakuResult {
        yaku_list: vec![Yaku::MenzenTsumo],
        total_han: 1,
        dora_count: 0,
        regular_dora: 0,
        ura_dora: 0,
        is_yakuman: false,
    };
    for (fu, scored) in SETTINGS.into_iter().zip([four, two]) {
        assert_eq!(scored.yaku_result, menzen_tsumo);
        assert_eq!((scored.reading, scored.result.han), (0, 1));
        assert_eq!(scored.result.score_level, ScoreLevel::Normal);
        let win = win.with_double_wind_fu(fu);
        let by_number = score_reading(&counts(&hand), &[], &win, 0);
        assert_eq!(by_number, Ok(scored));
        let waits = detect_wait_types(&counts(&hand), &[], &win, 0);
        assert_eq!(waits, Ok(vec![WaitType::Kanchan]));
    }
}

#[test]
fn four_where_nothing_is_said() {
    let win = in_the_east(tsumo("5p"));
    assert_eq!(win.double_wind_fu, DoubleWindFu::Four);
    assert_eq!(win.with_double_wind_fu(DoubleWindFu::Four), win);
    let hand = counts(&format!("{FOUR_MELDS}11z"));
    let scored = score_win(&hand, &[], &win).unwrap();
    assert_eq!(scored.result.payment.total, 2100);
}

#[test]
fn only_the_pair_that_is_both_winds() {
    for n in 1..=7 {
        let hand = format!("{FOUR_MELDS}{n}{n}z");
        let pair = tile(&format!("{n}z"));
        for (round, seat) in WINDS.into_iter().flat_map(|a| WINDS.map(|b| (a, b))) {
            let [four, two] = under_both(&hand, with_winds(tsumo("5p"), round, seat));
            if [round, seat].map(Tile::honor) == [pair; 2] {
                assert_eq!((four.result.fu.total, two.result.fu.total), (40, 30));
                assert_eq!(four.yaku_result, two.yaku_result);
            } else {
                assert_eq!(four.result.fu.total, 30);
                assert_eq!(four, two, "{hand} {round:?} {seat:?}");
            }
        }
    }
}

#[test]
fn other_hands_score_alike_under_both() {
    let hands = [
        // A triplet of the double wind stands twice.
        ("55m456p678s234s111z", ron("8s").riichi()),
        // A pair of it makes no pinfu, by either setting.
        ("123m456p234678s11z", ron("8s").riichi()),
        // Seven pairs have 25 fu, thirteen orphans 30.
        ("1199m3377p2255s11z", ron("1m")),
        ("19m19p19s11234567z", ron("1z")),
    ];
    for (hand, win) in hands {
        let [four, two] = under_both(hand, in_the_east(win));
        assert_eq!(four, two, "{hand}");
    }
    let [_, triplet] = under_both(hands[0].0, in_the_east(hands[0].1));
    let east = Yaku::Yakuhai(Honor::East);
    assert_eq!(triplet.yaku_result.yaku_list, [Yaku::Riichi, east, east]);
    let [_, no_pinfu] = under_both(hands[1].0, in_the_east(hands[1].1));
    assert_eq!(no_pinfu.yaku_result.yaku_list, [Yaku::Riichi]);
}

#[test]
fn an_open_hand_by_ron() {
    let calls = [
        Meld::koutsu_open(tile("7z"), Source::Across),
        Meld::shuntsu_open(tile("2m")),
    ];
    let [four, two] = SETTINGS.map(|fu| {
        let win = in_the_east(ron("8s")).with_double_wind_fu(fu);
        let scored = score_win(&counts("444p678s11z"), &calls, &win).unwrap();
        let red = Yaku::Yakuhai(Honor::Red);
        assert_eq!(scored.yaku_result.yaku_list, [red]);
        (scored.result.fu.total, scored.result.payment.total)
    });
    assert_eq!((four, two), ((40, 2000), (30, 1500)));
}
