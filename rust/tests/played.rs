//! The played hands of the scope paper, line by line. Non-dealer, seat South, round East, no flags, unless
//! said.

mod common;

use common::{counts, ron, tile, tiles, tsumo};
use ziwhakemo::*;

const PINFU: &str = "12355m456p234678s";
const ORPHANS: &str = "119m19p19s1234567z";

/// Han, fu and total of each reading, in their order.
fn each_reading(hand: &str, calls: &[Meld], context: &GameContext) -> Vec<(u8, u8, u32)> {
    let counts = counts(hand);
    let readings = decompose_hand(&counts, calls).unwrap();
    let scores = (0..readings.len()).map(|n| score_reading(&counts, calls, context, n).unwrap());
    scores
        .map(|scored| {
            let result = scored.result;
            (result.han, result.fu.total, result.payment.total)
        })
        .collect()
}

/// The chosen reading's place, its han, fu and total.
fn chosen(hand: &str, context: &GameContext) -> (usize, u8, u8, u32) {
    let win = score_win(&counts(hand), &[], context).unwrap();
    let result = win.result;
    let by_number = score_reading(&counts(hand), &[], context, win.reading);
    assert_eq!(by_number, Ok(win.clone()));
    (
        win.reading,
        result.han,
        result.fu.total,
        result.payment.total,
    )
}

#[test]
fn closed_pinfu_by_tsumo() {
    let win = score_win(&counts(PINFU), &[], &tsumo("8s")).unwrap();
    let expected = ScoredWin {
        reading: 0,
        yaku_result: YakuResult {
            yaku_list: vec![Yaku::MenzenTsumo, Yaku::Pinfu],
            total_han: 2,
            dora_count: 0,
            regular_dora: 0,
            ura_dora: 0,
            is_yakuman: false,
        },
        result: ScoringResult {
            fu: FuResult { total: 20 },
            han: 2,
            score_level: ScoreLevel::Normal,
            basic_points: 320,
            payment: Payment {
                total: 1500,
                from_non_dealer: Some(400),
                from_dealer: Some(700),
                from_discarder: None,
            },
            is_dealer: false,
            is_counted_yakuman: false,
        },
    };
    assert_eq!(win, expected);
}

#[test]
fn the_same_by_ron() {
    let win = score_win(&counts(PINFU), &[], &ron("8s")).unwrap();
    assert_eq!(win.yaku_result.yaku_list, [Yaku::Pinfu]);
    assert_eq!((win.result.han, win.result.fu.total), (1, 30));
    let payment = Payment {
        total: 1000,
        from_non_dealer: None,
        from_dealer: None,
        from_discarder: Some(1000),
    };
    assert_eq!(win.result.payment, payment);
}

#[test]
fn three_triplets_or_three_sequences() {
    let hand = "222333444m567p88s";
    let both = [(2, 40, 2600), (3, 50, 6400)];
    assert_eq!(each_reading(hand, &[], &ron("8s")), both);
    assert_eq!(chosen(hand, &ron("8s")), (1, 3, 50, 6400));
}

#[test]
fn two_pairs_of_sequences_or_seven_pairs() {
    let hand = "223344m667788p55s";
    let both = [(3, 25, 3200), (5, 30, 8000)];
    assert_eq!(each_reading(hand, &[], &ron("4m")), both);
    assert_eq!(chosen(hand, &ron("4m")), (1, 5, 30, 8000));
    let readings = decompose_hand(&counts(hand), &[]).unwrap();
    assert!(matches!(readings[0], HandStructure::Chiitoitsu { .. }));
    assert!(matches!(readings[1], HandStructure::Standard { .. }));
}

#[test]
fn four_of_a_kind_is_one_reading() {
    let readings = decompose_hand(&counts("111123m456p789s11z"), &[]).unwrap();
    let expected = HandStructure::Standard {
        melds: vec![
            Meld::shuntsu(tile("1m")),
            Meld::koutsu(tile("1m")),
            Meld::shuntsu(tile("4p")),
            Meld::shuntsu(tile("7s")),
        ],
        pair: tile("1z"),
    };
    assert_eq!(readings, [expected]);
}

#[test]
fn thirteen_orphans() {
    assert_eq!(chosen(ORPHANS, &ron("1m")), (0, 26, 30, 64_000));
    assert_eq!(chosen(ORPHANS, &ron("9m")), (0, 13, 30, 32_000));
    let win = score_win(&counts(ORPHANS), &[], &ron("1m")).unwrap();
    assert_eq!(win.yaku_result.yaku_list, [Yaku::Kokushi13Wait]);
    assert_eq!(win.result.score_level, ScoreLevel::Yakuman(2));
    assert!(win.yaku_result.is_yakuman && !win.result.is_counted_yakuman);
}

#[test]
fn levels_and_basic_points() {
    let lines = [
        ((4, 30), 1920, ScoreLevel::Normal),
        ((4, 40), 2000, ScoreLevel::Mangan),
        ((3, 60), 1920, ScoreLevel::Normal),
        ((3, 70), 2000, ScoreLevel::Mangan),
        // From the corners of the paper.
        ((2, 130), 2000, ScoreLevel::Normal),
    ];
    for ((han, fu), points, level) in lines {
        assert_eq!(calculate_basic_points(han, fu, false), points, "{han} {fu}");
        assert_eq!(determine_score_level(han, fu, false), level, "{han} {fu}");
    }
    assert_eq!(determine_score_level(13, 30, false), ScoreLevel::Yakuman(1));
    assert_eq!(determine_score_level(39, 30, false), ScoreLevel::Yakuman(1));
    assert_eq!(determine_score_level(39, 30, true), ScoreLevel::Yakuman(3));
    assert_eq!(determine_score_level(0, 0, true), ScoreLevel::Yakuman(1));
}

#[test]
fn two_han_25_fu_by_ron() {
    let points = calculate_basic_points(2, 25, false);
    let total = |is_dealer| {
        let payment = calculate_payment(points, is_dealer, WinType::Ron).unwrap();
        assert_eq!(payment.from_discarder, Some(payment.total));
        payment.total
    };
    assert_eq!((total(false), total(true)), (1600, 2400));
}

#[test]
fn an_open_hand_without_a_yaku() {
    let hand = "55m456p234678s";
    let calls = [Meld::shuntsu_open(tile("1m"))];
    let win = score_win(&counts(hand), &calls, &ron("8s"));
    assert_eq!(win, Err(Refusal::NoYaku));
    assert_eq!(each_reading(hand, &calls, &ron("8s")), [(0, 30, 500)]);
    let reading = score_reading(&counts(hand), &calls, &ron("8s"), 0).unwrap();
    assert_eq!(reading.yaku_result.yaku_list, []);
}

#[test]
fn thirteen_tiles_and_four_calls() {
    let short = decompose_hand(&counts("1235m456p234678s"), &[]);
    assert_eq!(short, Err(Refusal::NumberOfTiles));

    let calls = [
        Meld::koutsu_open(tile("2m"), Source::Right),
        Meld::shuntsu_open(tile("3p")),
        Meld::kan(tile("7s"), KanType::Closed),
        Meld::kan(tile("7z"), KanType::Added(Source::Across)),
    ];
    let readings = decompose_hand(&counts("55z"), &calls).unwrap();
    let expected = HandStructure::Standard {
        melds: calls.to_vec(),
        pair: tile("5z"),
    };
    assert_eq!(readings, [expected]);
}

#[test]
fn the_greatest_payment() {
    let payment = calculate_payment(152_000, true, WinType::Ron).unwrap();
    assert_eq!(payment.total, 912_000);
    for win_type in [WinType::Ron, WinType::Tsumo] {
        let refused = calculate_payment(152_001, false, win_type);
        assert_eq!(refused, Err(Refusal::BasicPoints));
    }
}

#[test]
fn waits() {
    let waits = |hand: &str, context| detect_wait_types(&counts(hand), &[], &context, 0).unwrap();
    assert_eq!(waits(PINFU, ron("8s")), [WaitType::Ryanmen]);
    assert_eq!(waits(PINFU, ron("7s")), [WaitType::Kanchan]);
    assert_eq!(waits(PINFU, ron("3m")), [WaitType::Penchan]);
    assert_eq!(waits(PINFU, ron("5m")), [WaitType::Tanki]);
    // man 234 three times: each of them may have been completed.
    let several = waits("222333444m567p88s", ron("2m"));
    assert_eq!(several, [WaitType::Ryanmen; 3]);
    // As players name them, and agari the other way round.
    assert_eq!(waits(ORPHANS, ron("1m")), [WaitType::Kokushi13]);
    assert_eq!(waits(ORPHANS, ron("9m")), [WaitType::Tanki]);
    // An open sequence gives no wait: of sou 678 twice, only the closed one may have been completed.
    let open = [Meld::shuntsu_open(tile("6s"))];
    let named = detect_wait_types(&counts("55m456p234678s"), &open, &ron("8s"), 0);
    assert_eq!(named, Ok(vec![WaitType::Ryanmen]));
}

#[test]
fn the_wait_of_thirteen_orphans_tells_what_their_yaku_tells() {
    let orphans = tiles("19m19p19s1234567z");
    for &pair in &orphans {
        let hand = to_counts(&[&orphans[..], &[pair]].concat()).unwrap();
        for &winning_tile in &orphans {
            let context = ron("1m").with_winning_tile(winning_tile);
            let waits = detect_wait_types(&hand, &[], &context, 0).unwrap();
            let yaku = score_win(&hand, &[], &context).unwrap().yaku_result;
            let (wait, named) = match winning_tile == pair {
                true => (WaitType::Kokushi13, Yaku::Kokushi13Wait),
                false => (WaitType::Tanki, Yaku::KokushiMusou),
            };
            assert_eq!((waits, yaku.yaku_list), (vec![wait], vec![named]));
        }
    }
}

#[test]
fn a_wind_that_is_round_and_seat_wind_stands_twice() {
    let context = GameContext::new(WinType::Ron, Honor::East, Honor::East)
        .with_winning_tile(tile("8s"))
        .riichi();
    let win = score_win(&counts("55m456p678s234s111z"), &[], &context).unwrap();
    let east = Yaku::Yakuhai(Honor::East);
    assert_eq!(win.yaku_result.yaku_list, [Yaku::Riichi, east, east]);
    assert!(win.result.is_dealer);
}

#[test]
fn han_are_those_of_the_yaku() {
    let open = [Meld::koutsu_open(tile("7z"), Source::Left)];
    let hands = [
        (PINFU, &[][..], tsumo("8s").double_riichi().ippatsu()),
        ("11123456789999m", &[], tsumo("9m").riichi()),
        ("123456789m33s", &open, ron("3s")),
        ("11123456789m", &open, ron("3m").last_tile()),
        (ORPHANS, &[], ron("1m")),
    ];
    for (hand, calls, context) in hands {
        let win = score_win(&counts(hand), calls, &context).unwrap();
        let han = |yaku: &Yaku| match calls.iter().any(Meld::is_open) {
            true => yaku.han_open().unwrap(),
            false => yaku.han(),
        };
        let sum: u8 = win.yaku_result.yaku_list.iter().map(han).sum();
        assert_eq!((win.yaku_result.total_han, win.result.han), (sum, sum));
    }
}
