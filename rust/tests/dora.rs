//! Dora: what the indicators that come with a win add.

mod common;

use common::{counts, ron, tile, tiles, tsumo};
use ziwhakemo::*;

const PINFU: &str = "12355m456p234678s";
const ORPHANS: &str = "119m19p19s1234567z";

/// man 222, pin 456, sou 345 678, East East: Menzen Tsumo with 30 fu by tsumo on pin 5, seat South.
const THREE_OF_MAN_2: &str = "222m456p345678s11z";

/// The dora of a win with no calls.
fn dora(hand: &str, context: &GameContext) -> DoraCount {
    score_win(&counts(hand), &[], context).unwrap().dora()
}

/// Han, level and total of a score.
fn worth(scored: &ScoredWin) -> (u8, ScoreLevel, u32) {
    let result = scored.result;
    (result.han, result.score_level, result.payment.total)
}

#[test]
fn dora_are_added_to_the_han_of_the_yaku() {
    let hand = counts(THREE_OF_MAN_2);
    let none = score_win(&hand, &[], &tsumo("5p")).unwrap();
    assert_eq!(worth(&none), (1, ScoreLevel::Normal, 1100));
    assert_eq!(none.dora(), DoraCount::default());

    // man 1 is shown: each of the three man 2 is a dora.
    let shown = tsumo("5p").with_dora(vec![tile("1m")]);
    let win = score_win(&hand, &[], &shown).unwrap();
    assert_eq!(worth(&win), (4, ScoreLevel::Normal, 7900));
    let yaku_result = YakuResult {
        yaku_list: vec![Yaku::MenzenTsumo],
        total_han: 1,
        dora_count: 3,
        regular_dora: 3,
        ura_dora: 0,
        is_yakuman: false,
    };
    assert_eq!(win.yaku_result, yaku_result);
    assert_eq!(yaku_result.total_han_with_dora(), 4);
    assert_eq!((win.dora().regular, win.dora().total()), (3, 3));
    assert_eq!(score_reading(&hand, &[], &shown, 0), Ok(win.clone()));

    // Neither fu nor waits go by dora.
    assert_eq!(win.result.fu, none.result.fu);
    let waits = |context| detect_wait_types(&hand, &[], &context, 0);
    assert_eq!(waits(shown), waits(tsumo("5p")));
}

#[test]
fn the_dora_is_the_tile_after_the_one_that_is_shown() {
    let circles = [
        ("123456789m", "234567891m"),
        ("123456789p", "234567891p"),
        ("123456789s", "234567891s"),
        ("1234z", "2341z"),
        ("567z", "675z"),
    ];
    let wins = [
        (PINFU, ron("8s")),
        (ORPHANS, ron("1m")),
        ("11123455678999m", ron("5m")),
        ("111999p111999s55z", tsumo("1p")),
        ("234m99s555666777z", ron("3m")),
        ("22m333444555666p", tsumo("3p")),
    ];
    for (indicators, dora_tiles) in circles {
        for (shown, dora_tile) in tiles(indicators).into_iter().zip(tiles(dora_tiles)) {
            for (hand, context) in wins {
                let held = counts(hand)[usize::from(dora_tile.number().unwrap())];
                let [regular, ura] = [
                    context.with_dora([shown]),
                    context.riichi().with_ura_dora([shown]),
                ]
                .map(|context| dora(hand, &context));
                assert_eq!((regular.regular, regular.ura), (held, 0), "{shown} {hand}");
                assert_eq!((ura.regular, ura.ura), (0, held), "{shown} {hand}");
            }
        }
    }
}

#[test]
fn each_indicator_adds_again() {
    for number in 0..=10 {
        let context = tsumo("5p").with_dora(vec![tile("1m"); number]);
        let regular = 3 * number as u8;
        assert_eq!(
            dora(THREE_OF_MAN_2, &context),
            DoraCount { regular, ura: 0 }
        );
    }
    // Three of man 2, two of East, none of South, in any order.
    for shown in ["1m4z1z", "1z1m4z", "4z1z1m"] {
        let context = tsumo("5p").with_dora(tiles(shown));
        assert_eq!(dora(THREE_OF_MAN_2, &context).total(), 5);
    }
}

#[test]
fn called_tiles_count_and_a_kan_as_four() {
    let hand = counts("55m456p234678s");
    let counted = |call: Meld, shown: &str| {
        let context = ron("8s").with_dora(tiles(shown));
        let reading = score_reading(&hand, &[call], &context, 0).unwrap();
        reading.dora().regular
    };
    assert_eq!(counted(Meld::kan(tile("1z"), KanType::Closed), "4z"), 4);
    for source in Source::ALL {
        for kan_type in [KanType::Open(source), KanType::Added(source)] {
            assert_eq!(counted(Meld::kan(tile("1z"), kan_type), "4z"), 4);
        }
        assert_eq!(counted(Meld::koutsu_open(tile("1z"), source), "4z"), 3);
    }
    assert_eq!(counted(Meld::shuntsu_open(tile("1m")), "129m"), 3);
    // One of pin 5 in the hand, and one in the call.
    assert_eq!(counted(Meld::shuntsu_open(tile("3p")), "4p"), 2);
}

#[test]
fn ura_dora_count_by_riichi_alone() {
    let both = |context: GameContext| {
        let context = context.with_dora([tile("4z")]);
        let context = context.with_ura_dora([tile("1m"), tile("1m")]);
        dora(THREE_OF_MAN_2, &context)
    };
    let [without, counted] = [0, 6].map(|ura| DoraCount { regular: 2, ura });
    assert_eq!(both(tsumo("5p")), without);
    assert_eq!(both(tsumo("5p").ippatsu().last_tile()), without);
    assert_eq!(both(tsumo("5p").riichi()), counted);
    assert_eq!(both(tsumo("5p").double_riichi()), counted);
    assert_eq!(counted.total(), 8);
    let double_alone = GameContext {
        is_double_riichi: true,
        ..tsumo("5p")
    };
    assert_eq!(both(double_alone), without);

    // On an open hand they count too: the flag is all that is asked.
    let calls = [Meld::koutsu_open(tile("7z"), Source::Left)];
    let context = ron("8s").riichi().with_ura_dora([tile("6z")]);
    let win = score_win(&counts("55m456p234678s"), &calls, &context).unwrap();
    assert_eq!(win.dora(), DoraCount { regular: 0, ura: 3 });
    assert_eq!(win.yaku_result.yaku_list, [Yaku::Yakuhai(Honor::Red)]);
    assert_eq!((win.yaku_result.total_han, win.result.han), (1, 4));
}

#[test]
fn a_yakuman_takes_no_dora() {
    let shown = [tile("9m"); 10];
    let context = ron("9m").riichi().with_dora(shown).with_ura_dora(shown);
    let win = score_win(&counts(ORPHANS), &[], &context).unwrap();
    assert_eq!(worth(&win), (13, ScoreLevel::Yakuman(1), 32_000));
    // They are counted all the same, and told.
    let counted = DoraCount {
        regular: 20,
        ura: 20,
    };
    assert_eq!(win.dora(), counted);
    let yaku_result = win.yaku_result;
    assert_eq!((yaku_result.total_han, yaku_result.dora_count), (13, 40));
    assert_eq!(yaku_result.total_han_with_dora(), 13);
    assert!(yaku_result.is_yakuman && !win.result.is_counted_yakuman);
}

#[test]
fn a_yakuman_comes_before_a_counted_one_of_the_same_total() {
    let hand = counts("222333444m666p88s");
    let shown = [vec![tile("1m"); 4], tiles("222333m")].concat();
    let context = tsumo("6p").with_dora(shown);
    let [sequences, triplets] = [0, 1].map(|n| score_reading(&hand, &[], &context, n).unwrap());
    let once = ScoreLevel::Yakuman(1);
    assert_eq!(worth(&sequences), (33, once, 32_000));
    assert!(sequences.result.is_counted_yakuman);
    assert_eq!(worth(&triplets), (13, once, 32_000));
    assert_eq!(triplets.yaku_result.yaku_list, [Yaku::Suuankou]);
    assert_eq!(triplets.dora().total(), 30);
    assert_eq!(score_win(&hand, &[], &context), Ok(triplets));
}

#[test]
fn the_greatest_total_is_chosen_and_not_the_most_han() {
    let hand = counts("77799m777888999s");
    let shown = [tiles("666677s"), tiles("8888s")].concat();
    let context = GameContext {
        round_wind: Honor::South,
        ..tsumo("9m").with_dora(shown)
    };
    let win = score_win(&hand, &[], &context).unwrap();
    assert_eq!(worth(&win), (26, ScoreLevel::Yakuman(2), 64_000));
    let readings = decompose_hand(&hand, &[]).unwrap().len();
    let others = (0..readings).filter(|&n| n != win.reading);
    let others: Vec<_> = others
        .map(|n| worth(&score_reading(&hand, &[], &context, n).unwrap()))
        .collect();
    assert_eq!(others, [(32, ScoreLevel::Yakuman(1), 32_000)]);
}

#[test]
fn dora_alone_are_no_yaku_and_have_a_price() {
    let hand = counts("55m456p234678s");
    let calls = [Meld::shuntsu_open(tile("1m"))];
    // Two of man 5 by each man 4, and one of sou 8 by each sou 7.
    let prices = [
        ("", 0, ScoreLevel::Normal, 500),
        ("7s", 1, ScoreLevel::Normal, 1000),
        ("444444m", 12, ScoreLevel::Sanbaiman, 24_000),
        ("444444m7s", 13, ScoreLevel::Yakuman(1), 32_000),
        ("4444444444m", 20, ScoreLevel::Yakuman(1), 32_000),
    ];
    for (shown, han, level, total) in prices {
        let context = ron("8s").with_dora(tiles(shown));
        let win = score_win(&hand, &calls, &context);
        assert_eq!(win, Err(Refusal::NoYaku));
        let reading = score_reading(&hand, &calls, &context, 0).unwrap();
        assert_eq!(worth(&reading), (han, level, total));
        assert_eq!(reading.yaku_result.yaku_list, []);
        assert_eq!(reading.yaku_result.total_han, 0);
        assert_eq!(reading.result.is_counted_yakuman, han >= 13);
    }
}

#[test]
fn indicators_are_kept_as_they_are_given() {
    let win = ron("8s");
    assert_eq!(win.dora_indicators, Indicators::default());
    assert_eq!(win.ura_dora_indicators, Indicators::NONE);
    let shown = tiles("123m");
    for context in [
        win.with_dora(shown.clone()),
        win.with_dora(&shown),
        win.with_dora(&shown[..]),
        win.with_dora([shown[0], shown[1], shown[2]]),
        win.with_dora([tile("9s"); 11]).with_dora(&shown),
    ] {
        assert_eq!(context.dora_indicators, Indicators::new(&shown));
        assert_eq!(context.dora_indicators.tiles(), shown);
        assert_eq!(context.ura_dora_indicators.tiles(), []);
        assert_eq!(context.with_dora([]), win);
    }
    let said = format!("{:?}", Indicators::new(&shown));
    assert_eq!(said, format!("{shown:?}"));
}

#[test]
fn of_more_than_ten_the_first_ten_are_kept_and_their_number() {
    for (given, count) in [(11, 11), (255, 255), (256, 255), (1000, 255)] {
        let many = Indicators::new(&vec![tile("5z"); given]);
        assert_eq!((many.count(), many.tiles()), (count, &[tile("5z"); 10][..]));
        assert!(format!("{many:?}").ends_with(", ..]"));
    }
    let ten = Indicators::new(&[tile("5z"); Indicators::MOST]);
    assert_eq!((ten.count(), ten.tiles().len()), (10, 10));
    assert_ne!(ten, Indicators::new(&[tile("5z"); 11]));
}
