//! Three players: what they alone are refused, what they are paid, and that all else is as with four.

mod common;

use common::{counts, ron, tile, tsumo};
use ziwhakemo::*;

const THREE: Variant = Variant::Sanma;
const FOUR: Variant = Variant::Yonma;
const WINDS: [Honor; 4] = [Honor::East, Honor::South, Honor::West, Honor::North];

/// A closed hand that both games take: a pinfu by ron on sou 8.
const PINFU: &str = "123p456p55p234678s";

/// A hand of which a call is missing.
const BUT_A_CALL: &str = "99m456p234678s";

/// A pon of Red from the player on the left.
fn pon() -> Meld {
    Meld::koutsu_open(tile("7z"), Source::Left)
}

/// What each of the four operations that take a hand says to it with three players.
fn refusals(counts: &[u8], calls: &[Meld], context: &GameContext) -> [Option<Refusal>; 4] {
    [
        THREE.decompose_hand(counts, calls).err(),
        THREE.score_win(counts, calls, context).err(),
        THREE.score_reading(counts, calls, context, 0).err(),
        THREE.detect_wait_types(counts, calls, context, 0).err(),
    ]
}

#[track_caller]
fn all_refuse(counts: &[u8], calls: &[Meld], context: &GameContext, refusal: Refusal) {
    assert_eq!(refusals(counts, calls, context), [Some(refusal); 4]);
}

/// Those that take a win, while the readings are listed.
#[track_caller]
fn wins_refused(counts: &[u8], calls: &[Meld], context: &GameContext, refusal: Refusal) {
    let refusal = Some(refusal);
    let expected = [None, refusal, refusal, refusal];
    assert_eq!(refusals(counts, calls, context), expected);
}

/// The win with these winds.
fn with_winds(win: GameContext, round_wind: Honor, seat_wind: Honor) -> GameContext {
    GameContext {
        round_wind,
        seat_wind,
        ..win
    }
}

/// Both games' answers to a win, three players first. They are alike but for the total.
fn in_both(hand: &str, calls: &[Meld], context: &GameContext) -> [ScoredWin; 2] {
    let [three, four] =
        [THREE, FOUR].map(|variant| variant.score_win(&counts(hand), calls, context).unwrap());
    let mut but_total = four.clone();
    but_total.result.payment.total = three.result.payment.total;
    assert_eq!(three, but_total, "{hand}");
    [three, four]
}

fn totals(scored: [ScoredWin; 2]) -> [u32; 2] {
    scored.map(|win| win.result.payment.total)
}

// ---- Without a variant ----

#[test]
fn the_functions_without_a_variant_are_of_four_players() {
    assert_eq!(Variant::default(), FOUR);
    // man 222 333 444 are absent with three players, and so is the source of this pon.
    let calls = [Meld::koutsu_open(tile("7z"), Source::Across)];
    let hands = [("222333444m567p88s", &[][..]), ("222333444m88s", &calls)];
    let context = tsumo("8s").riichi().with_dora([tile("1m")]);
    for (hand, calls) in hands {
        let hand = counts(hand);
        let readings = FOUR.decompose_hand(&hand, calls);
        assert_eq!(decompose_hand(&hand, calls), readings);
        assert_eq!(readings.unwrap().len(), 2);
        let win = FOUR.score_win(&hand, calls, &context);
        assert!(win.is_ok());
        assert_eq!(score_win(&hand, calls, &context), win);
        for n in 0..=2 {
            let scored = FOUR.score_reading(&hand, calls, &context, n);
            assert_eq!(score_reading(&hand, calls, &context, n), scored);
            let waits = FOUR.detect_wait_types(&hand, calls, &context, n);
            assert_eq!(detect_wait_types(&hand, calls, &context, n), waits);
        }
        let [mut ours, mut others] = [[0xa5; 100]; 2];
        let listing = FOUR.list_readings(&hand, calls, &mut ours);
        assert_eq!(list_readings(&hand, calls, &mut others), listing);
        assert_eq!(ours, others);
        assert_eq!(
            record::decode(&ours[..34]),
            record::decode_in(&ours[..34], FOUR)
        );
    }
    for (points, is_dealer) in [(2000, true), (320, false), (152_001, false)] {
        for win_type in [WinType::Ron, WinType::Tsumo] {
            let payment = FOUR.calculate_payment(points, is_dealer, win_type);
            assert_eq!(calculate_payment(points, is_dealer, win_type), payment);
        }
    }
}

// ---- Refusals ----

#[test]
fn number_3_a_sequence_is_not_called() {
    let hand = counts(BUT_A_CALL);
    for (first, source) in ["1p", "7p", "1s", "7s", "1m", "7m"]
        .into_iter()
        .flat_map(|first| Source::ALL.map(|source| (first, source)))
    {
        let chi = Meld::Shuntsu(tile(first), Some(source));
        all_refuse(&hand, &[chi], &ron("8s"), Refusal::NotACall);
    }
    assert!(FOUR.allows_chi() && !THREE.allows_chi());
    let chi = [Meld::shuntsu_open(tile("1p"))];
    assert!(FOUR.decompose_hand(&hand, &chi).is_ok());
}

#[test]
fn number_3_an_absent_tile_is_not_called() {
    let hand = counts("99m456p234678s");
    for number in 0..34 {
        let tile = Tile::from_number(number).unwrap();
        for call in [
            Meld::koutsu_open(tile, Source::Right),
            Meld::kan(tile, KanType::Closed),
            Meld::kan(tile, KanType::Open(Source::Left)),
            Meld::kan(tile, KanType::Added(Source::Right)),
        ] {
            let listed = THREE.decompose_hand(&hand, &[call]).err();
            let is_refused = listed == Some(Refusal::NotACall);
            assert_eq!(is_refused, !THREE.in_wall(tile), "{tile}");
        }
    }
    for man in 2..=8 {
        let pon = Meld::koutsu_open(Tile::suited(Suit::Man, man), Source::Right);
        all_refuse(&hand, &[pon], &ron("8s"), Refusal::NotACall);
    }
}

#[test]
fn number_3_nobody_sits_across() {
    let hand = counts(BUT_A_CALL);
    let red = tile("7z");
    let calls = |source| {
        [
            Meld::koutsu_open(red, source),
            Meld::kan(red, KanType::Open(source)),
            Meld::kan(red, KanType::Added(source)),
        ]
    };
    for source in Source::ALL {
        for call in calls(source) {
            let expected = match source {
                Source::Across => [Some(Refusal::NotACall); 4],
                Source::Right | Source::Left => [None; 4],
            };
            assert_eq!(refusals(&hand, &[call], &ron("8s")), expected);
        }
    }
    let closed = Meld::kan(red, KanType::Closed);
    assert_eq!(refusals(&hand, &[closed], &ron("8s")), [None; 4]);
}

#[test]
fn number_3_comes_after_2_and_before_4() {
    let mut hand = counts(BUT_A_CALL);
    hand[4] = 1;
    for no_call in [
        Meld::shuntsu_open(tile("1p")),
        Meld::koutsu_open(tile("5m"), Source::Left),
        Meld::koutsu_open(tile("7z"), Source::Across),
    ] {
        // One that is a call beside it does not help.
        let calls = [pon(), no_call.clone()];
        all_refuse(&hand, &calls, &ron("8s"), Refusal::NotACall);
        let five = vec![no_call; 5];
        all_refuse(&hand, &five, &ron("8s"), Refusal::TooManyCalls);
        all_refuse(&hand[1..], &five, &ron("8s"), Refusal::CountsLength);
    }
}

#[test]
fn number_4_an_absent_tile_in_the_hand() {
    for (man, count) in (2..=8).flat_map(|man| [1, 2, 3, 4, 5, 255].map(|count| (man, count))) {
        let mut hand = counts(PINFU);
        hand[man - 1] = count;
        all_refuse(&hand, &[], &ron("8s"), Refusal::CountAboveFour);
    }
    // A hand of 14 tiles that four players read.
    let whole = counts("123m456p55p234678s");
    assert!(FOUR.score_win(&whole, &[], &ron("8s")).is_ok());
    all_refuse(&whole, &[], &ron("8s"), Refusal::CountAboveFour);
    // Of the other tiles four are taken, and five are not.
    let mut hand = counts("1111999m456p11s77z");
    assert_eq!(THREE.decompose_hand(&hand, &[]), Ok(vec![]));
    hand[0] = 5;
    all_refuse(&hand, &[], &ron("7z"), Refusal::CountAboveFour);
}

#[test]
fn number_4_comes_before_5_6_8_14_and_9() {
    let dragon = with_winds(ron("8s"), Honor::White, Honor::South);
    let shown = dragon.with_dora([tile("7s")]);
    let none = GameContext {
        winning_tile: Some(tile("5m")),
        ..shown
    };
    // 15 tiles, of which man 5 is absent, and five of Red with the pon.
    let hand = counts("5m99m456p234678s77z");
    for context in [ron("8s"), dragon, shown, none] {
        all_refuse(&hand, &[], &context, Refusal::CountAboveFour);
        all_refuse(&hand, &[pon()], &context, Refusal::CountAboveFour);
    }
}

#[test]
fn numbers_5_and_6_as_with_four() {
    let hand = counts("456p234678s77z");
    all_refuse(&hand, &[pon()], &ron("8s"), Refusal::FiveOfAKind);
    let thirteen = counts("123p456p5p234678s");
    all_refuse(&thirteen, &[], &ron("8s"), Refusal::NumberOfTiles);
    all_refuse(&counts(PINFU), &[pon()], &ron("8s"), Refusal::NumberOfTiles);
}

#[test]
fn number_7_too_short_a_buffer() {
    let hand = counts("222333444p567s88s");
    let bytes = 2 * record::STANDARD_LENGTH;
    for length in 0..=2 * bytes {
        let mut out = vec![0xa5; length];
        let listing = THREE.list_readings(&hand, &[], &mut out);
        if length < bytes {
            assert_eq!(listing, Err(Refusal::BufferTooShort));
            assert_eq!(out, vec![0xa5; length]);
        } else {
            assert_eq!(listing, Ok(Listing { readings: 2, bytes }));
            assert!(out[bytes..].iter().all(|&byte| byte == 0xa5));
        }
    }
    // 4 comes before 7.
    let absent = THREE.list_readings(&counts("222333444m567p88s"), &[], &mut []);
    assert_eq!(absent, Err(Refusal::CountAboveFour));
}

#[test]
fn number_8_a_dragon_as_wind() {
    for dragon in [Honor::White, Honor::Green, Honor::Red] {
        for context in [
            with_winds(ron("8s"), dragon, Honor::East),
            with_winds(ron("8s"), Honor::East, dragon),
        ] {
            wins_refused(&counts(PINFU), &[], &context, Refusal::OutOfRange);
            // 8 comes before 14 and 9.
            let shown = context.with_dora([tile("1p")]);
            let absent = shown.with_winning_tile(tile("5m"));
            for context in [shown, absent] {
                wins_refused(&counts(PINFU), &[], &context, Refusal::OutOfRange);
            }
        }
    }
}

#[test]
fn number_14_any_indicator_of_either_sort() {
    let no_tile = Tile::suited(Suit::Pin, 0);
    let shown = ["1m", "4m", "9p", "4z"].map(|text| vec![tile(text)]);
    let many = [1, 10, 11, 300].map(|number| vec![tile("1p"); number]);
    for indicators in shown.into_iter().chain(many).chain([vec![no_tile]]) {
        for context in [ron("8s"), ron("8s").riichi(), tsumo("8s")] {
            for context in [
                context.with_dora(&indicators),
                context.with_ura_dora(&indicators),
            ] {
                wins_refused(&counts(PINFU), &[], &context, Refusal::Indicators);
                // 14 comes before 9 and 12.
                let absent = context.with_winning_tile(tile("5m"));
                wins_refused(&counts(PINFU), &[], &absent, Refusal::Indicators);
                let beyond = THREE.score_reading(&counts(PINFU), &[], &context, 9);
                assert_eq!(beyond, Err(Refusal::Indicators));
                // And 6 before 14.
                let thirteen = counts("123p456p5p234678s");
                all_refuse(&thirteen, &[], &context, Refusal::NumberOfTiles);
            }
        }
    }
    let none = ron("8s").with_dora([]).with_ura_dora([]);
    assert_eq!(refusals(&counts(PINFU), &[], &none), [None; 4]);
}

#[test]
fn number_9_an_absent_winning_tile() {
    let no_tile = ron("8s").with_winning_tile(Tile::suited(Suit::Man, 0));
    let none = GameContext::new(WinType::Ron, Honor::East, Honor::South);
    let absent = (2..=8).map(|man| ron(&format!("{man}m")));
    for context in absent.chain([ron("1m"), ron("1z"), no_tile, none]) {
        wins_refused(&counts(PINFU), &[], &context, Refusal::WinningTile);
        // 9 comes before 10 and 12.
        let no_reading = counts("124p456p55p234678s");
        wins_refused(&no_reading, &[], &context, Refusal::WinningTile);
    }
    // The tile of a call is not in the hand.
    wins_refused(
        &counts(BUT_A_CALL),
        &[pon()],
        &ron("7z"),
        Refusal::WinningTile,
    );
}

#[test]
fn numbers_10_to_13_as_with_four() {
    let no_reading = counts("124p456p55p234678s");
    assert_eq!(THREE.decompose_hand(&no_reading, &[]), Ok(vec![]));
    let win = THREE.score_win(&no_reading, &[], &ron("8s"));
    assert_eq!(win, Err(Refusal::NoReading));
    let no_yaku = [Meld::koutsu_open(tile("4z"), Source::Right)];
    let win = THREE.score_win(&counts(BUT_A_CALL), &no_yaku, &ron("8s"));
    assert_eq!(win, Err(Refusal::NoYaku));
    let scored = THREE.score_reading(&counts(BUT_A_CALL), &no_yaku, &ron("8s"), 0);
    assert_eq!(scored.unwrap().result.han, 0);
    for n in [1, 2, 256, usize::MAX] {
        let scored = THREE.score_reading(&counts(PINFU), &[], &ron("8s"), n);
        assert_eq!(scored, Err(Refusal::NoSuchReading));
        let waits = THREE.detect_wait_types(&counts(PINFU), &[], &ron("8s"), n);
        assert_eq!(waits, Err(Refusal::NoSuchReading));
    }
    for win_type in [WinType::Ron, WinType::Tsumo] {
        let payment = THREE.calculate_payment(152_001, true, win_type);
        assert_eq!(payment, Err(Refusal::BasicPoints));
        assert!(THREE.calculate_payment(152_000, true, win_type).is_ok());
    }
}

// ---- Payments ----

#[test]
fn payments_of_both_games_side_by_side() {
    let paid = |total, from_non_dealer, from_dealer, from_discarder| Payment {
        total,
        from_non_dealer,
        from_dealer,
        from_discarder,
    };
    let by_tsumo = |total, each, dealer| paid(total, Some(each), dealer, None);
    let by_ron = |total| paid(total, None, None, Some(total));
    let (ron, tsumo) = (WinType::Ron, WinType::Tsumo);
    let rows = [
        // Mangan: 4,000 all; 4,000 and 2,000; ron.
        (2000, true, tsumo, by_tsumo(8000, 4000, None), 12_000),
        (2000, false, tsumo, by_tsumo(6000, 2000, Some(4000)), 8000),
        (2000, true, ron, by_ron(12_000), 12_000),
        (2000, false, ron, by_ron(8000), 8000),
        // 1 han 30 fu, each amount rounded up by itself.
        (240, true, tsumo, by_tsumo(1000, 500, None), 1500),
        (240, false, tsumo, by_tsumo(800, 300, Some(500)), 1100),
        (240, true, ron, by_ron(1500), 1500),
        (240, false, ron, by_ron(1000), 1000),
        // A yakuman.
        (8000, true, tsumo, by_tsumo(32_000, 16_000, None), 48_000),
        (
            8000,
            false,
            tsumo,
            by_tsumo(24_000, 8000, Some(16_000)),
            32_000,
        ),
        (0, true, tsumo, by_tsumo(0, 0, None), 0),
        (0, false, tsumo, by_tsumo(0, 0, Some(0)), 0),
    ];
    for (points, is_dealer, win_type, three, total) in rows {
        let payment = |variant: Variant| variant.calculate_payment(points, is_dealer, win_type);
        assert_eq!(
            payment(THREE),
            Ok(three),
            "{points} {is_dealer} {win_type:?}"
        );
        assert_eq!(payment(FOUR), Ok(Payment { total, ..three }));
    }
}

#[test]
fn totals_are_of_as_many_payers_as_there_are_others() {
    for (points, is_dealer) in (0..152_000)
        .step_by(37)
        .flat_map(|p| [(p, true), (p, false)])
    {
        for variant in Variant::ALL {
            let payment = variant.calculate_payment(points, is_dealer, WinType::Tsumo);
            let payment = payment.unwrap();
            let each = payment.from_non_dealer.unwrap();
            let total = match payment.from_dealer {
                None => (variant.players() - 1) * each,
                Some(dealer) => dealer + (variant.players() - 2) * each,
            };
            assert_eq!(payment.total, total, "{points} {is_dealer}");
        }
    }
}

#[test]
fn a_win_pays_the_total_of_its_game() {
    // Riichi, tsumo and honitsu: mangan.
    let hand = "123345678999p33z";
    let win = tsumo("5p").riichi();
    let of_the_dealer = with_winds(win, Honor::East, Honor::East);
    assert_eq!(totals(in_both(hand, &[], &of_the_dealer)), [8000, 12_000]);
    assert_eq!(totals(in_both(hand, &[], &win)), [6000, 8000]);
    // By ron it is honitsu and riichi: 4 han 40 fu, mangan too.
    assert_eq!(
        totals(in_both(hand, &[], &ron("5p").riichi())),
        [8000, 8000]
    );
    let [three, _] = in_both(hand, &[], &of_the_dealer);
    let payment = Payment {
        total: 8000,
        from_non_dealer: Some(4000),
        from_dealer: None,
        from_discarder: None,
    };
    assert_eq!(three.result.payment, payment);
    // With a pon from the left: 700 and 400.
    let [three, _] = in_both("999m345p456s88s", &[pon()], &tsumo("5p"));
    assert_eq!((three.result.han, three.result.fu.total), (1, 40));
    assert_eq!(three.result.payment.total, 1100);
}

// ---- Readings and waits ----

#[test]
fn readings_of_a_hand_with_man_1_and_man_9() {
    let calls = [Meld::kan(tile("4z"), KanType::Added(Source::Left))];
    let readings = THREE.decompose_hand(&counts("111999m88s123p"), &calls);
    let expected = HandStructure::Standard {
        melds: vec![
            Meld::koutsu(tile("1m")),
            Meld::koutsu(tile("9m")),
            Meld::shuntsu(tile("1p")),
            Meld::kan(tile("4z"), KanType::Added(Source::Left)),
        ],
        pair: tile("8s"),
    };
    assert_eq!(readings, Ok(vec![expected]));

    let pairs = THREE.decompose_hand(&counts("1199m1199p1199s44z"), &[]);
    let expected = ["1m", "9m", "1p", "9p", "1s", "9s", "4z"].map(tile);
    let expected = HandStructure::Chiitoitsu {
        pairs: expected.to_vec(),
    };
    assert_eq!(pairs, Ok(vec![expected]));

    let orphans = counts("119m19p19s1234567z");
    let expected = HandStructure::Kokushi { pair: tile("1m") };
    assert_eq!(THREE.decompose_hand(&orphans, &[]), Ok(vec![expected]));
    for (winning_tile, wait) in [("1m", WaitType::Kokushi13), ("9m", WaitType::Tanki)] {
        let waits = THREE.detect_wait_types(&orphans, &[], &tsumo(winning_tile), 0);
        assert_eq!(waits, Ok(vec![wait]));
    }
    let win = THREE.score_win(&orphans, &[], &tsumo("1m")).unwrap();
    assert_eq!(win.result.payment.total, 32_000 + 16_000);
}

#[test]
fn readings_say_who_the_tile_came_from() {
    for source in [Source::Right, Source::Left] {
        let calls = [
            Meld::koutsu_open(tile("1z"), source),
            Meld::kan(tile("7z"), KanType::Open(source)),
        ];
        let hand = counts("22334455p");
        let readings = THREE.decompose_hand(&hand, &calls).unwrap();
        assert_eq!(readings.len(), 2);
        for reading in readings {
            let HandStructure::Standard { melds, .. } = reading else {
                panic!("a hand with calls is four melds and a pair");
            };
            assert_eq!(melds[2..], calls);
        }
        // In the bytes of a record stands how many seats onward.
        let mut out = [0; record::ALWAYS_ENOUGH];
        let listing = THREE.list_readings(&hand, &calls, &mut out).unwrap();
        let sources = [out[13], out[16]].map(|number| Source::from_number_in(number, THREE));
        assert_eq!(sources, [Some(source); 2]);
        let decoded = record::decode_in(&out[..listing.bytes], THREE);
        assert_eq!(decoded, THREE.decompose_hand(&hand, &calls).ok());
    }
}

#[test]
fn a_source_is_told_by_two_seats() {
    for caller in 0..3 {
        let sources = [1, 2].map(|onward| {
            let from = (caller + onward) % 3;
            Source::from_number_in((from + 3 - caller) % 3, THREE)
        });
        assert_eq!(sources, [Some(Source::Right), Some(Source::Left)]);
        assert_eq!(
            Source::from_number_in((caller + 3 - caller) % 3, THREE),
            None
        );
    }
}

#[test]
fn scores_and_waits_are_the_same_from_either_player() {
    let hand = counts("22334455p");
    let calls = |source| {
        [
            Meld::koutsu_open(tile("1z"), source),
            Meld::kan(tile("7z"), KanType::Added(source)),
        ]
    };
    let [right, left] = [Source::Right, Source::Left].map(calls);
    for context in [ron("2p"), tsumo("4p")] {
        let win = THREE.score_win(&hand, &right, &context);
        assert!(win.is_ok());
        assert_eq!(THREE.score_win(&hand, &left, &context), win);
        for n in 0..=2 {
            let scored = THREE.score_reading(&hand, &right, &context, n);
            assert_eq!(THREE.score_reading(&hand, &left, &context, n), scored);
            let waits = THREE.detect_wait_types(&hand, &right, &context, n);
            assert_eq!(THREE.detect_wait_types(&hand, &left, &context, n), waits);
        }
    }
}

// ---- Winds ----

#[test]
fn north_is_a_wind_like_the_others() {
    let hand = "99m456p234678s444z";
    let north = Yaku::Yakuhai(Honor::North);
    for (round, seat, times) in [
        (Honor::East, Honor::North, 1),
        (Honor::North, Honor::East, 1),
        (Honor::North, Honor::North, 2),
    ] {
        let [three, _] = in_both(hand, &[], &with_winds(ron("8s"), round, seat));
        assert_eq!(three.yaku_result.yaku_list, vec![north; times]);
        assert_eq!(three.result.is_dealer, seat == Honor::East);
    }
    // Where it is neither, a triplet of it is no yaku.
    let win = THREE.score_win(&counts(hand), &[], &ron("8s"));
    assert_eq!(win, Err(Refusal::NoYaku));
    // Seat North by tsumo: the dealer and one other pay.
    let seat = with_winds(tsumo("8s"), Honor::East, Honor::North);
    let [three, four] = in_both(hand, &[], &seat);
    assert_eq!((three.result.han, three.result.fu.total), (2, 30));
    let payment = Payment {
        total: 1500,
        from_non_dealer: Some(500),
        from_dealer: Some(1000),
        from_discarder: None,
    };
    assert_eq!(
        (three.result.payment, four.result.payment.total),
        (payment, 2000)
    );
}

#[test]
fn the_setting_applies_to_the_pair_that_is_both_winds() {
    // Four melds of 28 fu by tsumo on pin 5.
    for (n, wind) in (1..=4).zip(WINDS) {
        let hand = format!("222p456p345678s{n}{n}z");
        let context = with_winds(tsumo("5p"), wind, wind);
        let scored = [DoubleWindFu::Four, DoubleWindFu::Two].map(|fu| {
            let [three, _] = in_both(&hand, &[], &context.with_double_wind_fu(fu));
            (three.result.fu.total, three.result.payment.total)
        });
        // 320 basic points or 240: 700 each, 500 each; 700 and 400, 500 and 300.
        let expected = match wind {
            Honor::East => [(40, 1400), (30, 1000)],
            _ => [(40, 1100), (30, 800)],
        };
        assert_eq!(scored, expected, "{wind:?}");
    }
}

// ---- Both games ----

/// Hands without absent tiles, with calls that both games take and a winning tile.
fn hands_of_both() -> Vec<(&'static str, Vec<Meld>, &'static str)> {
    let kan = |text, kan_type| Meld::kan(tile(text), kan_type);
    vec![
        (PINFU, vec![], "8s"),
        ("222333444p567s88s", vec![], "8s"),
        ("223344p667788s55s", vec![], "4p"),
        ("1199m1199p1199s44z", vec![], "4z"),
        ("119m19p19s1234567z", vec![], "1m"),
        ("119m19p19s1234567z", vec![], "9m"),
        ("111999m111999p11s", vec![], "1s"),
        ("111m111p111s789p44z", vec![], "9p"),
        ("11123455678999s", vec![], "5s"),
        ("99m456p234678s", vec![pon()], "8s"),
        ("22334455p", vec![pon(), kan("1z", KanType::Closed)], "2p"),
        (
            "44z",
            vec![
                kan("1m", KanType::Open(Source::Right)),
                kan("9m", KanType::Added(Source::Left)),
                kan("9p", KanType::Closed),
                Meld::koutsu_open(tile("3z"), Source::Right),
            ],
            "4z",
        ),
    ]
}

#[test]
fn both_games_answer_a_ron_alike() {
    for (hand, calls, winning_tile) in hands_of_both() {
        for (round, seat) in WINDS.into_iter().flat_map(|a| WINDS.map(|b| (a, b))) {
            let context = with_winds(ron(winning_tile).riichi(), round, seat);
            let [three, four] = in_both(hand, &calls, &context);
            assert_eq!(three, four, "{hand}");
        }
    }
}

#[test]
fn both_games_answer_a_tsumo_alike_but_for_the_total() {
    for (hand, calls, winning_tile) in hands_of_both() {
        for seat in WINDS {
            let context = with_winds(tsumo(winning_tile), Honor::South, seat);
            let [three, four] = in_both(hand, &calls, &context.last_tile());
            let each = four.result.payment.from_non_dealer.unwrap();
            let total = three.result.payment.total;
            assert_eq!(total, four.result.payment.total - each, "{hand}");
        }
    }
}

#[test]
fn both_games_list_alike() {
    for (hand, calls, winning_tile) in hands_of_both() {
        let hand = counts(hand);
        let readings = THREE.decompose_hand(&hand, &calls).unwrap();
        assert_eq!(FOUR.decompose_hand(&hand, &calls).unwrap(), readings);
        for n in 0..=readings.len() {
            let [three, four] = [THREE, FOUR]
                .map(|game| game.detect_wait_types(&hand, &calls, &ron(winning_tile), n));
            assert_eq!(three, four);
            assert_eq!(three.is_ok(), n < readings.len());
        }
    }
}
