//! The functions with agari's signatures, beside the checked ones.
#![cfg(feature = "std")]

mod common;

use common::{counts, ron, tile, tiles};
use ziwhakemo::agari;
use ziwhakemo::*;

fn map(text: &str) -> TileCounts {
    agari::to_counts(&tiles(text))
}

#[test]
fn counts_are_a_map() {
    let counted = map("11123m5z");
    assert_eq!(counted[&tile("1m")], 3);
    assert_eq!((counted[&tile("5z")], counted.len()), (1, 4));
    assert_eq!(agari::to_counts(&[tile("1m"); 300])[&tile("1m")], 255);
    let none = Tile::suited(Suit::Man, 10);
    assert_eq!(agari::to_counts(&[none])[&none], 1);
}

#[test]
fn hands_may_come_as_tiles_or_as_a_map() {
    for hand in ["12355m456p234678s", "19m19p19s12345677z"] {
        assert_eq!(counts_of(&map(hand)), to_counts(&tiles(hand)));
    }
}

#[test]
fn readings_are_those_of_the_checked_function() {
    let pon = [Meld::koutsu_open(tile("7z"), Source::Across)];
    for hand in [
        "12355m456p234678s",
        "222333444m567p88s",
        "66677778888999m",
        "223344m667788p55s",
        "19m19p19s12345677z",
        "12345m456p234678s",
    ] {
        let checked = decompose_hand(&counts(hand), &[]).unwrap();
        assert_eq!(agari::is_winning_hand(&map(hand)), !checked.is_empty());
        assert_eq!(agari::decompose_hand(&map(hand)), checked, "{hand}");
    }
    let checked = decompose_hand(&counts("222333444m55z"), &pon).unwrap();
    let called = agari::decompose_hand_with_melds(&map("222333444m55z"), &pon);
    assert_eq!((called.len(), called), (2, checked));
}

#[test]
fn with_melds_but_none_called_only_four_melds_and_a_pair_are_found() {
    let both = map("223344m667788p55s");
    assert_eq!(agari::decompose_hand(&both).len(), 2);
    let found = agari::decompose_hand_with_melds(&both, &[]);
    assert!(matches!(found[..], [HandStructure::Standard { .. }]));
    let orphans = map("19m19p19s12345677z");
    assert_eq!(agari::decompose_hand_with_melds(&orphans, &[]), []);
}

#[test]
fn kinds_of_hands() {
    let kinds = |hand| {
        let counts = map(hand);
        let [standard, pairs] =
            [agari::is_standard_hand, agari::is_chiitoitsu].map(|is| is(&counts));
        [agari::is_winning_hand(&counts), standard, pairs]
    };
    assert_eq!(kinds("12355m456p234678s"), [true, true, false]);
    assert_eq!(kinds("223344m667788p55s"), [true, true, true]);
    assert_eq!(kinds("1133m2244p5566s77z"), [true, false, true]);
    assert_eq!(kinds("19m19p19s12345677z"), [true, false, false]);
    assert_eq!(kinds("12345m456p234678s"), [false; 3]);
}

#[test]
fn a_refusal_is_an_empty_list_or_false() {
    let mut no_tile = map("1235m456p234678s");
    no_tile.insert(Tile::suited(Suit::Man, 10), 1);
    let mut five = map("12355m456p234678s");
    five.insert(tile("5m"), 5);
    let thirteen = map("1235m456p234678s");
    for counts in [no_tile, five, thirteen, TileCounts::new()] {
        assert_eq!(agari::decompose_hand(&counts), []);
        assert!(!agari::is_winning_hand(&counts));
        assert!(!agari::is_standard_hand(&counts));
        assert!(!agari::is_chiitoitsu(&counts));
    }
    let hand = map("55z");
    let five = vec![Meld::koutsu_open(tile("1z"), Source::Left); 5];
    assert_eq!(agari::decompose_hand_with_melds(&hand, &five), []);
    let hand = map("55m456p234678s");
    let chi_from_across = Meld::Shuntsu(tile("1m"), Some(Source::Across));
    for no_call in [Meld::koutsu(tile("1z")), chi_from_across] {
        assert_eq!(agari::decompose_hand_with_melds(&hand, &[no_call]), []);
    }
}

#[test]
fn a_key_with_count_0_is_no_tile_of_the_hand() {
    let mut counts = map("1133m2244p5566s77z");
    counts.insert(tile("9s"), 0);
    assert!(agari::is_chiitoitsu(&counts));
}

#[test]
fn hands_are_validated() {
    assert_eq!(agari::validate_hand(&tiles("12345m456p234678s")), Ok(()));
    let said = |tiles: &[Tile]| agari::validate_hand(tiles).unwrap_err();
    let short = said(&tiles("1235m456p234678s"));
    assert_eq!(short, Refusal::NumberOfTiles.to_string());
    let five = said(&tiles("11111m456p234678s"));
    assert_eq!(five, Refusal::CountAboveFour.to_string());
    let none = said(&[Tile::suited(Suit::Man, 0); 14]);
    assert_eq!(none, "the value of a tile is not 1 to 9");
}

#[test]
fn waits_of_a_reading_are_those_by_its_number() {
    let calls = [
        Meld::shuntsu_open(tile("6s")),
        Meld::kan(tile("1z"), KanType::Closed),
    ];
    for (hand, calls) in [
        ("222333444m567p88s", &[][..]),
        ("223344m667788p55s", &[]),
        ("19m19p19s12345677z", &[]),
        ("55m456p678s", &calls),
    ] {
        let readings = decompose_hand(&counts(hand), calls).unwrap();
        for winning_tile in tiles(hand) {
            let context = ron("1m").with_winning_tile(winning_tile);
            for (n, reading) in readings.iter().enumerate() {
                let checked = detect_wait_types(&counts(hand), calls, &context, n);
                let waits = agari::detect_wait_types(reading, winning_tile);
                assert_eq!(Ok(waits), checked, "{hand}");
            }
        }
    }
}

#[test]
fn waits_are_the_same_whoever_a_tile_came_from() {
    let called = |source| {
        [
            Meld::koutsu_open(tile("7z"), source),
            Meld::shuntsu_open(tile("6s")),
        ]
    };
    let hand = "55m456p678s";
    for winning_tile in tiles(hand) {
        let waits = Source::ALL.map(|source| {
            let readings = decompose_hand(&counts(hand), &called(source)).unwrap();
            agari::detect_wait_types(&readings[0], winning_tile)
        });
        assert!(!waits[0].is_empty());
        assert!(waits.iter().all(|other| *other == waits[0]));
    }
}

#[test]
fn waits_ask_for_a_reading_in_any_order_and_a_tile_of_the_hand() {
    let melds = |values: [u8; 4]| values.map(|value| Meld::shuntsu(Tile::suited(Suit::Man, value)));
    let reading = HandStructure::Standard {
        melds: melds([7, 4, 1, 1]).to_vec(),
        pair: tile("5z"),
    };
    let waits = |winning| agari::detect_wait_types(&reading, tile(winning));
    assert_eq!(waits("2m"), [WaitType::Kanchan; 2]);
    assert_eq!(waits("7m"), [WaitType::Penchan]);
    assert_eq!(waits("5z"), [WaitType::Tanki]);
    assert_eq!(waits("6z"), []);
    // Three melds, a sequence that does not start at 8, and one of a wind.
    let no_readings = [
        melds([1, 1, 4, 7])[..3].to_vec(),
        melds([1, 1, 4, 8]).to_vec(),
        [&melds([1, 1, 4, 7])[..3], &[Meld::shuntsu(tile("1z"))]].concat(),
    ];
    for melds in no_readings {
        let pair = tile("5z");
        let reading = HandStructure::Standard { melds, pair };
        assert_eq!(agari::detect_wait_types(&reading, tile("5z")), []);
    }
}
