//! The bytes of records beside the readings.

mod common;

use common::{counts, tile, tiles};
use ziwhakemo::*;

/// man 223344, pin 667788, sou 55 as four sequences and a pair: what stands behind the record's kind.
const RYANPEIKOU: [u8; 13] = [22, 1, 0, 0, 1, 0, 0, 14, 0, 0, 14, 0, 0];

/// The record of a pair and four melds.
fn standard(content: [u8; 13]) -> Vec<u8> {
    let length = record::STANDARD_LENGTH as u8;
    [&[length, 0, 3, 0], &content[..]].concat()
}

/// The records of a hand.
fn records(hand: &str, calls: &[Meld]) -> Vec<u8> {
    let mut out = [0; record::ALWAYS_ENOUGH];
    let listing = list_readings(&counts(hand), calls, &mut out).unwrap();
    out[..listing.bytes].to_vec()
}

#[test]
fn the_bytes_are_those_of_the_scope_paper() {
    let seven_pairs = [11, 0, 1, 0, 1, 2, 3, 14, 15, 16, 22];
    let both = [&seven_pairs[..], &standard(RYANPEIKOU)].concat();
    assert_eq!(records("223344m667788p55s", &[]), both);
    let orphans = records("19m19p19s12345677z", &[]);
    assert_eq!(orphans, [5, 0, 2, 0, 33]);
    // Calls stand among the melds with their sources, ascending by tile, then by kind.
    let calls = [
        Meld::kan(tile("9s"), KanType::Open(Source::Across)),
        Meld::shuntsu_open(tile("1m")),
        Meld::koutsu_open(tile("1z"), Source::Right),
    ];
    let called = records("11123m", &calls);
    let content = [0, 0, 0, 0, 0, 1, 3, 26, 5, 2, 27, 3, 1];
    assert_eq!(called, standard(content));
}

#[test]
fn readings_have_the_calls_with_their_sources() {
    let chi = Meld::shuntsu_open(tile("1m"));
    for source in Source::ALL {
        let called = [
            Meld::koutsu_open(tile("7z"), source),
            Meld::kan(tile("7z"), KanType::Open(source)),
            Meld::kan(tile("7z"), KanType::Added(source)),
        ];
        for call in called {
            let calls = [call.clone(), chi.clone()];
            let readings = decompose_hand(&counts("22m456p678s"), &calls).unwrap();
            let melds = vec![
                chi.clone(),
                Meld::shuntsu(tile("4p")),
                Meld::shuntsu(tile("6s")),
                call,
            ];
            let pair = tile("2m");
            assert_eq!(readings, [HandStructure::Standard { melds, pair }]);
        }
    }
}

#[test]
fn sources_change_their_own_bytes_alone() {
    let all = Source::ALL.map(|source| {
        let calls = [
            Meld::koutsu_open(tile("1z"), source),
            Meld::kan(tile("2z"), KanType::Added(source)),
        ];
        records("22334455m", &calls)
    });
    for (records, number) in all.iter().zip(1..) {
        assert_eq!(records.len(), all[0].len());
        let both = records.iter().zip(&all[0]);
        let changed: Vec<_> = both.filter(|(byte, first)| byte != first).collect();
        // Two readings, in each of which both calls stand.
        let expected = if number == 1 { 0 } else { 4 };
        assert_eq!(changed, vec![(&number, &1); expected]);
    }
}

#[test]
fn decoding_gives_what_decompose_hand_answers() {
    let kan = [Meld::kan(tile("1z"), KanType::Closed)];
    let hands = [
        ("12355m456p234678s", &[][..], 1),
        ("222333444m567p88s", &[], 2),
        ("223344m667788p55s", &[], 2),
        ("66677778888999m", &[], 4),
        ("19m19p19s12345677z", &[], 1),
        ("12345m456p234678s", &[], 0),
        ("222333444m55z", &kan, 2),
    ];
    for (hand, calls, number) in hands {
        let readings = decompose_hand(&counts(hand), calls).unwrap();
        assert_eq!(readings.len(), number, "{hand}");
        let decoded = record::decode(&records(hand, calls));
        assert_eq!(decoded, Some(readings), "{hand}");
    }
}

#[test]
fn every_reading_uses_up_the_hand() {
    let hand = "66677778888999m";
    for reading in decompose_hand(&counts(hand), &[]).unwrap() {
        let mut used = used(&reading);
        let mut given = tiles(hand);
        used.sort();
        given.sort();
        assert_eq!(used, given);
    }
}

/// The tiles of a reading with no call.
fn used(reading: &HandStructure) -> Vec<Tile> {
    match reading {
        HandStructure::Standard { melds, pair } => {
            let melds = melds.iter().flat_map(|meld| {
                let first = meld.tile().number().unwrap();
                let step = u8::from(meld.is_sequence());
                (0..3).map(move |place| Tile::from_number(first + place * step).unwrap())
            });
            melds.chain([*pair; 2]).collect()
        }
        HandStructure::Chiitoitsu { pairs } => pairs.iter().flat_map(|&tile| [tile; 2]).collect(),
        HandStructure::Kokushi { .. } => panic!("no orphans here"),
    }
}

#[test]
fn bytes_that_are_no_records_are_not_decoded() {
    assert_eq!(record::decode(&[]), Some(vec![]));
    let good = records("223344m667788p55s", &[]);
    for length in (1..good.len()).filter(|&length| length != 11) {
        assert_eq!(record::decode(&good[..length]), None, "{length} bytes");
    }
    let bad: [&[u8]; 7] = [
        &[0, 0],
        &[0, 0, 2, 0, 33],
        &[3, 0, 2],
        &[5, 0, 2, 0, 34],
        &[5, 0, 1, 0, 33],
        &[5, 0, 4, 0, 33],
        &[5, 1, 2, 0, 33],
    ];
    for bytes in bad {
        assert_eq!(record::decode(bytes), None, "{bytes:?}");
    }
}

#[test]
fn what_is_no_meld_is_not_decoded() {
    assert!(record::decode(&standard(RYANPEIKOU)).is_some());
    // A tile above 33, a kind above 6, a closed meld with a source, open ones without and with none.
    let bad = [
        [34, 0, 0],
        [1, 7, 0],
        [1, 0, 3],
        [1, 3, 0],
        [1, 3, 4],
        [1, 6, 255],
    ];
    for meld in bad {
        let mut content = RYANPEIKOU;
        content[1..4].copy_from_slice(&meld);
        assert_eq!(record::decode(&standard(content)), None, "{meld:?}");
    }
}
