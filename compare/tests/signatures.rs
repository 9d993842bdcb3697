//! The crate's functions with agari's signatures (`ziwhakemo::agari`), beside agari's own.

use agari_core::hand::{
    HandStructure, decompose_hand_with_melds, is_chiitoitsu, is_standard_hand, is_winning_hand,
};
use agari_core::parse::{to_counts, validate_hand};
use agari_core::tile::Tile;
use compare::agari::{self, Record};
use compare::convert::{to_agari, to_ziwhakemo};
use compare::hand::{Hand, KINDS, NOBODY};
use compare::rng::Rng;
use compare::scored_wins::sound_hand;
use compare::{answers, differences, random, wins};
use ziwhakemo::agari as ours;
use ziwhakemo::{Source, WaitType};

const HANDS: usize = 5000;

/// The records of readings in the order in which the crate answers them.
fn records(readings: &[ziwhakemo::HandStructure]) -> Vec<Record> {
    readings.iter().map(record).collect()
}

/// The record of a reading with the sources of its melds, which stand in the order of the record.
fn record(reading: &ziwhakemo::HandStructure) -> Record {
    let bare = agari::record(&to_agari::hand_structure(reading));
    let (ziwhakemo::HandStructure::Standard { melds, .. }, Some((pair, bare_melds))) =
        (reading, bare.parts())
    else {
        return bare;
    };
    let sources = melds
        .iter()
        .map(|meld| meld.source().map_or(NOBODY, Source::number));
    let melds = bare_melds.into_iter().zip(sources);
    Record::standard(
        pair,
        melds
            .map(|(meld, source)| meld.with_source(source))
            .collect(),
    )
}

/// The records of agari's readings, each once, in their order, with the sources of the hand's calls.
fn ordered(readings: Vec<HandStructure>, hand: &Hand) -> Vec<Record> {
    let readings = differences::in_order(readings).into_iter();
    readings
        .map(|(record, _)| record.with_sources(hand.called()))
        .collect()
}

/// The hand's calls in the crate's types.
fn turned_calls(hand: &Hand) -> Vec<ziwhakemo::Meld> {
    let sources = hand
        .called()
        .iter()
        .map(|call| to_ziwhakemo::source(call.source));
    let sources: Vec<Source> = sources.collect();
    to_ziwhakemo::calls(&agari::called_melds(hand.called()), &sources)
}

#[test]
fn readings() {
    let mut rng = Rng::new(11);
    for _ in 0..HANDS {
        let hand = sound_hand(&mut rng);
        let calls = agari::called_melds(hand.called());
        let theirs = agari::tile_counts(hand.counts());
        let counts = to_ziwhakemo::tile_counts(&theirs);
        let called = turned_calls(&hand);

        let found = ours::decompose_hand_with_melds(&counts, &called);
        let want = ordered(decompose_hand_with_melds(&theirs, &calls), &hand);
        assert!(records(&found) == want, "{hand}");
        if calls.is_empty() {
            let found = ours::decompose_hand(&counts);
            let want = ordered(answers::found(&theirs, &[]), &hand);
            assert!(records(&found) == want, "{hand}");
        }
    }
}

#[test]
fn kinds_of_hands() {
    let mut rng = Rng::new(12);
    let mut seen = [0; 3];
    for _ in 0..HANDS {
        let theirs = agari::tile_counts(sound_hand(&mut rng).counts());
        let counts = to_ziwhakemo::tile_counts(&theirs);
        let want = [is_winning_hand, is_standard_hand, is_chiitoitsu].map(|is| is(&theirs));
        let got = [
            ours::is_winning_hand(&counts),
            ours::is_standard_hand(&counts),
            ours::is_chiitoitsu(&counts),
        ];
        assert_eq!(got, want);
        for (seen, is_so) in seen.iter_mut().zip(want) {
            *seen += usize::from(is_so);
        }
    }
    assert!(seen.iter().all(|&seen| seen > 100), "{seen:?}");
}

#[test]
fn waits() {
    let mut rng = Rng::new(13);
    for _ in 0..HANDS / 5 {
        let hand = wins::hand(&mut rng);
        let calls = agari::called_melds(hand.called());
        for reading in answers::found(&agari::tile_counts(hand.counts()), &calls) {
            let turned = to_ziwhakemo::hand_structure(&reading);
            for tile in wins::held_tiles(&hand).into_iter().map(agari::tile) {
                let theirs = answers::waits(&reading, tile).into_iter();
                let mut want: Vec<WaitType> = theirs.map(to_ziwhakemo::wait_type).collect();
                want.sort_by_key(|&wait| wait as usize);
                let got = ours::detect_wait_types(&turned, to_ziwhakemo::tile(tile));
                assert_eq!(got, want, "{reading:?}, {tile:?}");
            }
        }
    }
}

/// Each tile as often as it is there.
fn tiles(hand: &Hand) -> Vec<Tile> {
    let counts = hand.counts().iter().zip(0..KINDS as u8);
    counts
        .flat_map(|(&count, tile)| vec![agari::tile(tile); count.into()])
        .collect()
}

#[test]
fn counts_and_their_checks() {
    let mut rng = Rng::new(14);
    for _ in 0..HANDS {
        let theirs = tiles(&random::any(&mut rng));
        let turned: Vec<_> = theirs.iter().copied().map(to_ziwhakemo::tile).collect();
        let counts = to_ziwhakemo::tile_counts(&to_counts(&theirs));
        assert_eq!(ours::to_counts(&turned), counts);
        let want = validate_hand(&theirs).is_ok();
        assert_eq!(ours::validate_hand(&turned).is_ok(), want, "{theirs:?}");
    }
}
