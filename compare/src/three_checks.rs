//! Why a win of three players is refused, sentence by sentence of the request: a plain model that asks neither
//! agari nor the library.
//!
//! "A second game with man 2 to 8 absent and two payers at most. [..] any dora indicator is refusal 14. Counts
//! above 0 for an absent tile are refusal 4; open sequences, calls of an absent tile and a source byte of 3 are
//! refusal 3." North is an ordinary wind, as round and seat wind too. All else is refused as with four players,
//! in the same order: 1 to 6, 8, 14, 9.

use crate::differences::FAULTS;
use crate::hand::*;
use crate::library::{Meld, Win};

/// The grounds that a hand gives, with the numbers of their refusals.
const OF_HAND: [(usize, &str); 10] = [
    (1, "number of counts"),
    (2, "more than four calls"),
    (3, "open sequence"),
    (3, "call of an absent tile"),
    (3, "source 3"),
    (3, "another that is no call"),
    (4, "absent tile"),
    (4, "count above four"),
    (5, "five of a kind"),
    (6, "number of tiles"),
];
/// Those that a win gives.
const OF_WIN: [(usize, &str); 9] = [
    (8, "win type"),
    (8, "round wind"),
    (8, "seat wind"),
    (8, "setting"),
    (14, "indicator"),
    (14, "ura indicator"),
    (9, "absent winning tile"),
    (9, "winning tile not held"),
    (9, "winning tile above 33"),
];
/// The number of all grounds.
pub const GROUNDS: usize = OF_HAND.len() + OF_WIN.len();

/// All grounds, with the numbers of their refusals.
pub fn names() -> [(usize, &'static str); GROUNDS] {
    both(OF_HAND, OF_WIN)
}

/// Which grounds there are, each looked at by itself.
pub fn grounds(hand: &Hand, win: &Win) -> [bool; GROUNDS] {
    both(of_hand(hand), of_win(hand, win))
}

fn both<T: Copy>(of_hand: [T; OF_HAND.len()], of_win: [T; OF_WIN.len()]) -> [T; GROUNDS] {
    std::array::from_fn(|place| match place.checked_sub(OF_HAND.len()) {
        None => of_hand[place],
        Some(place) => of_win[place],
    })
}

/// Whether three players lack this tile: man 2 to 8.
pub fn is_absent(tile: u8) -> bool {
    (1..=7).contains(&tile)
}

fn of_hand(hand: &Hand) -> [bool; OF_HAND.len()] {
    let counts = hand.counts();
    let called = |is_so: fn(&Meld) -> bool| hand.called().iter().any(is_so);
    let tiles: u128 = counts.iter().map(|&count| u128::from(count)).sum();
    let absent = counts.iter().skip(1).take(7);
    [
        counts.len() != 34,
        hand.calls.count > 4,
        called(|call| call.kind == OPEN_SEQUENCE),
        called(|call| is_of_one_kind(call) && is_absent(call.tile)),
        called(|call| is_open(call) && call.source == 3),
        called(|call| match call.kind {
            OPEN_SEQUENCE => false,
            CLOSED_KAN => call.tile > 33 || call.source != 0,
            OPEN_TRIPLET | OPEN_KAN | ADDED_KAN => {
                call.tile > 33 || ![1, 2, 3].contains(&call.source)
            }
            _ => true,
        }),
        absent.clone().any(|&count| count > 0),
        counts.iter().any(|&count| count > 4),
        hand.with_calls().iter().any(|&number| number > 4),
        tiles + 3 * hand.calls.count as u128 != 14,
    ]
}

fn is_of_one_kind(call: &Meld) -> bool {
    call.kind == CLOSED_KAN || is_open(call)
}

/// Whether it is an open triplet or an open kan.
fn is_open(call: &Meld) -> bool {
    [OPEN_TRIPLET, OPEN_KAN, ADDED_KAN].contains(&call.kind)
}

fn of_win(hand: &Hand, win: &Win) -> [bool; OF_WIN.len()] {
    let is_wind = |tile: u8| (27..=30).contains(&tile);
    let is_one = win.winning_tile < 34;
    let is_absent = is_absent(win.winning_tile);
    let held = hand.counts().get(usize::from(win.winning_tile));
    [
        win.win_type > 1,
        !is_wind(win.round_wind),
        !is_wind(win.seat_wind),
        win.double_wind_fu != 4 && win.double_wind_fu != 2,
        win.dora_indicators.count > 0,
        win.ura_dora_indicators.count > 0,
        is_absent,
        is_one && !is_absent && held.is_none_or(|&count| count == 0),
        !is_one,
    ]
}

/// The grounds for the refusals 1 to 6.
pub fn hand_faults(hand: &Hand) -> [bool; FAULTS] {
    refusals([1, 2, 3, 4, 5, 6], OF_HAND, of_hand(hand))
}

/// The grounds for the refusals 8, 14 and 9.
pub fn win_faults(hand: &Hand, win: &Win) -> [bool; 3] {
    refusals([8, 14, 9], OF_WIN, of_win(hand, win))
}

/// Which of these refusals have a ground.
fn refusals<const N: usize, const M: usize>(
    numbers: [usize; M],
    names: [(usize, &str); N],
    are_so: [bool; N],
) -> [bool; M] {
    numbers.map(|number| {
        let mut grounds = names.iter().zip(are_so);
        grounds.any(|((refusal, _), is_so)| is_so && *refusal == number)
    })
}

#[cfg(test)]
mod tests {
    use super::*;
    use crate::differences;
    use crate::game::Game;
    use crate::library::{Indicators, RON, TSUMO};
    use crate::win_oracle::ExpectedWin;

    const MAN_1: u8 = 0;
    const MAN_5: u8 = 4;
    const PIN_5: u8 = 13;
    const SOU_8: u8 = 25;
    const EAST: u8 = 27;
    const SOUTH: u8 = 28;
    const NORTH: u8 = 30;

    fn ron(tile: u8) -> Win {
        Win::new(RON, tile, EAST, SOUTH)
    }

    /// The number of a scored win, the same of its first reading and its waits where it is refused by a check.
    fn number(hand: &Hand, win: &Win) -> u32 {
        let expected = ExpectedWin::in_game(Game::Three, hand, win);
        let number = expected.score_win().number;
        if ![0, 10, 11].contains(&number) {
            assert_eq!(expected.score_reading(7).number, number);
            assert_eq!(expected.name_waits(0).number, number);
        }
        number
    }

    /// Pin 456, sou 234678, North twice, and beside them a call, or man 1 three times.
    fn with_call(call: Option<Meld>) -> Hand {
        let mut hand = Hand::written("456p234678s44z");
        match call {
            Some(call) => hand.call(call),
            None => hand.counts[0] = 3,
        }
        hand
    }

    #[test]
    fn man_2_to_8_are_absent_and_no_other_tile() {
        let absent: Vec<u8> = (0..=u8::MAX).filter(|&tile| is_absent(tile)).collect();
        assert_eq!(absent, [1, 2, 3, 4, 5, 6, 7]);
        let has = |game: Game| (0..=255).filter(|&tile| game.has_tile(tile)).count();
        assert_eq!([Game::Four, Game::Three].map(has), [34, 27]);
    }

    #[test]
    fn smallest_hands_for_each_refusal() {
        let hand = with_call(None);
        assert_eq!(
            number(
                &hand,
                &Win {
                    is_riichi: true,
                    ..ron(SOU_8)
                }
            ),
            0
        );
        assert_eq!(
            number(
                &with_call(Some(Meld {
                    tile: MAN_1,
                    kind: OPEN_TRIPLET,
                    source: RIGHT
                })),
                &ron(SOU_8)
            ),
            11
        );
        let short = Hand { length: 33, ..hand };
        assert_eq!(number(&short, &ron(SOU_8)), 1);
        let mut calls = with_call(None);
        calls.calls.count = 5;
        assert_eq!(number(&calls, &ron(SOU_8)), 2);
        let mut absent = Hand::written("1115m456p23467s44z");
        assert_eq!(number(&absent, &ron(PIN_5)), 4);
        absent.counts[4] = 0;
        assert_eq!(number(&absent, &ron(PIN_5)), 6);
        let above = Hand::written("11111m456p2346s44z");
        assert_eq!(number(&above, &ron(PIN_5)), 4);
        let mut fifth = Hand::written("11m456p234678s");
        fifth.call(Meld {
            tile: MAN_1,
            kind: CLOSED_KAN,
            source: NOBODY,
        });
        assert_eq!(number(&fifth, &ron(SOU_8)), 5);
        assert_eq!(
            number(
                &hand,
                &Win {
                    win_type: 2,
                    ..ron(SOU_8)
                }
            ),
            8
        );
        assert_eq!(number(&hand, &ron(SOU_8).in_room(3)), 8);
        assert_eq!(number(&hand, &ron(MAN_5)), 9);
        assert_eq!(number(&hand, &ron(EAST)), 9);
        assert_eq!(number(&hand, &ron(34)), 9);
        assert_eq!(
            number(&Hand::written("111m456p234679s44z"), &ron(PIN_5)),
            10
        );
    }

    #[test]
    fn every_call_is_passed_or_refused_as_the_request_says() {
        let mut passed = 0;
        for tile in 0..=u8::MAX {
            for (kind, source) in
                (0..=u8::MAX).flat_map(|kind| [0, 1, 2, 3, 4, 255].map(|of| (kind, of)))
            {
                let call = Meld { tile, kind, source };
                // Three triplets of dragons and a pair of man 9 stand beside, or of winds.
                let beside = if tile < 31 {
                    "99m555666777z"
                } else {
                    "99m111222333z"
                };
                let beside = if tile == 8 { "11m555666777z" } else { beside };
                let mut hand = Hand::written(beside);
                hand.call(call);
                let is_one = tile == 0 || (8..34).contains(&tile);
                let is_good = match kind {
                    CLOSED_KAN => is_one && source == 0,
                    OPEN_TRIPLET | OPEN_KAN | ADDED_KAN => is_one && [1, 2].contains(&source),
                    _ => false,
                };
                let expected = [false, false, !is_good, false, false, false];
                assert_eq!(hand_faults(&hand), expected, "{hand}");
                passed += usize::from(is_good);
            }
        }
        assert_eq!(passed, 27 * (1 + 3 * 2));
    }

    #[test]
    fn each_of_the_new_grounds_is_none_for_four_players() {
        let calls = [
            Meld {
                tile: 9,
                kind: OPEN_SEQUENCE,
                source: LEFT,
            },
            Meld {
                tile: 0,
                kind: OPEN_SEQUENCE,
                source: LEFT,
            },
            Meld {
                tile: MAN_5,
                kind: OPEN_TRIPLET,
                source: RIGHT,
            },
            Meld {
                tile: MAN_5,
                kind: CLOSED_KAN,
                source: NOBODY,
            },
            Meld {
                tile: MAN_1,
                kind: OPEN_TRIPLET,
                source: LEFT,
            },
            Meld {
                tile: NORTH,
                kind: ADDED_KAN,
                source: LEFT,
            },
        ];
        for call in calls {
            let mut hand = Hand::written("456p234678s11z");
            hand.call(call);
            assert_eq!(number(&hand, &ron(SOU_8)), 3, "{call}");
            assert_eq!(differences::hand_faults(&hand), [false; 6], "{call}");
        }
        for tile in 1..=7 {
            let mut hand = Hand::written("456p234678s11z");
            hand.counts[tile] = 3;
            assert_eq!(number(&hand, &ron(SOU_8)), 4);
            assert_eq!(number(&hand, &ron(tile as u8)), 4);
            assert_eq!(differences::hand_faults(&hand), [false; 6]);
        }
    }

    #[test]
    fn any_indicator_is_refused_and_garbage_behind_no_count_is_not() {
        let hand = with_call(None);
        for count in 0..=u8::MAX {
            for tile in [MAN_1, MAN_5, NORTH, 34, 255] {
                let sort = Indicators {
                    count,
                    tiles: [tile; 10],
                };
                for shown in [[sort, Indicators::default()], [Indicators::default(), sort]] {
                    let win = Win {
                        is_riichi: true,
                        ..ron(SOU_8)
                    }
                    .showing(shown);
                    assert_eq!(number(&hand, &win), if count == 0 { 0 } else { 14 });
                }
            }
        }
    }

    #[test]
    fn refusals_come_in_their_order() {
        // All of them at once, and one after the other taken away.
        let mut hand = Hand::written("5m11111p234678s1z");
        hand.call(Meld {
            tile: 18,
            kind: OPEN_SEQUENCE,
            source: LEFT,
        });
        hand.call(Meld {
            tile: 9,
            kind: CLOSED_KAN,
            source: NOBODY,
        });
        hand.calls.count = 5;
        hand.length = 33;
        let mut win = Win {
            win_type: 2,
            ..ron(MAN_5 + 1)
        };
        win = win.showing([Indicators::of(&[34]), Indicators::of(&[0])]);
        assert_eq!(number(&hand, &win), 1);
        hand.length = KINDS;
        assert_eq!(number(&hand, &win), 2);
        hand.calls.count = 2;
        assert_eq!(number(&hand, &win), 3);
        hand.calls.melds[0] = Meld {
            tile: NORTH,
            kind: OPEN_KAN,
            source: ACROSS,
        };
        assert_eq!(number(&hand, &win), 4);
        hand.counts[4] = 0;
        assert_eq!(number(&hand, &win), 4);
        hand.counts[9] = 4;
        assert_eq!(number(&hand, &win), 5);
        hand.counts[9] = 0;
        assert_eq!(number(&hand, &win), 6);
        hand.counts[27] = 2;
        assert_eq!(number(&hand, &win), 8);
        win.win_type = TSUMO;
        assert_eq!(number(&hand, &win), 14);
        win.dora_indicators.count = 0;
        assert_eq!(number(&hand, &win), 14);
        win.ura_dora_indicators.count = 0;
        assert_eq!(number(&hand, &win), 9);
        win.winning_tile = SOU_8;
        assert_eq!(number(&hand, &win), 11);
        win.is_last_tile = true;
        assert_eq!(number(&hand, &win), 0);
    }

    #[test]
    fn north_is_an_ordinary_wind() {
        // 20 fu, 4 for the triplet, 2 for the draw, 2 for the wait, and the pair: 1 han of 300 and 500, or of 400
        // and 700.
        let hand = Hand::written("222456p345678s44z");
        let fu = |round, seat, setting| {
            let win = Win::new(TSUMO, PIN_5, round, seat).in_room(setting);
            let score = ExpectedWin::in_game(Game::Three, &hand, &win).score_win();
            (score.number, score.fu, score.total)
        };
        assert_eq!(fu(EAST, SOUTH, 4), (0, 30, 800));
        assert_eq!(fu(NORTH, SOUTH, 4), (0, 30, 800));
        assert_eq!(fu(NORTH, NORTH, 4), (0, 40, 1100));
        assert_eq!(fu(NORTH, NORTH, 2), (0, 30, 800));
        let mut triplet = Hand::written("11m456p345678s");
        triplet.call(Meld {
            tile: NORTH,
            kind: OPEN_TRIPLET,
            source: ACROSS,
        });
        let han = |round, seat| {
            let win = Win::new(RON, PIN_5, round, seat);
            let score = ExpectedWin::in_game(Game::Three, &triplet, &win).score_win();
            (score.number, score.han)
        };
        assert_eq!(han(EAST, SOUTH), (11, 0));
        assert_eq!(han(NORTH, SOUTH), (0, 1));
        assert_eq!(han(EAST, NORTH), (0, 1));
        assert_eq!(han(NORTH, NORTH), (0, 2));
    }
}
