//! What the library has to answer for a win: the refusals as the scope paper lists them, agari's
//! scores of the readings, and the choice that the paper adds.

use crate::agari_scores::ReadHand;
use crate::differences::{self, FAULTS, Worth, ranking};
use crate::game::Game;
use crate::hand::Hand;
use crate::library::{Score, WAITS, Waits, Win, YAKU};

/// The refusals of a win that do not depend on its readings, in their order.
pub const CHECKS: [usize; FAULTS + 3] = [1, 2, 3, 4, 5, 6, 8, 14, 9];

// The refusals that do.
pub const NO_READING: u32 = 10;
pub const NO_YAKU: u32 = 11;
pub const NO_SUCH_READING: u32 = 12;

/// A hand with agari's readings, whatever the win.
pub struct ExpectedHand {
    game: Game,
    faults: [bool; FAULTS],
    /// Nothing where the hand is refused.
    read: Option<ReadHand>,
}

impl ExpectedHand {
    /// A hand of four players.
    pub fn of(hand: &Hand) -> ExpectedHand {
        ExpectedHand::in_game(Game::Four, hand)
    }

    pub fn in_game(game: Game, hand: &Hand) -> ExpectedHand {
        let faults = game.hand_faults(hand);
        let is_refused = faults.contains(&true);
        ExpectedHand {
            game,
            faults,
            read: (!is_refused).then(|| ReadHand::in_game(game, hand)),
        }
    }

    /// What is expected for the hand, won so.
    pub fn won(&self, hand: &Hand, win: &Win) -> ExpectedWin {
        let [one, two, three, four, five, six] = self.faults;
        let [range, indicators, tile] = self.game.win_faults(hand, win);
        let faults = [one, two, three, four, five, six, range, indicators, tile];
        let read = self.read.as_ref().filter(|_| !faults.contains(&true));
        ExpectedWin {
            faults,
            scores: read.map_or(Vec::new(), |read| read.scores(win)),
            waits: read.map_or(Vec::new(), |read| read.waits(win)),
            double_winds: read.map_or(Vec::new(), |read| read.double_winds(win)),
        }
    }

    /// agari's fu of each reading, won so; none where the hand is refused.
    pub fn fu(&self, win: &Win) -> Vec<u8> {
        let read = self.read.as_ref();
        read.map_or(Vec::new(), |read| read.fu(win))
    }
}

/// What is expected for a win.
pub struct ExpectedWin {
    /// Which of the checks fail. The first of them is the answer.
    pub faults: [bool; CHECKS.len()],
    /// The scores of the readings in the order of their records; none where the win is refused.
    pub scores: Vec<Score>,
    /// Their waits, likewise.
    pub waits: Vec<[u8; WAITS]>,
    /// Whether the pair of each is both round and seat wind.
    pub double_winds: Vec<bool>,
}

impl ExpectedWin {
    /// For four players.
    pub fn of(hand: &Hand, win: &Win) -> ExpectedWin {
        ExpectedWin::in_game(Game::Four, hand, win)
    }

    pub fn in_game(game: Game, hand: &Hand, win: &Win) -> ExpectedWin {
        ExpectedHand::in_game(game, hand).won(hand, win)
    }

    /// The number of the first check that fails.
    fn refusal(&self) -> Option<u32> {
        let first = self.faults.iter().position(|&fault| fault);
        first.map(|place| CHECKS[place] as u32)
    }

    pub fn score_win(&self) -> Score {
        if let Some(number) = self.refusal() {
            return refused(number);
        }
        if self.scores.is_empty() {
            return refused(NO_READING);
        }
        match ranking(&self.scores, worth).first() {
            Some(&chosen) => *chosen,
            None => refused(NO_YAKU),
        }
    }

    pub fn score_reading(&self, number: usize) -> Score {
        match self.refusal() {
            Some(refusal) => refused(refusal),
            None => *self.scores.get(number).unwrap_or(&refused(NO_SUCH_READING)),
        }
    }

    pub fn name_waits(&self, number: usize) -> Waits {
        let refused = |number| Waits {
            number,
            ..Waits::default()
        };
        match (self.refusal(), self.waits.get(number)) {
            (Some(refusal), _) => refused(refusal),
            (None, None) => refused(NO_SUCH_READING),
            (None, Some(&waits)) => Waits { number: 0, waits },
        }
    }

    /// The number of the rule that decides between the chosen reading and the next: 0 the total, 1 a
    /// yakuman before none, 2 more han, 3 more fu, 4 the earlier record. Nothing where there is no
    /// other reading with a yaku.
    pub fn deciding_rule(&self) -> Option<usize> {
        let ranking = ranking(&self.scores, worth);
        let (chosen, next) = (worth(ranking.first()?)?, worth(ranking.get(1)?)?);
        let differing = (0..chosen.len()).find(|&rule| chosen[rule] != next[rule]);
        Some(differing.unwrap_or(chosen.len()))
    }
}

/// What a score is worth for the choice; nothing where there is no yaku.
fn worth(score: &Score) -> Option<Worth> {
    let is_yakuman = score.is_yakuman == 1;
    let worth = differences::worth(score.total, is_yakuman, score.han, score.fu);
    (score.tallies != [0; YAKU]).then_some(worth)
}

/// A refusal's number alone.
pub fn refused(number: u32) -> Score {
    Score {
        number,
        settlement: 0,
        reading: 0,
        tallies: [0; YAKU],
        han: 0,
        fu: 0,
        is_yakuman: 0,
        level: 0,
        yakuman_count: 0,
        regular_dora: 0,
        ura_dora: 0,
        basic_points: 0,
        from_non_dealer: 0,
        from_dealer: 0,
        from_discarder: 0,
        total: 0,
    }
}

#[cfg(test)]
mod tests {
    use super::*;
    use crate::hand::*;
    use crate::library::{Indicators, MOST_INDICATORS, Meld, RON, SETTINGS, TSUMO};

    const MAN_1: u8 = 0;
    const MAN_4: u8 = 3;
    const PIN_5: u8 = 13;
    const SOU_8: u8 = 25;
    const EAST: u8 = 27;
    const SOUTH: u8 = 28;

    fn ron(winning_tile: u8) -> Win {
        Win::new(RON, winning_tile, EAST, SOUTH)
    }

    fn answer(hand: &Hand, win: &Win) -> (u32, usize, u64) {
        let score = ExpectedWin::of(hand, win).score_win();
        (score.number, score.reading, score.total)
    }

    #[test]
    fn choices_of_the_scope_paper() {
        let triplets = Hand::written("222333444m567p88s");
        assert_eq!(answer(&triplets, &ron(SOU_8)), (0, 1, 6400));
        let twins = Hand::written("223344m667788p55s");
        assert_eq!(answer(&twins, &ron(MAN_4)), (0, 1, 8000));
        let orphans = Hand::written("19m19p19s12345677z");
        assert_eq!(answer(&orphans, &ron(33)), (0, 0, 64_000));
    }

    #[test]
    fn no_yaku_is_refused_as_a_win_and_priced_by_number() {
        let mut open = Hand::written("55m456p234678s");
        open.call(Meld::new(0, OPEN_SEQUENCE));
        let expected = ExpectedWin::of(&open, &ron(SOU_8));
        assert_eq!(expected.score_win(), refused(11));
        let reading = expected.score_reading(0);
        assert_eq!((reading.han, reading.fu, reading.total), (0, 30, 500));
        assert_eq!(expected.score_reading(1), refused(12));
        assert_eq!(expected.name_waits(1).number, 12);
        assert_eq!(expected.name_waits(0).waits, [1, 0, 0, 0, 0, 0]);
    }

    #[test]
    fn the_wait_of_orphans_is_named_as_document_02_has_it() {
        let orphans = Hand::written("19m19p19s12345677z");
        let waits = |tile| ExpectedWin::of(&orphans, &ron(tile)).name_waits(0).waits;
        assert_eq!(waits(33), [0, 0, 0, 0, 0, 1]);
        assert_eq!(waits(MAN_1), [0, 0, 0, 0, 1, 0]);
        let pairs = Hand::written("112233m44p556677z");
        let expected = ExpectedWin::of(&pairs, &ron(33));
        assert_eq!(expected.name_waits(0).waits, [0, 0, 0, 0, 1, 0]);
    }

    #[test]
    fn checks_come_in_their_order() {
        let short = Hand::written("1235m456p234678s");
        let hand = Hand::written("12355m456p234678s");
        let mut called = Hand::written("55m456p234678s");
        called.call(Meld::new(0, OPEN_SEQUENCE));
        let mut two_faults = ron(34);
        two_faults.win_type = 2;
        let cases = [
            (&short, two_faults, 6),
            (&hand, two_faults, 8),
            (&hand, ron(34), 9),
            (&hand, ron(EAST), 9),
            (&called, ron(MAN_1), 9),
            (&Hand::written("12345m456p234678s"), ron(SOU_8), 10),
        ];
        for (hand, win, number) in cases {
            assert_eq!(answer(hand, &win).0, number, "{hand}, {win:?}");
        }
        let no_reading = ExpectedWin::of(&Hand::written("12345m456p234678s"), &ron(SOU_8));
        assert_eq!(no_reading.score_reading(0).number, 12);
    }

    /// Indicators and ura indicators.
    fn shown(dora: &[u8], ura: &[u8]) -> [Indicators; 2] {
        [dora, ura].map(Indicators::of)
    }

    #[test]
    fn indicators_are_checked_after_8_and_before_9() {
        let hand = Hand::written("12355m456p234678s");
        let short = Hand::written("1235m456p234678s");
        let no_reading = Hand::written("12345m456p234678s");
        for bad in [shown(&[34], &[]), shown(&[], &[0; 11])] {
            let [good, absent, far] = [SOU_8, EAST, 34].map(|tile| ron(tile).showing(bad));
            let type_2 = Win {
                win_type: 2,
                ..absent
            };
            let cases = [
                (&short, type_2, 6),
                (&hand, type_2, 8),
                (&hand, absent.in_room(3), 8),
                (&hand, absent, 14),
                (&hand, far, 14),
                (&hand, good, 14),
                (&no_reading, good, 14),
            ];
            for (hand, win, number) in cases {
                let expected = ExpectedWin::of(hand, &win);
                assert_eq!(expected.score_win(), refused(number), "{hand}, {win:?}");
                assert_eq!(expected.score_reading(7), refused(number));
                assert_eq!(expected.name_waits(0).number, number);
            }
        }
    }

    #[test]
    fn what_stands_behind_the_count_is_not_read() {
        let hand = Hand::written("12355m456p234678s");
        for count in 0..=u8::MAX {
            for above in 0..MOST_INDICATORS {
                let mut sort = Indicators {
                    count,
                    tiles: [EAST; MOST_INDICATORS],
                };
                let number = |sort| {
                    let both = [[sort, Indicators::default()], [Indicators::default(), sort]];
                    both.map(|shown| answer(&hand, &ron(SOU_8).showing(shown)).0)
                };
                let is_many = count > 10;
                assert_eq!(number(sort), [if is_many { 14 } else { 0 }; 2]);
                sort.tiles[above] = 34;
                let is_bad = is_many || above < usize::from(count);
                assert_eq!(number(sort), [if is_bad { 14 } else { 0 }; 2]);
            }
        }
    }

    #[test]
    fn dora_are_added_to_the_han_and_ura_with_riichi_alone() {
        let mut hand = Hand::written("55m456p222678s");
        hand.call(Meld::new(EAST, CLOSED_KAN));
        let won = |is_riichi, is_double_riichi, dora: &[u8], ura: &[u8]| {
            let win = Win {
                is_riichi,
                is_double_riichi,
                ..Win::new(TSUMO, PIN_5, EAST, SOUTH)
            };
            let win = win.showing(shown(dora, ura));
            let score = ExpectedWin::of(&hand, &win).score_win();
            (score.han, score.regular_dora, score.ura_dora)
        };
        // Menzen tsumo and the round wind; North shows East, four of them in the kan.
        let (north, sou_1, man_4) = (30, 18, 3);
        assert_eq!(won(false, false, &[], &[]), (2, 0, 0));
        assert_eq!(won(false, false, &[north], &[]), (6, 4, 0));
        assert_eq!(won(false, false, &[north, north, sou_1], &[]), (13, 11, 0));
        assert_eq!(won(false, false, &[man_4], &[north]), (4, 2, 0));
        assert_eq!(won(false, true, &[man_4], &[north]), (4, 2, 0));
        assert_eq!(won(true, false, &[man_4], &[north]), (9, 2, 4));
        assert_eq!(won(true, true, &[man_4], &[north]), (10, 2, 4));
    }

    #[test]
    fn a_yakuman_counts_its_dora_and_its_han_does_not() {
        let orphans = Hand::written("19m19p19s12345677z");
        // Green shows Red, two of them; White shows Green.
        let win = ron(33).showing(shown(&[32, 32, 31], &[32]));
        let score = ExpectedWin::of(&orphans, &win).score_win();
        assert_eq!((score.han, score.total), (26, 64_000));
        assert_eq!((score.regular_dora, score.ura_dora), (5, 0));
    }

    #[test]
    fn dora_make_no_yaku_and_may_price_as_a_yakuman() {
        let mut open = Hand::written("55m456p234678s");
        open.call(Meld::new(0, OPEN_SEQUENCE));
        let win = ron(SOU_8).showing(shown(&[3; 7], &[3; 3]));
        let expected = ExpectedWin::of(&open, &win);
        assert_eq!(expected.score_win(), refused(11));
        let reading = expected.score_reading(0);
        assert_eq!((reading.han, reading.fu, reading.total), (14, 30, 32_000));
        assert_eq!((reading.level, reading.yakuman_count), (5, 1));
        assert_eq!((reading.is_yakuman, reading.regular_dora), (0, 14));
    }

    /// Fu and total of a win with setting four, and with two.
    fn with_both(hand: &Hand, win: Win) -> [(u8, u64); 2] {
        SETTINGS.map(|setting| {
            let score = ExpectedWin::of(hand, &win.in_room(setting)).score_win();
            (score.fu, score.total)
        })
    }

    #[test]
    fn a_pair_of_the_double_wind_has_four_fu_or_two() {
        let hand = Hand::written("222m456p345678s11z");
        let dealer = Win::new(TSUMO, PIN_5, EAST, EAST);
        assert_eq!(with_both(&hand, dealer), [(40, 2100), (30, 1500)]);
        let south = Win::new(TSUMO, PIN_5, EAST, SOUTH);
        assert_eq!(with_both(&hand, south), [(30, 1100); 2]);
        let dragons = Hand::written("222m456p345678s55z");
        assert_eq!(with_both(&dragons, dealer), [(30, 1500); 2]);
        let south = Win::new(TSUMO, PIN_5, SOUTH, SOUTH);
        let hand = Hand::written("222m456p345678s22z");
        assert_eq!(with_both(&hand, south), [(40, 1500), (30, 1100)]);
    }

    #[test]
    fn an_open_hand_keeps_its_30_fu() {
        let mut sequences = Hand::written("456p234678s11z");
        sequences.call(Meld::new(MAN_1, OPEN_SEQUENCE));
        let houtei = Win {
            is_last_tile: true,
            ..Win::new(RON, SOU_8, EAST, EAST)
        };
        assert_eq!(with_both(&sequences, houtei), [(30, 1500); 2]);
        let mut triplets = Hand::written("444p678s11z");
        triplets.call(Meld::new(33, OPEN_TRIPLET));
        triplets.call(Meld::new(1, OPEN_SEQUENCE));
        assert_eq!(with_both(&triplets, houtei), [(40, 3900), (30, 2900)]);
    }

    #[test]
    fn yaku_waits_and_fixed_fu_do_not_go_by_the_setting() {
        let both = |text, tile| {
            let (hand, win) = (Hand::written(text), Win::new(TSUMO, tile, EAST, EAST));
            SETTINGS.map(|setting| ExpectedWin::of(&hand, &win.in_room(setting)))
        };
        let fu = |expected: &ExpectedWin| -> Vec<u8> {
            expected.scores.iter().map(|score| score.fu).collect()
        };
        let [four, two] = both("111222333m567p11z", MAN_1 + 2);
        assert_eq!([&four, &two].map(fu), [[30, 50], [30, 40]]);
        assert_eq!(four.double_winds, [true, true]);
        assert_eq!(four.waits, two.waits);
        for (four, two) in four.scores.iter().zip(&two.scores) {
            assert_eq!((four.tallies, four.han), (two.tallies, two.han));
        }
        // Seven pairs, and beside them twice two equal sequences on the wait for their pair.
        let [four, two] = both("223344m667788p11z", EAST);
        assert_eq!([&four, &two].map(fu), [[25, 30]; 2]);
        assert_eq!(four.double_winds, [false, true]);
    }

    #[test]
    fn a_setting_that_is_none_is_refused_with_8() {
        let hand = Hand::written("12355m456p234678s");
        let short = Hand::written("1235m456p234678s");
        for setting in 0..=u8::MAX {
            let is_one = SETTINGS.contains(&setting);
            let [good, absent] = [SOU_8, EAST].map(|tile| ron(tile).in_room(setting));
            let first = |number| if is_one { number } else { 8 };
            let expected = ExpectedWin::of(&hand, &good);
            assert_eq!(expected.score_win().number, first(0));
            assert_eq!(expected.score_reading(0).number, first(0));
            assert_eq!(expected.name_waits(0).number, first(0));
            assert_eq!(answer(&hand, &absent).0, first(9));
            assert_eq!(answer(&short, &good).0, 6);
        }
    }

    #[test]
    fn the_rules_of_the_choice_decide_in_their_order() {
        let score = |total, is_yakuman, han, fu| Score {
            tallies: [1; YAKU],
            total,
            is_yakuman,
            han,
            fu,
            ..refused(0)
        };
        let pairs = [
            (score(2000, 0, 1, 30), score(1000, 1, 2, 40)),
            (score(1000, 1, 1, 30), score(1000, 0, 2, 40)),
            (score(1000, 0, 2, 30), score(1000, 0, 1, 40)),
            (score(1000, 0, 2, 40), score(1000, 0, 2, 30)),
            (score(1000, 0, 2, 40), score(1000, 0, 2, 40)),
        ];
        for (rule, (better, worse)) in pairs.into_iter().enumerate() {
            let no_yaku = Score {
                tallies: [0; YAKU],
                ..score(9000, 1, 99, 99)
            };
            let better = Score {
                reading: 1,
                ..better
            };
            let expected = ExpectedWin {
                faults: [false; CHECKS.len()],
                scores: vec![no_yaku, better, worse],
                waits: vec![],
                double_winds: vec![],
            };
            assert_eq!(expected.score_win(), better);
            assert_eq!(expected.deciding_rule(), Some(rule));
        }
    }
}
