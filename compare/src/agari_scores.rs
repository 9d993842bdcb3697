//! agari's side of scores and points, in the shape in which the proved code answers.

use crate::agari;
use crate::answers;
use crate::differences::payment_refusal;
use crate::game::Game;
use crate::hand::*;
use crate::library::{Indicators, Level, PaymentAnswer, RON, Score, WAITS, Win, YAKU};
use crate::oracle;
use crate::probe::{Reading, ReadingScore};
use agari_core::context::{GameContext, WinType};
use agari_core::hand::HandStructure;
use agari_core::parse::TileCounts;
use agari_core::scoring::{Payment, ScoreLevel};
use agari_core::tile::{Honor, Tile};
use agari_core::wait::WaitType;
use agari_core::yaku::Yaku;

/// What the yaku tallies stand for: `Yaku` in its order.
pub const YAKU_ENTRIES: [Yaku; YAKU] = [
    Yaku::Riichi,
    Yaku::Ippatsu,
    Yaku::MenzenTsumo,
    Yaku::Tanyao,
    Yaku::Pinfu,
    Yaku::Iipeikou,
    Yaku::Yakuhai(Honor::East),
    Yaku::Yakuhai(Honor::South),
    Yaku::Yakuhai(Honor::West),
    Yaku::Yakuhai(Honor::North),
    Yaku::Yakuhai(Honor::White),
    Yaku::Yakuhai(Honor::Green),
    Yaku::Yakuhai(Honor::Red),
    Yaku::RinshanKaihou,
    Yaku::Chankan,
    Yaku::HaiteiRaoyue,
    Yaku::HouteiRaoyui,
    Yaku::DoubleRiichi,
    Yaku::Toitoi,
    Yaku::SanshokuDoujun,
    Yaku::SanshokuDoukou,
    Yaku::Ittsu,
    Yaku::Chiitoitsu,
    Yaku::Chanta,
    Yaku::SanAnkou,
    Yaku::SanKantsu,
    Yaku::Honroutou,
    Yaku::Shousangen,
    Yaku::Honitsu,
    Yaku::Junchan,
    Yaku::Ryanpeikou,
    Yaku::Chinitsu,
    Yaku::Tenhou,
    Yaku::Chiihou,
    Yaku::KokushiMusou,
    Yaku::Suuankou,
    Yaku::Daisangen,
    Yaku::Shousuushii,
    Yaku::Daisuushii,
    Yaku::Tsuuiisou,
    Yaku::Chinroutou,
    Yaku::Ryuuiisou,
    Yaku::ChuurenPoutou,
    Yaku::SuuKantsu,
    Yaku::Kokushi13Wait,
    Yaku::SuuankouTanki,
    Yaku::JunseiChuurenPoutou,
];

/// What the wait tallies stand for: `WaitType` in its order.
pub const WAIT_ENTRIES: [WaitType; WAITS] = [
    WaitType::Ryanmen,
    WaitType::Kanchan,
    WaitType::Penchan,
    WaitType::Shanpon,
    WaitType::Tanki,
    WaitType::Kokushi13,
];

/// A hand that passes the checks, with all that its scores need.
pub struct ReadHand {
    /// How often each kind of tile is there, calls included.
    pub counts: [u8; KINDS],
    pub is_open: bool,
    /// The readings beside agari's, ascending by record, each once.
    pub readings: Vec<(Reading, HandStructure)>,
    agari_counts: TileCounts,
    game: Game,
}

impl ReadHand {
    /// A hand of four players.
    pub fn of(hand: &Hand) -> ReadHand {
        ReadHand::in_game(Game::Four, hand)
    }

    pub fn in_game(game: Game, hand: &Hand) -> ReadHand {
        let counts = hand.with_calls().map(|count| count as u8);
        ReadHand {
            counts,
            is_open: hand.is_open(),
            readings: readings(hand),
            agari_counts: agari::tile_counts(&counts),
            game,
        }
    }

    /// agari's circumstances of a win, under the rules of the game.
    fn context(&self, win: &Win) -> GameContext {
        context(win, self.is_open).with_rules(agari::rules(self.game))
    }

    /// agari's score of one of the readings, before points and without dora.
    pub fn score(&self, reading: &HandStructure, win: &Win) -> ReadingScore {
        let context = self.context(win);
        let yaku = answers::yaku(reading, &self.agari_counts, &context);
        ReadingScore {
            tallies: yaku_tallies(&yaku.yaku_list),
            waits: waits(reading, win),
            han: yaku.total_han,
            fu: answers::fu(reading, &context, win.double_wind_fu).total,
            is_yakuman: u8::from(yaku.is_yakuman),
        }
    }

    /// agari's whole score of each reading.
    pub fn scores(&self, win: &Win) -> Vec<Score> {
        let readings = self.readings.iter().enumerate();
        readings
            .map(|(number, (_, reading))| self.whole_score(number, reading, win))
            .collect()
    }

    fn whole_score(&self, number: usize, reading: &HandStructure, win: &Win) -> Score {
        let context = self.context(win);
        let yaku = answers::yaku(reading, &self.agari_counts, &context);
        let result = answers::score(reading, &yaku, &context, win.double_wind_fu);
        let level = level_numbers(result.score_level);
        let paid = paid(&result.payment);
        Score {
            number: 0,
            settlement: paid.settlement,
            reading: number,
            tallies: yaku_tallies(&yaku.yaku_list),
            han: result.han,
            fu: result.fu.total,
            is_yakuman: u8::from(yaku.is_yakuman),
            level: level.level,
            yakuman_count: level.count,
            regular_dora: yaku.regular_dora,
            ura_dora: yaku.ura_dora,
            basic_points: result.basic_points,
            from_non_dealer: paid.from_non_dealer,
            from_dealer: paid.from_dealer,
            from_discarder: paid.from_discarder,
            total: paid.total,
        }
    }

    /// agari's fu of each reading.
    pub fn fu(&self, win: &Win) -> Vec<u8> {
        let context = self.context(win);
        let readings = self.readings.iter();
        readings
            .map(|(_, reading)| answers::fu(reading, &context, win.double_wind_fu).total)
            .collect()
    }

    /// Of each reading, whether its pair is both round and seat wind.
    pub fn double_winds(&self, win: &Win) -> Vec<bool> {
        let readings = self.readings.iter();
        readings
            .map(|(reading, _)| reading.has_double_wind(win))
            .collect()
    }

    /// agari's waits of each reading.
    pub fn waits(&self, win: &Win) -> Vec<[u8; WAITS]> {
        let readings = self.readings.iter();
        readings.map(|(_, reading)| waits(reading, win)).collect()
    }
}

fn waits(reading: &HandStructure, win: &Win) -> [u8; WAITS] {
    wait_tallies(&answers::waits(reading, agari::tile(win.winning_tile)))
}

fn readings(hand: &Hand) -> Vec<(Reading, HandStructure)> {
    oracle::readings(hand)
        .into_iter()
        .map(|(record, reading)| (Reading::of(&record), reading))
        .collect()
}

/// agari's circumstances of a win that passes the checks, its indicators among them, under its default rules.
/// The room's setting is none of them.
pub fn context(win: &Win, is_open: bool) -> GameContext {
    let round_wind = agari::honor(win.round_wind);
    let seat_wind = agari::honor(win.seat_wind);
    let [dora, ura_dora] = win.indicators().map(|sort| tiles(&sort));
    let context = GameContext::new(win_type(win.win_type), round_wind, seat_wind)
        .with_winning_tile(agari::tile(win.winning_tile))
        .with_dora(dora)
        .with_ura_dora(ura_dora);
    GameContext {
        is_open,
        is_riichi: win.is_riichi,
        is_double_riichi: win.is_double_riichi,
        is_ippatsu: win.is_ippatsu,
        is_rinshan: win.is_rinshan,
        is_chankan: win.is_chankan,
        is_last_tile: win.is_last_tile,
        is_tenhou: win.is_tenhou,
        is_chiihou: win.is_chiihou,
        ..context
    }
}

/// agari's tiles of the indicators that are shown.
fn tiles(indicators: &Indicators) -> Vec<Tile> {
    let shown = indicators.shown().iter();
    shown.map(|&tile| agari::tile(tile)).collect()
}

fn win_type(number: u8) -> WinType {
    match number {
        RON => WinType::Ron,
        _ => WinType::Tsumo,
    }
}

fn yaku_tallies(list: &[Yaku]) -> [u8; YAKU] {
    let mut tallies = [0; YAKU];
    for yaku in list {
        let place = YAKU_ENTRIES.iter().position(|entry| entry == yaku);
        tallies[place.expect("no local yaku under the default rules")] += 1;
    }
    tallies
}

fn wait_tallies(list: &[WaitType]) -> [u8; WAITS] {
    let mut tallies = [0; WAITS];
    for &wait in list {
        tallies[wait as usize] += 1;
    }
    tallies
}

pub fn level(han: u8, fu: u8, is_yakuman: bool) -> Level {
    level_numbers(answers::level(han, fu, is_yakuman))
}

fn level_numbers(level: ScoreLevel) -> Level {
    let (level, count) = match level {
        ScoreLevel::Normal => (0, 0),
        ScoreLevel::Mangan => (1, 0),
        ScoreLevel::Haneman => (2, 0),
        ScoreLevel::Baiman => (3, 0),
        ScoreLevel::Sanbaiman => (4, 0),
        ScoreLevel::Yakuman(count) => (5, count),
    };
    Level { level, count }
}

pub fn basic_points(han: u8, fu: u8, is_yakuman: bool) -> u32 {
    answers::basic_points(han, fu, is_yakuman)
}

/// agari's payment between four players, or the refusal as the scope paper lists them.
pub fn payment(basic_points: u32, is_dealer: bool, win_type: u8) -> PaymentAnswer {
    payment_in_game(Game::Four, basic_points, is_dealer, win_type)
}

/// agari's payment in a game, or the refusal, which is the same in both.
pub fn payment_in_game(
    game: Game,
    basic_points: u32,
    is_dealer: bool,
    win_type: u8,
) -> PaymentAnswer {
    match payment_refusal(basic_points, win_type) {
        Some(number) => refused(number),
        None => paid(&answers::payment(
            basic_points,
            is_dealer,
            self::win_type(win_type),
            &agari::rules(game),
        )),
    }
}

/// Basic points and agari's own payment of them in a game, of a reading whose yaku are said to have so many han.
pub fn payment_of_han(
    game: Game,
    reading: &HandStructure,
    (han, is_yakuman): (u8, bool),
    win: &Win,
    is_open: bool,
) -> (u32, PaymentAnswer) {
    let context = context(win, is_open).with_rules(agari::rules(game));
    let (points, payment) = answers::payment_of_han(reading, han, is_yakuman, &context);
    (points, paid(&payment))
}

/// The settlement by who pays in agari's payment.
fn settlement(payment: &Payment) -> u32 {
    match (payment.from_discarder, payment.from_dealer) {
        (Some(_), _) => 1,
        (None, None) => 2,
        (None, Some(_)) => 3,
    }
}

fn paid(payment: &Payment) -> PaymentAnswer {
    PaymentAnswer {
        number: 0,
        settlement: settlement(payment),
        total: payment.total.into(),
        from_non_dealer: payment.from_non_dealer.unwrap_or(0),
        from_dealer: payment.from_dealer.unwrap_or(0),
        from_discarder: payment.from_discarder.unwrap_or(0),
    }
}

fn refused(number: u32) -> PaymentAnswer {
    PaymentAnswer {
        number,
        ..PaymentAnswer::default()
    }
}

#[cfg(test)]
mod tests {
    use super::*;
    use crate::library::{Meld, TSUMO};

    const MAN_4: u8 = 3;
    const SOU_8: u8 = 25;
    const EAST: u8 = 27;
    const SOUTH: u8 = 28;

    /// Han, fu and total of each reading, won by seat South in the round of East with no flags.
    fn scores(hand: &Hand, win_type: u8, winning_tile: u8) -> Vec<(u8, u8, u64)> {
        let win = Win::new(win_type, winning_tile, EAST, SOUTH);
        let read = ReadHand::of(hand);
        let scores = read.readings.iter();
        scores
            .map(|(_, reading)| {
                let ReadingScore {
                    han,
                    fu,
                    is_yakuman,
                    ..
                } = read.score(reading, &win);
                let basic_points = basic_points(han, fu, is_yakuman == 1);
                (han, fu, payment(basic_points, false, win_type).total)
            })
            .collect()
    }

    #[test]
    fn played_hands_of_the_scope_paper() {
        let pinfu = Hand::written("12355m456p234678s");
        assert_eq!(scores(&pinfu, TSUMO, SOU_8), [(2, 20, 1500)]);
        assert_eq!(scores(&pinfu, RON, SOU_8), [(1, 30, 1000)]);

        let triplets = Hand::written("222333444m567p88s");
        let both = [(2, 40, 2600), (3, 50, 6400)];
        assert_eq!(scores(&triplets, RON, SOU_8), both);

        let twins = Hand::written("223344m667788p55s");
        let both = [(3, 25, 3200), (5, 30, 8000)];
        assert_eq!(scores(&twins, RON, MAN_4), both);

        let orphans = Hand::written("19m19p19s12345677z");
        assert_eq!(scores(&orphans, RON, 33), [(26, 30, 64_000)]);
        assert_eq!(scores(&orphans, RON, EAST), [(13, 30, 32_000)]);

        let mut open = Hand::written("55m456p234678s");
        open.call(Meld::new(0, OPEN_SEQUENCE));
        assert_eq!(scores(&open, RON, SOU_8), [(0, 30, 500)]);
    }

    #[test]
    fn points_of_the_scope_paper() {
        let [normal, mangan] = [0, 1].map(|level| Level { level, count: 0 });
        let points = [
            ((4, 30), (normal, 1920)),
            ((4, 40), (mangan, 2000)),
            ((3, 60), (normal, 1920)),
            ((3, 70), (mangan, 2000)),
            ((2, 130), (normal, 2000)),
        ];
        for ((han, fu), expected) in points {
            let got = (level(han, fu, false), basic_points(han, fu, false));
            assert_eq!(got, expected, "{han} han {fu} fu");
        }
        assert_eq!(payment(basic_points(2, 25, false), false, RON).total, 1600);
        assert_eq!(payment(basic_points(2, 25, false), true, RON).total, 2400);
        assert_eq!(payment(152_000, false, RON).number, 0);
        assert_eq!(payment(152_001, false, RON).number, 13);
        assert_eq!(payment(152_001, false, 2).number, 8);
    }

    #[test]
    fn waits_stand_in_the_order_of_their_enum() {
        for (place, &wait) in WAIT_ENTRIES.iter().enumerate() {
            assert_eq!(wait as usize, place);
        }
    }

    #[test]
    fn the_last_fifteen_yaku_are_the_yakuman() {
        let (ordinary, yakuman) = YAKU_ENTRIES.split_at(YAKU - 15);
        assert!(!ordinary.iter().any(|yaku| yaku.is_yakuman()));
        assert!(yakuman.iter().all(|yaku| yaku.is_yakuman()));
    }
}
