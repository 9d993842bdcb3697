//! agari's types as those of the crate `ziwhakemo`, and back, for a table that has both for a while.
//!
//! All but the win and melds have the same shapes on both sides, so that the one macro below makes both
//! directions. Melds are the same but for their sources, which agari has not: a call is turned with who it
//! came from, and a meld of agari's that does not say it with the left, from whom every open meld may come.
//! What the library leaves out is told: a local yaku, and a win with red fives, pulled Norths or other
//! rules. So is what agari has not, a room that gives two fu for a pair that is both round and seat wind,
//! and what the crate does not keep, the eleventh indicator and those behind it.

use ziwhakemo as ours;

/// agari's types by their names alone.
pub mod theirs {
    pub use agari_core::context::{GameContext, WinType};
    pub use agari_core::hand::{HandStructure, KanType, Meld};
    pub use agari_core::parse::TileCounts;
    pub use agari_core::rules::Rules;
    pub use agari_core::scoring::{Payment, ScoreLevel};
    pub use agari_core::tile::{Honor, Suit, Tile};
    pub use agari_core::wait::WaitType;
    pub use agari_core::yaku::Yaku;
}

/// The value of the same name, of those that have nothing inside.
macro_rules! same_name {
    ($value:expr, $from:ident, $to:ident, $type:ident: $($name:ident)*) => {
        match $value {
            $($from::$type::$name => $to::$type::$name,)*
        }
    };
}

/// The yaku of the same name. Behind the types stands what to do with those that one side has alone.
macro_rules! same_yaku {
    ($yaku:expr, $from:ident, $to:ident $(, $alone:pat => $otherwise:expr)?; $($name:ident)*) => {
        match $yaku {
            $from::Yaku::Yakuhai(of) => $to::Yaku::Yakuhai(honor(of)),
            $($from::Yaku::$name => $to::Yaku::$name,)*
            $($alone => $otherwise,)?
        }
    };
}

/// Hands the names of all yaku but Yakuhai on to `same_yaku`.
macro_rules! each_yaku {
    ($($asked:tt)*) => {
        same_yaku!($($asked)*;
            Riichi Ippatsu MenzenTsumo Tanyao Pinfu Iipeikou RinshanKaihou Chankan HaiteiRaoyue
            HouteiRaoyui DoubleRiichi Toitoi SanshokuDoujun SanshokuDoukou Ittsu Chiitoitsu Chanta
            SanAnkou SanKantsu Honroutou Shousangen Honitsu Junchan Ryanpeikou Chinitsu Tenhou Chiihou
            KokushiMusou Suuankou Daisangen Shousuushii Daisuushii Tsuuiisou Chinroutou Ryuuiisou
            ChuurenPoutou SuuKantsu Kokushi13Wait SuuankouTanki JunseiChuurenPoutou)
    };
}

/// The conversions that need nothing to be left out.
macro_rules! conversions {
    ($from:ident, $to:ident) => {
        /// A suit.
        pub fn suit(suit: $from::Suit) -> $to::Suit {
            same_name!(suit, $from, $to, Suit: Man Pin Sou)
        }

        /// A wind or a dragon.
        pub fn honor(honor: $from::Honor) -> $to::Honor {
            same_name!(honor, $from, $to, Honor: East South West North White Green Red)
        }

        /// A tile, with a value from 1 to 9 or without.
        pub fn tile(tile: $from::Tile) -> $to::Tile {
            match tile {
                $from::Tile::Suited { suit: of, value } => $to::Tile::suited(suit(of), value),
                $from::Tile::Honor(of) => $to::Tile::honor(honor(of)),
            }
        }

        /// A map of counts.
        pub fn tile_counts(counts: &$from::TileCounts) -> $to::TileCounts {
            counts.iter().map(|(&of, &count)| (tile(of), count)).collect()
        }

        /// Melds in the order in which they stand.
        pub fn melds(melds: &[$from::Meld]) -> Vec<$to::Meld> {
            melds.iter().map(meld).collect()
        }

        /// A reading, its melds or pairs in the order in which they stand.
        pub fn hand_structure(reading: &$from::HandStructure) -> $to::HandStructure {
            match reading {
                $from::HandStructure::Standard { melds: of, pair } => $to::HandStructure::Standard {
                    melds: melds(of),
                    pair: tile(*pair),
                },
                $from::HandStructure::Chiitoitsu { pairs } => $to::HandStructure::Chiitoitsu {
                    pairs: pairs.iter().copied().map(tile).collect(),
                },
                $from::HandStructure::Kokushi { pair } => $to::HandStructure::Kokushi {
                    pair: tile(*pair),
                },
            }
        }

        /// Ron or tsumo.
        pub fn win_type(win_type: $from::WinType) -> $to::WinType {
            same_name!(win_type, $from, $to, WinType: Ron Tsumo)
        }

        /// A wait.
        pub fn wait_type(wait: $from::WaitType) -> $to::WaitType {
            same_name!(wait, $from, $to, WaitType:
                Ryanmen Kanchan Penchan Shanpon Tanki Kokushi13)
        }

        /// A level.
        pub fn score_level(level: $from::ScoreLevel) -> $to::ScoreLevel {
            match level {
                $from::ScoreLevel::Normal => $to::ScoreLevel::Normal,
                $from::ScoreLevel::Mangan => $to::ScoreLevel::Mangan,
                $from::ScoreLevel::Haneman => $to::ScoreLevel::Haneman,
                $from::ScoreLevel::Baiman => $to::ScoreLevel::Baiman,
                $from::ScoreLevel::Sanbaiman => $to::ScoreLevel::Sanbaiman,
                $from::ScoreLevel::Yakuman(count) => $to::ScoreLevel::Yakuman(count),
            }
        }

        /// Who pays what.
        pub fn payment(payment: &$from::Payment) -> $to::Payment {
            $to::Payment {
                total: payment.total,
                from_non_dealer: payment.from_non_dealer,
                from_dealer: payment.from_dealer,
                from_discarder: payment.from_discarder,
            }
        }
    };
}

/// From agari's types to those of the crate.
pub mod to_ziwhakemo {
    use super::{ours, theirs};

    conversions!(theirs, ours);

    /// A meld, an open one from this player.
    pub fn meld_from(meld: &theirs::Meld, source: ours::Source) -> ours::Meld {
        use theirs::KanType::{Added, Closed, Open};
        match *meld {
            theirs::Meld::Shuntsu(of, is_open) => {
                ours::Meld::Shuntsu(tile(of), is_open.then_some(source))
            }
            theirs::Meld::Koutsu(of, is_open) => {
                ours::Meld::Koutsu(tile(of), is_open.then_some(source))
            }
            theirs::Meld::Kan(of, Closed) => ours::Meld::Kan(tile(of), ours::KanType::Closed),
            theirs::Meld::Kan(of, Open) => ours::Meld::Kan(tile(of), ours::KanType::Open(source)),
            theirs::Meld::Kan(of, Added) => ours::Meld::Kan(tile(of), ours::KanType::Added(source)),
        }
    }

    /// A meld, an open one from the left.
    pub fn meld(meld: &theirs::Meld) -> ours::Meld {
        meld_from(meld, ours::Source::Left)
    }

    /// The source with a number, or the left for the number of a closed meld.
    pub fn source(number: u8) -> ours::Source {
        ours::Source::from_number(number).unwrap_or(ours::Source::Left)
    }

    /// Calls, each open one from the player beside it.
    pub fn calls(melds: &[theirs::Meld], sources: &[ours::Source]) -> Vec<ours::Meld> {
        let melds = melds.iter().zip(sources);
        melds
            .map(|(meld, &source)| meld_from(meld, source))
            .collect()
    }

    /// A yaku, or nothing for agari's local ones.
    pub fn yaku(yaku: theirs::Yaku) -> Option<ours::Yaku> {
        use theirs::Yaku::{OpenDoubleRiichi, OpenRiichi, Renhou};
        let turned = each_yaku!(yaku, theirs, ours,
            OpenRiichi | OpenDoubleRiichi | Renhou(_) => return None);
        Some(turned)
    }

    /// What the library leaves out, so that it would score the win otherwise.
    #[derive(Clone, Copy, Debug, PartialEq, Eq)]
    pub enum LeftOut {
        /// Red fives or pulled Norths.
        Dora,
        /// Other rules than agari's default ones.
        Rules,
    }

    /// The room's setting of a number, or nothing for a number that is none.
    pub fn double_wind_fu(number: u8) -> Option<ours::DoubleWindFu> {
        match number {
            4 => Some(ours::DoubleWindFu::Four),
            2 => Some(ours::DoubleWindFu::Two),
            _ => None,
        }
    }

    /// Indicators in their order. More than ten are refused where a win is scored.
    pub fn indicators(tiles: &[theirs::Tile]) -> ours::Indicators {
        let tiles: Vec<ours::Tile> = tiles.iter().copied().map(tile).collect();
        ours::Indicators::new(&tiles)
    }

    /// A win. Whether the hand is open is not carried over: the calls say it. Nor are the flags of open
    /// riichi and renhou, which score nothing under the default rules. The setting is four, as in agari.
    pub fn game_context(context: &theirs::GameContext) -> Result<ours::GameContext, LeftOut> {
        if context.aka_count > 0 || context.nukidora > 0 {
            return Err(LeftOut::Dora);
        }
        if context.rules != theirs::Rules::default() {
            return Err(LeftOut::Rules);
        }
        Ok(ours::GameContext {
            win_type: win_type(context.win_type),
            winning_tile: context.winning_tile.map(tile),
            round_wind: honor(context.round_wind),
            seat_wind: honor(context.seat_wind),
            is_riichi: context.is_riichi,
            is_double_riichi: context.is_double_riichi,
            is_ippatsu: context.is_ippatsu,
            is_rinshan: context.is_rinshan,
            is_chankan: context.is_chankan,
            is_last_tile: context.is_last_tile,
            is_tenhou: context.is_tenhou,
            is_chiihou: context.is_chiihou,
            double_wind_fu: ours::DoubleWindFu::Four,
            dora_indicators: indicators(&context.dora_indicators),
            ura_dora_indicators: indicators(&context.ura_dora_indicators),
        })
    }
}

/// From the crate's types to agari's.
pub mod to_agari {
    use super::{ours, theirs};

    conversions!(ours, theirs);

    /// A meld, without its source.
    pub fn meld(meld: &ours::Meld) -> theirs::Meld {
        use ours::KanType::{Added, Closed, Open};
        match *meld {
            ours::Meld::Shuntsu(of, source) => theirs::Meld::Shuntsu(tile(of), source.is_some()),
            ours::Meld::Koutsu(of, source) => theirs::Meld::Koutsu(tile(of), source.is_some()),
            ours::Meld::Kan(of, Closed) => theirs::Meld::Kan(tile(of), theirs::KanType::Closed),
            ours::Meld::Kan(of, Open(_)) => theirs::Meld::Kan(tile(of), theirs::KanType::Open),
            ours::Meld::Kan(of, Added(_)) => theirs::Meld::Kan(tile(of), theirs::KanType::Added),
        }
    }

    /// A yaku.
    pub fn yaku(yaku: ours::Yaku) -> theirs::Yaku {
        each_yaku!(yaku, ours, theirs)
    }

    /// Indicators in their order. Nothing where there are more than ten, which the crate has not kept.
    pub fn indicators(indicators: &ours::Indicators) -> Option<Vec<theirs::Tile>> {
        let tiles = indicators.tiles();
        let are_all = tiles.len() == indicators.count();
        are_all.then(|| tiles.iter().copied().map(tile).collect())
    }

    /// A win with these calls, which say whether the hand is open. No red fives, and agari's default rules.
    /// Nothing in a room with setting two, as agari gives four fu, nor with more than ten indicators.
    pub fn game_context(
        context: &ours::GameContext,
        calls: &[ours::Meld],
    ) -> Option<theirs::GameContext> {
        if context.double_wind_fu == ours::DoubleWindFu::Two {
            return None;
        }
        let [round_wind, seat_wind] = [context.round_wind, context.seat_wind].map(honor);
        let plain = theirs::GameContext::new(win_type(context.win_type), round_wind, seat_wind)
            .with_dora(indicators(&context.dora_indicators)?)
            .with_ura_dora(indicators(&context.ura_dora_indicators)?);
        Some(theirs::GameContext {
            winning_tile: context.winning_tile.map(tile),
            is_open: calls.iter().any(ours::Meld::is_open),
            is_riichi: context.is_riichi,
            is_double_riichi: context.is_double_riichi,
            is_ippatsu: context.is_ippatsu,
            is_rinshan: context.is_rinshan,
            is_chankan: context.is_chankan,
            is_last_tile: context.is_last_tile,
            is_tenhou: context.is_tenhou,
            is_chiihou: context.is_chiihou,
            ..plain
        })
    }
}

#[cfg(test)]
mod tests {
    use super::to_ziwhakemo::LeftOut;
    use super::*;
    use crate::agari_scores::{WAIT_ENTRIES, YAKU_ENTRIES};
    use crate::rng::Rng;
    use crate::{agari, agari_scores, answers, random, wins};
    use std::fmt::Debug;

    /// How a value is written, which is the same on both sides where the value is.
    fn text(value: impl Debug) -> String {
        format!("{value:?}")
    }

    #[test]
    fn tiles_there_and_back() {
        for number in 0..34 {
            let tile = agari::tile(number);
            let turned = to_ziwhakemo::tile(tile);
            assert_eq!(turned.number(), Some(number));
            assert_eq!(to_agari::tile(turned), tile);
            assert_eq!(text(turned), text(tile));
        }
        let none = theirs::Tile::suited(theirs::Suit::Sou, 10);
        assert_eq!(to_ziwhakemo::tile(none).number(), None);
        assert_eq!(to_agari::tile(to_ziwhakemo::tile(none)), none);
    }

    #[test]
    fn yaku_and_waits_there_and_back() {
        for (place, &yaku) in YAKU_ENTRIES.iter().enumerate() {
            let turned = to_ziwhakemo::yaku(yaku).unwrap();
            assert_eq!(turned, ours::Yaku::ALL[place]);
            assert_eq!((to_agari::yaku(turned), text(turned)), (yaku, text(yaku)));
            let han = (yaku.han(), yaku.han_open(), yaku.is_yakuman());
            assert_eq!(han, (turned.han(), turned.han_open(), turned.is_yakuman()));
        }
        for local in [theirs::Yaku::OpenRiichi, theirs::Yaku::OpenDoubleRiichi] {
            assert_eq!(to_ziwhakemo::yaku(local), None);
        }
        for (place, &wait) in WAIT_ENTRIES.iter().enumerate() {
            let turned = to_ziwhakemo::wait_type(wait);
            assert_eq!(turned, ours::WaitType::ALL[place]);
            assert_eq!(to_agari::wait_type(turned), wait);
            assert_eq!((turned.fu(), text(turned)), (wait.fu(), text(wait)));
        }
    }

    #[test]
    fn hands_readings_and_wins_there_and_back() {
        let mut rng = Rng::new(8);
        for _ in 0..1000 {
            let hand = wins::hand(&mut rng);
            let counts = agari::tile_counts(hand.counts());
            let turned = to_ziwhakemo::tile_counts(&counts);
            assert_eq!(ours::counts_of(&turned).unwrap(), hand.counts());
            assert_eq!(to_agari::tile_counts(&turned), counts);

            let calls = agari::called_melds(hand.called());
            let sources = hand.called().iter().map(|call| call.source);
            let from: Vec<_> = sources.clone().map(to_ziwhakemo::source).collect();
            let turned_calls = to_ziwhakemo::calls(&calls, &from);
            assert_eq!(to_agari::melds(&turned_calls), calls);
            let turned_sources = turned_calls.iter().map(ours::Meld::source);
            assert!(turned_sources.eq(sources.map(ours::Source::from_number)));
            for reading in answers::found(&counts, &calls) {
                let turned = to_ziwhakemo::hand_structure(&reading);
                assert_eq!(to_agari::hand_structure(&turned), reading);
            }

            let tile = random::held_tile(&mut rng, &hand) as u8;
            let win = wins::win(&mut rng, &hand, tile);
            let context = agari_scores::context(&win, hand.is_open());
            let turned = to_ziwhakemo::game_context(&context).unwrap();
            let back = to_agari::game_context(&turned, &turned_calls);
            assert_eq!(text(back), text(Some(context)));
            let two = turned.with_double_wind_fu(ours::DoubleWindFu::Two);
            assert!(to_agari::game_context(&two, &turned_calls).is_none());
            let eleven = turned.with_dora([to_ziwhakemo::tile(agari::tile(0)); 11]);
            assert!(to_agari::game_context(&eleven, &turned_calls).is_none());
        }
    }

    #[test]
    fn levels_and_payments_there_and_back() {
        for (han, is_yakuman) in (0..=52).flat_map(|han| [(han, false), (han, true)]) {
            let level = answers::level(han, 30, is_yakuman);
            let turned = to_ziwhakemo::score_level(level);
            assert_eq!(turned, ours::determine_score_level(han, 30, is_yakuman));
            assert_eq!(to_agari::score_level(turned), level);
            assert_eq!((turned.name(), text(turned)), (level.name(), text(level)));
        }
        let rules = theirs::Rules::default();
        for win_type in [theirs::WinType::Ron, theirs::WinType::Tsumo] {
            for is_dealer in [false, true] {
                let payment = answers::payment(1920, is_dealer, win_type, &rules);
                let turned = to_ziwhakemo::payment(&payment);
                let by_library = to_ziwhakemo::win_type(win_type);
                let by_library = ours::calculate_payment(1920, is_dealer, by_library);
                assert_eq!(Ok(turned), by_library);
                assert_eq!(text(to_agari::payment(&turned)), text(payment));
            }
        }
    }

    #[test]
    fn what_the_library_leaves_out_is_told() {
        let east = agari::honor(27);
        let tile = agari::tile(27);
        let plain = || theirs::GameContext::new(theirs::WinType::Ron, east, east);
        for context in [plain().with_aka(1), plain().with_nukidora(1)] {
            let turned = to_ziwhakemo::game_context(&context);
            assert_eq!(turned, Err(LeftOut::Dora));
        }
        let shown = plain().with_dora(vec![tile; 2]).with_ura_dora(vec![tile]);
        let turned = to_ziwhakemo::game_context(&shown).unwrap();
        let sorts = [turned.dora_indicators, turned.ura_dora_indicators];
        assert_eq!(sorts.map(|sort| sort.count()), [2, 1]);
        let rules = [
            theirs::Rules::sanma(),
            theirs::Rules::default().open_riichi(true),
        ];
        for rules in rules {
            let turned = to_ziwhakemo::game_context(&plain().with_rules(rules));
            assert_eq!(turned, Err(LeftOut::Rules));
        }
        // Without its rule, an open riichi is a riichi.
        let open_riichi = to_ziwhakemo::game_context(&plain().open_riichi()).unwrap();
        assert!(open_riichi.is_riichi);
    }
}
