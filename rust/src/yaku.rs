//! The yaku of a reading (agari's `yaku.rs`).

use crate::OTHER_VERSION;
use crate::context::DoraCount;
use crate::ffi;
use crate::tile::Honor;
use crate::wait::each_as_often;
use alloc::vec::Vec;

/// A yaku. Agari's three local ones are left out.
#[derive(Debug, Clone, Copy, PartialEq, Eq, Hash)]
#[allow(missing_docs)]
pub enum Yaku {
    // 1 han
    Riichi,
    Ippatsu,
    MenzenTsumo,
    Tanyao,
    Pinfu,
    Iipeikou,
    /// A triplet of a dragon, or of the round or the seat wind. It stands twice for a wind that is both
    Yakuhai(Honor),
    RinshanKaihou,
    Chankan,
    HaiteiRaoyue,
    HouteiRaoyui,

    // 2 han
    DoubleRiichi,
    Toitoi,
    SanshokuDoujun,
    SanshokuDoukou,
    Ittsu,
    Chiitoitsu,
    Chanta,
    SanAnkou,
    SanKantsu,
    Honroutou,
    Shousangen,

    // 3 han
    Honitsu,
    Junchan,
    Ryanpeikou,

    // 6 han
    Chinitsu,

    // Yakuman
    Tenhou,
    Chiihou,
    KokushiMusou,
    Suuankou,
    Daisangen,
    Shousuushii,
    /// A double yakuman
    Daisuushii,
    Tsuuiisou,
    Chinroutou,
    Ryuuiisou,
    ChuurenPoutou,
    SuuKantsu,

    // Double yakuman
    Kokushi13Wait,
    SuuankouTanki,
    JunseiChuurenPoutou,
}

impl Yaku {
    /// The yaku in the order of the tallies, Yakuhai apart for each honor.
    pub const ALL: [Yaku; 47] = [
        Yaku::Riichi,
        Yaku::Ippatsu,
        Yaku::MenzenTsumo,
        Yaku::Tanyao,
        Yaku::Pinfu,
        Yaku::Iipeikou,
        Yaku::Yakuhai(Honor::East),
        Yaku::Yakuhai(Honor::South),
        Yaku::Yakuhai(Honor::West),
        Yaku::Yakuhai(Honor::North),
        Yaku::Yakuhai(Honor::White),
        Yaku::Yakuhai(Honor::Green),
        Yaku::Yakuhai(Honor::Red),
        Yaku::RinshanKaihou,
        Yaku::Chankan,
        Yaku::HaiteiRaoyue,
        Yaku::HouteiRaoyui,
        Yaku::DoubleRiichi,
        Yaku::Toitoi,
        Yaku::SanshokuDoujun,
        Yaku::SanshokuDoukou,
        Yaku::Ittsu,
        Yaku::Chiitoitsu,
        Yaku::Chanta,
        Yaku::SanAnkou,
        Yaku::SanKantsu,
        Yaku::Honroutou,
        Yaku::Shousangen,
        Yaku::Honitsu,
        Yaku::Junchan,
        Yaku::Ryanpeikou,
        Yaku::Chinitsu,
        Yaku::Tenhou,
        Yaku::Chiihou,
        Yaku::KokushiMusou,
        Yaku::Suuankou,
        Yaku::Daisangen,
        Yaku::Shousuushii,
        Yaku::Daisuushii,
        Yaku::Tsuuiisou,
        Yaku::Chinroutou,
        Yaku::Ryuuiisou,
        Yaku::ChuurenPoutou,
        Yaku::SuuKantsu,
        Yaku::Kokushi13Wait,
        Yaku::SuuankouTanki,
        Yaku::JunseiChuurenPoutou,
    ];

    /// The han in a closed hand; a yakuman is 13, a double one 26
    pub fn han(&self) -> u8 {
        match self {
            Yaku::Riichi
            | Yaku::Ippatsu
            | Yaku::MenzenTsumo
            | Yaku::Tanyao
            | Yaku::Pinfu
            | Yaku::Iipeikou
            | Yaku::Yakuhai(_)
            | Yaku::RinshanKaihou
            | Yaku::Chankan
            | Yaku::HaiteiRaoyue
            | Yaku::HouteiRaoyui => 1,

            Yaku::DoubleRiichi
            | Yaku::Toitoi
            | Yaku::SanshokuDoujun
            | Yaku::SanshokuDoukou
            | Yaku::Ittsu
            | Yaku::Chiitoitsu
            | Yaku::Chanta
            | Yaku::SanAnkou
            | Yaku::SanKantsu
            | Yaku::Honroutou
            | Yaku::Shousangen => 2,

            Yaku::Honitsu | Yaku::Junchan | Yaku::Ryanpeikou => 3,

            Yaku::Chinitsu => 6,

            Yaku::Tenhou
            | Yaku::Chiihou
            | Yaku::KokushiMusou
            | Yaku::Suuankou
            | Yaku::Daisangen
            | Yaku::Shousuushii
            | Yaku::Tsuuiisou
            | Yaku::Chinroutou
            | Yaku::Ryuuiisou
            | Yaku::ChuurenPoutou
            | Yaku::SuuKantsu => 13,

            Yaku::Daisuushii
            | Yaku::Kokushi13Wait
            | Yaku::SuuankouTanki
            | Yaku::JunseiChuurenPoutou => 26,
        }
    }

    /// The han in an open hand, or nothing where the yaku asks for a closed one
    pub fn han_open(&self) -> Option<u8> {
        match self {
            Yaku::Riichi
            | Yaku::DoubleRiichi
            | Yaku::Ippatsu
            | Yaku::MenzenTsumo
            | Yaku::Pinfu
            | Yaku::Iipeikou
            | Yaku::Ryanpeikou
            | Yaku::Tenhou
            | Yaku::Chiihou
            | Yaku::Suuankou
            | Yaku::SuuankouTanki
            | Yaku::ChuurenPoutou
            | Yaku::JunseiChuurenPoutou
            | Yaku::KokushiMusou
            | Yaku::Kokushi13Wait => None,

            Yaku::SanshokuDoujun
            | Yaku::Ittsu
            | Yaku::Chanta
            | Yaku::Honitsu
            | Yaku::Junchan
            | Yaku::Chinitsu => Some(self.han() - 1),

            _ => Some(self.han()),
        }
    }

    /// May it stand in an open hand?
    pub fn valid_when_open(&self) -> bool {
        self.han_open().is_some()
    }

    /// Is this a yakuman?
    pub fn is_yakuman(&self) -> bool {
        self.han() >= 13
    }
}

/// The yaku of a reading, and its dora, which are han but no yaku.
#[derive(Debug, Clone, PartialEq, Eq)]
pub struct YakuResult {
    /// The yaku in the order of [`Yaku::ALL`], each as often as it stands
    pub yaku_list: Vec<Yaku>,
    /// Their han, open or closed as the hand is, without dora
    pub total_han: u8,
    /// The dora of hand and calls, of both sorts together, counted beside a yakuman too
    pub dora_count: u8,
    /// Those by the dora indicators
    pub regular_dora: u8,
    /// Those by the ura dora indicators; 0 where there is no riichi
    pub ura_dora: u8,
    /// Is there a yakuman among the yaku?
    pub is_yakuman: bool,
}

impl YakuResult {
    /// The han of the score: those of the yaku and the dora, and of the yaku alone where there is a
    /// yakuman
    pub fn total_han_with_dora(&self) -> u8 {
        self.total_han + added_dora(self.dora_count, self.is_yakuman)
    }

    /// What the library answers, whose han are those of the score.
    pub(crate) fn of(answer: &ffi::ScoreAnswer) -> YakuResult {
        let is_yakuman = answer.is_yakuman != 0;
        let dora = DoraCount {
            regular: answer.regular_dora,
            ura: answer.ura_dora,
        };
        let added = added_dora(dora.total(), is_yakuman);
        YakuResult {
            yaku_list: each_as_often(&Yaku::ALL, &answer.tallies),
            total_han: answer.han.checked_sub(added).expect(OTHER_VERSION),
            dora_count: dora.total(),
            regular_dora: dora.regular,
            ura_dora: dora.ura,
            is_yakuman,
        }
    }
}

/// How many of the dora are han: none where there is a yakuman.
fn added_dora(dora_count: u8, is_yakuman: bool) -> u8 {
    match is_yakuman {
        true => 0,
        false => dora_count,
    }
}

#[cfg(test)]
mod tests {
    use super::*;

    #[test]
    fn yakuman_are_the_last_fifteen() {
        for (place, yaku) in Yaku::ALL.iter().enumerate() {
            assert_eq!(yaku.is_yakuman(), place >= 32, "{yaku:?}");
        }
    }

    #[test]
    fn no_yaku_stands_twice_in_the_order() {
        for (place, yaku) in Yaku::ALL.iter().enumerate() {
            assert!(!Yaku::ALL[..place].contains(yaku), "{yaku:?}");
        }
    }

    #[test]
    fn six_yaku_lose_a_han_and_fifteen_ask_for_a_closed_hand() {
        let lose = |yaku: &&Yaku| yaku.han_open() == Some(yaku.han() - 1);
        assert_eq!(Yaku::ALL.iter().filter(lose).count(), 6);
        let closed = |yaku: &&Yaku| !yaku.valid_when_open();
        assert_eq!(Yaku::ALL.iter().filter(closed).count(), 15);
    }
}
