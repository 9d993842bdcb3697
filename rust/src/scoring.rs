//! Scores, levels and payments (agari's `scoring.rs`).

use crate::OTHER_VERSION;
use crate::context::{DoraCount, GameContext, WinType};
use crate::ffi;
use crate::hand::{Meld, lent};
use crate::refusal::{Refusal, accepted};
use crate::rules::Variant;
use crate::yaku::YakuResult;
use alloc::string::{String, ToString};

/// A level.
#[derive(Debug, Clone, Copy, PartialEq, Eq, PartialOrd, Ord)]
pub enum ScoreLevel {
    /// Below mangan
    Normal,
    /// 5 han, 4 han and at least 40 fu, or 3 han and at least 70 fu
    Mangan,
    /// 6 and 7 han
    Haneman,
    /// 8 to 10 han
    Baiman,
    /// 11 and 12 han
    Sanbaiman,
    /// Yakuman, and how many times it counts. 13 or more han without a yakuman count once
    Yakuman(u8),
}

impl ScoreLevel {
    /// The level of the library's numbers.
    fn of(level: u8, count: u8) -> ScoreLevel {
        match level {
            0 => ScoreLevel::Normal,
            1 => ScoreLevel::Mangan,
            2 => ScoreLevel::Haneman,
            3 => ScoreLevel::Baiman,
            4 => ScoreLevel::Sanbaiman,
            5 => ScoreLevel::Yakuman(count),
            _ => panic!("{OTHER_VERSION}"),
        }
    }

    /// The name that agari displays; nothing for Normal
    pub fn name(&self) -> String {
        match self {
            ScoreLevel::Normal => String::new(),
            ScoreLevel::Yakuman(1) => "Yakuman".to_string(),
            ScoreLevel::Yakuman(2) => "Double Yakuman".to_string(),
            ScoreLevel::Yakuman(3) => "Triple Yakuman".to_string(),
            ScoreLevel::Yakuman(4) => "Quadruple Yakuman".to_string(),
            ScoreLevel::Yakuman(n) => format!("{n}× Yakuman"),
            level => format!("{level:?}"),
        }
    }
}

/// Fu. The library answers the total alone.
#[derive(Debug, Clone, Copy, PartialEq, Eq)]
pub struct FuResult {
    /// Total fu, rounded
    pub total: u8,
}

/// Who pays what.
#[derive(Debug, Clone, Copy, PartialEq, Eq)]
pub struct Payment {
    /// What the winner gets, from all who pay: by tsumo the three others, or the two others where three play
    pub total: u32,
    /// By tsumo: what each other player pays who is not the dealer
    pub from_non_dealer: Option<u32>,
    /// By tsumo, where the winner is not the dealer: what the dealer pays
    pub from_dealer: Option<u32>,
    /// By ron: what the discarder pays
    pub from_discarder: Option<u32>,
}

impl Payment {
    /// The payment of the library's amounts. Who pays is the settlement's to say.
    fn of(amounts: ffi::PaymentAnswer) -> Payment {
        let payment = Payment {
            total: amounts.total.try_into().expect(OTHER_VERSION),
            from_non_dealer: None,
            from_dealer: None,
            from_discarder: None,
        };
        match amounts.settlement {
            1 => Payment {
                from_discarder: Some(amounts.from_discarder),
                ..payment
            },
            2 => Payment {
                from_non_dealer: Some(amounts.from_non_dealer),
                ..payment
            },
            3 => Payment {
                from_non_dealer: Some(amounts.from_non_dealer),
                from_dealer: Some(amounts.from_dealer),
                ..payment
            },
            _ => panic!("{OTHER_VERSION}"),
        }
    }
}

/// What a reading scores.
#[derive(Debug, Clone, Copy, PartialEq, Eq)]
pub struct ScoringResult {
    /// Fu
    pub fu: FuResult,
    /// Han: of the yaku and the dora, and of the yaku alone where there is a yakuman
    pub han: u8,
    /// The level of han and fu
    pub score_level: ScoreLevel,
    /// The basic points of han and fu
    pub basic_points: u32,
    /// Who pays what
    pub payment: Payment,
    /// Is the winner the dealer?
    pub is_dealer: bool,
    /// Is it a yakuman by 13 or more han alone, dora among them?
    pub is_counted_yakuman: bool,
}

/// A scored win or reading.
#[derive(Debug, Clone, PartialEq, Eq)]
pub struct ScoredWin {
    /// The number of the reading: its place in what [`decompose_hand`](crate::decompose_hand) answers
    pub reading: usize,
    /// Its yaku and dora
    pub yaku_result: YakuResult,
    /// Its han, fu, level, basic points and payment
    pub result: ScoringResult,
}

impl ScoredWin {
    /// The dora of hand and calls. Beside a yakuman they are counted too, though han does not take them
    pub fn dora(&self) -> DoraCount {
        DoraCount {
            regular: self.yaku_result.regular_dora,
            ura: self.yaku_result.ura_dora,
        }
    }

    fn of(answer: &ffi::ScoreAnswer, context: &GameContext) -> Result<ScoredWin, Refusal> {
        accepted(answer.number)?;
        let yaku_result = YakuResult::of(answer);
        let score_level = ScoreLevel::of(answer.level, answer.yakuman_count);
        let amounts = ffi::PaymentAnswer {
            number: answer.number,
            settlement: answer.settlement,
            from_non_dealer: answer.from_non_dealer,
            from_dealer: answer.from_dealer,
            from_discarder: answer.from_discarder,
            total: answer.total,
        };
        let is_counted_yakuman =
            matches!(score_level, ScoreLevel::Yakuman(_)) && !yaku_result.is_yakuman;
        Ok(ScoredWin {
            reading: answer.reading,
            yaku_result,
            result: ScoringResult {
                fu: FuResult { total: answer.fu },
                han: answer.han,
                score_level,
                basic_points: answer.basic_points,
                payment: Payment::of(amounts),
                is_dealer: context.is_dealer(),
                is_counted_yakuman,
            },
        })
    }
}

/// Scores a win by the reading with a yaku that pays most: the greatest total, then a yakuman before none,
/// then more han, then more fu, then the earlier record. Dora alone are no yaku.
///
/// Refuses with 1 to 6, 8, 14, 9, 10, 11.
pub fn score_win(
    counts: &[u8],
    calls: &[Meld],
    context: &GameContext,
) -> Result<ScoredWin, Refusal> {
    Variant::Yonma.score_win(counts, calls, context)
}

/// Scores reading number `n` of [`decompose_hand`](crate::decompose_hand), with a yaku or without: where
/// it has none, its han are its dora, and the points are those of so many han. [`score_win`] never chooses
/// such a reading, whatever it would pay.
///
/// Refuses with 1 to 6, 8, 14, 9, 12.
pub fn score_reading(
    counts: &[u8],
    calls: &[Meld],
    context: &GameContext,
    n: usize,
) -> Result<ScoredWin, Refusal> {
    Variant::Yonma.score_reading(counts, calls, context, n)
}

/// The level of han and fu, with or without a yakuman. Refuses nothing.
pub fn determine_score_level(han: u8, fu: u8, is_yakuman: bool) -> ScoreLevel {
    let answer = ffi::score_level(han, fu, is_yakuman);
    ScoreLevel::of(answer.level, answer.count)
}

/// The basic points of han and fu, with or without a yakuman. Refuses nothing.
pub fn calculate_basic_points(han: u8, fu: u8, is_yakuman: bool) -> u32 {
    ffi::basic_points(han, fu, is_yakuman)
}

/// The payment of basic points. Refuses with 13.
pub fn calculate_payment(
    basic_points: u32,
    is_dealer: bool,
    win_type: WinType,
) -> Result<Payment, Refusal> {
    Variant::Yonma.calculate_payment(basic_points, is_dealer, win_type)
}

/// Scores and payments.
impl Variant {
    /// Scores a win in this game, as [`score_win`] does for four players. With three players the total, by
    /// which the reading is chosen, is of two payers by tsumo.
    ///
    /// Refuses with 1 to 6, 8, 14, 9, 10, 11.
    ///
    /// ```
    /// use ziwhakemo::{GameContext, Honor, Refusal, Suit, Tile, Variant, WinType, to_counts};
    ///
    /// // man 999, pin 345, sou 456, sou 88, North North North: seat North in the East round, tsumo on pin 5
    /// let tile = |suit, value| Tile::suited(suit, value);
    /// let pin = [3, 4, 5].map(|value| tile(Suit::Pin, value));
    /// let sou = [4, 5, 6, 8, 8].map(|value| tile(Suit::Sou, value));
    /// let triplets = [[tile(Suit::Man, 9); 3], [Tile::honor(Honor::North); 3]].concat();
    /// let counts = to_counts(&[&pin[..], &sou, &triplets].concat()).unwrap();
    /// let context = GameContext::new(WinType::Tsumo, Honor::East, Honor::North)
    ///     .with_winning_tile(tile(Suit::Pin, 5));
    ///
    /// let win = Variant::Sanma.score_win(&counts, &[], &context)?;
    /// assert_eq!((win.result.han, win.result.fu.total), (2, 40));
    /// let payment = win.result.payment;
    /// assert_eq!((payment.from_dealer, payment.from_non_dealer), (Some(1300), Some(700)));
    /// assert_eq!(payment.total, 2000);
    ///
    /// // No indicator is taken with three players.
    /// let shown = context.with_dora([tile(Suit::Sou, 7)]);
    /// assert_eq!(Variant::Sanma.score_win(&counts, &[], &shown), Err(Refusal::Indicators));
    /// # Ok::<(), Refusal>(())
    /// ```
    pub fn score_win(
        self,
        counts: &[u8],
        calls: &[Meld],
        context: &GameContext,
    ) -> Result<ScoredWin, Refusal> {
        let answer = ffi::score_win(self, counts, &lent(calls, self), context.lent());
        ScoredWin::of(&answer, context)
    }

    /// Scores reading number `n` of [`decompose_hand`](Variant::decompose_hand) in this game, as
    /// [`score_reading`] does for four players.
    ///
    /// Refuses with 1 to 6, 8, 14, 9, 12.
    pub fn score_reading(
        self,
        counts: &[u8],
        calls: &[Meld],
        context: &GameContext,
        n: usize,
    ) -> Result<ScoredWin, Refusal> {
        let answer = ffi::score_reading(self, counts, &lent(calls, self), context.lent(), n);
        ScoredWin::of(&answer, context)
    }

    /// The payment of basic points in this game. Refuses with 13.
    ///
    /// ```
    /// use ziwhakemo::{Variant, WinType};
    ///
    /// let total = |variant: Variant, is_dealer| {
    ///     let payment = variant.calculate_payment(2000, is_dealer, WinType::Tsumo);
    ///     payment.map(|payment| payment.total)
    /// };
    /// assert_eq!(Variant::ALL.map(|variant| total(variant, true)), [Ok(12_000), Ok(8000)]);
    /// assert_eq!(Variant::ALL.map(|variant| total(variant, false)), [Ok(8000), Ok(6000)]);
    /// ```
    pub fn calculate_payment(
        self,
        basic_points: u32,
        is_dealer: bool,
        win_type: WinType,
    ) -> Result<Payment, Refusal> {
        let answer = ffi::payment(self, basic_points, is_dealer, win_type.number());
        accepted(answer.number)?;
        Ok(Payment::of(answer))
    }
}
