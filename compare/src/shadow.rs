//! What the shadow run needs beside the table's own loop: wins as a table has them, and a log.

use crate::agari;
use crate::agari_scores::context;
use crate::answers;
use crate::convert::theirs::{GameContext, Meld, Tile, TileCounts};
use crate::convert::to_ziwhakemo;
use crate::library::TWO;
use crate::random;
use crate::rng::Rng;
use crate::scored_wins::sound_hand;
use crate::wins;
use std::fmt;
use ziwhakemo::{Payment, Refusal, ScoreLevel, Source, Yaku};

/// How many differences are printed.
const PRINTED: u64 = 5;

/// A win as a table that runs agari has it.
pub struct TableWin {
    /// The tiles that are not called, the winning tile included.
    pub counts: TileCounts,
    pub calls: Vec<Meld>,
    /// Who each open call came from, which agari has not.
    pub sources: Vec<Source>,
    /// The tiles of hand and calls together.
    pub all_counts: TileCounts,
    pub context: GameContext,
    /// The room's setting, which agari has not.
    pub setting: u8,
}

impl TableWin {
    /// A random win, now and then of a hand with no reading or no yaku.
    pub fn dealt(rng: &mut Rng) -> TableWin {
        let hand = sound_hand(rng);
        let tile = random::held_tile(rng, &hand) as u8;
        let win = wins::win(rng, &hand, tile);
        let sources = hand.called().iter().map(|call| call.source);
        TableWin {
            counts: agari::tile_counts(hand.counts()),
            calls: agari::called_melds(hand.called()),
            sources: sources.map(to_ziwhakemo::source).collect(),
            all_counts: agari::tile_counts(&hand.with_calls().map(|count| count as u8)),
            context: context(&win, hand.is_open()),
            setting: win.double_wind_fu,
        }
    }
}

impl fmt::Display for TableWin {
    fn fmt(&self, f: &mut fmt::Formatter) -> fmt::Result {
        let mut counts: Vec<_> = self.counts.iter().collect();
        counts.sort();
        for (&tile, &count) in counts {
            let text = to_ziwhakemo::tile(tile).to_string();
            write!(f, "{}", text.repeat(count.into()))?;
        }
        let calls = to_ziwhakemo::calls(&self.calls, &self.sources);
        write!(f, ", calls {calls:?}, {:?}", self.context)?;
        write!(f, ", setting {}", self.setting)
    }
}

/// What a table settles a win by, in the crate's types.
#[derive(Clone, Debug, PartialEq, Eq)]
pub struct Settled {
    /// In the order of `Yaku::ALL`.
    pub yaku: Vec<Yaku>,
    pub is_yakuman: bool,
    /// Dora and ura dora.
    pub dora: [u8; 2],
    /// With the dora, but for a yakuman.
    pub han: u8,
    pub fu: u8,
    pub level: ScoreLevel,
    pub basic_points: u32,
    pub payment: Payment,
}

/// What a win may be settled by, the best first, or why there is nothing.
pub type Ranked = Result<Vec<Settled>, Refusal>;

/// What a shadow run has seen.
#[derive(Default)]
pub struct Log {
    wins: u64,
    pub differ: u64,
    /// Wins by the corners that they are in.
    corners: Vec<(&'static str, u64)>,
}

impl Log {
    /// Holds the library's answer to the best of agari's, and prints both where they differ.
    pub fn hold(&mut self, win: &TableWin, agari: &Ranked, library: &Result<Settled, Refusal>) {
        self.wins += 1;
        let corners = corners(win, agari);
        self.corners.resize(corners.len(), ("", 0));
        for ((name, wins), (corner, is_in_it)) in self.corners.iter_mut().zip(corners) {
            *name = corner;
            *wins += u64::from(is_in_it);
        }
        let agari = agari.as_ref().map(|ranked| &ranked[0]);
        if agari != library.as_ref() {
            self.differ += 1;
            if self.differ <= PRINTED {
                println!("DIFFERS: {win}");
                println!("  agari   {agari:?}");
                println!("  library {library:?}");
            }
        }
    }
}

impl fmt::Display for Log {
    fn fmt(&self, f: &mut fmt::Formatter) -> fmt::Result {
        writeln!(f, "wins {}, differ: {}", self.wins, self.differ)?;
        for (corner, wins) in &self.corners {
            writeln!(f, "  {wins:9}  {corner}")?;
        }
        Ok(())
    }
}

/// Where a win is easily scored wrong, and whether this one is there.
fn corners(win: &TableWin, agari: &Ranked) -> Vec<(&'static str, bool)> {
    let none = Vec::new();
    let ranked = agari.as_ref().unwrap_or(&none);
    let is_best = |fits: fn(&Settled) -> bool| ranked.first().is_some_and(fits);
    let is_tied = |are_same: fn(&Settled, &Settled) -> bool| match &ranked[..] {
        [best, next, ..] => are_same(best, next),
        _ => false,
    };
    let is_open = win.context.is_open;
    let [are_several, is_twice, is_reordered] = listed(win);
    vec![
        ("several readings", are_several),
        ("agari lists a reading twice", is_twice),
        ("agari lists them in another order", is_reordered),
        ("two readings pay the same", is_tied(pay_the_same)),
        ("and have the same han and fu", is_tied(are_worth_the_same)),
        ("no reading", *agari == Err(Refusal::NoReading)),
        ("no yaku", *agari == Err(Refusal::NoYaku)),
        ("open", is_open),
        ("closed kans alone", !is_open && !win.calls.is_empty()),
        ("a wind counts twice", is_best(has_double_wind)),
        ("a pair both round and seat wind", has_double_pair(win)),
        (
            "with setting two",
            win.setting == TWO && has_double_pair(win),
        ),
        ("dora", is_best(|best| best.dora[0] > 0)),
        ("ura dora", is_best(|best| best.dora[1] > 0)),
        ("ura indicators without riichi", has_hidden_ura(win)),
        ("yakuman by yaku", is_best(|best| best.is_yakuman)),
        ("yakuman several times", is_best(is_several_yakuman)),
        ("yakuman by 13 or more han", is_best(is_counted_yakuman)),
    ]
}

/// Whether there are several readings, and whether agari lists one of them twice, or only in another order.
fn listed(win: &TableWin) -> [bool; 3] {
    let found = answers::found(&win.counts, &win.calls);
    let readings = answers::readings(&win.counts, &win.calls);
    let is_twice = found.len() > readings.len();
    let is_in_order = found.iter().eq(readings.iter().map(|(_, reading)| reading));
    [readings.len() > 1, is_twice, !is_twice && !is_in_order]
}

fn pay_the_same(best: &Settled, next: &Settled) -> bool {
    best.payment == next.payment
}

fn are_worth_the_same(best: &Settled, next: &Settled) -> bool {
    let worth = |of: &Settled| (of.payment.total, of.is_yakuman, of.han, of.fu);
    worth(best) == worth(next)
}

/// Whether a Yakuhai, which can only be that of a wind, stands twice.
fn has_double_wind(best: &Settled) -> bool {
    let mut pairs = best.yaku.windows(2);
    pairs.any(|two| two[0] == two[1] && matches!(two[0], Yaku::Yakuhai(_)))
}

/// Whether a pair that may stand beside four melds is both round and seat wind.
fn has_double_pair(win: &TableWin) -> bool {
    let [round, seat] = [win.context.round_wind, win.context.seat_wind];
    round == seat && win.counts.get(&Tile::honor(round)) == Some(&2)
}

/// Whether there are ura indicators that do not count.
fn has_hidden_ura(win: &TableWin) -> bool {
    !win.context.ura_dora_indicators.is_empty() && !win.context.is_riichi
}

fn is_several_yakuman(best: &Settled) -> bool {
    best.level > ScoreLevel::Yakuman(1)
}

fn is_counted_yakuman(best: &Settled) -> bool {
    best.level == ScoreLevel::Yakuman(1) && !best.is_yakuman
}
