//! A whole win on agari's side, as a program that uses it would score it: read the hand, score every
//! reading, choose.

use crate::agari;
use crate::agari_scores;
use crate::answers;
use crate::differences;
use crate::game::Game;
use crate::hand::*;
use crate::library::Win;
use agari_core::context::GameContext;
use agari_core::hand::Meld;
use agari_core::scoring::ScoringResult;
use agari_core::yaku::YakuResult;

/// A win that passes the checks, with what agari takes made ready: its melds of the calls, the counts
/// of hand and calls together, and the circumstances. The room's setting stands beside.
pub struct AgariWin {
    counts: [u8; KINDS],
    with_calls: [u8; KINDS],
    called: Vec<Meld>,
    context: GameContext,
    setting: u8,
}

impl AgariWin {
    /// A win of four players.
    pub fn of(hand: &Hand, win: &Win) -> AgariWin {
        AgariWin::in_game(Game::Four, hand, win)
    }

    pub fn in_game(game: Game, hand: &Hand, win: &Win) -> AgariWin {
        let mut counts = [0; KINDS];
        counts.copy_from_slice(hand.counts());
        AgariWin {
            counts,
            with_calls: hand.with_calls().map(|count| count as u8),
            called: agari::called_melds(hand.called()),
            context: agari_scores::context(win, hand.is_open()).with_rules(agari::rules(game)),
            setting: win.double_wind_fu,
        }
    }

    /// The reading to choose: of those with a yaku one of the greatest worth. Maps of counts are made
    /// here, one where nothing is called, else two.
    pub fn score(&self) -> Option<(YakuResult, ScoringResult)> {
        let counts = agari::tile_counts(&self.counts);
        let together = (!self.called.is_empty()).then(|| agari::tile_counts(&self.with_calls));
        let together = together.as_ref().unwrap_or(&counts);
        let mut most = None;
        let mut chosen = None;
        for reading in answers::found(&counts, &self.called) {
            let yaku = answers::yaku(&reading, together, &self.context);
            let score = answers::score(&reading, &yaku, &self.context, self.setting);
            let total = score.payment.total.into();
            let worth = differences::worth(total, yaku.is_yakuman, score.han, score.fu.total);
            if !yaku.yaku_list.is_empty() && Some(worth) > most {
                most = Some(worth);
                chosen = Some((yaku, score));
            }
        }
        chosen
    }
}

#[cfg(test)]
mod tests {
    use super::*;
    use crate::random;
    use crate::rng::Rng;
    use crate::win_oracle::ExpectedWin;
    use crate::wins;

    fn any_win(rng: &mut Rng) -> (Hand, Win) {
        let hand = wins::hand(rng);
        let tile = random::held_tile(rng, &hand) as u8;
        (hand, wins::win(rng, &hand, tile))
    }

    #[test]
    fn the_choice_is_the_expected_one() {
        let mut rng = Rng::new(5);
        for number in 0..4000 {
            let (hand, win) = match number % 4 {
                0 => wins::double_wind(&mut rng),
                _ => any_win(&mut rng),
            };
            let want = ExpectedWin::of(&hand, &win).score_win();
            let got = AgariWin::of(&hand, &win).score();
            let got = got.map_or((11, 0, 0, 0), |(_, score)| {
                (0, score.payment.total.into(), score.han, score.fu.total)
            });
            assert_eq!(got, (want.number, want.total, want.han, want.fu));
        }
    }
}
