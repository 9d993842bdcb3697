//! A table that runs agari, with the library beside it: agari scores each win as before, the library
//! scores it too, and where they differ both answers are printed. Wins are dealt at random.
//!
//! A table changes over by this loop in three steps: it settles by `by_agari` and logs, then settles by
//! `by_library` and logs, and then takes `by_agari` out. Where it has red fives, it scores both sides
//! without them to compare.

use compare::answers;
use compare::arguments::{self, Options};
use compare::convert::theirs::HandStructure;
use compare::convert::to_ziwhakemo;
use compare::differences::{ranking, worth};
use compare::rng::Rng;
use compare::shadow::{Log, Ranked, Settled, TableWin};
use std::process::ExitCode;
use ziwhakemo::{Refusal, Yaku};

const USAGE: &str = "usage: shadow [--seed N] [--wins N] [--wrong]";
const WINS: u64 = 1_000_000;

/// As before: agari's readings, each scored, the best that has a yaku first. `answers` asks agari, and
/// puts in the listed differences: each reading once, in the order of records, and the room's setting.
fn by_agari(win: &TableWin) -> Ranked {
    let readings = answers::readings(&win.counts, &win.calls).into_iter();
    let scored: Vec<Settled> = readings
        .map(|(_, reading)| settled(win, &reading))
        .collect();
    let ranked = ranking(&scored, |of| {
        let worth = worth(of.payment.total.into(), of.is_yakuman, of.han, of.fu);
        (!of.yaku.is_empty()).then_some(worth)
    });
    match (scored.is_empty(), ranked.is_empty()) {
        (true, _) => Err(Refusal::NoReading),
        (false, true) => Err(Refusal::NoYaku),
        (false, false) => Ok(ranked.into_iter().cloned().collect()),
    }
}

/// What agari makes of a reading.
fn settled(win: &TableWin, reading: &HandStructure) -> Settled {
    let yaku = answers::yaku(reading, &win.all_counts, &win.context);
    let score = answers::score(reading, &yaku, &win.context, win.setting);
    let list = yaku.yaku_list.into_iter();
    let mut list: Vec<Yaku> = list.filter_map(to_ziwhakemo::yaku).collect();
    list.sort_by_key(|yaku| Yaku::ALL.iter().position(|other| other == yaku));
    Settled {
        yaku: list,
        is_yakuman: yaku.is_yakuman,
        dora: [yaku.regular_dora, yaku.ura_dora],
        han: score.han,
        fu: score.fu.total,
        level: to_ziwhakemo::score_level(score.score_level),
        basic_points: score.basic_points,
        payment: to_ziwhakemo::payment(&score.payment),
    }
}

/// By the library: all of it is one call.
fn by_library(win: &TableWin) -> Result<Settled, Refusal> {
    let counts = ziwhakemo::counts_of(&to_ziwhakemo::tile_counts(&win.counts));
    let counts = counts.expect("the table deals tiles alone");
    let calls = to_ziwhakemo::calls(&win.calls, &win.sources);
    let context = to_ziwhakemo::game_context(&win.context);
    let context = context.expect("the table has no red fives and agari's default rules");
    let setting = to_ziwhakemo::double_wind_fu(win.setting).expect("the room has a setting");
    let context = context.with_double_wind_fu(setting);
    let scored = ziwhakemo::score_win(&counts, &calls, &context)?;
    Ok(Settled {
        dora: [scored.dora().regular, scored.dora().ura],
        yaku: scored.yaku_result.yaku_list,
        is_yakuman: scored.yaku_result.is_yakuman,
        han: scored.result.han,
        fu: scored.result.fu.total,
        level: scored.result.score_level,
        basic_points: scored.result.basic_points,
        payment: scored.result.payment,
    })
}

fn main() -> ExitCode {
    arguments::run(USAGE, |words| {
        let options = Options::read(words, &["--seed", "--wins"], &["--wrong"])?;
        let mut is_wrong = options.has("--wrong");
        let mut rng = Rng::new(options.number("--seed").unwrap_or(1));
        let mut log = Log::default();
        for _ in 0..options.number("--wins").unwrap_or(WINS) {
            let win = TableWin::dealt(&mut rng);
            // The table settles by the first of these, and has the library's answer beside it.
            let agari = by_agari(&win);
            let mut library = by_library(&win);
            // On request, the first win that is settled is broken, to see that it is told.
            if let (true, Ok(settled)) = (is_wrong, &mut library) {
                settled.payment.total += 100;
                is_wrong = false;
            }
            log.hold(&win, &agari, &library);
        }
        print!("{log}");
        Some(match log.differ {
            0 => ExitCode::SUCCESS,
            _ => ExitCode::FAILURE,
        })
    })
}

#[cfg(test)]
mod tests {
    use super::*;

    #[test]
    fn nothing_differs_and_what_is_broken_does() {
        let mut rng = Rng::new(3);
        let mut log = Log::default();
        let wins: Vec<TableWin> = (0..3000).map(|_| TableWin::dealt(&mut rng)).collect();
        for win in &wins {
            log.hold(win, &by_agari(win), &by_library(win));
        }
        assert_eq!(log.differ, 0);
        let settled = wins.iter().find(|win| by_library(win).is_ok()).unwrap();
        let mut broken = by_library(settled).unwrap();
        broken.fu += 10;
        log.hold(settled, &by_agari(settled), &Ok(broken));
        assert_eq!(log.differ, 1);
        log.hold(settled, &by_agari(settled), &Err(Refusal::NoYaku));
        assert_eq!(log.differ, 2);
    }
}
