//! Counts of the bookings that were compared.

use crate::book_corners::{self, Seen};
use crate::book_deals::{LONG, SHORT};
use crate::book_model::{BOOK_REFUSED, Deal, GROUNDS, MOST_COUNTER, SEATS, SEATS_REFUSED};
use crate::faults::{FaultTally, add_each, listed, listed_from};
use crate::library::SETTINGS;
use crate::win_oracle::CHECKS;
use crate::win_tally::{
    INDICATORS, SETTING_NAMES, SETTLEMENTS, count_each, counted, indicators, setting, settlement,
};
use std::fmt;

/// The answers 0 to 16.
const ANSWERS: usize = BOOK_REFUSED as usize + 1;
/// The numbers that a draw and a win are answered with.
const OF_DRAWS: [usize; 3] = [0, 15, 16];
const OF_WINS: [usize; 14] = [0, 15, 16, 1, 2, 3, 4, 5, 6, 8, 14, 9, 10, 11];
/// The refusals of a win that are there before it is scored, in their order.
const OF_FAULTS: [usize; CHECKS.len() + 2] = [15, 16, 1, 2, 3, 4, 5, 6, 8, 14, 9];

const COUNTERS: usize = MOST_COUNTER as usize + 1;
/// So many counters are printed together.
const TOGETHER: usize = 32;
/// Histories are counted by their number of bookings: short ones, long ones, and longer than a book
/// takes.
const LENGTHS: [usize; 2] = [SHORT, LONG];

/// How often each of so many cases occurred, all of which have to.
struct Cases {
    name: &'static str,
    counts: Vec<u64>,
}

impl Cases {
    fn new(name: &'static str, number: usize) -> Cases {
        Cases {
            name,
            counts: vec![0; number],
        }
    }

    fn missing(&self) -> usize {
        self.counts.iter().filter(|&&count| count == 0).count()
    }
}

impl fmt::Display for Cases {
    fn fmt(&self, f: &mut fmt::Formatter) -> fmt::Result {
        let all = self.counts.len();
        let least = self.counts.iter().min().unwrap_or(&0);
        let seen = all - self.missing();
        write!(
            f,
            "{}: {seen} of {all}, each at least {least} times",
            self.name
        )
    }
}

/// What may differ: a booking, the bytes of a new book, or the model from what follows from its
/// history.
#[derive(Clone, Copy)]
pub enum Difference {
    Booking,
    NewBook,
    History,
}

const DIFFERENCES: [&str; 3] = ["bookings", "new books", "the model and its history"];

/// A history is a book to begin with and the bookings in it; where one differs, it ends.
pub struct BookTally {
    /// Histories by their number of bookings, and those of a new book.
    histories: [u64; LENGTHS.len() + 1],
    new_books: u64,
    /// Draws and wins by answer.
    draws: [u64; ANSWERS],
    wins: [u64; ANSWERS],
    /// Bookings by ground for 15 and 16, and wins by these and their faults.
    grounds: [u64; GROUNDS.len()],
    faults: FaultTally<{ OF_FAULTS.len() }>,
    /// Accepted wins.
    settlements: [u64; SETTLEMENTS.len()],
    settings: [u64; SETTINGS.len()],
    indicators: [u64; INDICATORS.len()],
    calls: [u64; 5],
    /// Accepted draws and wins by their seats.
    seats_of_draws: Cases,
    seats_of_wins: Cases,
    /// Seats above 3 in refused bookings, by where they stand.
    wrong_seats: [Cases; 4],
    /// Bookings by the counter before them, and those of a new book's history.
    counters: Cases,
    counters_of_new: Cases,
    corners: Vec<u64>,
    differ: [u64; DIFFERENCES.len()],
}

impl Default for BookTally {
    fn default() -> BookTally {
        let wrong = |name| Cases::new(name, 256 - SEATS.len());
        BookTally {
            histories: [0; LENGTHS.len() + 1],
            new_books: 0,
            draws: [0; ANSWERS],
            wins: [0; ANSWERS],
            grounds: [0; GROUNDS.len()],
            faults: FaultTally::new("wins", OF_FAULTS),
            settlements: [0; SETTLEMENTS.len()],
            settings: [0; SETTINGS.len()],
            indicators: [0; INDICATORS.len()],
            calls: [0; 5],
            seats_of_draws: Cases::new("accepted draws by dealer and declaring seats", 4 * 16),
            seats_of_wins: Cases::new(
                "accepted wins by dealer, winner, discarder or none, and declaring seats",
                4 * 4 * 4 * 16,
            ),
            wrong_seats: [
                wrong("dealers of draws"),
                wrong("dealers of wins"),
                wrong("winners"),
                wrong("discarders"),
            ],
            counters: Cases::new("counters before a booking", COUNTERS),
            counters_of_new: Cases::new("those in histories of a new book", COUNTERS),
            corners: vec![0; book_corners::names().len()],
            differ: [0; DIFFERENCES.len()],
        }
    }
}

impl BookTally {
    pub fn differ(&self) -> u64 {
        self.differ.iter().sum()
    }

    /// That number by what differs.
    #[cfg(test)]
    pub fn each_differ(&self) -> [u64; DIFFERENCES.len()] {
        self.differ
    }

    pub fn count_difference(&mut self, difference: Difference) {
        self.differ[difference as usize] += 1;
    }

    /// Counts a history of so many bookings.
    pub fn count_history(&mut self, is_new: bool, bookings: usize) {
        let place = LENGTHS.iter().filter(|&&most| bookings > most).count();
        self.histories[place] += 1;
        self.new_books += u64::from(is_new);
    }

    pub fn count(&mut self, seen: &Seen) {
        let answer = seen.number as usize;
        let counter = seen.before.counter as usize;
        self.counters.counts[counter] += 1;
        self.counters_of_new.counts[counter] += u64::from(seen.is_new);
        count_each(&mut self.grounds, seen.grounds());
        let met: Vec<u64> = book_corners::met(seen).into_iter().map(u64::from).collect();
        add_each(&mut self.corners, &met);
        match seen.deal.win {
            None => self.draws[answer] += 1,
            Some(_) => {
                self.wins[answer] += 1;
                self.faults.count(&faults(seen));
            }
        }
        match seen.number {
            0 => self.count_accepted(seen),
            SEATS_REFUSED => self.count_wrong_seats(seen.deal),
            _ => {}
        }
    }

    fn count_accepted(&mut self, seen: &Seen) {
        let declared = seen.deal.declared.iter();
        let declared = declared.fold(0, |bits, &is_so| 2 * bits + usize::from(is_so));
        let (Some(win), Some(won), Some(seats)) =
            (seen.read_win(), &seen.booking.won, seen.deal.win)
        else {
            self.seats_of_draws.counts[16 * seen.deal.dealer + declared] += 1;
            return;
        };
        // By tsumo the winner's own seat stands for nobody.
        let discarder = seats.discarder.unwrap_or(seats.winner);
        let seats = 16 * seen.deal.dealer + 4 * seats.winner + discarder;
        self.seats_of_wins.counts[16 * seats + declared] += 1;
        self.settlements[settlement(&win)] += 1;
        self.settings[setting(&win)] += 1;
        self.indicators[indicators(&win)] += 1;
        self.calls[won.hand.calls.count] += 1;
    }

    fn count_wrong_seats(&mut self, deal: &Deal) {
        let winner = deal.win.map(|win| win.winner);
        let discarder = deal.win.and_then(|win| win.discarder);
        let dealer = Some(deal.dealer);
        let dealers = match deal.win {
            None => [dealer, None],
            Some(_) => [None, dealer],
        };
        let seats = [dealers[0], dealers[1], winner, discarder];
        for (cases, seat) in self.wrong_seats.iter_mut().zip(seats) {
            if let Some(place) = seat.and_then(|seat| seat.checked_sub(SEATS.len())) {
                cases.counts[place] += 1;
            }
        }
    }

    fn cases(&self) -> impl Iterator<Item = &Cases> {
        let seats = [&self.seats_of_draws, &self.seats_of_wins];
        let counters = [&self.counters, &self.counters_of_new];
        seats.into_iter().chain(&self.wrong_seats).chain(counters)
    }

    /// What has to occur and did not.
    pub fn missing(&self) -> Vec<String> {
        let never = |counts: &[u64], number: usize| counts[number] == 0;
        let draws = OF_DRAWS
            .iter()
            .filter(|&&number| never(&self.draws, number));
        let wins = OF_WINS.iter().filter(|&&number| never(&self.wins, number));
        let draws = draws.map(|number| format!("a draw answered with {number}"));
        let wins = wins.map(|number| format!("a win answered with {number}"));
        let cases = self.cases().filter(|cases| cases.missing() > 0);
        let cases = cases.map(|cases| cases.to_string());
        let corners = book_corners::names().into_iter().zip(&self.corners);
        let corners = corners.filter(|&(_, &met)| met == 0);
        let corners = corners.map(|(name, _)| name.to_string());
        draws.chain(wins).chain(cases).chain(corners).collect()
    }
}

/// Which of the refusals of a win that are there before it is scored have a ground.
fn faults(seen: &Seen) -> [bool; OF_FAULTS.len()] {
    let book = [SEATS_REFUSED, BOOK_REFUSED].map(|number| seen.has_ground(number));
    let faults = seen.faults();
    std::array::from_fn(|place| match place.checked_sub(book.len()) {
        None => book[place],
        Some(place) => faults[place],
    })
}

/// The counts of these numbers.
fn by_answer(numbers: &[usize], counts: &[u64; ANSWERS]) -> String {
    let counts: Vec<u64> = numbers.iter().map(|&number| counts[number]).collect();
    listed(numbers, &counts)
}

impl BookTally {
    fn fmt_histories(&self, f: &mut fmt::Formatter) -> fmt::Result {
        let histories: u64 = self.histories.iter().sum();
        let [short, long, longer] = self.histories;
        let [few, many] = LENGTHS;
        write!(
            f,
            "  histories {histories}, by bookings: at most {few}: {short}, "
        )?;
        writeln!(f, "at most {many}: {long}, more: {longer}")?;
        writeln!(f, "    of a new book: {}", self.new_books)?;
        let [draws, wins] = [&self.draws, &self.wins].map(|counts| counts.iter().sum::<u64>());
        writeln!(f, "  bookings {}", draws + wins)?;
        let answers = by_answer(&OF_DRAWS, &self.draws);
        writeln!(f, "    draws {draws}, by answer: {answers}")?;
        let answers = by_answer(&OF_WINS, &self.wins);
        writeln!(f, "    wins {wins}, by answer: {answers}")?;
        let names = GROUNDS.map(|(number, name)| format!("{number} {name}"));
        let names = names.each_ref().map(String::as_str);
        let grounds = counted(&names, &self.grounds);
        writeln!(f, "    with a ground for: {grounds}")
    }

    fn fmt_accepted(&self, f: &mut fmt::Formatter) -> fmt::Result {
        let settlements = counted(&SETTLEMENTS, &self.settlements);
        let settings = counted(&SETTING_NAMES, &self.settings);
        let indicators = counted(&INDICATORS, &self.indicators);
        let calls = listed_from(0, &self.calls);
        writeln!(f, "  accepted wins by settlement: {settlements}")?;
        writeln!(f, "    by setting: {settings}")?;
        writeln!(f, "    by indicators: {indicators}")?;
        writeln!(f, "    by calls: {calls}")?;
        writeln!(f, "  {}", self.seats_of_draws)?;
        writeln!(f, "  {}", self.seats_of_wins)?;
        writeln!(f, "  seats above 3 that were refused with 15")?;
        for wrong in &self.wrong_seats {
            writeln!(f, "    {wrong}")?;
        }
        Ok(())
    }

    fn fmt_counters(&self, f: &mut fmt::Formatter) -> fmt::Result {
        for counters in [&self.counters, &self.counters_of_new] {
            writeln!(f, "  {counters}")?;
            let ranges = counters.counts.chunks(TOGETHER).enumerate();
            let ranges = ranges.map(|(place, counts)| {
                let first = TOGETHER * place;
                let last = first + counts.len() - 1;
                let all: u64 = counts.iter().sum();
                format!("{first} to {last}: {all}")
            });
            let ranges: Vec<String> = ranges.collect();
            writeln!(f, "    {}", ranges.join(", "))?;
        }
        Ok(())
    }
}

impl fmt::Display for BookTally {
    fn fmt(&self, f: &mut fmt::Formatter) -> fmt::Result {
        self.fmt_histories(f)?;
        write!(f, "{}", self.faults)?;
        self.fmt_accepted(f)?;
        self.fmt_counters(f)?;
        writeln!(f, "  corners")?;
        for (name, met) in book_corners::names().iter().zip(&self.corners) {
            writeln!(f, "    {met:9}  {name}")?;
        }
        let missing = self.missing();
        writeln!(f, "  what has to occur and did not: {}", missing.len())?;
        for name in missing {
            writeln!(f, "    {name}")?;
        }
        let each = counted(&DIFFERENCES, &self.differ);
        writeln!(f, "  differ: {} ({each})", self.differ())
    }
}
