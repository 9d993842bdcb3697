//! Measures how much stack the operations on a hand and on a book need. Each call runs on a stack
//! of its own, which is filled with a pattern before; the lowest byte that has another value
//! afterwards shows how deep it went.

use compare::hand::{Hand, KINDS};
use compare::library::{
    ALWAYS_ENOUGH, Deal, Listing, RON, SEATS, Score, SeatBook, TSUMO, Win, Winner, new_book,
    ziwhakemo_book_draw, ziwhakemo_book_win, ziwhakemo_list_readings, ziwhakemo_name_waits,
    ziwhakemo_score_reading, ziwhakemo_score_win,
};
use compare::random;
use compare::rng::Rng;
use compare::stored::put_win;
use compare::wins;
use std::arch::asm;
use std::env;
use std::mem::MaybeUninit;

const USAGE: &str = "usage: stack [HANDS]";
const SEED: u64 = 1;
const HANDS: u64 = 1_000_000;

const SIZE: usize = 8192;
const PATTERN: u8 = 0xa5;
/// The caller's part at the top: arguments that do not go into registers, up to a border of 16
/// bytes: at most the 35 bytes of a win and, at the next border of eight, a winner.
const CALLERS: usize = 48;
/// Where that winner stands.
const WINNERS_PLACE: usize = size_of::<Win>().next_multiple_of(8);

#[repr(align(16))]
struct Stack([u8; SIZE]);

/// Calls an operation on a stack of its own and answers how many bytes of it were used, its return address among
/// them. By the C interface the first six words of arguments go into registers, and a win and those that do not fit
/// onto the stack.
fn depth(operation: *const (), registers: [u64; 6], pushed: &[u8]) -> usize {
    let mut stack = Stack([PATTERN; SIZE]);
    let (_, callers) = stack.0.split_at_mut(SIZE - CALLERS);
    callers[..pushed.len()].copy_from_slice(pushed);
    // The library asks nothing of its input beyond slices that may be read and written, and
    // returns with this stack as it was handed over.
    unsafe {
        asm!(
            "mov r12, rsp",
            "mov rsp, rax",
            "call r13",
            "mov rsp, r12",
            inout("rax") callers.as_mut_ptr() => _,
            in("r13") operation,
            in("rdi") registers[0],
            in("rsi") registers[1],
            in("rdx") registers[2],
            in("rcx") registers[3],
            in("r8") registers[4],
            in("r9") registers[5],
            out("r12") _,
            clobber_abi("C"),
        );
    }
    let untouched = stack.0.iter().take_while(|&&byte| byte == PATTERN).count();
    assert!(untouched > 0, "a stack of {SIZE} bytes is too small");
    SIZE - CALLERS - untouched
}

/// The counts and the calls as they are lent, each a pointer and a length.
fn lent(hand: &Hand) -> [u64; 4] {
    let (counts, calls) = (hand.counts(), hand.called());
    [
        counts.as_ptr() as u64,
        counts.len() as u64,
        calls.as_ptr() as u64,
        calls.len() as u64,
    ]
}

/// The bytes of a win, as it goes onto the stack.
fn bytes(win: &Win) -> [u8; size_of::<Win>()] {
    let mut bytes = [0; size_of::<Win>()];
    put_win(&mut bytes, win);
    bytes
}

/// The bytes of a win that is booked and behind it its winner, as they go onto the stack.
fn booked_bytes(win: &Win, winner: &Winner) -> [u8; CALLERS] {
    let mut pushed = [0; CALLERS];
    put_win(&mut pushed[..size_of::<Win>()], win);
    let has_discarder = u8::from(winner.has_discarder);
    let winner = [winner.seat, has_discarder, winner.discarder];
    pushed[WINNERS_PLACE..][..winner.len()].copy_from_slice(&winner);
    pushed
}

/// A deal as it goes into a register: its bytes from the lowest on.
fn word(deal: &Deal) -> u64 {
    let declared = deal.declared.iter().rev();
    let declared = declared.fold(0, |word, &is_so| word << 8 | u64::from(is_so));
    declared << 8 | u64::from(deal.dealer)
}

/// The deepest call seen of each operation.
#[derive(Default)]
struct Deepest {
    listing: usize,
    win: usize,
    reading: usize,
    waits: usize,
    booked_win: usize,
    booked_draw: usize,
}

impl Deepest {
    /// Lists the readings of a hand, and answers how many there are.
    fn list(&mut self, hand: &Hand, out: &mut [u8]) -> usize {
        let mut answer = Listing {
            number: 0,
            readings: 0,
            bytes: 0,
        };
        let [counts, length, calls, number] = lent(hand);
        let (place, buffer) = (&raw mut answer as u64, out.as_mut_ptr() as u64);
        let registers = [place, counts, length, calls, number, buffer];
        let pushed = out.len().to_le_bytes();
        let used = depth(ziwhakemo_list_readings as *const (), registers, &pushed);
        self.listing = self.listing.max(used);
        answer.readings
    }

    /// Scores a win, which goes onto the stack.
    fn score_win(&mut self, hand: &Hand, win: &Win) -> Score {
        let mut answer = MaybeUninit::<Score>::uninit();
        let [counts, length, calls, number] = lent(hand);
        let registers = [answer.as_mut_ptr() as u64, counts, length, calls, number, 0];
        let used = depth(ziwhakemo_score_win as *const (), registers, &bytes(win));
        self.win = self.win.max(used);
        // The operation has written every field of it.
        unsafe { answer.assume_init() }
    }

    /// Scores a reading by its number, which goes into the last register.
    fn score_reading(&mut self, hand: &Hand, win: &Win, reading: u64) -> Score {
        let mut answer = MaybeUninit::<Score>::uninit();
        let [counts, length, calls, number] = lent(hand);
        let place = answer.as_mut_ptr() as u64;
        let registers = [place, counts, length, calls, number, reading];
        let used = depth(ziwhakemo_score_reading as *const (), registers, &bytes(win));
        self.reading = self.reading.max(used);
        // The operation has written every field of it.
        unsafe { answer.assume_init() }
    }

    /// Names the waits of a reading. The answer comes in registers, and its number goes into the fifth.
    fn name_waits(&mut self, hand: &Hand, win: &Win, reading: u64) {
        let [counts, length, calls, number] = lent(hand);
        let registers = [counts, length, calls, number, reading, 0];
        let used = depth(ziwhakemo_name_waits as *const (), registers, &bytes(win));
        self.waits = self.waits.max(used);
    }

    /// Books a win. The deal goes into the last register, the win and the winner onto the stack.
    fn book_win(&mut self, book: &mut SeatBook, hand: &Hand, win: &Win, seats: &(Deal, Winner)) {
        let (deal, winner) = seats;
        let [counts, length, calls, number] = lent(hand);
        let place = &raw mut *book as u64;
        let registers = [place, counts, length, calls, number, word(deal)];
        let pushed = booked_bytes(win, winner);
        let used = depth(ziwhakemo_book_win as *const (), registers, &pushed);
        self.booked_win = self.booked_win.max(used);
    }

    /// Books a draw. The deal goes into the second register.
    fn book_draw(&mut self, book: &mut SeatBook, deal: &Deal) {
        let registers = [&raw mut *book as u64, word(deal), 0, 0, 0, 0];
        let used = depth(ziwhakemo_book_draw as *const (), registers, &[]);
        self.booked_draw = self.booked_draw.max(used);
    }
}

/// A win of the hand by one of its tiles, by this win type, in any circumstances.
fn won(rng: &mut Rng, hand: &Hand, win_type: u8) -> Win {
    let tile = random::other_held_tile(rng, hand, KINDS);
    Win {
        win_type,
        ..wins::win(rng, hand, tile.unwrap_or(0) as u8)
    }
}

/// Any dealer and declaring seats, and a winner who won by this win type.
fn seats(rng: &mut Rng, win_type: u8) -> (Deal, Winner) {
    let [dealer, seat, onward] = [SEATS, SEATS, SEATS - 1].map(|number| rng.below(number));
    let deal = Deal {
        dealer: dealer as u8,
        declared: [(); SEATS].map(|_| rng.percent(50)),
    };
    let winner = Winner {
        seat: seat as u8,
        has_discarder: win_type == RON,
        discarder: ((seat + 1 + onward) % SEATS) as u8,
    };
    (deal, winner)
}

fn main() {
    let hands = match env::args().nth(1) {
        Some(number) => number.parse().expect(USAGE),
        None => HANDS,
    };
    let mut rng = Rng::new(SEED);
    let mut out = [0; ALWAYS_ENOUGH];
    let mut deepest = Deepest::default();
    for _ in 0..hands {
        let hand = random::any(&mut rng);
        let readings = deepest.list(&hand, &mut out);
        for win_type in [RON, TSUMO] {
            let win = won(&mut rng, &hand, win_type);
            deepest.score_win(&hand, &win);
            for reading in 0..=readings as u64 {
                deepest.score_reading(&hand, &win, reading);
                deepest.name_waits(&hand, &win, reading);
            }
            let seats = seats(&mut rng, win_type);
            let mut book = new_book();
            deepest.book_draw(&mut book, &seats.0);
            deepest.book_win(&mut book, &hand, &win, &seats);
        }
    }
    println!("bytes of stack used by the deepest call on {hands} hands");
    println!("listing the readings   {}", deepest.listing);
    println!("scoring a win          {}", deepest.win);
    println!("scoring a reading      {}", deepest.reading);
    println!("naming its waits       {}", deepest.waits);
    println!("booking a win          {}", deepest.booked_win);
    println!("booking a draw         {}", deepest.booked_draw);
}

#[cfg(test)]
mod tests {
    use super::*;
    use compare::library;

    #[test]
    fn a_win_arrives_on_that_stack_as_it_is() {
        let mut rng = Rng::new(6);
        let mut deepest = Deepest::default();
        for _ in 0..500 {
            let hand = wins::hand(&mut rng);
            let win = won(&mut rng, &hand, TSUMO);
            let (counts, calls) = (hand.counts(), hand.calls);
            let want = library::score_win(counts, calls, win);
            assert_eq!(deepest.score_win(&hand, &win), want);
            for reading in 0..2 {
                let want = library::score_reading(counts, calls, win, reading as usize);
                assert_eq!(deepest.score_reading(&hand, &win, reading), want);
            }
        }
    }

    #[test]
    fn a_deal_and_a_winner_arrive_as_they_are() {
        let mut rng = Rng::new(6);
        let mut deepest = Deepest::default();
        let mut accepted = [0; 2];
        for _ in 0..500 {
            let hand = wins::hand(&mut rng);
            let win_type = rng.pick(&[RON, TSUMO]);
            let win = won(&mut rng, &hand, win_type);
            let seats = seats(&mut rng, win_type);
            let [mut want, mut got] = [new_book(); 2];
            let (deal, winner) = seats;
            let drawn = library::book_draw(&mut want, deal);
            let booked = library::book_win(&mut want, &hand, win, deal, winner);
            deepest.book_draw(&mut got, &deal);
            deepest.book_win(&mut got, &hand, &win, &seats);
            assert_eq!(got, want);
            assert_eq!(drawn, 0);
            accepted[usize::from(win_type)] += usize::from(booked == 0);
        }
        assert!(accepted.iter().all(|&wins| wins > 100), "{accepted:?}");
    }
}
