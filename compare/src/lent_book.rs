//! A seat book as it is lent: 40 bytes with guard bytes on either side, and the operations on it.

use crate::hand::Hand;
use crate::library::{
    self, Deal, SeatBook, Win, Winner, lend, ziwhakemo_book_draw, ziwhakemo_book_win,
};
use crate::rng::Rng;

/// The bytes of a book.
pub type BookBytes = [u8; SeatBook::BYTES];

/// The number of guard bytes on either side, so that the book stands at a border of eight.
const GUARD: usize = 64;

/// The memory around a book. The guard bytes are noise, and have to stay.
#[derive(Clone, PartialEq, Eq)]
#[repr(C, align(8))]
pub struct LentBook([u8; GUARD + SeatBook::BYTES + GUARD]);

impl LentBook {
    /// These bytes as a book, in noise.
    pub fn in_noise(rng: &mut Rng, book: BookBytes) -> LentBook {
        let memory = [0; GUARD + SeatBook::BYTES + GUARD].map(|_: u8| rng.byte());
        LentBook(memory).with(book)
    }

    /// The same memory with these bytes as the book.
    pub fn with(mut self, book: BookBytes) -> LentBook {
        self.0[GUARD..][..SeatBook::BYTES].copy_from_slice(&book);
        self
    }

    /// The bytes of the book.
    pub fn bytes(&self) -> BookBytes {
        let mut book = [0; SeatBook::BYTES];
        book.copy_from_slice(&self.0[GUARD..][..SeatBook::BYTES]);
        book
    }

    /// Where the book stands: within the whole memory, so that a write outside the book is seen.
    fn place(&mut self) -> *mut SeatBook {
        self.0.as_mut_ptr().wrapping_add(GUARD).cast()
    }

    /// The book that stands there.
    #[cfg(test)]
    pub fn fields(&mut self) -> &mut SeatBook {
        // Any bytes are a book, and the place is at a border of eight.
        unsafe { &mut *self.place() }
    }

    /// The memory with the guard bytes.
    #[cfg(test)]
    pub fn memory(&mut self) -> &mut [u8] {
        &mut self.0
    }
}

/// A deal as it is lent to a booking: with a win, or without one where it is a draw.
#[derive(Clone, Copy)]
pub struct Booking {
    pub deal: Deal,
    pub won: Option<Won>,
}

/// A win as it is lent to a booking.
#[derive(Clone, Copy)]
pub struct Won {
    pub hand: Hand,
    pub win: Win,
    pub winner: Winner,
}

/// The operations on a book, so that a test may put others in their place.
#[derive(Clone, Copy)]
pub struct BookOperations {
    pub new_book: fn() -> BookBytes,
    pub book: fn(&mut LentBook, &Booking) -> u32,
}

/// The library's.
pub const BOOK_OPERATIONS: BookOperations = BookOperations { new_book, book };

/// The bytes of a new book.
fn new_book() -> BookBytes {
    // A book has no padding.
    unsafe { std::mem::transmute::<SeatBook, BookBytes>(library::new_book()) }
}

/// Books a draw or a win, and answers its number.
pub fn book(lent: &mut LentBook, booking: &Booking) -> u32 {
    let (place, deal) = (lent.place(), booking.deal);
    match &booking.won {
        None => unsafe { ziwhakemo_book_draw(place, deal) },
        Some(Won { hand, win, winner }) => lend(&hand.calls, |melds, called| unsafe {
            let (counts, length) = (hand.counts().as_ptr(), hand.counts().len());
            ziwhakemo_book_win(place, counts, length, melds, called, *win, deal, *winner)
        }),
    }
}
