//! A score unit for riichi mahjong tables, proved, in agari's vocabulary.
//!
//! The work is done by `libziwhakemo.a`, whose functions are proved to answer as their definitions say
//! on every input. This crate turns agari's types into the library's numbers and back, and decides
//! nothing itself. `README.md` says call by call what stands for what in agari.
//!
//! A hand is 34 counts by tile number, of the tiles that are not called, the winning tile included
//! ([`to_counts`]). Calls are melds in any order, each open one with its [`Source`]. Input that cannot be
//! scored is a [`Refusal`].
//!
//! ```
//! use ziwhakemo::{GameContext, Honor, Suit, Tile, WinType, decompose_hand, score_win, to_counts};
//!
//! // man 222 333 444, pin 567, sou 88, ron on sou 8
//! let tile = |suit, value| Tile::suited(suit, value);
//! let man = [2, 2, 2, 3, 3, 3, 4, 4, 4].map(|value| tile(Suit::Man, value));
//! let pin = [5, 6, 7].map(|value| tile(Suit::Pin, value));
//! let sou = [8, 8].map(|value| tile(Suit::Sou, value));
//! let counts = to_counts(&[&man[..], &pin, &sou].concat()).unwrap();
//! let context = GameContext::new(WinType::Ron, Honor::East, Honor::South)
//!     .with_winning_tile(tile(Suit::Sou, 8));
//!
//! let win = score_win(&counts, &[], &context)?;
//! assert_eq!((win.result.han, win.result.fu.total), (3, 50));
//! assert_eq!(win.result.payment.total, 6400);
//! println!("{:?}", decompose_hand(&counts, &[])?[win.reading]);
//!
//! // With sou 7 shown, both sou 8 are dora.
//! let context = context.with_dora([tile(Suit::Sou, 7)]);
//! let win = score_win(&counts, &[], &context)?;
//! assert_eq!((win.dora().total(), win.result.han), (2, 5));
//! assert_eq!(win.result.payment.total, 8000);
//! # Ok::<(), ziwhakemo::Refusal>(())
//! ```
//!
//! The points of a table stand in a [`SeatBook`]. Each deal is booked into it, as a draw or as a
//! win, which the library scores:
//!
//! ```
//! use ziwhakemo::{Deal, GameContext, Honor, Seat, SeatBook, Suit, Tile, WinType, Winner};
//! use ziwhakemo::to_counts;
//!
//! // pin 123 345 678 999, West West, by riichi, won on pin 5
//! let pin = [1, 2, 3, 3, 4, 5, 6, 7, 8, 9, 9, 9].map(|value| Tile::suited(Suit::Pin, value));
//! let counts = to_counts(&[&pin[..], &[Tile::honor(Honor::West); 2]].concat()).unwrap();
//! let context = GameContext::new(WinType::Tsumo, Honor::East, Honor::East)
//!     .with_winning_tile(Tile::suited(Suit::Pin, 5))
//!     .riichi();
//!
//! // The dealer's tsumo: 4,000 from each.
//! let [seat, ..] = Seat::ALL;
//! let deal = Deal::new(seat).riichi(seat);
//! let mut book = SeatBook::new();
//! book.win(&counts, &[], &context, deal, Winner::Tsumo { seat })?;
//! assert_eq!(book.points(), [37_000, 21_000, 21_000, 21_000]);
//! assert_eq!((book.counter(), book.total()), (1, 100_000));
//! # Ok::<(), ziwhakemo::Refusal>(())
//! ```
//!
//! These functions are of four players. The game of three ([`Variant::Sanma`]) has the same ones as methods:
//! `Variant::Sanma.score_win(&counts, &[], &context)`. What differs between the two games stands in [`rules`].
//! The seat book is of four players alone.
//!
//! Without the feature `std`, which is on by default, the crate needs `alloc` alone, and leaves out
//! `TileCounts`, `counts_of` and the module `agari`.
#![no_std]
#![deny(unsafe_code)]
#![warn(missing_docs)]

#[macro_use]
extern crate alloc;
#[cfg(any(test, feature = "std"))]
extern crate std;

#[cfg(feature = "std")]
pub mod agari;
pub mod book;
pub mod context;
#[allow(unsafe_code)]
mod ffi;
pub mod hand;
pub mod record;
pub mod refusal;
pub mod rules;
pub mod scoring;
pub mod tile;
pub mod wait;
pub mod yaku;

pub use book::{Booking, Deal, Seat, SeatBook, Winner};
pub use context::{DoraCount, DoubleWindFu, GameContext, Indicators, WinType};
pub use hand::{HandStructure, KanType, Listing, Meld, Source, decompose_hand, list_readings};
pub use refusal::Refusal;
pub use rules::Variant;
pub use scoring::{
    FuResult, Payment, ScoreLevel, ScoredWin, ScoringResult, calculate_basic_points,
    calculate_payment, determine_score_level, score_reading, score_win,
};
pub use tile::{Honor, Suit, Tile, to_counts};
#[cfg(feature = "std")]
pub use tile::{TileCounts, counts_of};
pub use wait::{WaitType, detect_wait_types};
pub use yaku::{Yaku, YakuResult};

/// What is said where the library answers with a number that has no meaning here.
const OTHER_VERSION: &str = "libziwhakemo.a is not of the version that this crate was written for";
