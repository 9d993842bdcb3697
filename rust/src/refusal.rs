//! Why a call is refused.

use crate::OTHER_VERSION;
use core::error::Error;
use core::fmt;

/// A refusal: the first of the checks that the input does not pass, in the order of their numbers
/// but for 14, which comes after 8 and before 9, and for 15 and 16, which come before all others
/// where a deal is booked. Nothing was scored, nothing was written and nothing was booked.
#[derive(Debug, Clone, Copy, PartialEq, Eq, Hash, PartialOrd, Ord)]
#[repr(u8)]
pub enum Refusal {
    /// The counts are not 34 long.
    CountsLength = 1,
    /// More than four calls.
    TooManyCalls = 2,
    /// A call's kind, tile or source is not that of a call. A closed sequence or a closed triplet is no
    /// call, and a sequence starts at 1 to 7 of a suit and is called from the left. With three players a
    /// sequence is no call, nor is a call of man 2 to 8 or from across.
    NotACall = 3,
    /// A count above 4. With three players one of man 2 to 8 above 0 too.
    CountAboveFour = 4,
    /// Hand and calls together hold more than four of a kind.
    FiveOfAKind = 5,
    /// The hand's tiles are not 14 - 3 × calls. Only finished hands are read.
    NumberOfTiles = 6,
    /// The records need more bytes than were lent.
    BufferTooShort = 7,
    /// The win type, a wind or the room's setting is out of range. Here: the round or the seat wind is a
    /// dragon, and where a deal is booked the round wind alone.
    OutOfRange = 8,
    /// The winning tile is missing, no tile, or not in the hand.
    WinningTile = 9,
    /// The hand has no reading.
    NoReading = 10,
    /// No reading has a yaku.
    NoYaku = 11,
    /// There are not more readings than the number asked for.
    NoSuchReading = 12,
    /// Basic points above 152,000.
    BasicPoints = 13,
    /// An indicator is no tile, or there are more than ten of dora or of ura dora. With three players there
    /// is any. It comes after 8 and before 9, and without riichi too where it is of ura dora.
    Indicators = 14,
    /// A seat above 3, or a discarder who is the winner. It comes first of all. Here
    /// [`Seat::new`](crate::Seat::new) refuses a seat above 3, so that none reaches a booking.
    Seats = 15,
    /// The book takes no deal more: 1,024 are booked, a seat is beyond 1,000,000,000 points either
    /// way, or there are more than 4,096 sticks. Or this deal would raise a counter of 255. It
    /// comes after 15 and before scoring's numbers, but for a dealer's win at a counter of 255:
    /// that has to score first.
    Book = 16,
}

impl Refusal {
    /// All refusals, by their numbers from 1 to 16.
    pub const ALL: [Refusal; 16] = [
        Refusal::CountsLength,
        Refusal::TooManyCalls,
        Refusal::NotACall,
        Refusal::CountAboveFour,
        Refusal::FiveOfAKind,
        Refusal::NumberOfTiles,
        Refusal::BufferTooShort,
        Refusal::OutOfRange,
        Refusal::WinningTile,
        Refusal::NoReading,
        Refusal::NoYaku,
        Refusal::NoSuchReading,
        Refusal::BasicPoints,
        Refusal::Indicators,
        Refusal::Seats,
        Refusal::Book,
    ];

    /// Its number, from 1 to 16.
    pub fn number(self) -> u8 {
        self as u8
    }

    /// The refusal with a number.
    pub fn from_number(number: u8) -> Option<Refusal> {
        let place = usize::from(number).checked_sub(1)?;
        Refusal::ALL.get(place).copied()
    }

    /// What it means.
    pub fn meaning(self) -> &'static str {
        match self {
            Refusal::CountsLength => "the counts are not 34 long",
            Refusal::TooManyCalls => "more than four calls",
            Refusal::NotACall => "a call's kind, tile or source is not that of a call",
            Refusal::CountAboveFour => {
                "a count above 4, or with three players one of man 2 to 8 above 0"
            }
            Refusal::FiveOfAKind => "hand and calls together hold more than four of a kind",
            Refusal::NumberOfTiles => "the hand's tiles are not 14 - 3 × calls",
            Refusal::BufferTooShort => "the records need more bytes than were lent",
            Refusal::OutOfRange => "the win type, a wind or the room's setting is out of range",
            Refusal::WinningTile => "the winning tile is no tile or not in the hand",
            Refusal::NoReading => "the hand has no reading",
            Refusal::NoYaku => "no reading has a yaku",
            Refusal::NoSuchReading => "there are not more readings than the number asked for",
            Refusal::BasicPoints => "basic points above 152,000",
            Refusal::Indicators => {
                "an indicator is above 33, there are more than ten, or one with three players"
            }
            Refusal::Seats => "a seat is above 3, or the discarder is the winner",
            Refusal::Book => "the book takes no deal more, or its counter would pass 255",
        }
    }
}

impl fmt::Display for Refusal {
    fn fmt(&self, f: &mut fmt::Formatter) -> fmt::Result {
        write!(f, "refused with {}: {}", self.number(), self.meaning())
    }
}

impl Error for Refusal {}

/// Whether the number of an answer is 0.
pub(crate) fn accepted(number: impl TryInto<u8>) -> Result<(), Refusal> {
    match number.try_into() {
        Ok(0) => Ok(()),
        number => {
            let refusal = number.ok().and_then(Refusal::from_number);
            Err(refusal.expect(OTHER_VERSION))
        }
    }
}

#[cfg(test)]
mod tests {
    use super::*;
    use alloc::string::ToString;

    #[test]
    fn numbers_and_refusals_are_one_to_one() {
        for (place, refusal) in Refusal::ALL.into_iter().enumerate() {
            assert_eq!(usize::from(refusal.number()), place + 1);
            assert_eq!(Refusal::from_number(refusal.number()), Some(refusal));
            assert_eq!(accepted(place + 1), Err(refusal));
        }
        assert_eq!(Refusal::from_number(0), None);
        assert_eq!(Refusal::from_number(17), None);
        assert_eq!(accepted(0), Ok(()));
    }

    #[test]
    fn a_refusal_says_its_number_and_meaning() {
        let text = Refusal::NoYaku.to_string();
        assert_eq!(text, "refused with 11: no reading has a yaku");
    }
}
