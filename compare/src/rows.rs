//! The rows of the proved tables of hands, read from the files in which they are defined.
//!
//! Of antt only what those rows are written in is read: a name with its arguments, numbers, `++`,
//! lists by `∷`, `[]` and `replicate`, parentheses. Anything else ends the program.

use crate::hand::*;
use crate::library::{Calls, Indicators, Meld, RON, TSUMO, Win};
use std::fmt;
use std::iter::Peekable;
use std::slice::Iter;

const HONORS: [&str; 7] = ["East", "South", "West", "North", "White", "Green", "Red"];
pub const EAST: u8 = 27;
pub const SOUTH: u8 = 28;
/// The flags of a win in their order.
pub const FLAGS: [&str; 8] = [
    "riichi",
    "doubleRiichi",
    "ippatsu",
    "rinshan",
    "chankan",
    "lastTile",
    "tenhou",
    "chiihou",
];

/// An expression.
#[derive(Clone, Debug, PartialEq, Eq)]
pub enum Term {
    Number(u64),
    List(Vec<Term>),
    /// A name with its arguments; `++` of two lists.
    Name(String, Vec<Term>),
}

/// A definition of a row.
pub struct Row {
    pub name: String,
    pub term: Term,
}

impl Row {
    /// The rows of a file in their order.
    pub fn all(text: &str) -> Vec<Row> {
        text.split("\n\n").filter_map(Row::of).collect()
    }

    /// The row of a paragraph: `abbrev pub NAME : Row`, `NAME = EXPRESSION`, with comments above.
    fn of(paragraph: &str) -> Option<Row> {
        let lines = paragraph.lines().filter(|line| !line.starts_with("--"));
        let text = lines.collect::<Vec<_>>().join(" ");
        let (name, body) = text.strip_prefix("abbrev pub ")?.split_once(" : Row ")?;
        let body = body.strip_prefix(name).expect("the row's name");
        let body = body.trim_start().strip_prefix('=').expect("a row's =");
        Some(Row {
            name: name.into(),
            term: Term::of(body),
        })
    }

    /// The name as records have it: `no_yaku` is `no-yaku`.
    pub fn title(&self) -> String {
        self.name.replace('_', "-")
    }

    /// The name of the row's own theorem: `no_yaku_holds` that of `no_yaku`.
    pub fn theorem(&self) -> String {
        format!("{}_holds", self.name)
    }
}

impl Term {
    /// The expression of a text.
    pub fn of(text: &str) -> Term {
        let spaced = text.replace('(', " ( ").replace(')', " ) ");
        let words: Vec<&str> = spaced.split_whitespace().collect();
        let mut words = words.iter().peekable();
        let term = joined(&mut words);
        assert!(words.next().is_none(), "a whole expression: {text}");
        term
    }

    /// The name and the arguments.
    pub fn parts(&self) -> (&str, &[Term]) {
        match self {
            Term::Name(name, arguments) => (name, arguments),
            other => panic!("no name with arguments: {other}"),
        }
    }

    pub fn list(&self) -> &[Term] {
        match self {
            Term::List(terms) => terms,
            other => panic!("no list: {other}"),
        }
    }

    pub fn number(&self) -> u64 {
        match self {
            Term::Number(number) => *number,
            other => panic!("no number: {other}"),
        }
    }

    /// A win type: `by_ron`, `by_tsumo`, or a number.
    pub fn win_type(&self) -> u8 {
        match self {
            Term::Number(number) => *number as u8,
            _ => match self.parts().0 {
                "by_ron" => RON,
                "by_tsumo" => TSUMO,
                other => panic!("no win type: {other}"),
            },
        }
    }

    /// A yes or no by two names.
    pub fn is(&self, yes: &str, no: &str) -> bool {
        let name = self.parts().0;
        assert!(name == yes || name == no, "neither {yes} nor {no}: {name}");
        name == yes
    }

    /// A tile: `man 5`, `East`, or a number.
    fn tile(&self) -> u8 {
        if let Term::Number(number) = self {
            return *number as u8;
        }
        let (name, arguments) = self.parts();
        match HONORS.iter().position(|&honor| honor == name) {
            Some(place) => EAST + place as u8,
            None => first_tile(name) + arguments[0].number() as u8 - 1,
        }
    }

    /// Tiles: `mans 12355`, `orphan_tiles`, `replicate 4 (man 1)`, a list, or some of these joined.
    fn tiles(&self) -> Vec<u8> {
        if let Term::List(tiles) = self {
            return tiles.iter().map(Term::tile).collect();
        }
        match self.parts() {
            ("++", [left, right]) => [left.tiles(), right.tiles()].concat(),
            ("replicate", [number, tile]) => vec![tile.tile(); number.number() as usize],
            ("orphan_tiles", []) => vec![0, 8, 9, 17, 18, 26, 27, 28, 29, 30, 31, 32, 33],
            (suit, arguments) => {
                let first = first_tile(suit.strip_suffix('s').expect("tiles of a suit"));
                let digits = arguments[0].number().to_string();
                digits.bytes().map(|digit| first + digit - b'1').collect()
            }
        }
    }

    /// A hand with its calls. Behind the fourth call only the number of calls is kept.
    pub fn hand(&self, calls: &Term) -> Hand {
        let ("hand", [tiles]) = self.parts() else {
            panic!("no hand: {self}");
        };
        let mut hand = Hand::empty();
        for tile in tiles.tiles() {
            hand.counts[usize::from(tile)] += 1;
        }
        let melds: Vec<Meld> = calls.list().iter().map(Term::call).collect();
        hand.calls = Calls {
            count: melds.len(),
            ..Calls::default()
        };
        for (place, &meld) in melds.iter().take(4).enumerate() {
            hand.calls.melds[place] = meld;
        }
        hand
    }

    /// A call: `chi (man 1)` and the like, an open one from the player before, or from whom it is said,
    /// `from_across (pon Red)`.
    fn call(&self) -> Meld {
        let (name, arguments) = self.parts();
        let of = &arguments[0];
        match name {
            "chi" => Meld::new(of.tile(), OPEN_SEQUENCE),
            "pon" => Meld::new(of.tile(), OPEN_TRIPLET),
            "closed_kan" => Meld::new(of.tile(), CLOSED_KAN),
            "open_kan" => Meld::new(of.tile(), OPEN_KAN),
            "added_kan" => Meld::new(of.tile(), ADDED_KAN),
            "from_right" => of.call().with_source(RIGHT),
            "from_across" => of.call().with_source(ACROSS),
            "from_left" => of.call().with_source(LEFT),
            _ => panic!("no call: {name}"),
        }
    }

    /// A win: `ron (sou 8)`, `south_wins by_ron (sou 8) (riichi ∷ [])` and the like, or such a win in a
    /// room with another setting, `in_room 2 (ron (sou 8))`, or with indicators and ura indicators,
    /// `showing (man 1 ∷ []) [] (ron (sou 8))`.
    pub fn win(&self) -> Win {
        match self.parts() {
            ("in_room", [setting, win]) => win.win().in_room(setting.number() as u8),
            ("showing", [dora, ura, win]) => {
                let shown = [dora, ura].map(|tiles| Indicators::of(&tiles.tiles()));
                win.win().showing(shown)
            }
            _ => self.plain_win(),
        }
    }

    /// A win with setting four and no indicators.
    fn plain_win(&self) -> Win {
        let plain = Term::List(Vec::new());
        let (win_type, tile, round, seat, flags) = match self.parts() {
            ("ron", [tile]) => (RON, tile, EAST, SOUTH, &plain),
            ("tsumo", [tile]) => (TSUMO, tile, EAST, SOUTH, &plain),
            ("south_wins", [by, tile, flags]) => (by.win_type(), tile, EAST, SOUTH, flags),
            ("dealer_wins", [by, tile, flags]) => (by.win_type(), tile, EAST, EAST, flags),
            ("win", [by, tile, round, seat, flags]) => {
                (by.win_type(), tile, round.tile(), seat.tile(), flags)
            }
            (name, _) => panic!("no win: {name}"),
        };
        let mut win = Win::new(win_type, tile.tile(), round, seat);
        for name in flags.list() {
            *flag(&mut win, name.parts().0) = true;
        }
        win
    }
}

/// The first tile of a suit.
fn first_tile(suit: &str) -> u8 {
    match suit {
        "man" => 0,
        "pin" => 9,
        "sou" => 18,
        _ => panic!("no suit: {suit}"),
    }
}

fn flag<'a>(win: &'a mut Win, name: &str) -> &'a mut bool {
    match name {
        "riichi" => &mut win.is_riichi,
        "doubleRiichi" => &mut win.is_double_riichi,
        "ippatsu" => &mut win.is_ippatsu,
        "rinshan" => &mut win.is_rinshan,
        "chankan" => &mut win.is_chankan,
        "lastTile" => &mut win.is_last_tile,
        "tenhou" => &mut win.is_tenhou,
        "chiihou" => &mut win.is_chiihou,
        _ => panic!("no flag: {name}"),
    }
}

type Words<'a, 'b> = Peekable<Iter<'a, &'b str>>;

/// Lists joined by `++`, or one expression.
fn joined(words: &mut Words) -> Term {
    let left = chained(words);
    match words.next_if_eq(&&"++") {
        Some(_) => Term::Name("++".into(), vec![left, joined(words)]),
        None => left,
    }
}

/// A list by `∷`, or one expression.
fn chained(words: &mut Words) -> Term {
    let first = applied(words);
    if words.next_if_eq(&&"∷").is_none() {
        return first;
    }
    match chained(words) {
        Term::List(mut terms) => {
            terms.insert(0, first);
            Term::List(terms)
        }
        other => Term::Name("++".into(), vec![Term::List(vec![first]), other]),
    }
}

/// A name with its arguments, or one expression.
fn applied(words: &mut Words) -> Term {
    let mut term = single(words);
    while words
        .peek()
        .is_some_and(|word| !matches!(**word, ")" | "∷" | "++"))
    {
        let Term::Name(_, arguments) = &mut term else {
            panic!("arguments behind {term}");
        };
        arguments.push(single(words));
    }
    term
}

fn single(words: &mut Words) -> Term {
    match *words.next().expect("an expression") {
        "(" => {
            let term = joined(words);
            assert_eq!(words.next(), Some(&")"), "a closing parenthesis");
            term
        }
        "[]" => Term::List(Vec::new()),
        word => match word.parse() {
            Ok(number) => Term::Number(number),
            Err(_) => Term::Name(word.into(), Vec::new()),
        },
    }
}

impl fmt::Display for Term {
    fn fmt(&self, f: &mut fmt::Formatter) -> fmt::Result {
        match self {
            Term::Number(number) => write!(f, "{number}"),
            Term::List(terms) => {
                for term in terms {
                    write!(f, "{term} ∷ ")?;
                }
                write!(f, "[]")
            }
            Term::Name(name, arguments) => {
                write!(f, "{name}")?;
                for term in arguments {
                    match term {
                        Term::Number(number) => write!(f, " {number}")?,
                        Term::List(terms) if terms.is_empty() => write!(f, " []")?,
                        Term::Name(name, terms) if terms.is_empty() => write!(f, " {name}")?,
                        _ => write!(f, " ({term})")?,
                    }
                }
                Ok(())
            }
        }
    }
}

#[cfg(test)]
mod tests {
    use super::*;

    const TEXT: &str = "-- not a row\nuse x.{y}\n\n-- a row\nabbrev pub no_yaku : Row\nno_yaku =\n    \
        won (hand (mans 55 ++ (East ∷ []))) (chi (man 1) ∷ pon Red ∷ []) (south_wins by_tsumo (pin 3) \
        (riichi ∷ ippatsu ∷ []))\n    (refuses 11)\n\nabbrev pub rows : List Row\nrows = no_yaku ∷ []\n";

    #[test]
    fn rows_are_read() {
        let rows = Row::all(TEXT);
        assert_eq!(rows.len(), 1);
        assert_eq!(rows[0].title(), "no-yaku");
        assert_eq!(rows[0].theorem(), "no_yaku_holds");
        let ("won", [tiles, calls, win, refuses]) = rows[0].term.parts() else {
            panic!();
        };
        let hand = tiles.hand(calls);
        assert_eq!((hand.counts[4], hand.counts[27]), (2, 1));
        assert_eq!(
            hand.called(),
            [Meld::new(0, OPEN_SEQUENCE), Meld::new(33, OPEN_TRIPLET)]
        );
        let win = win.win();
        assert_eq!(
            (win.win_type, win.winning_tile, win.seat_wind),
            (TSUMO, 11, SOUTH)
        );
        assert!(win.is_riichi && win.is_ippatsu && !win.is_rinshan);
        assert_eq!(refuses.to_string(), "refuses 11");
        assert_eq!(Term::of(&rows[0].term.to_string()), rows[0].term);
    }

    #[test]
    fn a_call_may_say_from_whom() {
        let call = |text| Term::of(text).call().bytes();
        assert_eq!(call("chi (man 2)"), [1, 1, 3]);
        assert_eq!(call("pon East"), [27, 3, 3]);
        assert_eq!(call("closed_kan East"), [27, 4, 0]);
        assert_eq!(call("open_kan (sou 9)"), [26, 5, 3]);
        assert_eq!(call("added_kan Red"), [33, 6, 3]);
        assert_eq!(call("from_right (pon East)"), [27, 3, 1]);
        assert_eq!(call("from_across (added_kan (pin 1))"), [9, 6, 2]);
        assert_eq!(call("from_left (closed_kan East)"), [27, 4, 3]);
        let calls = Term::of("from_across (pon Red) ∷ chi (man 1) ∷ []");
        let hand = Term::of("hand (mans 55)").hand(&calls);
        let pon = Meld::new(33, OPEN_TRIPLET).with_source(ACROSS);
        assert_eq!(hand.called(), [pon, Meld::new(0, OPEN_SEQUENCE)]);
        assert_eq!(Term::of(&calls.to_string()), calls);
    }

    #[test]
    fn a_win_may_be_in_a_room() {
        let setting = |text| Term::of(text).win().double_wind_fu;
        assert_eq!(setting("ron (sou 8)"), 4);
        assert_eq!(setting("in_room 2 (ron (sou 8))"), 2);
        assert_eq!(setting("in_room 0 (in_room 2 (tsumo East))"), 0);
        let win = Term::of("in_room 2 (dealer_wins by_tsumo (pin 5) (riichi ∷ []))").win();
        assert_eq!((win.win_type, win.winning_tile), (TSUMO, 13));
        assert_eq!((win.round_wind, win.seat_wind), (EAST, EAST));
        assert!(win.is_riichi);
    }

    #[test]
    fn a_row_may_show_indicators() {
        let text = "scored (hand (mans 222333444 ++ pins 666 ++ sous 88)) [] (showing (man 1 ∷ man 1 ∷ \
            man 1 ∷ man 1 ∷ man 2 ∷ man 2 ∷ man 2 ∷ man 3 ∷ man 3 ∷ man 3 ∷ []) [] (south_wins by_tsumo \
            (pin 6) [])) (Suuankou ∷ []) 13 50 (Yakuman 1) (Tsumo 16000 8000)";
        let row = Term::of(text);
        let ("scored", [tiles, calls, win, ..]) = row.parts() else {
            panic!();
        };
        let hand = tiles.hand(calls);
        assert_eq!(
            (hand.counts[1], hand.counts[14], hand.counts[25]),
            (3, 3, 2)
        );
        let win = win.win();
        assert_eq!((win.win_type, win.winning_tile), (TSUMO, 14));
        assert_eq!(win.dora_indicators.shown(), [0, 0, 0, 0, 1, 1, 1, 2, 2, 2]);
        assert_eq!(win.ura_dora_indicators, Indicators::default());
        assert_eq!(Term::of(&row.to_string()), row);
    }

    #[test]
    fn indicators_may_be_joined_and_repeated() {
        let shown = |text| {
            Term::of(text)
                .win()
                .indicators()
                .map(|sort| sort.shown().to_vec())
        };
        let joined = "showing (replicate 4 (man 1) ++ replicate 2 East ++ (pin 9 ∷ [])) (34 ∷ 255 ∷ []) \
            (in_room 2 (ron (sou 8)))";
        assert_eq!(shown(joined), [vec![0, 0, 0, 0, 27, 27, 17], vec![34, 255]]);
        assert_eq!(Term::of(joined).win().double_wind_fu, 2);
        let chained = "in_room 2 (showing (man 1 ∷ replicate 2 (man 2)) (mans 55) (ron (sou 8)))";
        assert_eq!(shown(chained), [vec![0, 1, 1], vec![4, 4]]);
        let eleven = Term::of("showing [] (replicate 11 Red) (ron (sou 8))").win();
        assert_eq!(eleven.ura_dora_indicators.count, 11);
        assert_eq!(eleven.dora_indicators.count, 0);
    }
}
