//! The comparison of level, basic points and payments.

use crate::agari_scores as agari;
use crate::differences::MOST_BASIC_POINTS;
use crate::library;
use std::fmt::Debug;

/// How many differences of an operation are printed.
const PRINTED: u64 = 5;
/// Basic points above the greatest and the first refused: the next, the least that overflow when
/// they are multiplied, and the greatest.
pub const FAR: [u32; 5] = [
    MOST_BASIC_POINTS + 2,
    u32::MAX / 6 + 1,
    u32::MAX / 4 + 1,
    u32::MAX / 2 + 1,
    u32::MAX,
];
pub const WIN_TYPES: [u8; 4] = [0, 1, 2, 255];

/// The inputs of an operation, and those on which the sides differ.
pub struct Compared {
    name: &'static str,
    inputs: u64,
    pub differ: u64,
}

impl Compared {
    pub fn new(name: &'static str) -> Compared {
        Compared {
            name,
            inputs: 0,
            differ: 0,
        }
    }

    pub fn check<T: PartialEq + Debug>(&mut self, input: impl Debug, want: T, got: T) {
        self.inputs += 1;
        if got != want {
            self.differ += 1;
            if self.differ <= PRINTED {
                println!("DIFFERS: {} of {input:?}", self.name);
                println!("  expected {want:?}, got {got:?}");
            }
        }
    }

    pub fn print(&self) {
        println!(
            "{}: inputs {}, differ: {}",
            self.name, self.inputs, self.differ
        );
    }
}

/// Compares all three, and answers the number of inputs that differ.
pub fn compare() -> u64 {
    let compared = [compare_levels(), compare_basic_points(), compare_payments()];
    compared.iter().for_each(Compared::print);
    compared.iter().map(|operation| operation.differ).sum()
}

/// Every han and fu, with and without a yakuman.
fn scores() -> impl Iterator<Item = (u8, u8, bool)> {
    (0..=255).flat_map(|han| {
        (0..=255).flat_map(move |fu| [false, true].map(|is_yakuman| (han, fu, is_yakuman)))
    })
}

fn compare_levels() -> Compared {
    let mut compared = Compared::new("level");
    for (han, fu, is_yakuman) in scores() {
        let want = agari::level(han, fu, is_yakuman);
        let got = library::level(han, fu, is_yakuman);
        compared.check((han, fu, is_yakuman), want, got);
    }
    compared
}

fn compare_basic_points() -> Compared {
    let mut compared = Compared::new("basic points");
    for (han, fu, is_yakuman) in scores() {
        let want = agari::basic_points(han, fu, is_yakuman);
        let got = library::basic_points(han, fu, is_yakuman);
        compared.check((han, fu, is_yakuman), want, got);
    }
    compared
}

fn compare_payments() -> Compared {
    let mut compared = Compared::new("payment");
    for basic_points in (0..=MOST_BASIC_POINTS + 1).chain(FAR) {
        for is_dealer in [false, true] {
            for win_type in WIN_TYPES {
                let want = agari::payment(basic_points, is_dealer, win_type);
                let got = library::payment(basic_points, is_dealer, win_type);
                compared.check((basic_points, is_dealer, win_type), want, got);
            }
        }
    }
    compared
}
