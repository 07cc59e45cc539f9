//! The kinds of sheets, and how often each is made.

use crate::{large, numbers, text};
use sheets::lines::{lines, Line};
use sheets::rng::Rng;

pub struct Case {
    /// What the sheet has that the table counts.
    pub names: Vec<String>,
    /// The place, or the width, that its kind goes through one by one.
    pub place: Option<usize>,
    pub sheet: Vec<u8>,
}

impl Case {
    pub fn new(name: impl Into<String>, sheet: Vec<u8>) -> Case {
        Case {
            names: vec![name.into()],
            place: None,
            sheet,
        }
    }

    pub fn at(mut self, place: usize) -> Case {
        self.place = Some(place);
        self
    }

    pub fn also(mut self, name: impl Into<String>) -> Case {
        self.names.push(name.into());
        self
    }
}

/// A kind gets how many sheets it made before, so that it can go through all there is in turn.
type Kind = fn(&mut Rng, u64) -> Case;

/// With how many sheets of 1,000 are of a kind.
const KINDS: [(u64, Kind); 22] = [
    (190, good),
    (220, text::byte_put),
    (80, text::line_cut),
    (15, text::no_last_newline),
    (25, text::returns),
    (20, text::newlines),
    (50, text::lines_moved),
    (60, text::bytes_moved),
    (40, text::words_moved),
    (10, text::random),
    (25, numbers::leading_zeros),
    (15, numbers::minus_zero),
    (15, numbers::no_number),
    (60, numbers::edges),
    (40, numbers::many_digits),
    (20, numbers::wrapping),
    (25, numbers::upper_case),
    (35, numbers::side_digits),
    (25, numbers::sides),
    (25, numbers::spans),
    (3, large::many_lines),
    (2, large::many_bytes),
];

pub struct Cases {
    rng: Rng,
    turns: [u64; KINDS.len()],
}

impl Cases {
    pub fn new(seed: u64) -> Cases {
        Cases {
            rng: Rng::new(seed),
            turns: [0; KINDS.len()],
        }
    }

    pub fn next(&mut self) -> Case {
        let at = self.rng.weighted(&KINDS.map(|(weight, _)| weight));
        let turn = self.turns[at];
        self.turns[at] += 1;
        KINDS[at].1(&mut self.rng, turn)
    }
}

/// One to 40 good lines, seldom hundreds.
pub fn some_lines(rng: &mut Rng) -> Vec<Line> {
    let count = match rng.below(300) {
        0 => rng.size(41, 700),
        1..=100 => rng.size(6, 40),
        _ => rng.size(1, 5),
    };
    lines(rng, count)
}

pub fn good(rng: &mut Rng, _turn: u64) -> Case {
    Case::new("good", sheets::lines::sheet(&some_lines(rng)))
}

/// A place in a list that is not empty.
pub fn index<T>(rng: &mut Rng, list: &[T]) -> usize {
    rng.below(list.len() as u64) as usize
}
