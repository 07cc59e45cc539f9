//! Good sheets and what mutations make of them.

use sheets::lines::{lines, sheet, sheet_of, WIDEST};
use sheets::rng::Rng;

/// The longest sheet that is made.
const LONGEST: usize = 70_000;

/// So many good sheets are at hand to splice from.
const POOL: usize = 64;

pub struct Mutations {
    rng: Rng,
    pool: Vec<Vec<u8>>,
}

impl Mutations {
    pub fn new(seed: u64) -> Mutations {
        let mut rng = Rng::new(seed);
        let pool = (0..POOL).map(|_| good(&mut rng)).collect();
        Mutations { rng, pool }
    }

    pub fn next(&mut self) -> Vec<u8> {
        let rng = &mut self.rng;
        if rng.one_in(4) {
            let at = rng.size(0, POOL - 1);
            self.pool[at] = good(rng);
        }
        let mut out = match rng.below(400) {
            0 => large(rng),
            1..=8 => random_bytes(rng, 300),
            _ => self.pool[rng.size(0, POOL - 1)].clone(),
        };
        let times = rng.pick(&[0, 1, 1, 1, 1, 2, 2, 3, 5, 12]);
        for _ in 0..times {
            let donor = &self.pool[rng.size(0, POOL - 1)];
            mutate(rng, &mut out, donor);
        }
        out.truncate(LONGEST);
        out
    }
}

fn good(rng: &mut Rng) -> Vec<u8> {
    let count = match rng.below(40) {
        0 => rng.size(41, 300),
        1..=9 => rng.size(7, 40),
        _ => rng.size(1, 6),
    };
    sheet(&lines(rng, count))
}

/// Near the limits of bytes and lines, and beyond them.
fn large(rng: &mut Rng) -> Vec<u8> {
    let (low, high) = rng.pick(&[(47, 60), (47, WIDEST), (66, WIDEST)]);
    let bytes = match rng.below(6) {
        0 => rng.size(65_520, 65_550),
        1 => rng.size(65_537, LONGEST),
        2 => return random_bytes(rng, LONGEST),
        3 => return vec![rng.pick(b"\n( 0\0\xff"); rng.size(1, LONGEST)],
        _ => rng.size(48_000, 62_000),
    };
    sheet_of(rng, bytes, low, high)
}

fn random_bytes(rng: &mut Rng, most: usize) -> Vec<u8> {
    let length = rng.size(0, most);
    let likely = rng.one_in(2);
    (0..length).map(|_| byte(rng, likely)).collect()
}

/// Any byte, or one that sheets are written with.
fn byte(rng: &mut Rng, likely: bool) -> u8 {
    if likely {
        rng.pick(b"0123456789abcdef()  -\n\nspanfromtoside")
    } else {
        rng.below(256) as u8
    }
}

/// A stretch of a text, short more often than long.
fn stretch(rng: &mut Rng, text: &[u8]) -> (usize, usize) {
    let start = rng.size(0, text.len());
    let most = rng.pick(&[1, 3, 10, 60, 400, LONGEST]);
    let length = rng.size(0, most.min(text.len() - start));
    (start, start + length)
}

/// A stretch of whole lines.
fn line_stretch(rng: &mut Rng, text: &[u8]) -> (usize, usize) {
    let (start, end) = stretch(rng, text);
    let after = |at: usize| {
        let newline = text[..at].iter().rposition(|byte| *byte == b'\n');
        newline.map_or(0, |newline| newline + 1)
    };
    (after(start), after(end))
}

fn mutate(rng: &mut Rng, out: &mut Vec<u8>, donor: &[u8]) {
    let place = rng.size(0, out.len());
    let (start, end) = stretch(rng, out);
    match rng.below(13) {
        0 | 1 => flip(rng, out),
        2 => replace(rng, out),
        3 | 4 => exchange_digit(rng, out),
        5 => {
            let likely = rng.one_in(2);
            out.insert(place, byte(rng, likely));
        }
        6 => drop(out.drain(start..end)),
        7 => splice(out, place, random_bytes(rng, 20)),
        8 => {
            let (from, to) = stretch(rng, donor);
            splice(out, place, donor[from..to].to_vec());
        }
        9 | 10 => whole_lines(rng, out, donor),
        11 => splice(out, place, out[start..end].to_vec()),
        _ => out.truncate(place),
    }
}

fn splice(out: &mut Vec<u8>, place: usize, bytes: Vec<u8>) {
    out.splice(place..place, bytes);
}

/// Lines of another sheet put between two lines, or lines taken out.
fn whole_lines(rng: &mut Rng, out: &mut Vec<u8>, donor: &[u8]) {
    let (start, end) = line_stretch(rng, out);
    let (from, to) = line_stretch(rng, donor);
    if rng.one_in(2) {
        splice(out, start, donor[from..to].to_vec());
    } else {
        out.drain(start..end);
    }
}

fn flip(rng: &mut Rng, out: &mut [u8]) {
    if !out.is_empty() {
        let at = rng.size(0, out.len() - 1);
        out[at] ^= 1 << rng.below(8);
    }
}

fn replace(rng: &mut Rng, out: &mut [u8]) {
    if !out.is_empty() {
        let likely = rng.one_in(2);
        let at = rng.size(0, out.len() - 1);
        out[at] = byte(rng, likely);
    }
}

/// A digit for the next digit from some place on, which often leaves a sheet good.
fn exchange_digit(rng: &mut Rng, out: &mut [u8]) {
    let from = rng.size(0, out.len());
    let found = out[from..].iter().position(u8::is_ascii_digit);
    if let Some(at) = found {
        out[from + at] = rng.pick(b"0123456789");
    }
}
