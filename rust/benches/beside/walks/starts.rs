//! Where walks start, on which moments.

use crate::line::Line;
use crate::mixture::target;
use crate::rng::Rng;
use crate::steps;
use oracle::protocol::{Stop, Words};
use oracle::refusals;

pub struct Start {
    pub variant: usize,
    pub moments: Vec<f64>,
    pub pair: (f64, f64),
}

/// Zero, or of a size that leaves the powers and quotients of the steps in range.
fn is_ordinary(x: &f64) -> bool {
    *x == 0.0 || (2f64.powi(-60)..2f64.powi(60)).contains(&x.abs())
}

impl Start {
    fn is_taken(&self) -> bool {
        let Start {
            variant,
            moments,
            pair,
        } = self;
        refusals::walk(*variant, moments.len(), pair.1).is_ok()
            && moments.iter().chain([&pair.0, &pair.1]).all(is_ordinary)
    }
}

fn read(line: &[u8]) -> Result<Start, Stop> {
    let mut words = Words::of(line);
    words.word()?;
    Ok(Start {
        variant: words.whole()?,
        moments: words.fraction_list()?,
        pair: (words.fraction()?, words.fraction()?),
    })
}

/// As the oracle generates requests: often at a fixed point or beside one.
pub fn generated(rng: &mut Rng, variant: usize) -> Start {
    let mut line = Line::default();
    loop {
        steps::walk(rng, &mut line);
        match read(&line.bytes) {
            Ok(start) if start.variant == variant && start.is_taken() => return start,
            _ => {}
        }
    }
}

/// A mean within a half of the truth's, and any weight.
pub fn anywhere(rng: &mut Rng, variant: usize) -> Start {
    loop {
        let target = target(rng, 5);
        let start = Start {
            variant,
            pair: (target.truth.mu_2 + rng.unit() - 0.5, rng.unit()),
            moments: target.moments,
        };
        if start.is_taken() {
            return start;
        }
    }
}
