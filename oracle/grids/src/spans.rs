//! Spans that both sides are asked about, and what they leave in the lent lists.

pub mod port;
pub mod rust;

use oracle::protocol::bits;

/// The counts take two lists, of longs and of shorts; the budget takes one.
#[derive(Clone)]
pub enum Lent {
    Counts(Vec<f64>, Vec<f64>),
    Budget(Vec<f64>),
}

impl Lent {
    pub fn lists_mut(&mut self) -> Vec<&mut Vec<f64>> {
        match self {
            Lent::Counts(long, short) => vec![long, short],
            Lent::Budget(size) => vec![size],
        }
    }

    pub fn lists(&self) -> Vec<&[f64]> {
        match self {
            Lent::Counts(long, short) => vec![long, short],
            Lent::Budget(size) => vec![size],
        }
    }
}

#[derive(Clone)]
pub struct Ask {
    pub starts: Vec<i64>,
    pub ends: Vec<i64>,
    pub sides: Vec<f64>,
    pub lent: Lent,
}

impl Ask {
    /// Nothing but the answer, all else as it was.
    pub fn unchanged(&self, answer: u64) -> Left {
        Left {
            answer,
            lent: self.lent.clone(),
        }
    }
}

/// The answer, and the lent lists after the call.
pub struct Left {
    pub answer: u64,
    pub lent: Lent,
}

impl Left {
    /// Bit for bit, all NaNs as one.
    pub fn words(&self) -> Vec<u64> {
        let lists = self.lent.lists().concat();
        std::iter::once(self.answer)
            .chain(lists.into_iter().map(bits))
            .collect()
    }
}
