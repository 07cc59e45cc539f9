//! What both sides are asked, and what they leave.

use oracle::protocol::bits;
use oracle::refusals::rows;

/// The numbers of a state: mu_1, mu_2, sigma_1, sigma_2, p_1, error, epsilon, new_moments.
pub const STATE: usize = 12;
/// The numbers of a row: mu_1, mu_2, sigma_1, sigma_2, p_1, error.
pub const ROW: usize = 6;
const EPSILON: usize = 6;

/// One search, or several runs.
#[derive(Clone)]
pub struct Ask {
    pub moments: Vec<f64>,
    pub variant: usize,
    pub factor: f64,
    pub max_iter: usize,
    pub epsilon_override: Option<f64>,
    /// None asks for one search.
    pub runs: Option<usize>,
    pub weights: Vec<f64>,
    pub fit: Vec<f64>,
    pub rows: Vec<f64>,
    pub count: usize,
}

impl Ask {
    /// The epsilon in force.
    pub fn epsilon(&self) -> f64 {
        self.epsilon_override.unwrap_or(self.fit[EPSILON])
    }

    /// How many weights the grid takes.
    pub fn needed(&self) -> usize {
        match self.runs {
            Some(0) => 0,
            runs => runs.unwrap_or(1) * rows(self.epsilon()),
        }
    }

    /// Nothing but the answer, all else as it was.
    pub fn unchanged(&self, answer: u64) -> Left {
        Left {
            answer,
            fit: self.fit.clone(),
            rows: self.rows.clone(),
            count: self.count,
        }
    }
}

/// The answer, and the lent numbers after the call.
pub struct Left {
    pub answer: u64,
    pub fit: Vec<f64>,
    pub rows: Vec<f64>,
    pub count: usize,
}

impl Left {
    /// Bit for bit, all NaNs as one.
    pub fn words(&self) -> Vec<u64> {
        let fit = self.fit.iter().map(|x| bits(*x));
        let rows = self.rows.iter().map(|x| bits(*x));
        [self.answer, self.count as u64]
            .into_iter()
            .chain(fit)
            .chain(rows)
            .collect()
    }
}
