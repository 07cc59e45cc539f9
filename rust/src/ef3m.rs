//! openquant's `ef3m`, as far as it is ported: a mixture of two normals fitted to raw moments.

mod moments;

pub use moments::{centered_moment, raw_moment};

use crate::{c, Refused};

/// The numbers of a state as C holds it: parameters, error, epsilon, new_moments.
const STATE: usize = 12;
/// The numbers of a row: parameters, error.
const ROW: usize = 6;

/// mu_1, mu_2, sigma_1, sigma_2, p_1.
pub type Parameters = [f64; 5];

/// The target moments, the settings of a search, and the best fit so far. The caller fills it; a search
/// begins anew, so `new_moments`, `parameters` and `error` may be 0 before one.
#[derive(Debug, Clone, PartialEq)]
pub struct M2N {
    /// Raw moments of order 1 upward, at most 16.
    pub moments: Vec<f64>,
    /// How near two weights are for a walk to end; a search has about 1 / epsilon rows.
    pub epsilon: f64,
    /// How many standard deviations the grid of a search is wide.
    pub factor: f64,
    /// How many searches [`M2N::mp_fit`] makes, at most 64.
    pub n_runs: usize,
    /// 1 fits four moments, 2 five.
    pub variant: usize,
    /// The most steps of one walk.
    pub max_iter: usize,
    /// The moments of the last step that was admitted.
    pub new_moments: [f64; 5],
    /// The best parameters so far.
    pub parameters: Parameters,
    /// The sum of the squared differences of moments at `parameters`.
    pub error: f64,
}

/// One fitted mixture.
#[derive(Debug, Clone, Copy, PartialEq)]
pub struct FitResultRow {
    pub mu_1: f64,
    pub mu_2: f64,
    pub sigma_1: f64,
    pub sigma_2: f64,
    pub p_1: f64,
    pub error: f64,
}

/// Why a walk ended.
#[derive(Debug, Clone, Copy, PartialEq, Eq)]
pub enum Reason {
    /// All `max_iter` steps were taken.
    Spent,
    /// The weight moved by less than epsilon.
    Settled,
    /// The last step was inadmissible.
    Inadmissible,
}

/// How many steps a walk took, and why it ended.
#[derive(Debug, Clone, Copy, PartialEq, Eq)]
pub struct Walk {
    pub count: usize,
    pub reason: Reason,
}

impl FitResultRow {
    /// The rows that C put one behind another.
    fn all(numbers: &[f64]) -> Vec<FitResultRow> {
        let rows = numbers.chunks_exact(ROW);
        rows.map(|row| FitResultRow {
            mu_1: row[0],
            mu_2: row[1],
            sigma_1: row[2],
            sigma_2: row[3],
            p_1: row[4],
            error: row[5],
        })
        .collect()
    }
}

impl M2N {
    fn state(&self) -> [f64; STATE] {
        let mut fit = [0.0; STATE];
        fit[..5].copy_from_slice(&self.parameters);
        fit[5] = self.error;
        fit[6] = self.epsilon;
        fit[7..].copy_from_slice(&self.new_moments);
        fit
    }

    fn set_state(&mut self, fit: &[f64; STATE]) {
        self.parameters.copy_from_slice(&fit[..5]);
        self.error = fit[5];
        self.epsilon = fit[6];
        self.new_moments.copy_from_slice(&fit[7..]);
    }

    /// The first five raw moments of a mixture; stored in `new_moments` where they are not to be returned.
    pub fn get_moments(
        &mut self,
        parameters: &Parameters,
        return_result: bool,
    ) -> Option<[f64; 5]> {
        let moments = moments::get_moments(parameters);
        if return_result {
            return Some(moments);
        }
        self.new_moments = moments;
        None
    }

    fn step(&self, of: c::Step, mu_2: f64, p_1: f64) -> Result<Option<Parameters>, Refused> {
        let (mut admitted, mut numbers) = (0, [0.0; 5]);
        // Every pointer stands for numbers that live through the call, and those written are apart.
        let number = unsafe {
            of(
                self.moments.as_ptr(),
                self.moments.len(),
                mu_2,
                p_1,
                &mut admitted,
                numbers.as_mut_ptr(),
                numbers.len(),
            )
        };
        Refused::unless_zero(number)?;
        Ok((admitted == 1).then_some(numbers))
    }

    /// One step on four moments from a mean and a weight; `None` where it is inadmissible.
    ///
    /// # Errors
    ///
    /// 1: fewer than four moments. 2: more than 16.
    pub fn iter_4(&self, mu_2: f64, p_1: f64) -> Result<Option<Parameters>, Refused> {
        self.step(c::woddirme_iter_4, mu_2, p_1)
    }

    /// One step on five moments from a mean and a weight; `None` where it is inadmissible.
    ///
    /// # Errors
    ///
    /// 1: fewer than five moments. 2: more than 16.
    pub fn iter_5(&self, mu_2: f64, p_1: f64) -> Result<Option<Parameters>, Refused> {
        self.step(c::woddirme_iter_5, mu_2, p_1)
    }

    /// A walk from a mean and a weight: steps until one settles or is inadmissible or `max_iter` are
    /// taken. Each admitted step's moments are stored, and the step kept where its error is smaller.
    ///
    /// # Errors
    ///
    /// 3: the variant is not 1 or 2. 1: fewer moments than its step reads. 2: more than 16. 7: the weight
    /// is not at least 0 and below 1.
    pub fn iterate_from(&mut self, mu_2: f64, p_1: f64) -> Result<Walk, Refused> {
        let (mut fit, mut count, mut reason) = (self.state(), 0, 0);
        // As above.
        let number = unsafe {
            c::woddirme_iterate_from(
                self.moments.as_ptr(),
                self.moments.len(),
                self.variant,
                self.factor,
                self.max_iter,
                mu_2,
                p_1,
                fit.as_mut_ptr(),
                fit.len(),
                &mut count,
                &mut reason,
            )
        };
        Refused::unless_zero(number)?;
        self.set_state(&fit);
        let reason = match reason {
            1 => Reason::Spent,
            2 => Reason::Settled,
            _ => Reason::Inadmissible,
        };
        Ok(Walk { count, reason })
    }

    /// One search: a walk from each row of the grid, with the next weight. Gives the best fit, if any is
    /// better than none.
    ///
    /// # Errors
    ///
    /// 1: fewer than five moments. 2: more than 16. 3: the variant is not 1 or 2. 4: the epsilon in force
    /// is not finite and above 0. 5: more than 131,072 rows. 6: fewer weights than rows. 7: a weight that
    /// would be used is out of range.
    pub fn single_fit_loop(
        &mut self,
        epsilon_override: Option<f64>,
        weights: &[f64],
    ) -> Result<Vec<FitResultRow>, Refused> {
        let (mut fit, mut row, mut rows) = (self.state(), [0.0; ROW], 0);
        let given = epsilon_override.as_slice();
        // As above.
        let number = unsafe {
            c::woddirme_single_fit_loop(
                self.moments.as_ptr(),
                self.moments.len(),
                self.variant,
                self.factor,
                self.max_iter,
                given.as_ptr(),
                given.len(),
                weights.as_ptr(),
                weights.len(),
                fit.as_mut_ptr(),
                fit.len(),
                row.as_mut_ptr(),
                row.len(),
                &mut rows,
            )
        };
        Refused::unless_zero(number)?;
        self.set_state(&fit);
        Ok(FitResultRow::all(&row[..ROW * rows]))
    }

    /// `n_runs` searches, each from a copy of this state and with the next weights; at most a row of each.
    ///
    /// # Errors
    ///
    /// 13: more than 64 runs. Then as [`M2N::single_fit_loop`], with weights for all runs.
    pub fn mp_fit(&self, weights: &[f64]) -> Result<Vec<FitResultRow>, Refused> {
        // More runs are refused before their places are looked at.
        let (fit, mut count) = (self.state(), 0);
        let mut rows = vec![0.0; ROW * self.n_runs.min(64)];
        // As above; the state is only read.
        let number = unsafe {
            c::woddirme_mp_fit(
                self.moments.as_ptr(),
                self.moments.len(),
                self.variant,
                self.factor,
                self.max_iter,
                self.n_runs,
                weights.as_ptr(),
                weights.len(),
                fit.as_ptr(),
                fit.len(),
                rows.as_mut_ptr(),
                rows.len(),
                &mut count,
            )
        };
        Refused::unless_zero(number)?;
        Ok(FitResultRow::all(&rows[..ROW * count]))
    }
}
