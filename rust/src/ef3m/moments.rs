//! Moments of a mixture, and the change between raw and centred ones.

use super::Parameters;
use crate::{c, Refused};

pub(super) fn get_moments(parameters: &Parameters) -> [f64; 5] {
    let [mu_1, mu_2, sigma_1, sigma_2, p_1] = *parameters;
    let mut moments = [0.0; 5];
    // The pointer stands for five numbers that live through the call; with five nothing is refused.
    unsafe {
        c::woddirme_get_moments(
            mu_1,
            mu_2,
            sigma_1,
            sigma_2,
            p_1,
            moments.as_mut_ptr(),
            moments.len(),
        );
    }
    moments
}

/// The centred moment of an order, from raw moments of order 1 upward.
///
/// # Errors
///
/// 9: an order above 16. 1: fewer moments than the larger of the order and 1. 2: more than 16.
pub fn centered_moment(moments: &[f64], order: usize) -> Result<f64, Refused> {
    let mut moment = 0.0;
    // Both pointers stand for numbers that live through the call.
    let number =
        unsafe { c::woddirme_centered_moment(moments.as_ptr(), moments.len(), order, &mut moment) };
    Refused::unless_zero(number)?;
    Ok(moment)
}

/// The raw moments, from centred moments of order 1 upward and the mean: as many, and at least the mean.
///
/// # Errors
///
/// 2: more than 16 centred moments.
pub fn raw_moment(central_moments: &[f64], dist_mean: f64) -> Result<Vec<f64>, Refused> {
    let mut raw = vec![0.0; central_moments.len().clamp(1, 16)];
    // As above.
    let number = unsafe {
        c::woddirme_raw_moment(
            central_moments.as_ptr(),
            central_moments.len(),
            dist_mean,
            raw.as_mut_ptr(),
            raw.len(),
        )
    };
    Refused::unless_zero(number)?;
    Ok(raw)
}
