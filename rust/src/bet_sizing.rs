//! openquant's `bet_sizing`, as far as it is ported. An instant is an i64 of nanoseconds; only the order
//! of instants matters.

use crate::{c, Refused};

/// Where a span starts and where it ends: it is live from its start until before its end.
pub type Span = (i64, i64);

fn apart(t1: &[Span]) -> (Vec<i64>, Vec<i64>) {
    t1.iter().copied().unzip()
}

/// How many spans of each side are live at each start: the start, longs, shorts. A side above 0 is long,
/// any other short.
///
/// # Errors
///
/// 10: not a side for every span. 11: more than 16,384 spans.
pub fn get_concurrent_sides(t1: &[Span], side: &[f64]) -> Result<Vec<(i64, f64, f64)>, Refused> {
    let (starts, ends) = apart(t1);
    let (mut long, mut short) = (vec![0.0; t1.len()], vec![0.0; t1.len()]);
    // Every pointer stands for a list that lives through the call, and those written are apart.
    let number = unsafe {
        c::woddirme_get_concurrent_sides(
            starts.as_ptr(),
            starts.len(),
            ends.as_ptr(),
            ends.len(),
            side.as_ptr(),
            side.len(),
            long.as_mut_ptr(),
            long.len(),
            short.as_mut_ptr(),
            short.len(),
        )
    };
    Refused::unless_zero(number)?;
    let counts = long.into_iter().zip(short);
    Ok(starts
        .into_iter()
        .zip(counts)
        .map(|(start, (long, short))| (start, long, short))
        .collect())
}

/// The budget size of each span, beside its start.
///
/// # Errors
///
/// As [`get_concurrent_sides`].
pub fn bet_size_budget(t1: &[Span], side: &[f64]) -> Result<Vec<(i64, f64)>, Refused> {
    let (starts, ends) = apart(t1);
    let mut size = vec![0.0; t1.len()];
    // As above.
    let number = unsafe {
        c::woddirme_bet_size_budget(
            starts.as_ptr(),
            starts.len(),
            ends.as_ptr(),
            ends.len(),
            side.as_ptr(),
            side.len(),
            size.as_mut_ptr(),
            size.len(),
        )
    };
    Refused::unless_zero(number)?;
    Ok(starts.into_iter().zip(size).collect())
}

/// The width at which a divergence of `price_div` has the size `m_bet_size`.
pub fn get_w_sigmoid(price_div: f64, m_bet_size: f64) -> f64 {
    unsafe { c::woddirme_get_w_sigmoid(price_div, m_bet_size) }
}

/// The market price at which the size is `m_bet_size`.
pub fn inv_price_sigmoid(forecast_price: f64, w_param: f64, m_bet_size: f64) -> f64 {
    unsafe { c::woddirme_inv_price_sigmoid(forecast_price, w_param, m_bet_size) }
}

/// The mean price of the lots from `pos` to `t_pos`; NaN where there is none between.
///
/// # Errors
///
/// 12: more than 1,000,000 lots.
pub fn limit_price_sigmoid(
    t_pos: f64,
    pos: f64,
    f: f64,
    w: f64,
    max_pos: f64,
) -> Result<f64, Refused> {
    let mut price = 0.0;
    // The pointer stands for a number that lives through the call.
    let number = unsafe { c::woddirme_limit_price_sigmoid(t_pos, pos, f, w, max_pos, &mut price) };
    Refused::unless_zero(number)?;
    Ok(price)
}
