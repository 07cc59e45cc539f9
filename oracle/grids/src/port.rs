//! The port's functions for C (include/woddirme.h): a slice is a pointer and a length.

use crate::ask::{Ask, Left};
use woddirme::c::{woddirme_mp_fit, woddirme_single_fit_loop};

pub fn answer(ask: &Ask) -> Left {
    let mut left = ask.unchanged(0);
    left.answer = match ask.runs {
        None => single_fit(ask, &mut left),
        Some(runs) => mp_fit(ask, runs, &mut left),
    };
    left
}

fn single_fit(ask: &Ask, left: &mut Left) -> u64 {
    let given: &[f64] = ask.epsilon_override.as_slice();
    // Every pointer stands for a slice that lives through the call, and those written are apart.
    unsafe {
        woddirme_single_fit_loop(
            ask.moments.as_ptr(),
            ask.moments.len(),
            ask.variant,
            ask.factor,
            ask.max_iter,
            given.as_ptr(),
            given.len(),
            ask.weights.as_ptr(),
            ask.weights.len(),
            left.fit.as_mut_ptr(),
            left.fit.len(),
            left.rows.as_mut_ptr(),
            left.rows.len(),
            &mut left.count,
        )
    }
}

fn mp_fit(ask: &Ask, runs: usize, left: &mut Left) -> u64 {
    // As above; the state is only read.
    unsafe {
        woddirme_mp_fit(
            ask.moments.as_ptr(),
            ask.moments.len(),
            ask.variant,
            ask.factor,
            ask.max_iter,
            runs,
            ask.weights.as_ptr(),
            ask.weights.len(),
            left.fit.as_ptr(),
            left.fit.len(),
            left.rows.as_mut_ptr(),
            left.rows.len(),
            &mut left.count,
        )
    }
}
