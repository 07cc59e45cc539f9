//! The published Rust on the same asks, with draws from the lent weights.

use crate::ask::{Ask, Left, ROW, STATE};
use oracle::ef3m::{FitResultRow, M2N};
use oracle::six;

/// The Rust's own answer; it knows none of the port's limits, so the ask must keep within them.
pub fn answer(ask: &Ask) -> Left {
    draw(ask);
    match ask.runs {
        None => single_fit(ask),
        Some(_) => mp_fit(ask),
    }
}

fn single_fit(ask: &Ask) -> Left {
    let mut fit = state(ask);
    let rows = fit.single_fit_loop(ask.epsilon_override);
    let rows = rows.expect("nothing here is refused");
    let mut left = ask.unchanged(0);
    left.fit[..5].copy_from_slice(&fit.parameters);
    left.fit[5] = fit.error;
    left.fit[6] = fit.epsilon;
    left.fit[7..STATE].copy_from_slice(&fit.new_moments);
    put(&rows, left)
}

fn mp_fit(ask: &Ask) -> Left {
    let fit = state(ask);
    let rows = fit.mp_fit().expect("nothing here is refused");
    put(&rows, ask.unchanged(0))
}

fn state(ask: &Ask) -> M2N {
    let mut fit = M2N::new(
        ask.moments.clone(),
        ask.fit[6],
        ask.factor,
        ask.runs.unwrap_or(1),
        ask.variant,
        ask.max_iter,
        1,
    );
    fit.parameters = ask.fit[..5].to_vec();
    fit.error = ask.fit[5];
    fit.new_moments = ask.fit[7..STATE].to_vec();
    fit
}

/// The shim draws from the list's front: surplus weights are not drawn.
fn draw(ask: &Ask) {
    rand::set_draws(ask.weights[..ask.needed()].to_vec());
}

/// Rows go to the front of the lent numbers.
fn put(rows: &[FitResultRow], mut left: Left) -> Left {
    assert_eq!(rand::draws_left(), 0, "a row did not draw");
    for (place, row) in left.rows.chunks_exact_mut(ROW).zip(rows) {
        place.copy_from_slice(&six(row));
    }
    left.count = rows.len();
    left
}
