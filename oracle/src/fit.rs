//! Moments, steps, walk, grid and runs, by the Rust of ef3m.rs.

use crate::ef3m::{self, FitResultRow, M2N};
use crate::protocol::{Reply, Stop, Words};
use crate::refusals;

const SPENT: u32 = 1;
const SETTLED: u32 = 2;
const INADMISSIBLE: u32 = 3;

pub fn get_moments(mut words: Words) -> Result<Reply, Stop> {
    let parameters = words.fractions()?;
    words.end()?;
    let moments = M2N::with_defaults(vec![]).get_moments(&parameters, true);
    Ok(Reply::ok().fractions(&moments.expect("asked for the result")))
}

pub fn centered_moment(mut words: Words) -> Result<Reply, Stop> {
    let order = words.whole()?;
    let moments = words.fraction_list()?;
    words.end()?;
    refusals::centered_moment(order, moments.len())?;
    let moment = ef3m::centered_moment(&moments, order).expect("the length has been tested");
    Ok(Reply::ok().fraction(moment))
}

pub fn raw_moment(mut words: Words) -> Result<Reply, Stop> {
    let room = words.whole()?;
    let mean = words.fraction()?;
    let central = words.fraction_list()?;
    words.end()?;
    refusals::raw_moment(central.len(), room)?;
    let raw = ef3m::raw_moment(&central, mean);
    Ok(Reply::ok().word(raw.len()).fractions(&raw))
}

pub fn iter_4(words: Words) -> Result<Reply, Stop> {
    one_step(words, 1)
}

pub fn iter_5(words: Words) -> Result<Reply, Stop> {
    one_step(words, 2)
}

fn one_step(mut words: Words, variant: usize) -> Result<Reply, Stop> {
    let moments = words.fraction_list()?;
    let [mu_2, p_1] = words.fractions()?;
    words.end()?;
    refusals::step(moments.len(), if variant == 1 { 4 } else { 5 })?;
    let mut fit = M2N::with_defaults(moments);
    fit.variant = variant;
    let step = step(&fit, mu_2, p_1);
    Ok(if step.is_empty() {
        Reply::of("inadmissible")
    } else {
        Reply::ok().fractions(&step)
    })
}

/// The variant's step; empty where inadmissible, as in the Rust.
fn step(fit: &M2N, mu_2: f64, p_1: f64) -> Vec<f64> {
    let step = if fit.variant == 1 {
        fit.iter_4(mu_2, p_1)
    } else {
        fit.iter_5(mu_2, p_1)
    };
    step.expect("the length has been tested")
}

/// STATE, as it stands in a request.
struct State {
    parameters: [f64; 5],
    error: f64,
    new_moments: [f64; 5],
}

fn state(words: &mut Words) -> Result<State, Stop> {
    Ok(State {
        parameters: words.fractions()?,
        error: words.fraction()?,
        new_moments: words.fractions()?,
    })
}

impl State {
    /// Hands the state on; `new` alone would start from zeros and an error of its own.
    fn put_into(self, fit: &mut M2N) {
        fit.parameters = self.parameters.to_vec();
        fit.error = self.error;
        fit.new_moments = self.new_moments.to_vec();
    }
}

pub fn walk(mut words: Words) -> Result<Reply, Stop> {
    let variant = words.whole()?;
    let moments = words.fraction_list()?;
    let [mu_2, p_1, epsilon] = words.fractions()?;
    let max_iter = words.whole()?;
    let state = state(&mut words)?;
    words.end()?;
    refusals::walk(variant, moments.len(), p_1)?;
    let mut fit = M2N::new(moments, epsilon, 0.0, 1, variant, max_iter, 1);
    state.put_into(&mut fit);
    let count = ef3m::reach::iterate_from(&mut fit, mu_2, p_1);
    let reply = Reply::ok().word(count).word(reason(&fit, mu_2, p_1, count));
    Ok(reply
        .fractions(&fit.parameters)
        .fraction(fit.error)
        .fractions(&fit.new_moments))
}

/// The Rust gives the count alone, so the trail is gone through again, up to its last entry.
fn reason(fit: &M2N, mut mu_2: f64, mut p_1: f64, count: usize) -> u32 {
    if count == fit.max_iter {
        return SPENT;
    }
    for _ in 1..count {
        let step = step(fit, mu_2, p_1);
        mu_2 = step[1];
        p_1 = step[4];
    }
    let last = step(fit, mu_2, p_1);
    if last.is_empty() {
        return INADMISSIBLE;
    }
    assert!(
        (p_1 - last[4]).abs() < fit.epsilon,
        "the trail parts from the walk"
    );
    SETTLED
}

pub fn single_fit(mut words: Words) -> Result<Reply, Stop> {
    let variant = words.whole()?;
    let moments = words.fraction_list()?;
    let epsilon = words.fraction()?;
    let epsilon_override = words.fraction_or_none()?;
    let factor = words.fraction()?;
    let max_iter = words.whole()?;
    let state = state(&mut words)?;
    let weights = words.fraction_list()?;
    words.end()?;
    let in_force = epsilon_override.unwrap_or(epsilon);
    let needed = refusals::grid(variant, moments.len(), in_force, 1, &weights)?;
    let mut fit = M2N::new(moments, epsilon, factor, 1, variant, max_iter, 1);
    state.put_into(&mut fit);
    let rows = drawing(&weights[..needed], || fit.single_fit_loop(epsilon_override));
    let rows = rows.expect("document 01's list holds the Rust's own");
    let reply = match rows.first() {
        Some(row) => Reply::ok().word("row").fractions(&six(row)),
        None => Reply::ok().word("none"),
    };
    let reply = reply.word("state").fractions(&fit.parameters);
    Ok(reply
        .fraction(fit.error)
        .fraction(fit.epsilon)
        .fractions(&fit.new_moments))
}

pub fn mp_fit(mut words: Words) -> Result<Reply, Stop> {
    let variant = words.whole()?;
    let moments = words.fraction_list()?;
    let [epsilon, factor] = words.fractions()?;
    let max_iter = words.whole()?;
    let runs = words.whole()?;
    let places = words.whole()?;
    let state = state(&mut words)?;
    let weights = words.fraction_list()?;
    words.end()?;
    let needed = match runs {
        0 => 0,
        _ => refusals::mp_fit(variant, moments.len(), epsilon, runs, places, &weights)?,
    };
    let mut fit = M2N::new(moments, epsilon, factor, runs, variant, max_iter, 1);
    state.put_into(&mut fit);
    let rows = drawing(&weights[..needed], || fit.mp_fit());
    let rows = rows.expect("document 01's list holds the Rust's own");
    let reply = Reply::ok().word(rows.len());
    Ok(rows
        .iter()
        .fold(reply, |reply, row| reply.fractions(&six(row))))
}

/// The numbers of a row, in the order of its fields.
pub fn six(row: &FitResultRow) -> [f64; 6] {
    [
        row.mu_1,
        row.mu_2,
        row.sigma_1,
        row.sigma_2,
        row.p_1,
        row.error,
    ]
}

/// Each row of the grid draws once, so the Rust must take all these weights and no more.
fn drawing<T>(weights: &[f64], run: impl FnOnce() -> T) -> T {
    rand::set_draws(weights.to_vec());
    let answer = run();
    assert_eq!(rand::draws_left(), 0, "a row did not draw");
    answer
}
