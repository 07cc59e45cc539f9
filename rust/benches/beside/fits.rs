//! Searches on the raw moments of a mixture with mean 0.

use crate::clock::repeated;
use crate::draws::Draws;
use crate::measure::{measure, Row};
use crate::state::own_state;
use oracle::ef3m;
use oracle::refusals::rows;
use std::hint::black_box;
use woddirme::ef3m as own;

const TRUTH: [f64; 5] = [-1.0, 1.0, 1.0, 0.5, 0.5];
const FACTOR: f64 = 5.0;
const MAX_ITER: usize = 100_000;

/// The same state for both sides, and the draws.
struct Ask {
    theirs: ef3m::M2N,
    ours: own::M2N,
    weights: Vec<f64>,
}

fn ask(epsilon: f64, variant: usize, runs: usize) -> Ask {
    let moments = ef3m::M2N::with_defaults(vec![]).get_moments(&TRUTH, true);
    let moments = moments.expect("asked for the result");
    let theirs = ef3m::M2N::new(moments, epsilon, FACTOR, runs, variant, MAX_ITER, 1);
    let mut draws = Draws::new();
    Ask {
        ours: own_state(&theirs),
        theirs,
        weights: (0..runs * rows(epsilon)).map(|_| draws.unit()).collect(),
    }
}

fn their_bits(rows: &[ef3m::FitResultRow]) -> Vec<[u64; 6]> {
    let six = |r: &ef3m::FitResultRow| [r.mu_1, r.mu_2, r.sigma_1, r.sigma_2, r.p_1, r.error];
    rows.iter().map(|row| six(row).map(f64::to_bits)).collect()
}

fn own_bits(rows: &[own::FitResultRow]) -> Vec<[u64; 6]> {
    let six = |r: &own::FitResultRow| [r.mu_1, r.mu_2, r.sigma_1, r.sigma_2, r.p_1, r.error];
    rows.iter().map(|row| six(row).map(f64::to_bits)).collect()
}

type Theirs = fn(&ef3m::M2N) -> Vec<ef3m::FitResultRow>;
type Ours = fn(&own::M2N, &[f64]) -> Vec<own::FitResultRow>;

/// The Rust's draws are set before the clock starts: the port has its weights beforehand too.
fn row(name: String, ask: &Ask, theirs: Theirs, ours: Ours) -> Row {
    let Ask { weights, .. } = ask;
    rand::set_draws(weights.clone());
    let (wanted, got) = (theirs(&ask.theirs), ours(&ask.ours, weights));
    assert_eq!(rand::draws_left(), 0, "a row did not draw");
    assert!(!wanted.is_empty(), "{name}: nothing is found");
    assert_eq!(own_bits(&got), their_bits(&wanted), "{name}");
    measure(
        name,
        ("call", 1),
        &mut |calls| {
            rand::set_draws(weights.repeat(calls));
            repeated(calls, || theirs(black_box(&ask.theirs)))
        },
        &mut |calls| repeated(calls, || ours(black_box(&ask.ours), weights)),
    )
}

pub fn single_fit(epsilon: f64, variant: usize) -> Row {
    row(
        format!("`single_fit_loop`, epsilon {epsilon:e}, variant {variant}"),
        &ask(epsilon, variant, 1),
        |fit| fit.clone().single_fit_loop(None).expect("accepted"),
        |fit, weights| {
            let rows = fit.clone().single_fit_loop(None, weights);
            rows.expect("accepted")
        },
    )
}

pub fn mp_fit(epsilon: f64, variant: usize, runs: usize) -> Row {
    row(
        format!("`mp_fit`, {runs} runs, epsilon {epsilon:e}, variant {variant}"),
        &ask(epsilon, variant, runs),
        |fit| fit.mp_fit().expect("accepted"),
        |fit, weights| fit.mp_fit(weights).expect("accepted"),
    )
}
