//! Requests to `single_fit` and `mp_fit`.

use crate::line::Line;
use crate::mixture::{enough, refused_length, target, Target};
use crate::rng::Rng;
use crate::steps::{bad_variant, bad_weight, good_weight, state, weight_near};
use crate::values::{any, huge, infinity, nan, neighbour, ordinary, places, power, zero};

/// Weights that a line is given at most: 17 bytes each, well inside the line's limit.
const MOST_WEIGHTS: u64 = 3_400;

/// What is refused, any of it together, so that the order of testing is seen.
#[derive(Default)]
struct Faults {
    length: bool,
    variant: bool,
    epsilon: bool,
    rows: bool,
    few_weights: bool,
    weight: bool,
}

impl Faults {
    fn any(&self) -> bool {
        self.length || self.variant || self.epsilon || self.rows || self.few_weights || self.weight
    }
}

fn faults(rng: &mut Rng) -> Faults {
    match rng.below(16) {
        0 => Faults {
            length: rng.one_in(3),
            variant: rng.one_in(3),
            epsilon: rng.one_in(3),
            rows: rng.one_in(3),
            few_weights: rng.one_in(3),
            weight: rng.one_in(3),
        },
        1 => one_fault(rng),
        _ => Faults::default(),
    }
}

fn one_fault(rng: &mut Rng) -> Faults {
    let at = rng.below(6);
    Faults {
        length: at == 0,
        variant: at == 1,
        epsilon: at == 2,
        rows: at == 3,
        few_weights: at == 4,
        weight: at == 5,
    }
}

/// Rows of the grid, as document 01 counts them; none for an epsilon that is refused.
fn rows(epsilon: f64) -> u64 {
    if !(epsilon.is_finite() && epsilon > 0.0) {
        return 0;
    }
    let upper = 1.0 / epsilon;
    if upper > 1.0 {
        upper as u64 - 1
    } else {
        0
    }
}

fn epsilon(rng: &mut Rng, faults: &Faults) -> f64 {
    match (faults.epsilon, faults.rows) {
        (true, _) => bad_epsilon(rng),
        (_, true) => many_rows(rng),
        _ => good_epsilon(rng),
    }
}

/// Refused by 4.
fn bad_epsilon(rng: &mut Rng) -> f64 {
    match rng.below(6) {
        0 => nan(rng),
        1 => zero(rng),
        2 => infinity(rng),
        3 => -5e-324,
        4 => -rng.pick(&[0.1, 0.25, 0.5, 1.0]),
        _ => -ordinary(rng).abs(),
    }
}

/// Refused by 5, or, just below the limit, by 6: no line holds so many weights.
fn many_rows(rng: &mut Rng) -> f64 {
    let tiny = power(rng.between(-1074, -19));
    let fixed = [131_071.0, 131_072.0, 131_073.0, 131_074.0, 262_144.0];
    match rng.below(5) {
        0 | 1 => 1.0 / rng.pick(&fixed),
        2 => neighbour(rng, 1.0 / 131_073.0),
        3 => power(-18),
        _ => tiny,
    }
}

/// Few rows, mostly; the neighbours of 1/k are where the cut goes one way or the other.
fn good_epsilon(rng: &mut Rng) -> f64 {
    match rng.weighted(&[40, 12, 12, 10, 10, 10, 6]) {
        0 => 1.0 / rng.between(2, 12) as f64,
        1 => 1.0 / rng.between(13, 65) as f64,
        2 => power(-rng.between(1, 6)),
        3 => rng.pick(&[0.3, 0.4, 0.26, 0.1, 0.07, 0.05]),
        4 => {
            let k = rng.between(1, 8) as f64;
            neighbour(rng, 1.0 / k)
        }
        5 => 0.08 + rng.unit() * 0.6,
        _ => rng.pick(&[1.0, 2.0, 1.5, 0.6, 1e300, f64::MAX, places(1.0, -1)]),
    }
}

/// Rarely, many rows that are really walked.
fn long_epsilon(rng: &mut Rng) -> f64 {
    1.0 / rng.between(100, 1000) as f64
}

/// A row of the grid that starts near the truth: by chance alone most rows fit nothing.
fn aimed(rng: &mut Rng, target: &Target, epsilon: f64, rows: u64) -> Option<f64> {
    let [first, second] = *target.moments.first_chunk()?;
    let deviation = (second - first * first).sqrt();
    let row = rng.below(rows.clamp(1, 64)) as f64 + 1.0;
    let factor = (target.truth.mu_2 - first) / (row * epsilon * deviation);
    factor.is_finite().then_some(factor)
}

fn factor(rng: &mut Rng, target: &Target, epsilon: f64) -> f64 {
    if rng.one_in(2) {
        return aimed(rng, target, epsilon, rows(epsilon)).unwrap_or(5.0);
    }
    match rng.below(8) {
        0 => any(rng),
        1 => rng.between(-3, 6) as f64,
        2 | 3 => rng.unit() * 4.0,
        _ => 5.0,
    }
}

/// `brief` says that no step is made at all: only then may nobody be able to wait for the limit.
fn step_limit(rng: &mut Rng, brief: bool, long: bool) -> u64 {
    if brief && rng.one_in(3) {
        return huge(rng);
    }
    if long {
        return rng.below(6);
    }
    match rng.weighted(&[3, 6, 20, 66, 5]) {
        0 => 0,
        1 => 1,
        2 => rng.between(2, 9) as u64,
        3 => rng.between(10, 50) as u64,
        _ => rng.between(51, 500) as u64,
    }
}

/// As many weights as are needed, or more, or fewer; a few where no line could hold enough.
fn weight_count(rng: &mut Rng, needed: u64, faults: &Faults) -> usize {
    if needed > MOST_WEIGHTS {
        return rng.size(0, 12);
    }
    let needed = needed as usize;
    match (faults.few_weights && needed > 0, rng.below(8)) {
        (true, 0..=3) => needed - 1,
        (true, _) => rng.size(0, needed - 1),
        (false, 0 | 1) => needed + rng.size(1, 8),
        _ => needed,
    }
}

/// Surplus weights are not looked at, so they may be anything. In half the lists the others lie
/// near the truth's.
fn weights(rng: &mut Rng, target: &Target, needed: u64, faults: &Faults) -> Vec<f64> {
    let used = needed.min(MOST_WEIGHTS) as usize;
    let count = weight_count(rng, needed, faults);
    let near = rng.one_in(2);
    let mut one = |_| {
        if near {
            weight_near(rng, target)
        } else {
            good_weight(rng)
        }
    };
    let mut out: Vec<f64> = (0..count).map(&mut one).collect();
    for surplus in out.iter_mut().skip(used) {
        if rng.one_in(3) {
            *surplus = if rng.one_in(2) {
                bad_weight(rng)
            } else {
                any(rng)
            };
        }
    }
    if faults.weight {
        spoil(rng, &mut out, used);
    }
    out
}

/// Puts a bad weight among those used: first, last or anywhere.
fn spoil(rng: &mut Rng, weights: &mut [f64], used: usize) {
    let used = used.min(weights.len());
    if used > 0 {
        let anywhere = rng.size(0, used - 1);
        weights[rng.pick(&[0, used - 1, anywhere])] = bad_weight(rng);
    }
}

fn moment_count(rng: &mut Rng, faults: &Faults) -> usize {
    if faults.length {
        refused_length(rng, 5)
    } else {
        enough(rng, 5)
    }
}

fn variant(rng: &mut Rng, faults: &Faults) -> u64 {
    if faults.variant {
        bad_variant(rng)
    } else {
        rng.pick(&[1, 2, 2])
    }
}

pub fn single_fit(rng: &mut Rng, line: &mut Line) {
    let faults = faults(rng);
    let long = rng.one_in(400) && !faults.any();
    let in_force = if long {
        long_epsilon(rng)
    } else {
        epsilon(rng, &faults)
    };
    let count = moment_count(rng, &faults);
    let target = target(rng, count);
    let needed = rows(in_force);
    line.start("single_fit");
    line.n(variant(rng, &faults));
    line.list(&target.moments);
    if rng.one_in(3) {
        // the override wins, so what it overrides may be anything
        line.f(if rng.one_in(2) {
            any(rng)
        } else {
            good_epsilon(rng)
        });
        line.f(in_force);
    } else {
        line.f(in_force);
        line.word("-");
    }
    line.f(factor(rng, &target, in_force));
    line.step_limit(step_limit(rng, needed == 0, long));
    line.fs(&state(rng, &target));
    line.list(&weights(rng, &target, needed, &faults));
}

fn runs(rng: &mut Rng) -> u64 {
    match rng.weighted(&[15, 50, 20, 5, 6, 2, 2]) {
        0 => 1,
        1 => rng.between(2, 5) as u64,
        2 => rng.between(6, 20) as u64,
        3 => rng.between(63, 64) as u64,
        4 => 0,
        5 => rng.between(65, 80) as u64,
        _ => huge(rng),
    }
}

fn list_places(rng: &mut Rng, runs: u64) -> u64 {
    match rng.weighted(&[64, 20, 6, 10]) {
        0 => runs,
        1 => runs.saturating_add(rng.below(9)),
        2 => huge(rng),
        _ => rng.below(runs.max(1)),
    }
}

/// Fewer rows where there are more runs, so that the weights fit.
fn epsilon_for(rng: &mut Rng, runs: u64, faults: &Faults) -> f64 {
    let asked = epsilon(rng, faults);
    if faults.rows || rows(asked).saturating_mul(runs.min(64)) <= 400 || rng.one_in(20) {
        asked
    } else {
        1.0 / rng.between(2, 5) as f64
    }
}

pub fn mp_fit(rng: &mut Rng, line: &mut Line) {
    let runs = runs(rng);
    let mut faults = faults(rng);
    if runs == 0 && rng.one_in(2) {
        // nothing is looked at, so nothing is wrong
        faults = one_fault(rng);
    }
    let epsilon = epsilon_for(rng, runs, &faults);
    let count = moment_count(rng, &faults);
    let target = target(rng, count);
    let needed = rows(epsilon).saturating_mul(runs.min(70));
    line.start("mp_fit");
    line.n(variant(rng, &faults));
    line.list(&target.moments);
    line.f(epsilon);
    line.f(factor(rng, &target, epsilon));
    line.step_limit(step_limit(rng, needed == 0, false));
    line.n(runs);
    line.n(list_places(rng, runs));
    line.fs(&state(rng, &target));
    line.list(&weights(rng, &target, needed, &faults));
}
