//! Requests to `iter_4`, `iter_5` and `walk`.

use crate::line::Line;
use crate::mixture::{enough, refused_length, target, Target};
use crate::rng::Rng;
use crate::trial::{self, trail, Five};
use crate::values::{any, halves, huge, infinity, nan, neighbour, ordinary, places, power, zero};

pub fn iter_4(rng: &mut Rng, line: &mut Line) {
    step(rng, line, "iter_4", 4);
}

pub fn iter_5(rng: &mut Rng, line: &mut Line) {
    step(rng, line, "iter_5", 5);
}

fn step(rng: &mut Rng, line: &mut Line, name: &str, need: usize) {
    let count = if rng.one_in(12) {
        refused_length(rng, need)
    } else {
        enough(rng, need)
    };
    let wanted = rng.below(2) as usize;
    let Tried { target, start, .. } = tried(rng, need as u64 - 3, count, wanted);
    let (mean, mut weight) = start;
    // a step, unlike a walk, takes any weight
    if rng.one_in(12) {
        weight = if rng.one_in(2) {
            bad_weight(rng)
        } else {
            any(rng)
        };
    }
    line.start(name);
    line.list(&target.moments);
    line.f(mean);
    line.f(weight);
}

struct Tried {
    target: Target,
    start: (f64, f64),
    trail: Vec<Five>,
    moves: usize,
}

/// Draws moments and a start until so many steps are made before the weight stands still, or
/// until patience ends, and gives the best: by chance alone most starts are inadmissible at once.
fn tried(rng: &mut Rng, variant: u64, count: usize, wanted: usize) -> Tried {
    let mut best = one_try(rng, variant, count, wanted);
    for _ in 0..30 {
        if best.moves >= wanted {
            break;
        }
        let next = one_try(rng, variant, count, wanted);
        if next.moves > best.moves {
            best = next;
        }
    }
    best
}

fn one_try(rng: &mut Rng, variant: u64, count: usize, wanted: usize) -> Tried {
    let target = target(rng, count);
    let start = start(rng, &target);
    let trail = trail(variant, &target.moments, start, wanted);
    Tried {
        moves: still_at(start.1, &trail),
        target,
        start,
        trail,
    }
}

/// The number of the first step that leaves the weight as it was, nearly, or of all steps.
fn still_at(weight: f64, trail: &[Five]) -> usize {
    let before = std::iter::once(weight).chain(trail.iter().map(|five| five[4]));
    let still = before
        .zip(trail)
        .position(|(old, five)| (old - five[4]).abs() < 1e-13);
    still.map_or(trail.len(), |at| at + 1)
}

/// A starting mean and weight: at the truth, near it, far from it, or where a test fails.
fn start(rng: &mut Rng, target: &Target) -> (f64, f64) {
    let t = target.truth;
    let first = target.moments.first().copied().unwrap_or(0.0);
    match rng.weighted(&[18, 34, 26, 12, 10]) {
        0 => (t.mu_2, t.p_1),
        1 => (t.mu_2 + t.mu_2 * offset(rng), weight_near(rng, target)),
        2 => (
            first + rng.unit() * 5.0 * (t.sigma_1 + t.sigma_2),
            good_weight(rng),
        ),
        3 => (
            rng.pick(&[t.mu_1, first, -t.mu_2, 0.0, -0.0, t.mu_2]),
            good_weight(rng),
        ),
        _ => (
            if rng.one_in(2) { any(rng) } else { halves(rng) },
            good_weight(rng),
        ),
    }
}

/// From 2^-52 to a half, either way.
fn offset(rng: &mut Rng) -> f64 {
    power(rng.between(-52, -1)) * (rng.unit() * 2.0 - 1.0)
}

pub fn weight_near(rng: &mut Rng, target: &Target) -> f64 {
    let p = target.truth.p_1 + offset(rng) / 2.0;
    if (0.0..1.0).contains(&p) {
        p
    } else {
        0.5
    }
}

/// At least 0 and below 1; the ends and the limit of `iter_5` (1e-4 from 1) among them.
pub fn good_weight(rng: &mut Rng) -> f64 {
    match rng.below(24) {
        0 => zero(rng),
        1 => rng.pick(&[0.25, 0.5, 0.75, 0.125]),
        2 => neighbour(rng, 0.9999),
        3 => rng.pick(&[
            1.0 - f64::EPSILON / 2.0,
            1.0 - 1e-4,
            0.99995,
            f64::MIN_POSITIVE,
            5e-324,
        ]),
        4 => power(rng.between(-60, -1)),
        _ => rng.unit(),
    }
}

/// Refused by 7.
pub fn bad_weight(rng: &mut Rng) -> f64 {
    match rng.below(7) {
        0 => nan(rng),
        1 => 1.0,
        2 => places(1.0, 1),
        3 => -5e-324,
        4 => -rng.unit() - 1e-9,
        5 => infinity(rng),
        _ => 1.0 + rng.unit() * 9.0,
    }
}

pub fn bad_variant(rng: &mut Rng) -> u64 {
    match rng.below(4) {
        0 => 0,
        1 => 3,
        2 => rng.below(300) + 3,
        _ => huge(rng),
    }
}

/// Five parameters, error, five new moments, of a state that a caller may hand in.
pub fn state(rng: &mut Rng, target: &Target) -> Vec<f64> {
    let error = error(rng, &target.moments);
    state_with(rng, target, error)
}

fn state_with(rng: &mut Rng, target: &Target, error: f64) -> Vec<f64> {
    let mut out = five(rng, target.truth.parameters()).to_vec();
    out.push(error);
    let mut given = [0.0; 5];
    for (to, from) in given.iter_mut().zip(&target.moments) {
        *to = *from;
    }
    out.extend(five(rng, given));
    out
}

fn five(rng: &mut Rng, likely: [f64; 5]) -> [f64; 5] {
    match rng.below(4) {
        0 | 1 => [0.0; 5],
        2 => likely,
        _ => [any(rng), any(rng), any(rng), any(rng), any(rng)],
    }
}

fn error(rng: &mut Rng, moments: &[f64]) -> f64 {
    match rng.below(12) {
        0..=3 => moments.iter().map(|m| m * m).sum(),
        4 | 5 => zero(rng),
        6 => power(rng.between(-110, -20)),
        7 => f64::INFINITY,
        8 => 1e300,
        9 => nan(rng),
        10 => -ordinary(rng).abs(),
        _ => any(rng),
    }
}

/// What of a walk is refused, any of it together, so that the order of testing is seen.
#[derive(Default)]
struct Faults {
    variant: bool,
    length: bool,
    weight: bool,
}

fn faults(rng: &mut Rng) -> Faults {
    if !rng.one_in(8) {
        return Faults::default();
    }
    Faults {
        variant: rng.one_in(2),
        length: rng.one_in(2),
        weight: rng.one_in(2),
    }
}

/// How far a walk is wished to go before it stands still.
fn wished(rng: &mut Rng) -> usize {
    rng.pick(&[0, 0, 0, 1, 1, 1, 2, 3, 5, 12, 12, 40, 40, 120, 120, 600])
}

pub fn walk(rng: &mut Rng, line: &mut Line) {
    let faults = faults(rng);
    let refused = faults.variant || faults.length || faults.weight;
    let variant = if faults.variant {
        bad_variant(rng)
    } else {
        rng.pick(&[1, 2])
    };
    let need = if variant == 1 { 4 } else { 5 };
    let count = if faults.length {
        refused_length(rng, need)
    } else {
        enough(rng, need)
    };
    let wished = if refused { 0 } else { wished(rng) };
    let Tried {
        target,
        start,
        trail,
        moves,
    } = tried(rng, variant, count, wished);
    let weight = if faults.weight {
        bad_weight(rng)
    } else {
        start.1
    };
    let epsilon = tolerance(rng, start.1, &trail);
    let error = walk_error(rng, &target.moments, &trail);
    line.start("walk");
    line.n(variant);
    line.list(&target.moments);
    line.f(start.0);
    line.f(weight);
    line.f(epsilon);
    line.step_limit(step_limit(rng, epsilon > 1.0, moves));
    line.fs(&state_with(rng, &target, error));
}

/// An error that a step meets to the last bit, at times: only a smaller one may win.
fn walk_error(rng: &mut Rng, moments: &[f64], trail: &[Five]) -> f64 {
    if trail.is_empty() || !rng.one_in(4) {
        return error(rng, moments);
    }
    let met = trial::error(moments, &trail[rng.below(trail.len() as u64) as usize]);
    if rng.one_in(2) {
        met
    } else {
        neighbour(rng, met)
    }
}

/// The very difference of a step, at times: only a smaller one settles.
fn tolerance(rng: &mut Rng, weight: f64, trail: &[Five]) -> f64 {
    if !trail.is_empty() && rng.one_in(5) {
        let at = rng.below(trail.len() as u64) as usize;
        let before = if at == 0 { weight } else { trail[at - 1][4] };
        let met = (before - trail[at][4]).abs();
        return if rng.one_in(2) {
            met
        } else {
            neighbour(rng, met)
        };
    }
    let usual = if trail.len() < 10 { 20 } else { 5 };
    match rng.weighted(&[50, usual, 8, 8, 4, 4, 4]) {
        0 => rng.pick(&[1e-9, 1e-10, 1e-11, 1e-12, 1e-13, 1e-14, 1e-15]),
        1 => rng.pick(&[1e-5, 1e-4, 1e-3, 0.01, 0.1, 0.25, 0.5, 1.0]),
        2 => zero(rng),
        3 => rng.pick(&[1.5, 2.0, 1e10, f64::INFINITY, places(1.0, 1)]),
        4 => nan(rng),
        5 => 5e-324,
        _ => any(rng),
    }
}

/// `brief` says that the walk, refused or not, settles in its first step because epsilon is above
/// 1: only then may the limit be one that nobody could wait for. `far` steps are known to be made.
fn step_limit(rng: &mut Rng, brief: bool, far: usize) -> u64 {
    if brief && rng.one_in(2) {
        return huge(rng);
    }
    let beyond = if far < 10 { 0 } else { 60 };
    match rng.weighted(&[6, 8, 22, 40, 14, 10, beyond]) {
        0 => 0,
        1 => 1,
        2 => rng.between(2, 10) as u64,
        3 => rng.between(11, 100) as u64,
        4 => rng.between(101, 2000) as u64,
        5 => far as u64 + rng.below(3),
        _ => rng.between(far as i64, 2000) as u64,
    }
}
