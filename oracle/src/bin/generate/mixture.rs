//! Mixtures of two normals and lists of moments, true ones and others.

use crate::rng::Rng;
use crate::values::{any, halves, neighbour, ordinary, places, power, scaled, zero};

#[derive(Clone, Copy)]
pub struct Mixture {
    pub mu_1: f64,
    pub mu_2: f64,
    pub sigma_1: f64,
    pub sigma_2: f64,
    pub p_1: f64,
}

/// What a fit is asked to meet, and the mixture that its start is chosen by.
pub struct Target {
    pub moments: Vec<f64>,
    pub truth: Mixture,
}

impl Mixture {
    pub fn parameters(&self) -> [f64; 5] {
        [self.mu_1, self.mu_2, self.sigma_1, self.sigma_2, self.p_1]
    }

    /// Raw moments 1 to count: the first five by the paper's formulas, the others by recursion.
    pub fn moments(&self, count: usize) -> Vec<f64> {
        let (first, second) = (
            normal(self.mu_1, self.sigma_1),
            normal(self.mu_2, self.sigma_2),
        );
        let mix = |k: usize| self.p_1 * first[k] + (1.0 - self.p_1) * second[k];
        (0..count.min(16))
            .map(mix)
            .chain((16..count).map(|_| 1.0))
            .collect()
    }
}

/// Raw moments 1 to 16 of one normal.
fn normal(mu: f64, sigma: f64) -> [f64; 16] {
    let (s2, m2) = (sigma * sigma, mu * mu);
    let mut out = [0.0; 16];
    out[0] = mu;
    out[1] = s2 + m2;
    out[2] = 3.0 * s2 * mu + m2 * mu;
    out[3] = 3.0 * s2 * s2 + 6.0 * s2 * m2 + m2 * m2;
    out[4] = 15.0 * s2 * s2 * mu + 10.0 * s2 * m2 * mu + m2 * m2 * mu;
    for k in 5..16 {
        out[k] = mu * out[k - 1] + k as f64 * s2 * out[k - 2];
    }
    out
}

/// Whole means and deviations and a weight in eighths: moments are exact, and the truth is a
/// fixed point to the last bit.
fn whole(rng: &mut Rng) -> Mixture {
    Mixture {
        mu_1: rng.between(-4, 4) as f64,
        mu_2: rng.between(-4, 6) as f64,
        sigma_1: rng.between(0, 4) as f64,
        sigma_2: rng.between(0, 4) as f64,
        p_1: rng.between(1, 7) as f64 / 8.0,
    }
}

fn common(rng: &mut Rng) -> Mixture {
    let gap = rng.unit() * 4.0;
    let mu_1 = rng.unit() * 6.0 - 3.0;
    Mixture {
        mu_1,
        mu_2: mu_1 + gap,
        sigma_1: 0.05 + rng.unit() * 2.0,
        sigma_2: 0.05 + rng.unit() * 2.0,
        p_1: 0.02 + rng.unit() * 0.96,
    }
}

/// Mean exactly zero, where variant 2 is not centred.
fn balanced(rng: &mut Rng) -> Mixture {
    let mut m = if rng.one_in(2) {
        whole(rng)
    } else {
        common(rng)
    };
    m.p_1 = 0.5;
    m.mu_1 = -m.mu_2;
    m
}

/// Equal or mirrored parts, where denominators vanish.
fn degenerate(rng: &mut Rng) -> Mixture {
    let mut m = whole(rng);
    match rng.below(4) {
        0 => m.mu_1 = -m.mu_2,
        1 => m.mu_1 = m.mu_2,
        2 => m.sigma_1 = 0.0,
        _ => m.mu_1 = 0.0,
    }
    if rng.one_in(2) {
        m.sigma_1 = m.sigma_2;
    }
    m
}

/// A weight where `iter_5` begins to turn it away, 1e-4 from 1, or at the other end.
fn lopsided(rng: &mut Rng) -> Mixture {
    let mut m = common(rng);
    m.p_1 = match rng.below(4) {
        0 => 0.9999,
        1 => neighbour(rng, 0.9999),
        2 => 1.0 - power(-rng.between(8, 20)),
        _ => power(-rng.between(8, 60)),
    };
    m
}

pub fn mixture(rng: &mut Rng) -> Mixture {
    match rng.weighted(&[25, 51, 12, 8, 4]) {
        0 => whole(rng),
        1 => common(rng),
        2 => balanced(rng),
        3 => degenerate(rng),
        _ => lopsided(rng),
    }
}

/// A list of moments of a given length.
pub fn target(rng: &mut Rng, count: usize) -> Target {
    let truth = mixture(rng);
    let mut out = Target {
        moments: truth.moments(count),
        truth,
    };
    match rng.weighted(&[40, 25, 14, 9, 6, 6]) {
        0 => {}
        1 => perturb(rng, &mut out.moments),
        2 => scale(rng, &mut out),
        3 => small_garbage(rng, &mut out.moments),
        4 => replace_one(rng, &mut out.moments),
        _ => out.moments.iter_mut().for_each(|m| *m = any(rng)),
    }
    if rng.one_in(30) {
        out.moments
            .first_mut()
            .into_iter()
            .for_each(|m| *m = zero(rng));
    }
    if rng.one_in(40) {
        no_divisor(rng, &mut out);
    }
    out
}

/// Off by a few places up to a tenth, all moments or one.
fn perturb(rng: &mut Rng, moments: &mut [f64]) {
    let size = power(rng.between(-53, -3));
    let only = if rng.one_in(2) {
        Some(rng.below(16) as usize)
    } else {
        None
    };
    for (k, m) in moments.iter_mut().enumerate() {
        if only.is_some_and(|only| only != k) {
            continue;
        }
        *m = if rng.one_in(3) {
            places(*m, rng.between(-4, 4))
        } else {
            *m + *m * (rng.unit() * 2.0 - 1.0) * size
        };
    }
}

/// The k-th moment times 2^(k s), and the truth with it: the scaling that demand 3 speaks of.
fn scale(rng: &mut Rng, target: &mut Target) {
    let wide = rng.pick(&[3, 3, 20, 60, 170, 240]);
    let s = rng.between(-wide, wide);
    for (k, m) in target.moments.iter_mut().enumerate() {
        *m = scaled(*m, s * (k as i64 + 1));
    }
    let t = &mut target.truth;
    for x in [&mut t.mu_1, &mut t.mu_2, &mut t.sigma_1, &mut t.sigma_2] {
        *x = scaled(*x, s);
    }
}

/// Small whole numbers, halves and zeros: the tests for exact zero are met often.
fn small_garbage(rng: &mut Rng, moments: &mut [f64]) {
    for m in moments.iter_mut() {
        *m = match rng.below(4) {
            0 => zero(rng),
            1 => halves(rng),
            2 => rng.between(-3, 3) as f64,
            _ => ordinary(rng),
        };
    }
}

fn replace_one(rng: &mut Rng, moments: &mut [f64]) {
    if !moments.is_empty() {
        let k = rng.below(moments.len() as u64) as usize;
        moments[k] = any(rng);
    }
}

/// Moments that end in a zero divisor of the new weight: in `iter_4` mirrored equal parts, in
/// `iter_5` a first mean of 0 and a fourth moment that makes the second one 0.
fn no_divisor(rng: &mut Rng, target: &mut Target) {
    let mut t = whole(rng);
    t.mu_2 = rng.between(1, 4) as f64;
    let mirrored = rng.one_in(2);
    if mirrored {
        t.mu_1 = -t.mu_2;
        t.sigma_1 = t.sigma_2;
    } else {
        t.mu_1 = 0.0;
    }
    let mut moments = t.moments(target.moments.len());
    if !mirrored && moments.len() > 3 {
        let fourth = |s: f64| 3.0 * (s * s) * (s * s);
        moments[3] = t.p_1 * fourth(t.sigma_1) + (1.0 - t.p_1) * fourth(t.sigma_2);
    }
    *target = Target { moments, truth: t };
}

/// How many moments: mostly what is needed or five, sometimes up to sixteen.
pub fn enough(rng: &mut Rng, need: usize) -> usize {
    match rng.below(10) {
        0..=4 => need.max(5),
        5..=7 => need,
        8 => rng.size(need, 16),
        _ => 16,
    }
}

/// A length that is refused: too few (1) or too many (2).
pub fn refused_length(rng: &mut Rng, need: usize) -> usize {
    match rng.below(8) {
        0..=2 if need > 0 => rng.size(0, need - 1),
        3 if need > 0 => need - 1,
        4 | 5 => 17,
        6 => rng.size(17, 20),
        _ => rng.size(17, 40),
    }
}
