//! The numbers that requests are made of. Only single IEEE operations are used, so that a seed
//! gives the same lines on every machine.

use crate::rng::Rng;

const SIGN: u64 = 1 << 63;

/// Any f64, the awkward ones often.
pub fn any(rng: &mut Rng) -> f64 {
    match rng.weighted(&[24, 10, 12, 14, 5, 4, 4, 4, 8, 7, 8]) {
        0 => ordinary(rng),
        1 => halves(rng),
        2 => f64::from_bits(rng.bits()),
        3 => any_exponent(rng),
        4 => subnormal(rng),
        5 => nan(rng),
        6 => infinity(rng),
        7 => zero(rng),
        8 => near_power(rng),
        9 => near_square(rng),
        _ => near_edge(rng),
    }
}

/// Sets the sign without arithmetic, which could alter a NaN's pattern.
fn either_sign(rng: &mut Rng, x: f64) -> f64 {
    f64::from_bits(x.to_bits() ^ (rng.bits() & SIGN))
}

pub fn ordinary(rng: &mut Rng) -> f64 {
    let widths = [1.0, 1.0, 10.0, 100.0, 1000.0, 1e6, 1e-3, 1e-6];
    let width = rng.pick(&widths);
    (rng.unit() * 2.0 - 1.0) * width
}

/// Small whole numbers, halves and quarters.
pub fn halves(rng: &mut Rng) -> f64 {
    let parts = rng.pick(&[1.0, 1.0, 2.0, 4.0]);
    rng.between(-20, 20) as f64 / parts
}

/// 52 bits: random, or with long runs of zeros or ones, where rounding and carries go wrong.
fn fraction_bits(rng: &mut Rng) -> u64 {
    let all = (1u64 << 52) - 1;
    let random = rng.bits() & all;
    match rng.below(8) {
        0 => 0,
        1 => all,
        2 => (1u64 << rng.below(53)) & all,
        3 => random & all << rng.below(52) & all,
        4 => random | (all >> rng.below(52)),
        _ => random,
    }
}

/// Every exponent equally often, those of subnormals, infinities and NaN with them.
pub fn any_exponent(rng: &mut Rng) -> f64 {
    let exponent = rng.below(2048) << 52;
    let x = f64::from_bits(exponent | fraction_bits(rng));
    either_sign(rng, x)
}

/// A finite number of a given binary size, 2^low to 2^high; low is -1022 or more.
pub fn of_size(rng: &mut Rng, low: i64, high: i64) -> f64 {
    let exponent = (rng.between(low, high) + 1023) as u64;
    let x = f64::from_bits(exponent << 52 | fraction_bits(rng));
    either_sign(rng, x)
}

fn subnormal(rng: &mut Rng) -> f64 {
    let width = rng.below(53);
    let x = f64::from_bits(match rng.below(4) {
        0 => rng.below(4) + 1,
        1 => (1u64 << 52).wrapping_add(rng.below(5)).wrapping_sub(2),
        _ => rng.bits() >> (63 - width),
    });
    either_sign(rng, x)
}

pub fn nan(rng: &mut Rng) -> f64 {
    let random = rng.bits() >> 12 | 1;
    let payload = rng.pick(&[1 << 51, 1, (1 << 52) - 1, 1 << 51 | 1, 1 << 50, random]);
    either_sign(rng, f64::from_bits(0x7ff << 52 | payload))
}

pub fn infinity(rng: &mut Rng) -> f64 {
    either_sign(rng, f64::INFINITY)
}

pub fn zero(rng: &mut Rng) -> f64 {
    either_sign(rng, 0.0)
}

/// 2^e, for e from -1074 to 1023.
pub fn power(e: i64) -> f64 {
    if e >= -1022 {
        f64::from_bits(((e + 1023) as u64) << 52)
    } else {
        f64::from_bits(1 << (e + 1074))
    }
}

/// x times 2^e, in parts, so that the factor itself never overflows.
pub fn scaled(x: f64, e: i64) -> f64 {
    let mut out = x;
    let mut left = e;
    while left != 0 {
        let part = left.clamp(-1000, 1000);
        out *= power(part);
        left -= part;
    }
    out
}

/// The f64 so many places further from zero (or nearer, for a negative number).
pub fn places(x: f64, by: i64) -> f64 {
    f64::from_bits(x.to_bits().wrapping_add(by as u64))
}

pub fn neighbour(rng: &mut Rng, x: f64) -> f64 {
    let by = rng.between(-3, 3);
    places(x, by)
}

fn near_power(rng: &mut Rng) -> f64 {
    let e = if rng.one_in(3) {
        rng.between(-1074, 1023)
    } else {
        rng.between(-70, 70)
    };
    let x = neighbour(rng, power(e));
    either_sign(rng, x)
}

/// Squares, squares of halfway points between neighbours, and the f64s beside both.
pub fn near_square(rng: &mut Rng) -> f64 {
    let bits = rng.size(1, 53);
    let root = rng.bits() >> (64 - bits);
    let half = rng.below(2);
    let double = (root as u128) * 2 + half as u128;
    let square = scaled((double * double) as f64, -2);
    let shifted = match rng.below(3) {
        0 => square,
        1 => scaled(square, 2 * rng.between(-30, 30)),
        _ => scaled(square, 2 * rng.between(-590, 455)),
    };
    if rng.one_in(3) {
        shifted
    } else {
        neighbour(rng, shifted)
    }
}

/// Where casts saturate, fractions end, and whole numbers stop being exact.
pub fn near_edge(rng: &mut Rng) -> f64 {
    let edge = power(rng.pick(&[31, 32, 51, 52, 53, 53, 54, 62, 63, 63, 64, 64]));
    let x = match rng.below(4) {
        0 => edge,
        1 => neighbour(rng, edge),
        2 => edge + rng.between(-9, 9) as f64,
        _ => edge + rng.between(-9, 9) as f64 / 2.0,
    };
    either_sign(rng, x)
}

/// Any i64, the awkward ones often.
pub fn any_i64(rng: &mut Rng) -> i64 {
    match rng.weighted(&[20, 15, 20, 12, 13, 20]) {
        0 => rng.between(-20, 20),
        1 => rng.bits() as i64,
        2 => any_width(rng),
        3 => extreme(rng),
        4 => near_whole_edge(rng),
        _ => tie(rng),
    }
}

fn any_width(rng: &mut Rng) -> i64 {
    let width = rng.below(64);
    rng.bits() as i64 >> width
}

pub fn extreme(rng: &mut Rng) -> i64 {
    let off = rng.below(3) as i64 * rng.between(0, 600);
    if rng.one_in(2) {
        i64::MIN + off
    } else {
        i64::MAX - off
    }
}

fn near_whole_edge(rng: &mut Rng) -> i64 {
    let edge = 1i64 << rng.pick(&[31, 32, 53, 53, 54, 55, 61, 62]);
    let off = rng.between(-5, 5);
    if rng.one_in(2) {
        edge + off
    } else {
        -edge + off
    }
}

/// Halfway between two f64s, or one beside it: a last kept bit, a one, then zeros.
fn tie(rng: &mut Rng) -> i64 {
    let dropped = rng.between(1, 10);
    let kept = (rng.bits() >> 12 | 1 << 52) as i64;
    let halfway = (kept << dropped) | 1 << (dropped - 1);
    let off = rng.pick(&[0, 0, 1, -1]);
    let x = halfway.wrapping_add(off);
    if rng.one_in(2) {
        x
    } else {
        x.wrapping_neg()
    }
}

/// A whole number far beyond any sensible one.
pub fn huge(rng: &mut Rng) -> u64 {
    let random = rng.bits();
    rng.pick(&[
        u64::MAX,
        u64::MAX,
        u64::MAX - 1,
        1 << 63,
        (1 << 63) - 1,
        1 << 32,
        random,
    ])
}
