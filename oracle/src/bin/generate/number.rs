//! Requests to the eight number leaves.

use crate::line::Line;
use crate::rng::Rng;
use crate::values::{any, any_i64, near_edge, near_square, neighbour, of_size, places, zero};

/// Half the roots are asked of numbers near squares, where a root is hardest to round.
pub fn sqrt(rng: &mut Rng, line: &mut Line) {
    let x = if rng.one_in(2) {
        near_square(rng)
    } else {
        any(rng)
    };
    line.start("sqrt");
    line.f(x);
}

pub fn abs(rng: &mut Rng, line: &mut Line) {
    line.start("abs");
    line.f(any(rng));
}

/// Half the bases are so small that the power stays a finite number above zero.
pub fn powi(rng: &mut Rng, line: &mut Line) {
    let n = rng.below(17);
    let reach = 1020 / n.max(1) as i64;
    let x = if rng.one_in(2) {
        of_size(rng, -reach, reach)
    } else {
        any(rng)
    };
    line.start("powi");
    line.f(x);
    line.n(n);
}

pub fn larger(rng: &mut Rng, line: &mut Line) {
    let a = any(rng);
    let b = match rng.below(6) {
        0 => a,
        1 => neighbour(rng, a),
        2 => places(a, i64::MIN),
        3 => zero(rng),
        _ => any(rng),
    };
    line.start("larger");
    line.f(a);
    line.f(b);
}

pub fn is_finite(rng: &mut Rng, line: &mut Line) {
    line.start("is_finite");
    line.f(any(rng));
}

pub fn as_i64(rng: &mut Rng, line: &mut Line) {
    line.start("as_i64");
    line.f(to_be_cut(rng));
}

pub fn as_usize(rng: &mut Rng, line: &mut Line) {
    line.start("as_usize");
    line.f(to_be_cut(rng));
}

/// Numbers whose whole part is of any width up to a little more than 64 bits.
fn to_be_cut(rng: &mut Rng) -> f64 {
    match rng.below(3) {
        0 => of_size(rng, -2, 66),
        1 => near_edge(rng),
        _ => any(rng),
    }
}

pub fn i64_as_f64(rng: &mut Rng, line: &mut Line) {
    line.start("i64_as_f64");
    line.i(any_i64(rng));
}
