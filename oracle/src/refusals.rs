//! What document 01 turns away, each list in its order of testing. The Rust itself has only
//! numbers 1, 3, 4 and 10; the others are added.

use crate::protocol::Stop;

type Check = Result<(), Stop>;

const MOST_MOMENTS: usize = 16;
const MOST_ORDER: usize = 16;
const MOST_ROWS: usize = 131_072;
const MOST_RUNS: usize = 64;
const MOST_SPANS: usize = 16_384;
const MOST_LOTS: i128 = 1_000_000;

fn refuse(number: u32, when: bool) -> Check {
    if when {
        Err(Stop::Refused(number))
    } else {
        Ok(())
    }
}

fn moments(count: usize, least: usize) -> Check {
    refuse(1, count < least)?;
    refuse(2, count > MOST_MOMENTS)
}

fn variant(variant: usize) -> Check {
    refuse(3, !matches!(variant, 1 | 2))
}

/// NaN is out of range too.
fn weight(p_1: f64) -> Check {
    refuse(7, !(0.0..1.0).contains(&p_1))
}

/// `least` is 4 for `iter_4` and 5 for `iter_5`.
pub fn step(count: usize, least: usize) -> Check {
    moments(count, least)
}

/// The variant comes first here, as in the Rust's `fit`.
pub fn walk(of_variant: usize, count: usize, p_1: f64) -> Check {
    variant(of_variant)?;
    moments(count, if of_variant == 1 { 4 } else { 5 })?;
    weight(p_1)
}

pub fn centered_moment(order: usize, count: usize) -> Check {
    refuse(9, order > MOST_ORDER)?;
    moments(count, order.max(1))
}

pub fn raw_moment(count: usize, room: usize) -> Check {
    refuse(2, count > MOST_MOMENTS)?;
    refuse(8, room < count.max(1))
}

/// How many rows the grid has, for an epsilon that number 4 lets through.
pub fn rows(epsilon: f64) -> usize {
    let upper = (1.0 / epsilon).max(1.0) as usize;
    upper - 1
}

/// The length comes first here, as in the Rust's `validate`. Gives how many weights are used.
pub fn grid(
    of_variant: usize,
    count: usize,
    epsilon: f64,
    runs: usize,
    weights: &[f64],
) -> Result<usize, Stop> {
    moments(count, 5)?;
    variant(of_variant)?;
    refuse(4, !(epsilon.is_finite() && epsilon > 0.0))?;
    refuse(5, rows(epsilon) > MOST_ROWS)?;
    let needed = runs * rows(epsilon);
    refuse(6, weights.len() < needed)?;
    weights[..needed].iter().try_for_each(|p_1| weight(*p_1))?;
    Ok(needed)
}

/// For at least one run: with none, nothing is looked at.
pub fn mp_fit(
    of_variant: usize,
    count: usize,
    epsilon: f64,
    runs: usize,
    places: usize,
    weights: &[f64],
) -> Result<usize, Stop> {
    refuse(13, runs > MOST_RUNS)?;
    let needed = grid(of_variant, count, epsilon, runs, weights)?;
    refuse(8, places < runs)?;
    Ok(needed)
}

/// `room` is the length of every result buffer.
pub fn spans(starts: usize, ends: usize, sides: usize, room: usize) -> Check {
    refuse(10, starts != ends || starts != sides)?;
    refuse(11, starts > MOST_SPANS)?;
    refuse(8, room < starts)
}

/// The exact difference: the Rust's own subtraction in i64 could overflow.
pub fn limit_price(t_pos: f64, pos: f64) -> Check {
    let target = i128::from(t_pos.trunc() as i64);
    let current = i128::from(pos.trunc() as i64);
    refuse(12, (target - current).abs() > MOST_LOTS)
}
