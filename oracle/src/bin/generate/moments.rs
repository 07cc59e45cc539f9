//! Requests to `get_moments`, `centered_moment` and `raw_moment`.

use crate::line::Line;
use crate::mixture::{mixture, refused_length, target};
use crate::rng::Rng;
use crate::values::{any, halves, huge, of_size, ordinary, zero};

pub fn get_moments(rng: &mut Rng, line: &mut Line) {
    let mut parameters = mixture(rng).parameters();
    match rng.below(6) {
        0 | 1 => {}
        2 => parameters.iter_mut().for_each(|x| *x = any(rng)),
        3 => parameters.iter_mut().for_each(|x| *x = halves(rng)),
        4 => parameters[rng.below(5) as usize] = any(rng),
        // fifth powers that just overflow or vanish
        _ => {
            for x in parameters.iter_mut().take(4) {
                *x = if rng.one_in(2) {
                    of_size(rng, 195, 260)
                } else {
                    of_size(rng, -270, -195)
                };
            }
        }
    }
    line.start("get_moments");
    line.fs(&parameters);
}

/// Whole, scaled, awkward or plain numbers to be read as moments.
fn some_moments(rng: &mut Rng, count: usize) -> Vec<f64> {
    if rng.one_in(2) {
        return target(rng, count).moments;
    }
    let style = rng.below(5);
    (0..count)
        .map(|_| match style {
            0 => rng.between(-9, 9) as f64,
            1 => halves(rng),
            2 => ordinary(rng),
            3 => any(rng),
            _ => of_size(rng, -80, 80),
        })
        .collect()
}

pub fn centered_moment(rng: &mut Rng, line: &mut Line) {
    let mut order = rng.below(17);
    let mut count = rng.size(order.max(1) as usize, 16);
    if rng.one_in(4) {
        // 9, 1 and 2, alone and together
        match rng.below(5) {
            0 => order = rng.between(17, 24) as u64,
            1 => order = huge(rng),
            2 => count = rng.size(0, order as usize),
            3 => count = rng.size(17, 20),
            _ => {
                order = rng.pick(&[17, 18, 20, 300]);
                count = rng.pick(&[0, 1, 16, 17, 20, 40]);
            }
        }
    }
    let moments = some_moments(rng, count);
    line.start("centered_moment");
    line.n(order);
    line.list(&moments);
}

pub fn raw_moment(rng: &mut Rng, line: &mut Line) {
    let count = match rng.below(8) {
        0 => refused_length(rng, 0),
        _ => rng.size(0, 16),
    };
    let least = count.max(1) as u64;
    let room = match rng.below(12) {
        0 => rng.below(least),
        1 => least - 1,
        2 | 3 => least + rng.below(20),
        4 => huge(rng),
        _ => least,
    };
    let mean = match rng.below(4) {
        0 => any(rng),
        1 => halves(rng),
        2 => ordinary(rng),
        _ => of_size(rng, -60, 60),
    };
    let mut centred = some_moments(rng, count);
    if let (Some(first), false) = (centred.first_mut(), rng.one_in(3)) {
        *first = zero(rng);
    }
    line.start("raw_moment");
    line.n(room);
    line.f(mean);
    line.list(&centred);
}
