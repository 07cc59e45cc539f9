//! Requests to the counts, the budget and the sigmoid prices.

use crate::line::Line;
use crate::rng::Rng;
use crate::values::{
    any, any_i64, extreme, halves, huge, infinity, nan, neighbour, of_size, ordinary, places,
    power, zero,
};

pub fn concurrent_sides(rng: &mut Rng, line: &mut Line) {
    spans(rng, line, "concurrent_sides");
}

pub fn budget(rng: &mut Rng, line: &mut Line) {
    spans(rng, line, "budget");
}

/// A request of 1,900 spans or more has an answer that is longer than a request may be.
fn span_count(rng: &mut Rng) -> usize {
    match rng.weighted(&[1500, 3000, 1000, 50, 5, 1]) {
        0 => rng.size(0, 3),
        1 => rng.size(4, 16),
        2 => rng.size(17, 40),
        3 => rng.size(100, 500),
        4 => rng.size(501, 1000),
        _ => rng.size(1900, 2900),
    }
}

fn spans(rng: &mut Rng, line: &mut Line, name: &str) {
    let count = span_count(rng);
    // so many spans fit a line only where instants are short
    let style = if count > 1000 { 0 } else { rng.below(6) };
    let mut starts: Vec<i64> = (0..count).map(|_| instant(rng, style, count)).collect();
    let mut ends: Vec<i64> = starts.iter().map(|s| end(rng, style, *s, count)).collect();
    let wild = rng.one_in(4);
    let mut sides: Vec<f64> = (0..count).map(|_| side(rng, wild)).collect();
    if rng.one_in(12) {
        unequal(rng, &mut starts, &mut ends, &mut sides);
    }
    line.start(name);
    line.n(room(rng, count as u64));
    line.instants(&starts);
    line.instants(&ends);
    line.list(&sides);
}

/// Few different instants for ties, many for overlaps, and the ends of i64.
fn instant(rng: &mut Rng, style: u64, count: usize) -> i64 {
    match style {
        0 => rng.between(0, 3),
        1 | 2 => rng.between(0, 2 * count as i64 + 1),
        3 => rng.between(-1000, 1000),
        4 => 1_700_000_000_000_000_000 + rng.between(0, 40) * 3_600_000_000_000,
        _ => {
            if rng.one_in(3) {
                extreme(rng)
            } else {
                any_i64(rng)
            }
        }
    }
}

fn end(rng: &mut Rng, style: u64, start: i64, count: usize) -> i64 {
    let unit = if style == 4 { 3_600_000_000_000 } else { 1 };
    match rng.below(16) {
        0 => start,
        1 => start.saturating_sub(rng.between(1, 5) * unit),
        2 => instant(rng, style, count),
        3 => rng.pick(&[i64::MIN, i64::MAX, start.saturating_add(1)]),
        _ => start.saturating_add(rng.between(1, 12) * unit),
    }
}

fn side(rng: &mut Rng, wild: bool) -> f64 {
    if !wild {
        return rng.pick(&[1.0, 1.0, -1.0]);
    }
    match rng.below(8) {
        0 => nan(rng),
        1 => zero(rng),
        2 => infinity(rng),
        3 => any(rng),
        4 => rng.pick(&[5e-324, -5e-324]),
        _ => rng.pick(&[1.0, -1.0]),
    }
}

/// One list longer or shorter than the others, or all three different.
fn unequal(rng: &mut Rng, starts: &mut Vec<i64>, ends: &mut Vec<i64>, sides: &mut Vec<f64>) {
    let which = rng.below(5);
    let by = rng.size(1, 3);
    if which == 0 || which == 3 {
        starts.resize(starts.len() + by, 7);
    }
    if which == 1 || which == 3 {
        ends.truncate(ends.len().saturating_sub(by));
    }
    if which == 2 || which == 3 {
        sides.resize(sides.len() + 2 * by, 1.0);
    }
    if which == 4 {
        sides.truncate(sides.len().saturating_sub(by));
    }
}

fn room(rng: &mut Rng, count: u64) -> u64 {
    match rng.below(12) {
        0 => rng.below(count.max(1)),
        1 => count.saturating_sub(1),
        2 => huge(rng),
        3 | 4 => count + rng.below(9),
        _ => count,
    }
}

/// A bet size from -1 to 1, its ends and what lies just beyond them among it.
fn bet_size(rng: &mut Rng) -> f64 {
    let x = match rng.below(12) {
        0 => any(rng),
        1 => 1.0,
        2 => neighbour(rng, 1.0),
        3 => 1.0 - power(-rng.between(2, 53)),
        4 => of_size(rng, -1022, -500).abs(),
        5 => halves(rng) / 8.0,
        6 => of_size(rng, -60, 1),
        _ => rng.unit(),
    };
    if rng.one_in(2) {
        x
    } else {
        places(x, i64::MIN)
    }
}

/// A price gap or a width: common, or so large or small that its square overflows or vanishes.
fn gap(rng: &mut Rng) -> f64 {
    match rng.below(8) {
        0 => any(rng),
        1 => of_size(rng, 505, 520),
        2 => of_size(rng, -545, -505),
        3 => halves(rng),
        4 => of_size(rng, -1022, 1023),
        _ => ordinary(rng),
    }
}

fn width(rng: &mut Rng) -> f64 {
    match rng.below(10) {
        0 => any(rng),
        1 => -gap(rng).abs(),
        2 => of_size(rng, 960, 1023).abs(),
        3 => of_size(rng, -1022, 1023).abs(),
        4 => zero(rng),
        5 => rng.between(0, 9) as f64,
        _ => rng.unit() * 500.0,
    }
}

/// Zeros too: a sum of negative zeros shows where it started.
fn forecast(rng: &mut Rng) -> f64 {
    match rng.below(12) {
        0 | 1 => any(rng),
        2 => halves(rng),
        3 => zero(rng),
        _ => 100.0 + ordinary(rng),
    }
}

pub fn w_sigmoid(rng: &mut Rng, line: &mut Line) {
    line.start("w_sigmoid");
    line.f(gap(rng));
    line.f(bet_size(rng));
}

pub fn inv_price_sigmoid(rng: &mut Rng, line: &mut Line) {
    line.start("inv_price_sigmoid");
    line.f(forecast(rng));
    line.f(width(rng));
    line.f(bet_size(rng));
}

/// Lots between two positions, as document 01 counts them.
fn lots(t_pos: f64, pos: f64) -> u64 {
    (t_pos as i64).abs_diff(pos as i64)
}

/// Long walks cost: those above this many lots are kept only rarely.
const CHEAP: u64 = 3_000;
const MOST: u64 = 1_000_000;

fn positions(rng: &mut Rng) -> (f64, f64) {
    loop {
        let (t_pos, pos) = match rng.weighted(&[45, 15, 12, 12, 8, 8]) {
            0 => (rng.between(-60, 60) as f64, rng.between(-60, 60) as f64),
            1 => (halves(rng), ordinary(rng)),
            2 => far(rng),
            3 => beyond_exact(rng),
            4 => (any(rng), any(rng)),
            _ => saturated(rng),
        };
        let keep = match lots(t_pos, pos) {
            lots if lots <= CHEAP || lots > MOST => true,
            // the last that is walked is worth its cost more often
            MOST => rng.one_in(30),
            _ => rng.one_in(2_000),
        };
        if keep {
            return (t_pos, pos);
        }
    }
}

/// About as far apart as may be walked, or a little further: refused by 12.
fn far(rng: &mut Rng) -> (f64, f64) {
    let pos = rng.between(-2_000_000, 2_000_000) as f64;
    let apart = rng.pick(&[
        1_000_000.0,
        1_000_001.0,
        1_000_002.0,
        1_500_000.0,
        3e6,
        1e9,
        1e18,
    ]);
    let t_pos = if rng.one_in(2) {
        pos + apart
    } else {
        pos - apart
    };
    // a fraction that the cut takes away again
    let part = rng.pick(&[0.0, 0.0, 0.5, 0.9, -0.9]);
    (t_pos + part, pos)
}

/// Lot numbers beyond 2^53, which become the nearest f64.
fn beyond_exact(rng: &mut Rng) -> (f64, f64) {
    let pos = power(rng.pick(&[52, 53, 53, 54, 55, 58, 61, 62])) + rng.between(-99, 99) as f64;
    let t_pos = places(pos, rng.between(-3, 3)) + rng.between(-40, 40) as f64;
    if rng.one_in(2) {
        (t_pos, pos)
    } else {
        (-t_pos, -pos)
    }
}

/// The cast to i64 saturates on one side or both.
fn saturated(rng: &mut Rng) -> (f64, f64) {
    let edges = [
        f64::INFINITY,
        f64::NEG_INFINITY,
        power(63),
        -power(63),
        places(power(63), -1),
        places(-power(63), -1),
        places(-power(63), 1),
        1e300,
        -1e300,
        f64::NAN,
        0.0,
    ];
    (rng.pick(&edges), rng.pick(&edges))
}

/// The greatest position: mostly one that both ends keep within, so that prices are numbers.
fn greatest(rng: &mut Rng, t_pos: f64, pos: f64) -> f64 {
    let reach = if t_pos.abs() > pos.abs() {
        t_pos.abs()
    } else {
        pos.abs()
    };
    if reach > power(61) && rng.one_in(2) {
        // lots at the end of i64, as sizes just within 1
        return rng.pick(&[power(63), places(power(63), 1), 1.25 * power(63), power(64)]);
    }
    match rng.below(16) {
        0 => any(rng),
        1 => zero(rng),
        2 => -rng.unit() * 100.0,
        3 => nan(rng),
        4 => t_pos.abs(),
        5 => reach,
        6 => ordinary(rng),
        7 => -(reach + 1.0),
        8 | 9 => rng.between(1, 200) as f64,
        _ => reach + rng.between(1, 60) as f64,
    }
}

pub fn limit_price_sigmoid(rng: &mut Rng, line: &mut Line) {
    let (t_pos, pos) = positions(rng);
    line.start("limit_price_sigmoid");
    line.f(t_pos);
    line.f(pos);
    line.f(forecast(rng));
    line.f(width(rng));
    line.f(greatest(rng, t_pos, pos));
}
