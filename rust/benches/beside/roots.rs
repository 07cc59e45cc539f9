//! The root beside the processor's own. Both are called; what is inlined would be made two at a time.

use crate::clock::repeated;
use crate::draws::Draws;
use crate::measure::{measure, Row};
use std::hint::black_box;
use woddirme::number;

const COUNT: usize = 16_384;

/// Exponents from -20 to 19.
fn numbers() -> Vec<f64> {
    let mut draws = Draws::new();
    let number = |_| (1.0 + draws.unit()) * 2f64.powi(draws.below(40) as i32 - 20);
    (0..COUNT).map(number).collect()
}

#[inline(never)]
fn processor(x: f64) -> f64 {
    x.sqrt()
}

/// No call waits for another.
fn apart(list: &[f64], root: impl Fn(f64) -> f64) -> u64 {
    list.iter().fold(0, |all, x| all ^ root(*x).to_bits())
}

/// Each argument waits for the last result, through a product and a sum.
fn in_turn(list: &[f64], root: impl Fn(f64) -> f64) -> u64 {
    let last = list.iter().fold(0.0, |last, x| root(x + last * 0.0));
    last.to_bits()
}

pub fn rows() -> [Row; 2] {
    let list = numbers();
    for x in &list {
        assert_eq!(number::sqrt(*x).to_bits(), x.sqrt().to_bits(), "{x:e}");
    }
    let list = || black_box(&list);
    [
        measure(
            "`sqrt`, throughput".to_string(),
            ("root", COUNT),
            &mut |calls| repeated(calls, || apart(list(), processor)),
            &mut |calls| repeated(calls, || apart(list(), number::sqrt)),
        ),
        measure(
            "`sqrt`, latency, a product and a sum with it".to_string(),
            ("root", COUNT),
            &mut |calls| repeated(calls, || in_turn(list(), processor)),
            &mut |calls| repeated(calls, || in_turn(list(), number::sqrt)),
        ),
    ]
}
