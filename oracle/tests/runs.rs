//! The weights of a grid go in order, over several runs too.

mod common;
use common::*;

/// From 0 to just below 1, without a pattern.
fn weights(count: usize) -> Vec<f64> {
    (1..=count)
        .map(|i| (i as f64 * 0.618_033_988_749_895).fract())
        .collect()
}

fn single_fit(variant: usize, weights: &[f64]) -> String {
    let start = format!("single_fit {variant} {} {} - {}", list(&M), f(0.05), f(5.0));
    answer(format!("{start} 50 {} {}", state(0.0), list(weights)))
}

/// The six numbers of the row, or nothing.
fn row(answer: &str) -> Option<&str> {
    answer.strip_prefix("ok row ")?.split(" state ").next()
}

#[test]
fn runs_take_the_next_weights() {
    const RUNS: usize = 7;
    let rows_each = oracle::refusals::rows(0.05);
    let weights = weights(RUNS * rows_each);
    for variant in [1, 2] {
        let alone: Vec<String> = weights
            .chunks(rows_each)
            .map(|w| single_fit(variant, w))
            .collect();
        let rows: Vec<&str> = alone.iter().filter_map(|answer| row(answer)).collect();
        assert!(rows.len() > 1 && rows[0] != rows[1], "{rows:?}");
        let start = format!("mp_fit {variant} {} {} 50", list(&M), fs(&[0.05, 5.0]));
        let together = answer(format!(
            "{start} {RUNS} {RUNS} {} {}",
            state(0.0),
            list(&weights)
        ));
        assert_eq!(together, format!("ok {} {}", rows.len(), rows.join(" ")));
    }
}

#[test]
fn surplus_weights_are_not_looked_at() {
    let used = weights(oracle::refusals::rows(0.05));
    let more = [used.clone(), vec![f64::NAN, 2.0]].concat();
    for variant in [1, 2] {
        assert!(row(&single_fit(variant, &used)).is_some());
        assert_eq!(single_fit(variant, &more), single_fit(variant, &used));
    }
}
