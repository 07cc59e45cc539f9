//! Document 01's "Figures to reproduce", through the answering function.

mod common;
use common::*;
use oracle::ef3m::M2N;

#[test]
fn moments() {
    let of = |parameters: &[f64]| answer(format!("get_moments {}", fs(parameters)));
    assert_eq!(
        of(&[1.0, 3.0, 0.0, 0.0, 0.5]),
        ok(&[2.0, 5.0, 14.0, 41.0, 122.0])
    );
    assert_eq!(of(&[0.0, 2.0, 1.0, 2.0, 0.5]), ok(&M));
}

#[test]
fn centred_moments() {
    let raw = list(&[2.0, 5.0, 14.0, 41.0, 122.0]);
    for (order, moment) in [(2, 1.0), (3, 0.0), (4, 1.0), (5, 0.0)] {
        assert_eq!(
            answer(format!("centered_moment {order} {raw}")),
            ok(&[moment])
        );
    }
}

#[test]
fn raw_moments() {
    let of = |room: usize, mean: f64, central: &[f64]| {
        answer(format!("raw_moment {room} {} {}", f(mean), list(central)))
    };
    let raw = list(&[2.0, 5.0, 14.0, 41.0, 122.0]);
    assert_eq!(of(5, 2.0, &[0.0, 1.0, 0.0, 1.0, 0.0]), format!("ok {raw}"));
    assert_eq!(of(1, 2.0, &[]), format!("ok {}", list(&[2.0])));
}

#[test]
fn steps() {
    let twice = [2.0, 18.0, 128.0, 1304.0, 13312.0];
    for name in ["iter_4", "iter_5"] {
        let of = |moments: &[f64], mu_2: f64, p_1: f64| {
            answer(format!("{name} {} {}", list(moments), fs(&[mu_2, p_1])))
        };
        assert_eq!(of(&M, 2.0, 0.5), ok(&[0.0, 2.0, 1.0, 2.0, 0.5]));
        assert_eq!(of(&twice, 4.0, 0.5), ok(&[0.0, 4.0, 2.0, 4.0, 0.5]));
        assert_eq!(of(&[0.0, 1.0, 0.0, 3.0, 0.0], 0.0, 0.5), "inadmissible");
    }
}

#[test]
fn walks() {
    for variant in [1, 2] {
        let of = |max_iter: usize| {
            let start = format!("walk {variant} {} {}", list(&M), fs(&[2.0, 0.5, 0.25]));
            answer(format!("{start} {max_iter} {}", state(179975.5)))
        };
        let kept = fs(&[0.0, 2.0, 1.0, 2.0, 0.5, 0.0]);
        assert_eq!(of(100), format!("ok 1 2 {kept} {}", fs(&M)));
        assert_eq!(of(1), format!("ok 1 1 {kept} {}", fs(&M)));
        assert_eq!(of(0), format!("ok 0 1 {}", state(179975.5)));
    }
}

fn single_fit(variant: usize, epsilon: f64, weights: &[f64]) -> String {
    let start = format!(
        "single_fit {variant} {} {} - {}",
        list(&M),
        f(epsilon),
        f(5.0)
    );
    answer(format!("{start} 100 {} {}", state(179975.5), list(weights)))
}

#[test]
fn rows_of_a_grid() {
    for (epsilon, rows) in [(1.0, 0), (0.5, 1), (2f64.powi(-17), 131_071)] {
        assert_eq!(oracle::refusals::rows(epsilon), rows);
    }
    for variant in [1, 2] {
        assert!(single_fit(variant, 1.0, &[]).starts_with("ok none state "));
        assert_eq!(single_fit(variant, 0.5, &[]), refused(6));
        assert!(single_fit(variant, 0.5, &[0.5]).starts_with("ok "));
        assert_eq!(single_fit(variant, 2f64.powi(-17), &[]), refused(6));
        assert_eq!(single_fit(variant, 2f64.powi(-18), &[]), refused(5));
    }
}

/// The rows that the gate's program grid_cases must print: the Rust's, which draws 131,071 weights.
#[test]
fn rows_of_grid_cases() {
    let printed = include_str!("../../crates/grid_cases/stdout");
    for (variant, line) in [1, 2].into_iter().zip(printed.lines()) {
        rand::set_draws(vec![0.5; 131_071]);
        let epsilon = 2f64.powi(-17);
        let rows = M2N::new(M.to_vec(), epsilon, 1.0, 1, variant, 10, 1).single_fit_loop(None);
        assert_eq!(rand::draws_left(), 0);
        let r = &rows.unwrap()[0];
        let row = fs(&[r.mu_1, r.mu_2, r.sigma_1, r.sigma_2, r.p_1, r.error]);
        let name = format!("2^-17, 131,071 weights, variant {variant}");
        assert_eq!(line, format!("{name}: row {row}"));
    }
}

#[test]
fn prices() {
    let w = |x: f64, m: f64| answer(format!("w_sigmoid {}", fs(&[x, m])));
    assert_eq!(w(10.0, 0.5), ok(&[300.0]));
    assert_eq!(w(10.0, 1.0), ok(&[0.0]));
    let price = answer(format!("inv_price_sigmoid {}", fs(&[100.0, 3.0, 0.5])));
    assert_eq!(price, ok(&[99.0]));
}

#[test]
fn limit_prices() {
    let of = |t_pos: f64| {
        answer(format!(
            "limit_price_sigmoid {}",
            fs(&[t_pos, 0.0, 100.0, 3.0, 2.0])
        ))
    };
    assert_eq!(of(1.0), ok(&[99.0]));
    assert_eq!(of(-1.0), ok(&[101.0]));
    assert_eq!(of(2.0), ok(&[f64::NEG_INFINITY]));
    assert_eq!(of(0.9), ok(&[f64::NAN]));
    assert!(of(1_000_000.0).starts_with("ok "));
    assert_eq!(of(1_000_001.0), refused(12));
    assert!(of(-1_000_000.0).starts_with("ok "));
    assert_eq!(of(-1_000_001.0), refused(12));
}

/// The three spans under "Span and row forms".
#[test]
fn counts() {
    let spans = format!(
        "3 {} {} {}",
        instants(&[0, 5, 10]),
        instants(&[10, 15, 20]),
        list(&[1.0, -1.0, 1.0])
    );
    let row = |at: i64, long: f64, short: f64| format!("{at} {}", fs(&[long, short]));
    assert_eq!(
        answer(format!("concurrent_sides {spans}")),
        format!(
            "ok 3 {} {} {}",
            row(0, 1.0, 0.0),
            row(5, 1.0, 1.0),
            row(10, 1.0, 1.0)
        )
    );
    assert_eq!(
        answer(format!("budget {spans}")),
        format!("ok 3 0 {} 5 {} 10 {}", f(1.0), f(0.0), f(0.0))
    );
}
