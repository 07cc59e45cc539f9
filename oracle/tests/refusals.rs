//! Each number of document 01, and which of two comes first.

mod common;
use common::*;

const NAN: f64 = f64::NAN;

fn zeros(count: usize) -> Vec<f64> {
    vec![0.0; count]
}

#[test]
fn step() {
    for (name, least) in [("iter_4", 4), ("iter_5", 5)] {
        let of = |count| {
            answer(format!(
                "{name} {} {}",
                list(&zeros(count)),
                fs(&[0.0, 0.5])
            ))
        };
        assert_eq!(of(least - 1), refused(1));
        assert_eq!(of(least), "inadmissible");
        assert_eq!(of(16), "inadmissible");
        assert_eq!(of(17), refused(2));
    }
}

#[test]
fn walk() {
    let of = |variant: usize, count: usize, p_1: f64| {
        let start = format!(
            "walk {variant} {} {}",
            list(&zeros(count)),
            fs(&[0.0, p_1, 0.5])
        );
        answer(format!("{start} 7 {}", state(1.0)))
    };
    let ended = format!("ok 1 3 {}", state(1.0));
    assert_eq!(of(0, 0, NAN), refused(3));
    assert_eq!(of(3, 17, NAN), refused(3));
    assert_eq!(of(usize::MAX, 5, 0.5), refused(3));
    assert_eq!(of(1, 3, NAN), refused(1));
    assert_eq!(of(1, 4, 0.5), ended);
    assert_eq!(of(2, 4, NAN), refused(1));
    assert_eq!(of(2, 5, 0.5), ended);
    assert_eq!(of(2, 17, NAN), refused(2));
    for p_1 in [NAN, -f64::from_bits(1), 1.0, f64::INFINITY] {
        assert_eq!(of(2, 5, p_1), refused(7));
    }
    assert_eq!(of(2, 5, -0.0), ended);
}

#[test]
fn centred_moment() {
    let of = |order: usize, count: usize| {
        answer(format!("centered_moment {order} {}", list(&zeros(count))))
    };
    assert_eq!(of(17, 0), refused(9));
    assert_eq!(of(17, 17), refused(9));
    assert_eq!(of(usize::MAX, 17), refused(9));
    assert_eq!(of(0, 0), refused(1));
    assert_eq!(of(0, 1), ok(&[1.0]));
    assert_eq!(of(16, 15), refused(1));
    assert_eq!(of(16, 16), ok(&[0.0]));
    assert_eq!(of(16, 17), refused(2));
}

#[test]
fn raw_moments() {
    let of = |room: usize, count: usize| {
        answer(format!(
            "raw_moment {room} {} {}",
            f(2.0),
            list(&zeros(count))
        ))
    };
    assert_eq!(of(0, 17), refused(2));
    assert_eq!(of(15, 16), refused(8));
    assert!(of(16, 16).starts_with("ok 16 "));
    assert_eq!(of(0, 0), refused(8));
    assert_eq!(of(1, 0), format!("ok 1 {}", f(2.0)));
}

#[test]
fn grid() {
    let of = |variant: usize, count: usize, epsilon: f64, force: &str, weights: &[f64]| {
        let start = format!(
            "single_fit {variant} {} {}",
            list(&zeros(count)),
            f(epsilon)
        );
        answer(format!(
            "{start} {force} {} 7 {} {}",
            f(5.0),
            state(1.0),
            list(weights)
        ))
    };
    assert_eq!(of(1, 4, NAN, "-", &[]), refused(1));
    assert_eq!(of(3, 17, NAN, "-", &[]), refused(2));
    assert_eq!(of(3, 5, NAN, "-", &[]), refused(3));
    for epsilon in [NAN, 0.0, -0.0, -1.0, f64::INFINITY] {
        assert_eq!(of(1, 5, epsilon, "-", &[]), refused(4));
        assert_eq!(of(1, 5, 1.0, &f(epsilon), &[]), refused(4));
        assert!(of(1, 5, epsilon, &f(1.0), &[]).starts_with("ok none "));
    }
    assert_eq!(of(2, 5, f64::from_bits(1), "-", &[]), refused(5));
    assert_eq!(of(2, 5, 1.0 / 131_074.0, "-", &[]), refused(5));
    assert_eq!(of(2, 5, 1.0 / 131_073.0, "-", &[]), refused(6));
    assert_eq!(of(2, 5, 0.25, "-", &[NAN, NAN]), refused(6));
    assert_eq!(of(2, 5, 0.25, "-", &[0.0, 0.5, 1.0]), refused(7));
    assert!(of(2, 5, 0.25, "-", &[0.0, -0.0, 0.5, NAN]).starts_with("ok "));
}

#[test]
fn several_runs() {
    let of = |variant: usize, count: usize, runs: usize, places: usize, weights: &[f64]| {
        let start = format!(
            "mp_fit {variant} {} {}",
            list(&zeros(count)),
            fs(&[0.5, 5.0])
        );
        answer(format!(
            "{start} 7 {runs} {places} {} {}",
            state(1.0),
            list(weights)
        ))
    };
    assert_eq!(of(9, 17, 0, 0, &[NAN]), "ok 0");
    assert_eq!(of(9, 17, 65, 0, &[]), refused(13));
    assert_eq!(of(9, 17, usize::MAX, 0, &[]), refused(13));
    assert_eq!(of(9, 4, 64, 0, &[]), refused(1));
    assert_eq!(of(9, 17, 64, 0, &[]), refused(2));
    assert_eq!(of(9, 5, 64, 0, &[]), refused(3));
    assert_eq!(of(1, 5, 64, 0, &[NAN; 63]), refused(6));
    assert_eq!(of(1, 5, 64, 0, &[NAN; 64]), refused(7));
    assert_eq!(of(1, 5, 64, 63, &[0.5; 64]), refused(8));
    assert_eq!(of(1, 5, 64, 64, &[0.5; 64]), "ok 0");
}

#[test]
fn spans() {
    for name in ["concurrent_sides", "budget"] {
        let of = |room: usize, starts: usize, ends: usize, sides: usize| {
            let instants = |count: usize| instants(&vec![0; count]);
            let sides = list(&zeros(sides));
            answer(format!(
                "{name} {room} {} {} {sides}",
                instants(starts),
                instants(ends)
            ))
        };
        assert_eq!(of(0, 1, 2, 2), refused(10));
        assert_eq!(of(0, 2, 1, 2), refused(10));
        assert_eq!(of(0, 2, 2, 1), refused(10));
        assert_eq!(of(1, 2, 2, 2), refused(8));
        assert!(of(2, 2, 2, 2).starts_with("ok 2 0 "));
        assert_eq!(of(0, 0, 0, 0), "ok 0");
    }
    // So many spans fit no line, so the test is asked by itself.
    use oracle::protocol::Stop;
    assert_eq!(
        oracle::refusals::spans(16_385, 16_385, 16_385, 0),
        Err(Stop::Refused(11))
    );
    assert_eq!(
        oracle::refusals::spans(16_384, 16_384, 16_384, 16_384),
        Ok(())
    );
}

#[test]
fn limit_price() {
    let of = |t_pos: f64, pos: f64| {
        answer(format!(
            "limit_price_sigmoid {}",
            fs(&[t_pos, pos, 1.0, 1.0, 1.0])
        ))
    };
    // The difference is 2^64 − 1, which the Rust's own subtraction cannot hold.
    assert_eq!(of(f64::INFINITY, f64::NEG_INFINITY), refused(12));
    assert_eq!(of(f64::INFINITY, 1e300), ok(&[NAN]));
    assert_eq!(of(NAN, 0.5), ok(&[NAN]));
}
