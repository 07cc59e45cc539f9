//! The copies are the published text, and the compiler reads it as document 01 does.

use oracle::ef3m::{reach, M2N};
use std::fs;
use std::hint::black_box;
use std::path::Path;

#[test]
fn copies_are_unedited() {
    for name in [
        "ef3m.rs",
        "bet_sizing.rs",
        "util/stats.rs",
        "util/input_error.rs",
    ] {
        let copy = fs::read_to_string(Path::new(env!("OUT_DIR")).join(name)).unwrap();
        let published = fs::read_to_string(Path::new(env!("PUBLISHED")).join(name)).unwrap();
        let appended = copy.strip_prefix(&published).expect(name);
        assert_eq!(appended.is_empty(), name != "ef3m.rs");
    }
}

/// Bit patterns of every kind, from a fixed seed.
fn patterns() -> impl Iterator<Item = f64> {
    let mut seed = 0x9e3779b97f4a7c15u64;
    let specials = [
        0.0,
        -0.0,
        1.0,
        -1.0,
        f64::INFINITY,
        f64::NEG_INFINITY,
        f64::NAN,
        f64::MAX,
    ];
    specials.into_iter().chain((0..200_000).map(move |i| {
        seed = seed
            .wrapping_mul(6364136223846793005)
            .wrapping_add(1442695040888963407);
        let any = seed ^ seed >> 29;
        // Three in four near one, so that high powers stay finite.
        let near = any & !(0x7ff << 52) | (1003 + (any >> 3) % 40) << 52;
        f64::from_bits(if i % 4 == 0 { any } else { near })
    }))
}

/// Document 01's powi: from the lowest binary digit up.
fn square_and_multiply(a: f64, mut order: u32) -> f64 {
    let (mut square, mut product) = (a, None);
    while order > 0 {
        if order % 2 == 1 {
            product = Some(product.map_or(square, |so_far: f64| so_far * square));
        }
        square *= square;
        order /= 2;
    }
    product.unwrap_or(1.0)
}

#[test]
fn powi_squares_and_multiplies() {
    let bits = oracle::protocol::bits;
    for a in patterns() {
        for order in 0..=16 {
            let defined = bits(square_and_multiply(a, order));
            assert_eq!(
                bits(a.powi(black_box(order as i32))),
                defined,
                "{a:e} {order}"
            );
        }
        // The published text has these powers only, known when it is compiled.
        assert_eq!(bits(a.powi(2)), bits(a * a), "{a:e}");
        assert_eq!(bits(a.powi(3)), bits(a * (a * a)), "{a:e}");
        assert_eq!(bits(a.powi(4)), bits((a * a) * (a * a)), "{a:e}");
        assert_eq!(bits(a.powi(5)), bits(a * ((a * a) * (a * a))), "{a:e}");
    }
}

#[test]
fn sums_start_at_negative_zero() {
    assert_eq!(
        [0.0f64; 0].iter().sum::<f64>().to_bits(),
        (-0.0f64).to_bits()
    );
    assert_eq!(
        M2N::with_defaults(vec![]).error.to_bits(),
        (-0.0f64).to_bits()
    );
}

#[test]
fn comb_is_exact_to_16() {
    let mut row = vec![1u64];
    for n in 0..=16 {
        for (k, exact) in row.iter().enumerate() {
            assert_eq!(reach::comb(n, k), *exact as f64);
        }
        assert_eq!(reach::comb(n, n + 1), 0.0);
        let inner = row.windows(2).map(|pair| pair[0] + pair[1]);
        row = [1].into_iter().chain(inner).chain([1]).collect();
    }
}
