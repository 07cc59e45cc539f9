use crate::rng::Rng;
use crate::values::{any, any_i64};
use oracle::protocol::bits;
use std::hint::black_box;
use woddirme::number;

#[test]
fn leaves_are_rusts() {
    let mut rng = Rng::new(1);
    for _ in 0..200_000 {
        // the compiler must not work the Rust's side out beforehand
        let (x, y, n) = black_box((any(&mut rng), any(&mut rng), any_i64(&mut rng)));
        assert_eq!(bits(number::sqrt(x)), bits(x.sqrt()), "sqrt {x:e}");
        assert_eq!(bits(number::abs(x)), bits(x.abs()), "abs {x:e}");
        assert_eq!(number::is_finite(x), x.is_finite(), "is_finite {x:e}");
        assert_eq!(number::as_i64(x), x as i64, "as_i64 {x:e}");
        assert_eq!(number::as_usize(x), x as usize, "as_usize {x:e}");
        assert_eq!(
            bits(number::i64_as_f64(n)),
            bits(n as f64),
            "i64_as_f64 {n}"
        );
        // of two equal zeros Rust may give either
        if x != 0.0 || y != 0.0 {
            assert_eq!(
                bits(number::larger(x, y)),
                bits(x.max(y)),
                "larger {x:e} {y:e}"
            );
        }
    }
}

#[test]
fn powers_are_rusts() {
    let mut rng = Rng::new(2);
    for _ in 0..100_000 {
        let (x, n) = black_box((any(&mut rng), rng.size(0, 16)));
        assert_eq!(
            bits(number::powi(x, n)),
            bits(x.powi(n as i32)),
            "{x:e} to the {n}"
        );
    }
    assert_eq!(number::powi(-1.0, usize::MAX), -1.0);
}
