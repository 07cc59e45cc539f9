//! What is a request and what is `bad`, and how numbers are read and printed.

mod common;
use common::*;

#[test]
fn lines_that_are_no_request() {
    let one = f(1.0);
    for line in [
        "".to_string(),
        " ".to_string(),
        "sqr".to_string(),
        "SQRT 3ff0000000000000".to_string(),
        "sqrt".to_string(),
        "sqrt ".to_string(),
        format!(" sqrt {one}"),
        format!("sqrt {one} "),
        format!("sqrt  {one}"),
        format!("sqrt\t{one}"),
        format!("sqrt {one}\r"),
        format!("sqrt {one}\n"),
        format!("sqrt {one} {one}"),
        format!("larger {one}"),
        "sqrt 3FF0000000000000".to_string(),
        "sqrt 3ff000000000000".to_string(),
        "sqrt 03ff0000000000000".to_string(),
        "sqrt 0x3ff00000000000".to_string(),
        "sqrt 3ff000000000000g".to_string(),
        "sqrt -".to_string(),
        format!("powi {one}"),
        format!("powi {one} 17"),
        format!("powi {one} 02"),
        format!("powi {one} -1"),
        format!("powi {one} +1"),
        format!("powi {one} 18446744073709551616"),
    ] {
        assert_eq!(answer(&line), "bad", "{line:?}");
    }
    assert_eq!(answer(b"sqrt \xff\xfe"), "bad");
}

#[test]
fn whole_numbers_of_i64() {
    for (word, value) in [
        ("0", 0.0),
        ("-1", -1.0),
        ("9007199254740993", 9007199254740992.0),
        ("9007199254740995", 9007199254740996.0),
        ("9223372036854775807", 9223372036854775808.0),
        ("-9223372036854775808", -9223372036854775808.0),
    ] {
        assert_eq!(answer(format!("i64_as_f64 {word}")), ok(&[value]));
    }
    for word in ["-0", "00", "01", "-01", "--1", "-", "+1", "1.0", ""] {
        assert_eq!(answer(format!("i64_as_f64 {word}")), "bad", "{word:?}");
    }
    for word in [
        "9223372036854775808",
        "-9223372036854775809",
        "18446744073709551616",
    ] {
        assert_eq!(answer(format!("i64_as_f64 {word}")), "bad", "{word:?}");
    }
}

#[test]
fn bad_comes_before_a_refusal() {
    let few = list(&[0.0; 3]);
    assert_eq!(
        answer(format!("iter_4 {few} {}", fs(&[0.0, 0.5]))),
        refused(1)
    );
    assert_eq!(
        answer(format!("iter_4 {few} {}", fs(&[0.0, 0.5, 0.5]))),
        "bad"
    );
    assert_eq!(answer(format!("iter_4 {few} {}", f(0.0))), "bad");
    let none = format!("mp_fit 1 0 {} 0 0 0 {}", fs(&[0.0, 0.0]), state(0.0));
    assert_eq!(answer(format!("{none} 0")), "ok 0");
    assert_eq!(answer(format!("{none} 1")), "bad");
}

#[test]
fn counts_beyond_the_line() {
    assert_eq!(
        answer(format!("centered_moment 1 18446744073709551615 {}", f(0.0))),
        "bad"
    );
    assert_eq!(answer(format!("centered_moment 1 2 {}", f(0.0))), "bad");
    assert_eq!(answer(format!("centered_moment 1 0 {}", f(0.0))), "bad");
}

/// A well-formed request of 65,536 bytes with its newline, and one of a byte more.
#[test]
fn longest_line() {
    let of = |wide: usize| {
        let digits = |tens: usize| ["1".repeat(1 + tens), " 1".repeat(1023)].concat();
        format!("budget 9 1024 {} 0 {}", digits(wide), list(&[0.0; 3733]))
    };
    let spare = 65_535 - of(0).len();
    assert!(spare < 18, "{spare}");
    assert_eq!(of(spare).len() + 1, 65_536);
    assert_eq!(answer(of(spare)), refused(10));
    assert_eq!(answer(of(spare + 1)), "bad");
}

#[test]
fn every_nan_is_one() {
    for bits in [
        0x7ff8000000000000u64,
        0xfff8000000000000,
        0x7ff0000000000001,
        u64::MAX,
    ] {
        assert_eq!(answer(format!("abs {bits:016x}")), "ok 7ff8000000000000");
        assert_eq!(answer(format!("larger {bits:016x} {}", f(1.0))), ok(&[1.0]));
        assert_eq!(answer(format!("larger {} {bits:016x}", f(1.0))), ok(&[1.0]));
        assert_eq!(answer(format!("powi {bits:016x} 0")), ok(&[1.0]));
        assert_eq!(answer(format!("as_i64 {bits:016x}")), "ok 0");
        assert_eq!(answer(format!("as_usize {bits:016x}")), "ok 0");
        assert_eq!(answer(format!("is_finite {bits:016x}")), "ok 0");
    }
    // Made by the processor, with the sign set.
    assert_eq!(answer(format!("sqrt {}", f(-1.0))), "ok 7ff8000000000000");
    let price = fs(&[f64::INFINITY, f64::INFINITY, 0.5]);
    assert_eq!(
        answer(format!("inv_price_sigmoid {price}")),
        "ok 7ff8000000000000"
    );
}

#[test]
fn leaves() {
    assert_eq!(answer(format!("sqrt {}", f(2.0))), "ok 3ff6a09e667f3bcd");
    assert_eq!(answer(format!("sqrt {}", f(-0.0))), ok(&[-0.0]));
    assert_eq!(answer(format!("abs {}", f(-0.0))), ok(&[0.0]));
    assert_eq!(answer(format!("is_finite {}", f(f64::MAX))), "ok 1");
    assert_eq!(answer(format!("is_finite {}", f(f64::INFINITY))), "ok 0");
    assert_eq!(answer(format!("as_i64 {}", f(-2.9))), "ok -2");
    assert_eq!(
        answer(format!("as_i64 {}", f(-1e300))),
        "ok -9223372036854775808"
    );
    assert_eq!(answer(format!("as_usize {}", f(-1e300))), "ok 0");
    assert_eq!(
        answer(format!("as_usize {}", f(1e300))),
        "ok 18446744073709551615"
    );
}
