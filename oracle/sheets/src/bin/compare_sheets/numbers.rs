//! Sheets with an instant or a side that is awkward, or is none.

use crate::cases::{index, some_lines, Case};
use sheets::lines::{sheet, side, Line};
use sheets::rng::Rng;
use sheets::values::{any_i64, extreme, infinity, nan};

/// A sheet in which one instant is the text given.
fn with_instant(rng: &mut Rng, name: impl Into<String>, text: String) -> Case {
    let mut all = some_lines(rng);
    let at = index(rng, &all);
    *all[at].instant_mut(rng) = text;
    Case::new(name, sheet(&all))
}

/// A sheet in which one side is the text given.
fn with_side(rng: &mut Rng, name: impl Into<String>, text: String) -> Case {
    let mut all = some_lines(rng);
    let at = index(rng, &all);
    all[at].side = text;
    Case::new(name, sheet(&all))
}

pub fn leading_zeros(rng: &mut Rng, turn: u64) -> Case {
    let zeros = "0".repeat(rng.size(1, 25));
    let number = any_i64(rng).unsigned_abs();
    match turn % 4 {
        0 => with_instant(rng, "instant: leading zeros", format!("{zeros}{number}")),
        1 => with_instant(
            rng,
            "instant: a minus and zeros",
            format!("-{zeros}{number}"),
        ),
        2 => with_instant(rng, "instant: zeros alone", format!("0{zeros}")),
        _ => with_instant(rng, "instant: zero", "0".to_string()),
    }
}

pub fn minus_zero(rng: &mut Rng, _turn: u64) -> Case {
    with_instant(rng, "instant: -0", "-0".to_string())
}

pub fn no_number(rng: &mut Rng, _turn: u64) -> Case {
    let text = rng.pick(&[
        "", "-", "--1", "1-", "+1", "-+1", " 1", "1 ", "- 1", "1_0", "1,0", "a", "0x1", "-a",
    ]);
    with_instant(rng, "instant: no number", text.to_string())
}

/// Numbers beside i64's ends, each by its own name, and others of 19 and 20 digits.
pub fn edges(rng: &mut Rng, turn: u64) -> Case {
    let minus = if turn.is_multiple_of(2) { "" } else { "-" };
    let step = turn / 2 % 8;
    if step < 7 {
        let text = format!("{minus}{}", 9_223_372_036_854_775_805 + step as u128);
        return with_instant(rng, format!("instant: {text}"), text);
    }
    let (name, number) = match rng.below(4) {
        0 => (
            "19 digits",
            rng.below(9 * 10u64.pow(18)) as u128 + 10u128.pow(18),
        ),
        1 => (
            "20 digits",
            92_233_720_368_547_758_000 + rng.below(200) as u128,
        ),
        2 => ("20 digits", (1u128 << 64) + rng.below(9) as u128 - 4),
        _ => ("20 digits", 10u128.pow(19) + rng.below(3) as u128),
    };
    with_instant(rng, format!("instant: {name}"), format!("{minus}{number}"))
}

pub fn many_digits(rng: &mut Rng, turn: u64) -> Case {
    let width = 1 + turn as usize % 40;
    let minus = if rng.one_in(2) { "-" } else { "" };
    let first = rng.between(1, 9);
    let rest: String = (1..width).map(|_| rng.between(0, 9).to_string()).collect();
    with_instant(
        rng,
        "instant: so many digits",
        format!("{minus}{first}{rest}"),
    )
    .at(width)
}

/// Numbers that are small where 64 bits overflow.
pub fn wrapping(rng: &mut Rng, _turn: u64) -> Case {
    let width = rng.between(1, 50);
    let times = rng.below(1 << width) as u128 + 1;
    let number = (times << rng.pick(&[63, 64])) + rng.below(1000) as u128;
    let minus = if rng.one_in(2) { "-" } else { "" };
    with_instant(
        rng,
        "instant: small modulo 2^63 or 2^64",
        format!("{minus}{number}"),
    )
}

/// A side of sixteen digits with letters among them.
fn lettered(rng: &mut Rng) -> String {
    format!(
        "{:015x}{}",
        rng.bits() >> 4,
        rng.pick(&["a", "b", "c", "d", "e", "f"])
    )
}

pub fn upper_case(rng: &mut Rng, turn: u64) -> Case {
    let mut text = lettered(rng);
    if turn.is_multiple_of(2) {
        return with_side(rng, "side: upper-case letters", text.to_uppercase());
    }
    let letters: Vec<usize> = text
        .match_indices(char::is_alphabetic)
        .map(|(at, _)| at)
        .collect();
    let at = rng.pick(&letters);
    text[at..=at].make_ascii_uppercase();
    with_side(rng, "side: one upper-case letter", text)
}

/// Sides of no digits up to 20.
pub fn side_digits(rng: &mut Rng, turn: u64) -> Case {
    let width = match turn % 4 {
        0 => 15,
        1 => 17,
        _ => (turn / 4) as usize % 21,
    };
    let text: String = (0..width)
        .map(|_| rng.pick(b"0123456789abcdef") as char)
        .collect();
    let case = with_side(rng, "side: so many digits", text).at(width);
    match width {
        15..=17 => case.also(format!("side: {width} digits")),
        _ => case,
    }
}

/// Good sheets with many sides of one awkward sort.
pub fn sides(rng: &mut Rng, turn: u64) -> Case {
    let mut all = some_lines(rng);
    for line in &mut all {
        let (_, x) = awkward(rng, turn);
        let bits = if rng.one_in(3) { side(rng) } else { x }.to_bits();
        line.side = format!("{bits:016x}");
    }
    let at = index(rng, &all);
    let (name, x) = awkward(rng, turn);
    all[at].side = format!("{:016x}", x.to_bits());
    Case::new(format!("side: {name}"), sheet(&all))
}

fn awkward(rng: &mut Rng, turn: u64) -> (&'static str, f64) {
    let below_normal = f64::from_bits(rng.below(1 << 52).max(1));
    match turn % 7 {
        0 => ("NaN", nan(rng)),
        1 => ("infinite", infinity(rng)),
        2 => ("zero", 0.0),
        3 => ("negative zero", -0.0),
        4 => ("subnormal", below_normal),
        5 => ("negative subnormal", -below_normal),
        _ => (
            "least and greatest",
            rng.pick(&[5e-324, -5e-324, f64::MAX, f64::MIN]),
        ),
    }
}

/// Good sheets with many spans of one awkward sort.
pub fn spans(rng: &mut Rng, turn: u64) -> Case {
    let count = rng.size(1, 40);
    let start = any_i64(rng);
    let mut all = Vec::new();
    for _ in 0..count {
        let (from, to) = span(rng, turn, start);
        all.push(Line::new(from, to, side(rng)));
    }
    let names = [
        "end before start",
        "end at start",
        "i64's ends",
        "i64's ends and neighbours",
        "equal starts",
        "equal ends",
        "all the same",
    ];
    Case::new(format!("spans: {}", names[turn as usize % 7]), sheet(&all))
}

fn span(rng: &mut Rng, turn: u64, start: i64) -> (i64, i64) {
    let (near, later) = (rng.between(-20, 20), rng.between(1, 30));
    match turn % 7 {
        0 => (near, near - rng.pick(&[1, 1, 2, 20, 0, -3])),
        1 => (near, near + rng.pick(&[0, 0, 0, 5])),
        2 => (
            rng.pick(&[i64::MIN, i64::MAX]),
            rng.pick(&[i64::MIN, i64::MAX]),
        ),
        3 => (extreme(rng), extreme(rng)),
        4 => (start, start.saturating_add(near)),
        5 => (start.saturating_sub(later), start),
        _ => (start, start.saturating_add(7)),
    }
}
