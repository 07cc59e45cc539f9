//! The count sheet of document 01, read by a parser of its own, with counts and sizes by the Rust.

use crate::bet_sizing::{bet_size_budget, get_concurrent_sides};
use chrono::NaiveDateTime;

const MOST_BYTES: usize = 65_536;
const MOST_LINES: usize = 1_024;

struct Span {
    from: i64,
    to: i64,
    side: f64,
}

/// Why a sheet is turned away: by 11, or by 15 at a line.
enum Refusal {
    TooMuch,
    NoSpan(usize),
}

fn spans(sheet: &[u8]) -> Result<Vec<Span>, Refusal> {
    if sheet.len() > MOST_BYTES {
        return Err(Refusal::TooMuch);
    }
    let mut out = Vec::new();
    for line in sheet.split_inclusive(|byte| *byte == b'\n') {
        out.push(span(line).ok_or(Refusal::NoSpan(out.len() + 1))?);
    }
    // Only now, because every line is looked at before the lines are counted.
    if out.len() > MOST_LINES {
        return Err(Refusal::TooMuch);
    }
    Ok(out)
}

/// One line, its newline with it.
fn span(line: &[u8]) -> Option<Span> {
    let (from, rest) = instant(line.strip_prefix(b"(span (from ")?)?;
    let (to, rest) = instant(rest.strip_prefix(b") (to ")?)?;
    let (side, rest) = fraction(rest.strip_prefix(b") (side ")?)?;
    (rest == b"))\n").then_some(Span { from, to, side })
}

/// The digits at the front, after at most a minus, and what stands behind them.
fn instant(text: &[u8]) -> Option<(i64, &[u8])> {
    let minus = text.first() == Some(&b'-');
    let digits = &text[usize::from(minus)..];
    let width = digits
        .iter()
        .take_while(|byte| byte.is_ascii_digit())
        .count();
    let (digits, rest) = digits.split_at(width);
    let needless_zero = digits.first() == Some(&b'0') && (width > 1 || minus);
    if width == 0 || needless_zero {
        return None;
    }
    Some((value(digits, minus)?, rest))
}

/// Summed towards its own sign, so that the least i64 is reached too.
fn value(digits: &[u8], minus: bool) -> Option<i64> {
    digits.iter().try_fold(0i64, |sum, byte| {
        let digit = i64::from(byte - b'0');
        let sum = sum.checked_mul(10)?;
        if minus {
            sum.checked_sub(digit)
        } else {
            sum.checked_add(digit)
        }
    })
}

/// Sixteen lower-case hexadecimal digits at the front, and what stands behind them.
fn fraction(text: &[u8]) -> Option<(f64, &[u8])> {
    let (digits, rest) = text.split_at_checked(16)?;
    let mut bits = 0u64;
    for byte in digits {
        let digit = b"0123456789abcdef".iter().position(|known| known == byte)?;
        bits = bits * 16 + digit as u64;
    }
    Some((f64::from_bits(bits), rest))
}

fn rows(spans: &[Span]) -> String {
    let t1: Vec<_> = spans
        .iter()
        .map(|span| (NaiveDateTime(span.from), NaiveDateTime(span.to)))
        .collect();
    let side: Vec<f64> = spans.iter().map(|span| span.side).collect();
    let counts = get_concurrent_sides(&t1, &side).expect("as many sides as spans");
    let sizes = bet_size_budget(&t1, &side).expect("as many sides as spans");
    let pairs = counts.iter().zip(&sizes);
    pairs
        .map(|((at, long, short), (_, size))| row(at.0, *long, *short, *size))
        .collect()
}

fn row(at: i64, long: f64, short: f64, size: f64) -> String {
    let (long, short, size) = (long as u64, short as u64, size.to_bits());
    format!("(row (at {at}) (long {long}) (short {short}) (size {size:016x}))\n")
}

/// The rows of a sheet, or the one line that refuses it.
pub fn answer(sheet: &[u8]) -> String {
    match spans(sheet) {
        Ok(spans) => rows(&spans),
        Err(Refusal::TooMuch) => "(refused 11)\n".to_string(),
        Err(Refusal::NoSpan(line)) => format!("(refused 15 {line})\n"),
    }
}
