//! Counts, budget sizes and count sheets over the same spans.

use crate::clock::repeated;
use crate::draws::Draws;
use crate::measure::{measure, Row};
use crate::table::grouped;
use chrono::NaiveDateTime;
use oracle::{bet_sizing, sheet};
use std::hint::black_box;
use woddirme::bet_sizing as own;
use woddirme::sheet::count_sheet;

/// A span of the mean length overlaps with some eighty others.
const EACH: i64 = 1_000;
const LONGEST: i64 = 160 * EACH;

struct Spans {
    theirs: Vec<(NaiveDateTime, NaiveDateTime)>,
    ours: Vec<own::Span>,
    sides: Vec<f64>,
}

fn spans(count: usize, in_order: bool) -> Spans {
    let mut draws = Draws::new();
    let n = count as i64;
    let mut starts: Vec<i64> = (0..n).map(|_| draws.below(n * EACH)).collect();
    if in_order {
        starts.sort();
    }
    let ours: Vec<own::Span> = starts
        .iter()
        .map(|start| (*start, start + 1 + draws.below(LONGEST)))
        .collect();
    let sides = (0..n).map(|_| draws.below(2) as f64 * 2.0 - 1.0).collect();
    let both = |(start, end): &own::Span| (NaiveDateTime(*start), NaiveDateTime(*end));
    Spans {
        theirs: ours.iter().map(both).collect(),
        ours,
        sides,
    }
}

pub fn counts(count: usize, in_order: bool) -> Row {
    let Spans {
        theirs,
        ours,
        sides,
    } = spans(count, in_order);
    let rust = || bet_sizing::get_concurrent_sides(black_box(&theirs), &sides).expect("accepted");
    let port = || own::get_concurrent_sides(black_box(&ours), &sides).expect("accepted");
    let rows = rust();
    let plain = rows.iter().map(|(at, long, short)| (at.0, *long, *short));
    assert!(plain.eq(port()), "the counts differ");
    let order = if in_order { "in order" } else { "random" };
    measure(
        format!("`get_concurrent_sides`, {} spans, {order}", grouped(count)),
        ("call", 1),
        &mut |calls| repeated(calls, rust),
        &mut |calls| repeated(calls, port),
    )
}

pub fn budget(count: usize) -> Row {
    let Spans {
        theirs,
        ours,
        sides,
    } = spans(count, false);
    let rust = || bet_sizing::bet_size_budget(black_box(&theirs), &sides).expect("accepted");
    let port = || own::bet_size_budget(black_box(&ours), &sides).expect("accepted");
    let (rows, sizes) = (rust(), port());
    let plain = rows.iter().map(|(at, size)| (at.0, size.to_bits()));
    assert!(
        plain.eq(sizes.iter().map(|(at, size)| (*at, size.to_bits()))),
        "the sizes differ"
    );
    measure(
        format!("`bet_size_budget`, {} spans, random", grouped(count)),
        ("call", 1),
        &mut |calls| repeated(calls, rust),
        &mut |calls| repeated(calls, port),
    )
}

pub fn sheets(count: usize) -> Row {
    let Spans { ours, sides, .. } = spans(count, false);
    let lines = ours.iter().zip(&sides).map(|((from, to), side)| {
        format!(
            "(span (from {from}) (to {to}) (side {:016x}))\n",
            side.to_bits()
        )
    });
    let text: String = lines.collect();
    let rust = || sheet::answer(black_box(text.as_bytes()));
    let port = || count_sheet(black_box(text.as_bytes()));
    assert!(rust().starts_with("(row "), "the sheet is refused");
    assert_eq!(rust().as_bytes(), port(), "the rows differ");
    measure(
        format!("`count_sheet`, {} lines", grouped(count)),
        ("call", 1),
        &mut |calls| repeated(calls, rust),
        &mut |calls| repeated(calls, port),
    )
}
