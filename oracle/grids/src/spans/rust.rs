//! The published Rust on the same spans.

use super::{Ask, Left, Lent};
use chrono::NaiveDateTime;
use oracle::bet_sizing::{bet_size_budget, get_concurrent_sides};

/// The spans as the Rust has them.
fn spans(ask: &Ask) -> Vec<(NaiveDateTime, NaiveDateTime)> {
    let starts = ask.starts.iter().copied().map(NaiveDateTime);
    starts
        .zip(ask.ends.iter().copied().map(NaiveDateTime))
        .collect()
}

/// The Rust's own answer; it knows none of the port's limits, so the ask must keep within them.
/// Its rows go to the front of the lent lists.
pub fn answer(ask: &Ask) -> Left {
    let spans = spans(ask);
    let mut left = ask.unchanged(0);
    match &mut left.lent {
        Lent::Counts(long, short) => {
            let rows = get_concurrent_sides(&spans, &ask.sides).expect("nothing here is refused");
            for (i, row) in rows.iter().enumerate() {
                (long[i], short[i]) = (row.1, row.2);
            }
        }
        Lent::Budget(size) => {
            let rows = bet_size_budget(&spans, &ask.sides).expect("nothing here is refused");
            for (i, row) in rows.iter().enumerate() {
                size[i] = row.1;
            }
        }
    }
    left
}
