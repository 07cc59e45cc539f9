//! The port's counts and budget for C (include/woddirme.h): a slice is a pointer and a length.

use super::{Ask, Left, Lent};
use woddirme::c::{woddirme_bet_size_budget, woddirme_get_concurrent_sides};

pub fn answer(ask: &Ask) -> Left {
    let mut left = ask.unchanged(0);
    left.answer = match &mut left.lent {
        Lent::Counts(long, short) => counts(ask, long, short),
        Lent::Budget(size) => budget(ask, size),
    };
    left
}

fn counts(ask: &Ask, long: &mut [f64], short: &mut [f64]) -> u64 {
    // Every pointer stands for a slice that lives through the call, and those written are apart.
    unsafe {
        woddirme_get_concurrent_sides(
            ask.starts.as_ptr(),
            ask.starts.len(),
            ask.ends.as_ptr(),
            ask.ends.len(),
            ask.sides.as_ptr(),
            ask.sides.len(),
            long.as_mut_ptr(),
            long.len(),
            short.as_mut_ptr(),
            short.len(),
        )
    }
}

fn budget(ask: &Ask, size: &mut [f64]) -> u64 {
    // As above.
    unsafe {
        woddirme_bet_size_budget(
            ask.starts.as_ptr(),
            ask.starts.len(),
            ask.ends.as_ptr(),
            ask.ends.len(),
            ask.sides.as_ptr(),
            ask.sides.len(),
            size.as_mut_ptr(),
            size.len(),
        )
    }
}
