//! Stands for `rand`: every draw is the next number of a list that the driver sets.

use std::cell::RefCell;
use std::ops::Range;

thread_local! {
    static DRAWS: RefCell<std::vec::IntoIter<f64>> = RefCell::new(Vec::new().into_iter());
}

/// Replaces what is left of the list.
pub fn set_draws(list: Vec<f64>) {
    DRAWS.with(|draws| *draws.borrow_mut() = list.into_iter());
}

/// How many draws are still to come.
pub fn draws_left() -> usize {
    DRAWS.with(|draws| draws.borrow().len())
}

/// A kind of number that can be drawn.
pub trait Draw: Sized {
    fn draw(range: Range<Self>) -> Self;
}

impl Draw for f64 {
    fn draw(range: Range<f64>) -> f64 {
        let next = DRAWS.with(|draws| draws.borrow_mut().next());
        let next = next.expect("a draw from an exhausted list");
        // The real generator never leaves the range, so the list must not either.
        assert!(
            range.contains(&next),
            "the list gives {next}, outside {range:?}"
        );
        next
    }
}

// Only the EM fit draws a place, and that is out of scope.
impl Draw for usize {
    fn draw(_range: Range<usize>) -> usize {
        unimplemented!()
    }
}

pub struct ThreadRng;

pub fn rng() -> ThreadRng {
    ThreadRng
}

pub trait RngExt {
    fn random_range<T: Draw>(&mut self, range: Range<T>) -> T {
        T::draw(range)
    }
}

impl RngExt for ThreadRng {}
