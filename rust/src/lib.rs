//! The proved port of openquant's EF3M fit, concurrent counts, budget sizes and limit prices, under
//! openquant's names; and the count sheet. Answers are openquant's, bit for bit, all NaNs counting as one;
//! what openquant draws at random is here a lent list of weights, and what is turned away is [`Refused`]
//! by a number.
//!
//! ```
//! use woddirme::{ef3m::centered_moment, Refused};
//!
//! // N(1, 2²): the raw moments 1, 5, 13 have the variance 4.
//! assert_eq!(centered_moment(&[1.0, 5.0, 13.0], 2), Ok(4.0));
//! assert_eq!(centered_moment(&[1.0], 2), Err(Refused(1)));
//! ```
//!
//! Every call goes to target/libwoddirme.a (include/woddirme.h); nothing is worked out here.

pub mod bet_sizing;
/// The C interface as it is, for the comparisons of oracle/ alone.
#[doc(hidden)]
pub mod c;
pub mod ef3m;
pub mod number;
pub mod sheet;

use std::fmt::{Display, Formatter};

/// The number by which a call was turned away; state and lists are as they were.
#[derive(Debug, Clone, Copy, PartialEq, Eq)]
pub struct Refused(pub u64);

impl Refused {
    /// 0 is no refusal.
    fn unless_zero(number: u64) -> Result<(), Refused> {
        match number {
            0 => Ok(()),
            number => Err(Refused(number)),
        }
    }

    /// What the number says.
    pub fn meaning(self) -> &'static str {
        match self.0 {
            1 => "too few moments",
            2 => "more than 16 moments",
            3 => "the variant is not 1 or 2",
            4 => "epsilon is not finite and above 0",
            5 => "more than 131,072 rows of the grid",
            6 => "fewer weights than rows",
            7 => "a weight is not at least 0 and below 1",
            8 => "too little room for the result",
            9 => "an order above 16",
            10 => "starts, ends and sides are unequal in number",
            11 => "more than 16,384 spans",
            12 => "more than 1,000,000 lots",
            13 => "more than 64 runs",
            _ => "unknown",
        }
    }
}

impl Display for Refused {
    fn fmt(&self, f: &mut Formatter<'_>) -> std::fmt::Result {
        write!(f, "refused by {}: {}", self.0, self.meaning())
    }
}

impl std::error::Error for Refused {}
