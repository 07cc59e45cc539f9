//! The published Rust behind the line protocol of `answers`, with document 01's refusals laid
//! over it: what the port is compared with.

// The requests' whole numbers go up to 2^64 − 1 and are handed on as usize.
const _: () = assert!(usize::BITS == 64);

// `ef3m`, `bet_sizing` and `util`, from the copies that build.rs makes.
include!(concat!(env!("OUT_DIR"), "/published.rs"));

mod answer;
mod counts;
mod fit;
pub mod protocol;
pub mod refusals;
pub mod sheet;

pub use answer::answer;
pub use fit::six;
