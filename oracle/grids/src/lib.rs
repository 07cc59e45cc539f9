//! The port's static library beside the Rust: the fit over grids too large for a request line, and
//! the counts and the budget over more spans than fit one.

pub mod ask;
pub mod cases;
pub mod port;
pub mod rust;
pub mod spans;

pub use ask::{Ask, Left};
