//! Stands for `chrono`: an instant is an i64 of nanoseconds, and only its order matters.

#[derive(Debug, Clone, Copy, PartialEq, Eq, PartialOrd, Ord, Hash)]
pub struct NaiveDateTime(pub i64);
