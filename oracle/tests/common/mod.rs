//! Requests written from plain numbers.
#![allow(dead_code)]

pub use oracle::answer;

/// Document 01's M: the moments of (0, 2, 1, 2, 0.5).
pub const M: [f64; 5] = [1.0, 4.5, 16.0, 81.5, 416.0];

pub fn f(x: f64) -> String {
    format!("{:016x}", oracle::protocol::bits(x))
}

/// Numbers one after another.
pub fn fs(values: &[f64]) -> String {
    values.iter().map(|x| f(*x)).collect::<Vec<_>>().join(" ")
}

/// LIST of F.
pub fn list(values: &[f64]) -> String {
    [
        vec![values.len().to_string()],
        values.iter().map(|x| f(*x)).collect(),
    ]
    .concat()
    .join(" ")
}

/// LIST of I.
pub fn instants(values: &[i64]) -> String {
    [
        vec![values.len().to_string()],
        values.iter().map(i64::to_string).collect(),
    ]
    .concat()
    .join(" ")
}

/// STATE with nothing kept yet.
pub fn state(error: f64) -> String {
    fs(&[0.0, 0.0, 0.0, 0.0, 0.0, error, 0.0, 0.0, 0.0, 0.0, 0.0])
}

pub fn ok(values: &[f64]) -> String {
    format!("ok {}", fs(values))
}

pub fn refused(number: u32) -> String {
    format!("refused {number}")
}
