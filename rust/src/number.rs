//! The number leaves that the others stand on, each as Rust's own.

use crate::c;

// None of these functions is given a pointer. They are inlined, since a call in between would tell.

/// `x.sqrt()`.
#[inline]
pub fn sqrt(x: f64) -> f64 {
    unsafe { c::woddirme_sqrt(x) }
}

/// `x.abs()`.
#[inline]
pub fn abs(x: f64) -> f64 {
    unsafe { c::woddirme_abs(x) }
}

/// `x.is_finite()`.
#[inline]
pub fn is_finite(x: f64) -> bool {
    unsafe { c::woddirme_is_finite(x) }
}

/// `x.max(y)`; of two equal zeros the first.
#[inline]
pub fn larger(x: f64, y: f64) -> f64 {
    unsafe { c::woddirme_larger(x, y) }
}

/// `x as i64`.
#[inline]
pub fn as_i64(x: f64) -> i64 {
    unsafe { c::woddirme_as_i64(x) }
}

/// `x as usize`.
#[inline]
pub fn as_usize(x: f64) -> usize {
    unsafe { c::woddirme_as_usize(x) }
}

/// `n as f64`.
#[inline]
pub fn i64_as_f64(n: i64) -> f64 {
    unsafe { c::woddirme_i64_as_f64(n) }
}

/// `x.powi(n)`, by squaring and multiplying from the lowest binary digit of n up.
#[inline]
pub fn powi(x: f64, n: usize) -> f64 {
    unsafe { c::woddirme_powi(x, n) }
}
