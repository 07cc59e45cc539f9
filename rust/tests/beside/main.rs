//! The wrapper beside openquant, on many generated inputs: bit for bit, all NaNs as one. Where document 01
//! turns a call away the wrapper must answer its number, and openquant is not asked.

mod bets;
mod fits;
#[allow(dead_code)]
#[path = "../../../oracle/sheets/src/lines.rs"]
mod lines;
#[allow(dead_code)]
#[path = "../../../oracle/src/bin/generate/mixture.rs"]
mod mixture;
mod moments;
mod numbers;
#[allow(dead_code)]
#[path = "../../../oracle/src/bin/generate/rng.rs"]
mod rng;
mod sheets;
mod state;
mod steps;
#[allow(dead_code)]
#[path = "../../../oracle/src/bin/generate/values.rs"]
mod values;

use oracle::protocol::{bits, Stop};
use woddirme::Refused;

/// Bit for bit, all NaNs as one.
pub fn all_bits(numbers: &[f64]) -> Vec<u64> {
    numbers.iter().map(|x| bits(*x)).collect()
}

/// What the wrapper must answer, where document 01 has this verdict.
pub fn refused<T>(verdict: Result<T, Stop>) -> Result<T, Refused> {
    verdict.map_err(|stop| match stop {
        Stop::Refused(number) => Refused(u64::from(number)),
        Stop::Bad => unreachable!("no line is read here"),
    })
}
