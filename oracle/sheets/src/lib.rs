//! Count sheets, made from a seed, for the port's static library.

pub mod form;
pub mod lines;
pub mod port;
#[path = "../../src/bin/generate/rng.rs"]
pub mod rng;
#[path = "../../src/bin/generate/values.rs"]
pub mod values;

use std::process::exit;

/// Seed and count, the first two words of the command line.
pub fn seed_and_count(usage: &str) -> (u64, u64) {
    let number = |at| std::env::args().nth(at)?.parse().ok();
    match (number(1), number(2)) {
        (Some(seed), Some(count)) => (seed, count),
        _ => {
            eprintln!("usage: {usage}");
            exit(2)
        }
    }
}

/// Bytes as text, cut where they are many.
pub fn shown(bytes: &[u8]) -> String {
    let most = 3000;
    let cut = bytes.len().saturating_sub(most);
    let front = bytes[..bytes.len() - cut].escape_ascii();
    match cut {
        0 => format!("\"{front}\""),
        _ => format!("\"{front}\" and {cut} bytes more"),
    }
}
