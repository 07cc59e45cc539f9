//! `large_grids SEED`: the port's static library beside the Rust, over grids too large for a request
//! line: one line for each case, exit status 1 where any answer differs.

#[path = "large_grids/cases.rs"]
mod cases;
#[allow(dead_code)]
#[path = "../../../src/bin/generate/mixture.rs"]
mod mixture;
#[allow(dead_code)]
#[path = "../../../src/bin/generate/rng.rs"]
mod rng;
#[allow(dead_code)]
#[path = "../../../src/bin/generate/values.rs"]
mod values;

use grids::cases::{compare_all, seed, Side};
use grids::{port, rust, Ask, Left};

fn side(left: &Left) -> Side {
    let told = match left.answer {
        0 => format!("{} rows", left.count),
        number => format!("refused by {number}"),
    };
    let words = left.words();
    Side { told, words }
}

fn main() {
    let cases = cases::all(seed("large_grids"));
    compare_all(&cases, |case| {
        let wanted = case.wanted(rust::answer, Ask::unchanged);
        case.agree(&side(&wanted), &side(&port::answer(&case.ask)))
    });
}
