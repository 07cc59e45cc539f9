//! The wrapper's functions beside openquant's, on the same inputs and in the same run: Markdown tables of
//! the processor's seconds. Answers are compared before anything is measured. rust/bench runs it.

mod clock;
mod draws;
mod fits;
#[allow(dead_code)]
#[path = "../../../oracle/src/bin/generate/line.rs"]
mod line;
mod measure;
#[allow(dead_code)]
#[path = "../../../oracle/src/bin/generate/mixture.rs"]
mod mixture;
mod prices;
#[allow(dead_code)]
#[path = "../../../oracle/src/bin/generate/rng.rs"]
mod rng;
mod roots;
mod spans;
#[path = "../../tests/beside/state.rs"]
mod state;
#[allow(dead_code)]
#[path = "../../../oracle/src/bin/generate/steps.rs"]
mod steps;
mod table;
#[allow(dead_code)]
#[path = "../../../oracle/src/bin/generate/trial.rs"]
mod trial;
#[allow(dead_code)]
#[path = "../../../oracle/src/bin/generate/values.rs"]
mod values;
mod walks;

use measure::Row;
use table::{growths, ratios, Growth};

fn all<'a>(groups: &[&'a [Row]]) -> Vec<&'a Row> {
    groups.iter().copied().flatten().collect()
}

fn main() {
    let roots = roots::rows();
    let walks = [1, 2].map(walks::rows);
    let first = [1e-4, 1e-5].map(|epsilon| fits::single_fit(epsilon, 1));
    let second = [1e-3, 1e-4, 1e-5].map(|epsilon| fits::single_fit(epsilon, 2));
    let several = [1, 2].map(|variant| fits::mp_fit(1e-3, variant, 8));
    let counts = [1_024, 4_096, 16_384].map(|count| spans::counts(count, false));
    let in_order = [1_024, 16_384].map(|count| spans::counts(count, true));
    let budget = [spans::budget(16_384)];
    let prices = [10_000, 100_000, 1_000_000].map(prices::limit_price);
    let sheets = [64, 256, 1_024].map(spans::sheets);

    ratios("root, beside the processor's `sqrtsd`", &all(&[&roots]));
    ratios("walks to their step limit", &all(&[&walks[0], &walks[1]]));
    ratios("searches", &all(&[&first, &second, &several]));
    ratios("counts and sizes", &all(&[&counts, &in_order, &budget]));
    ratios("prices and sheets", &all(&[&prices, &sheets]));
    growths(&[
        Growth {
            name: "`get_concurrent_sides`, random",
            sizes: "1,024, 4,096, 16,384 spans",
            rows: &counts,
        },
        Growth {
            name: "`limit_price_sigmoid`",
            sizes: "10,000, 100,000, 1,000,000 lots",
            rows: &prices,
        },
        Growth {
            name: "`single_fit_loop`, variant 2",
            sizes: "999, 9,999, 99,999 rows",
            rows: &second,
        },
        Growth {
            name: "`count_sheet`",
            sizes: "64, 256, 1,024 lines",
            rows: &sheets,
        },
    ]);
}
