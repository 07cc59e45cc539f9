//! `generate SEED N [KIND]`: N request lines of requests.md on standard output, the same for the
//! same seed. KIND is the name of a request, a group of them, `all` or `damaged`. It stands on the
//! standard library alone, so `rustc -O src/bin/generate.rs` builds it too.

#[path = "generate/bets.rs"]
mod bets;
#[path = "generate/damaged.rs"]
mod damaged;
#[path = "generate/fits.rs"]
mod fits;
#[path = "generate/line.rs"]
mod line;
#[path = "generate/mixture.rs"]
mod mixture;
#[path = "generate/moments.rs"]
mod moments;
#[path = "generate/number.rs"]
mod number;
#[path = "generate/rng.rs"]
mod rng;
#[path = "generate/steps.rs"]
mod steps;
#[path = "generate/trial.rs"]
mod trial;
#[path = "generate/values.rs"]
mod values;

use line::{Line, LIMIT};
use rng::Rng;
use std::io::{self, BufWriter, Write};
use std::process::exit;

type Maker = fn(&mut Rng, &mut Line);

struct Kind {
    name: &'static str,
    group: &'static str,
    make: Maker,
}

const fn kind(name: &'static str, group: &'static str, make: Maker) -> Kind {
    Kind { name, group, make }
}

const KINDS: [Kind; 21] = [
    kind("sqrt", "number", number::sqrt),
    kind("abs", "number", number::abs),
    kind("powi", "number", number::powi),
    kind("larger", "number", number::larger),
    kind("is_finite", "number", number::is_finite),
    kind("as_i64", "number", number::as_i64),
    kind("as_usize", "number", number::as_usize),
    kind("i64_as_f64", "number", number::i64_as_f64),
    kind("get_moments", "moments", moments::get_moments),
    kind("centered_moment", "moments", moments::centered_moment),
    kind("raw_moment", "moments", moments::raw_moment),
    kind("iter_4", "steps", steps::iter_4),
    kind("iter_5", "steps", steps::iter_5),
    kind("walk", "steps", steps::walk),
    kind("single_fit", "fits", fits::single_fit),
    kind("mp_fit", "fits", fits::mp_fit),
    kind("concurrent_sides", "bets", bets::concurrent_sides),
    kind("budget", "bets", bets::budget),
    kind("w_sigmoid", "bets", bets::w_sigmoid),
    kind("inv_price_sigmoid", "bets", bets::inv_price_sigmoid),
    kind("limit_price_sigmoid", "bets", bets::limit_price_sigmoid),
];

/// Makes one request, again where it would be too long for a line.
fn make(kind: &Kind, rng: &mut Rng, line: &mut Line) {
    loop {
        (kind.make)(rng, line);
        if line.bytes.len() < LIMIT {
            return;
        }
    }
}

fn chosen(word: &str) -> Vec<&'static Kind> {
    KINDS
        .iter()
        .filter(|k| word == "all" || word == k.name || word == k.group)
        .collect()
}

fn generate(seed: u64, count: u64, word: &str) -> io::Result<()> {
    let kinds = chosen(word);
    let mut rng = Rng::new(seed);
    let mut line = Line::default();
    let mut out = BufWriter::with_capacity(1 << 16, io::stdout().lock());
    for _ in 0..count {
        if word == "damaged" {
            damaged::damaged(&mut rng, &mut line);
        } else {
            let at = rng.below(kinds.len() as u64) as usize;
            make(kinds[at], &mut rng, &mut line);
        }
        line.close();
        out.write_all(&line.bytes)?;
    }
    out.flush()
}

fn usage() -> ! {
    eprintln!("usage: generate SEED N [KIND]");
    eprintln!("KIND: number, moments, steps, fits, bets, all, damaged, or one of");
    eprintln!("  {}", KINDS.map(|k| k.name).join(" "));
    exit(2)
}

fn main() {
    let args: Vec<String> = std::env::args().skip(1).collect();
    let number = |at: usize| args.get(at).and_then(|word| word.parse::<u64>().ok());
    let word = args.get(2).map_or("all", |word| word);
    let known = word == "damaged" || !chosen(word).is_empty();
    let (Some(seed), Some(count), true, true) = (number(0), number(1), known, args.len() <= 3)
    else {
        usage()
    };
    match generate(seed, count, word) {
        Err(why) if why.kind() != io::ErrorKind::BrokenPipe => {
            eprintln!("generate: {why}");
            exit(1)
        }
        _ => {}
    }
}
