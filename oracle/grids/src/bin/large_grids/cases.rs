//! The cases: accepted ones, at sizes that no line holds, and each refusal at its border.

use crate::mixture::{mixture, target};
use crate::rng::Rng;
use crate::values::any;
use grids::Ask;

/// 2^-17 gives 131,071 rows; the most that are taken are 131,072.
const FINE: f64 = 1.0 / 131072.0;
const FINEST: f64 = 1.0 / 131073.0;
const BEYOND: f64 = 1.0 / 131074.0;
const NEVER: usize = 77;

pub type Case = grids::cases::Case<Ask>;

/// How the target moments are made.
#[derive(Clone, Copy)]
enum Kind {
    /// of a mixture, moved so that the mean is not 0: variant 2 is centred
    Moved,
    /// of a mixture with mean 0: variant 2 is not centred
    Balanced,
    /// as the generator of requests makes them, anything at all among them
    Odd,
}

const KINDS: [(Kind, &str); 3] = [
    (Kind::Moved, "mixture"),
    (Kind::Balanced, "mean 0"),
    (Kind::Odd, "odd moments"),
];

fn moments(rng: &mut Rng, kind: Kind) -> Vec<f64> {
    let mut truth = mixture(rng);
    match kind {
        Kind::Moved => truth.mu_2 += 0.25,
        Kind::Balanced => {
            truth.p_1 = 0.5;
            truth.mu_1 = -truth.mu_2;
        }
        Kind::Odd => {
            let count = rng.size(5, 16);
            return target(rng, count).moments;
        }
    }
    truth.moments(5)
}

/// Numbers of any kind, so that what must not be looked at shows.
fn numbers(rng: &mut Rng, count: usize) -> Vec<f64> {
    (0..count).map(|_| any(rng)).collect()
}

/// An ask that is accepted, its lent numbers longer than is needed.
fn ask(rng: &mut Rng, kind: Kind, variant: usize, epsilon: f64, runs: Option<usize>) -> Ask {
    let mut ask = Ask {
        moments: moments(rng, kind),
        variant,
        factor: rng.pick(&[1.0, 2.0, 5.0]),
        // few: walks that do not settle would take hours over such grids
        max_iter: rng.pick(&[1, 20, 300]),
        epsilon_override: None,
        runs,
        weights: vec![],
        fit: numbers(rng, 14),
        rows: numbers(rng, 6 * runs.unwrap_or(1) + 5),
        count: NEVER,
    };
    ask.fit[6] = epsilon;
    ask.weights = (0..ask.needed()).map(|_| rng.unit()).collect();
    ask
}

/// The same grid, named by an override; the state's own epsilon may be anything.
fn overridden(rng: &mut Rng, mut ask: Ask) -> Ask {
    ask.epsilon_override = Some(ask.epsilon());
    ask.fit[6] = rng.pick(&[f64::NAN, 0.0, 0.5, -1.0]);
    ask
}

struct Cases {
    rng: Rng,
    list: Vec<Case>,
}

impl Cases {
    fn add(&mut self, name: &str, refusal: u64, ask: Ask) {
        let (what, more) = match ask.runs {
            None => ("single_fit_loop", String::new()),
            Some(runs) => ("mp_fit", format!(", {runs} runs")),
        };
        let Ask {
            variant, max_iter, ..
        } = ask;
        let (epsilon, weights) = (ask.epsilon(), ask.weights.len());
        let name = format!("{what}, variant {variant}, epsilon {epsilon:e}{more}, {weights} weights, {max_iter} steps, {name}");
        self.list.push(Case { name, ask, refusal });
    }

    fn make(&mut self, kind: Kind, variant: usize, epsilon: f64, runs: Option<usize>) -> Ask {
        ask(&mut self.rng, kind, variant, epsilon, runs)
    }

    /// Every kind of moments, with the state's own epsilon and with an override.
    fn searches(&mut self, variant: usize) {
        for epsilon in [FINE, FINEST, 1e-5, 1e-4] {
            for (kind, name) in KINDS {
                let ask = self.make(kind, variant, epsilon, None);
                self.add(name, 0, ask);
            }
            let ask = self.make(Kind::Moved, variant, epsilon, None);
            let ask = overridden(&mut self.rng, ask);
            self.add("override", 0, ask);
        }
        let mut ask = self.make(Kind::Moved, variant, 1e-3, None);
        ask.max_iter = 100_000;
        self.add("long walks", 0, ask);
    }

    fn several(&mut self, variant: usize) {
        for (runs, epsilon) in [
            (3, 1e-4),
            (3, 1e-3),
            (64, 1.0 / 2048.0),
            (64, 0.01),
            (2, FINE),
        ] {
            for (kind, name) in KINDS {
                let ask = self.make(kind, variant, epsilon, Some(runs));
                self.add(name, 0, ask);
            }
        }
        let mut ask = self.make(Kind::Moved, variant, 1e-3, Some(3));
        ask.rows.truncate(18);
        self.add("no place to spare", 0, ask);
        let ask = self.make(Kind::Moved, variant, f64::NAN, Some(0));
        self.add("nothing is looked at", 0, ask);
    }

    /// Weights at their border, of one search and of several runs.
    fn weights(&mut self, variant: usize, epsilon: f64, runs: Option<usize>) {
        let whole = self.make(Kind::Moved, variant, epsilon, runs);
        let last = whole.weights.len() - 1;
        for (at, bad) in [(last, 1.0), (last - 1, f64::NAN), (last - 70, -5e-324)] {
            let mut ask = whole.clone();
            ask.weights[at] = bad;
            self.add(&format!("weight {at} is {bad:e}"), 7, ask);
        }
        let mut ask = whole.clone();
        ask.weights.pop();
        self.add("one weight too few", 6, ask);
        for surplus in [f64::NAN, 2.0] {
            let mut ask = whole.clone();
            ask.weights.push(surplus);
            self.add(&format!("a surplus weight {surplus}"), 0, ask);
        }
        let mut ask = whole;
        ask.weights[last] = -0.0;
        ask.weights[last - 1] = 1.0 - f64::EPSILON / 2.0;
        self.add("the ends of the range", 0, ask);
    }

    /// Grids with too many rows; no weights are there, since none are looked at.
    fn rows(&mut self, variant: usize) {
        for epsilon in [1.0 / 262144.0, BEYOND, 5e-324] {
            for runs in [None, Some(2)] {
                let mut ask = self.make(Kind::Moved, variant, 0.5, runs);
                ask.fit[6] = epsilon;
                self.add("too many rows", 5, ask);
            }
        }
        let mut ask = self.make(Kind::Moved, variant, 0.5, None);
        ask.epsilon_override = Some(1.0 / 262144.0);
        self.add("too many rows by an override", 5, ask);
    }

    /// Lent numbers that are too short, moments, variants, epsilons and runs out of range.
    fn others(&mut self, variant: usize) {
        let single = self.make(Kind::Moved, variant, 1e-4, None);
        let many = self.make(Kind::Moved, variant, 1e-3, Some(3));
        for whole in [&single, &many] {
            let change = |change: fn(&mut Ask)| {
                let mut ask = whole.clone();
                change(&mut ask);
                ask
            };
            self.add("11 numbers of state", 8, change(|ask| ask.fit.truncate(11)));
            self.add(
                "one number of rows too few",
                8,
                change(|ask| ask.rows.truncate(6 * ask.runs.unwrap_or(1) - 1)),
            );
            self.add("4 moments", 1, change(|ask| ask.moments.truncate(4)));
            self.add("17 moments", 2, change(|ask| ask.moments.resize(17, 1.0)));
            self.add("variant 3", 3, change(|ask| ask.variant = 3));
            self.add(
                "epsilon infinite",
                4,
                change(|ask| ask.fit[6] = f64::INFINITY),
            );
        }
        let mut ask = many;
        ask.runs = Some(65);
        self.add("too many runs", 13, ask);
    }
}

pub fn all(seed: u64) -> Vec<Case> {
    let mut cases = Cases {
        rng: Rng::new(seed),
        list: vec![],
    };
    for variant in [1, 2] {
        cases.searches(variant);
        cases.several(variant);
        cases.weights(variant, FINE, None);
        cases.weights(variant, 1e-3, Some(64));
        cases.rows(variant);
        cases.others(variant);
    }
    cases.list
}
