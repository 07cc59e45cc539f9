//! Walks that reach their step limit, epsilon being 0: long ones, which may come back to a pair, and short
//! ones, which do not, so that each of their steps is walked.

mod starts;

use crate::clock::seconds;
use crate::measure::{measure, Row};
use crate::rng::Rng;
use crate::state::own_state;
use crate::table::grouped;
use oracle::ef3m::{self, reach};
use starts::{anywhere, generated, Start};
use std::collections::HashSet;
use std::hint::black_box;
use woddirme::ef3m::{Parameters, Reason, M2N};

const WALKS: usize = 200;
const LONG: usize = 40_000;
const SHORT: usize = 50;

/// The same walk for both sides.
struct Walk {
    theirs: ef3m::M2N,
    ours: M2N,
    pair: (f64, f64),
}

impl Walk {
    fn new(start: Start, steps: usize) -> Walk {
        let theirs = ef3m::M2N::new(start.moments, 0.0, 5.0, 1, start.variant, steps, 1);
        Walk {
            ours: own_state(&theirs),
            theirs,
            pair: start.pair,
        }
    }

    fn step(&self, (mu_2, p_1): (f64, f64)) -> Option<Parameters> {
        let step = match self.ours.variant {
            1 => self.ours.iter_4(mu_2, p_1),
            _ => self.ours.iter_5(mu_2, p_1),
        };
        step.expect("accepted")
    }

    /// Every step is taken.
    fn is_whole(&self) -> bool {
        let walk = self.ours.clone().iterate_from(self.pair.0, self.pair.1);
        walk.expect("accepted").reason == Reason::Spent
    }

    /// Every step is taken and no pair comes twice.
    fn is_new(&self) -> bool {
        let (mut pair, mut seen) = (self.pair, HashSet::new());
        for _ in 0..self.ours.max_iter {
            if !seen.insert((pair.0.to_bits(), pair.1.to_bits())) {
                return false;
            }
            match self.step(pair) {
                Some(step) => pair = (step[1], step[4]),
                None => return false,
            }
        }
        true
    }

    /// Both sides leave the same.
    fn assert_same(&self) {
        let (mut theirs, mut ours) = (self.theirs.clone(), self.ours.clone());
        let count = reach::iterate_from(&mut theirs, self.pair.0, self.pair.1);
        let walk = ours.iterate_from(self.pair.0, self.pair.1);
        assert_eq!(walk.expect("accepted").count, count, "{:?}", self.ours);
        let left = |fit: &M2N| [&fit.parameters[..], &[fit.error], &fit.new_moments].concat();
        let bits = |fit: &M2N| left(fit).into_iter().map(f64::to_bits).collect::<Vec<_>>();
        assert_eq!(bits(&ours), bits(&own_state(&theirs)), "{ours:?}");
    }
}

/// All the walks so many times. They change their states, which are made before the clock starts.
fn repeated<State, T>(
    times: usize,
    walks: &[Walk],
    state: fn(&Walk) -> State,
    walked: fn(&mut State, (f64, f64)) -> T,
) -> f64 {
    let once = |_| {
        let mut states: Vec<State> = walks.iter().map(state).collect();
        let each = states.iter_mut().zip(walks);
        seconds(|| {
            for (state, walk) in each {
                black_box(walked(state, walk.pair));
            }
        })
    };
    (0..times).map(once).sum()
}

fn row(name: String, walks: &[Walk]) -> Row {
    walks.iter().for_each(Walk::assert_same);
    let steps = walks.iter().map(|walk| walk.ours.max_iter).sum();
    let rust = |fit: &mut ef3m::M2N, (mu_2, p_1)| reach::iterate_from(fit, mu_2, p_1);
    let port = |fit: &mut M2N, (mu_2, p_1)| fit.iterate_from(mu_2, p_1);
    measure(
        name,
        ("step", steps),
        &mut |times| repeated(times, walks, |walk| walk.theirs.clone(), rust),
        &mut |times| repeated(times, walks, |walk| walk.ours.clone(), port),
    )
}

fn some(start: impl FnMut() -> Start, steps: usize, takes: fn(&Walk) -> bool) -> Vec<Walk> {
    std::iter::repeat_with(start)
        .map(|start| Walk::new(start, steps))
        .filter(takes)
        .take(WALKS)
        .collect()
}

pub fn rows(variant: usize) -> [Row; 3] {
    let mut rng = Rng::new(401);
    let by_oracle = some(|| generated(&mut rng, variant), LONG, Walk::is_whole);
    let by_chance = some(|| anywhere(&mut rng, variant), LONG, Walk::is_whole);
    let walked = some(|| anywhere(&mut rng, variant), SHORT, Walk::is_new);
    let name = |walks: &[Walk], which| {
        let steps = grouped(walks[0].ours.max_iter);
        format!("variant {variant}, {steps} steps, {which}")
    };
    [
        (by_oracle, "generated starts"),
        (by_chance, "random starts"),
        (walked, "all walked"),
    ]
    .map(|(walks, which)| row(name(&walks, which), &walks))
}
