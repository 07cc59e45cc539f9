use crate::mixture::target;
use crate::rng::Rng;
use crate::state::own_state;
use crate::values::any;
use crate::{all_bits, refused};
use oracle::ef3m::{self, reach};
use oracle::refusals;
use woddirme::ef3m::{Reason, Walk, M2N};
use woddirme::Refused;

/// What a walk or a search changes.
pub fn own_bits(ours: &M2N) -> Vec<u64> {
    let rest = [ours.error, ours.epsilon];
    all_bits(&[&ours.parameters[..], &rest, &ours.new_moments].concat())
}

pub fn their_bits(theirs: &ef3m::M2N) -> Vec<u64> {
    own_bits(&own_state(theirs))
}

/// Near the truth, where steps are admitted, or anywhere.
fn start(rng: &mut Rng, truth: [f64; 2]) -> (f64, f64) {
    match rng.below(4) {
        0 => (any(rng), any(rng)),
        1 => (truth[0], truth[1]),
        _ => (truth[0] + rng.unit() - 0.5, rng.unit()),
    }
}

#[test]
fn single_steps() {
    let mut rng = Rng::new(6);
    let mut admitted = 0;
    for _ in 0..100_000 {
        let count = rng.size(3, 17);
        let target = target(&mut rng, count);
        let (mu_2, p_1) = start(&mut rng, [target.truth.mu_2, target.truth.p_1]);
        let theirs = ef3m::M2N::with_defaults(target.moments);
        let ours = own_state(&theirs);
        let got = [ours.iter_4(mu_2, p_1), ours.iter_5(mu_2, p_1)];
        let wanted = [4, 5].map(|least| {
            refused(refusals::step(count, least))?;
            let step = match least {
                4 => theirs.iter_4(mu_2, p_1),
                _ => theirs.iter_5(mu_2, p_1),
            };
            let step = step.expect("accepted");
            Ok::<_, Refused>((!step.is_empty()).then_some(all_bits(&step)))
        });
        let got = got.map(|answer| answer.map(|step| step.map(|five| all_bits(&five))));
        admitted += got
            .iter()
            .filter(|answer| matches!(answer, Ok(Some(_))))
            .count();
        assert_eq!(got, wanted, "from {mu_2:e}, {p_1:e} on {:?}", ours.moments);
    }
    assert!(admitted > 10_000, "only {admitted} steps were admitted");
}

/// Why openquant's walk ends, by its own steps; the last one that may be taken tells nothing.
fn reason(theirs: &ef3m::M2N, mut mu_2: f64, mut p_1: f64) -> Reason {
    for _ in 1..theirs.max_iter {
        let step = match theirs.variant {
            1 => theirs.iter_4(mu_2, p_1),
            _ => theirs.iter_5(mu_2, p_1),
        };
        let step = step.expect("accepted");
        if step.is_empty() {
            return Reason::Inadmissible;
        }
        if (p_1 - step[4]).abs() < theirs.epsilon {
            return Reason::Settled;
        }
        (mu_2, p_1) = (step[1], step[4]);
    }
    Reason::Spent
}

#[test]
fn walks() {
    let mut rng = Rng::new(7);
    let mut seen = [0; 4];
    for _ in 0..30_000 {
        let count = rng.size(3, 17);
        let target = target(&mut rng, count);
        let (mu_2, p_1) = start(&mut rng, [target.truth.mu_2, target.truth.p_1]);
        let epsilon = rng.pick(&[1e-5, 1e-3, 0.1, 0.0]);
        let (variant, max_iter) = (
            rng.pick(&[0, 1, 1, 1, 2, 2, 2, 3]),
            rng.pick(&[0, 1, 7, 200]),
        );
        let mut theirs = ef3m::M2N::new(target.moments, epsilon, 5.0, 1, variant, max_iter, 1);
        let mut ours = own_state(&theirs);
        let verdict = refused(refusals::walk(variant, count, p_1));
        let wanted = verdict.map(|()| Walk {
            reason: reason(&theirs, mu_2, p_1),
            count: reach::iterate_from(&mut theirs, mu_2, p_1),
        });
        let got = ours.iterate_from(mu_2, p_1);
        assert_eq!(got, wanted, "variant {variant}, {mu_2:e}, {p_1:e}");
        assert_eq!(
            own_bits(&ours),
            their_bits(&theirs),
            "variant {variant}, {mu_2:e}, {p_1:e}"
        );
        seen[match got.map(|walk| walk.reason) {
            Err(_) => 0,
            Ok(Reason::Spent) => 1,
            Ok(Reason::Settled) => 2,
            Ok(Reason::Inadmissible) => 3,
        }] += 1;
    }
    assert!(seen.iter().all(|times| *times > 500), "{seen:?}");
}
