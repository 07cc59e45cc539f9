use crate::mixture::target;
use crate::rng::Rng;
use crate::state::own_state;
use crate::steps::{own_bits, their_bits};
use crate::{all_bits, refused};
use oracle::{ef3m, refusals};
use woddirme::ef3m as own;

/// A state, the draws for it, and the epsilon in force.
struct Ask {
    theirs: ef3m::M2N,
    epsilon_override: Option<f64>,
    weights: Vec<f64>,
}

impl Ask {
    fn epsilon(&self) -> f64 {
        self.epsilon_override.unwrap_or(self.theirs.epsilon)
    }
}

/// Something is out of range in one of four.
fn ask(rng: &mut Rng, runs: usize) -> Ask {
    let odd = rng.one_in(4);
    let count = if odd {
        rng.size(4, 17)
    } else {
        rng.size(5, 16)
    };
    let moments = target(rng, count).moments;
    let epsilon = match odd {
        true => rng.pick(&[0.5, 0.1, f64::NAN, 0.0, -1.0, 1e-7, 2.0]),
        false => rng.pick(&[0.5, 0.25, 0.1, 0.03, 1.0]),
    };
    let variant = if odd {
        rng.pick(&[0, 1, 2, 3])
    } else {
        rng.pick(&[1, 2])
    };
    let max_iter = rng.pick(&[0, 1, 20, 300]);
    let mut theirs = ef3m::M2N::new(moments, epsilon, 5.0, runs, variant, max_iter, 1);
    theirs.error = rng.unit();
    theirs.parameters = (0..5).map(|_| rng.unit()).collect();
    let most = 33 * runs.max(1);
    let count = if odd { rng.size(0, most) } else { most };
    let mut weights: Vec<f64> = (0..count).map(|_| rng.unit()).collect();
    if odd && count > 0 {
        weights[rng.size(0, count - 1)] = rng.pick(&[1.0, -1.0, f64::NAN, 0.5]);
    }
    Ask {
        theirs,
        epsilon_override: None,
        weights,
    }
}

fn their_rows(rows: &[ef3m::FitResultRow]) -> Vec<u64> {
    let six = |r: &ef3m::FitResultRow| [r.mu_1, r.mu_2, r.sigma_1, r.sigma_2, r.p_1, r.error];
    rows.iter().flat_map(|row| all_bits(&six(row))).collect()
}

fn own_rows(rows: &[own::FitResultRow]) -> Vec<u64> {
    let six = |r: &own::FitResultRow| [r.mu_1, r.mu_2, r.sigma_1, r.sigma_2, r.p_1, r.error];
    rows.iter().flat_map(|row| all_bits(&six(row))).collect()
}

#[test]
fn searches() {
    let mut rng = Rng::new(8);
    let (mut found, mut turned_away) = (0, 0);
    for _ in 0..4_000 {
        let mut ask = ask(&mut rng, 1);
        if rng.one_in(3) {
            ask.epsilon_override = Some(rng.pick(&[0.2, 0.05, f64::INFINITY]));
        }
        let mut ours = own_state(&ask.theirs);
        let (variant, count) = (ask.theirs.variant, ask.theirs.moments.len());
        let verdict = refusals::grid(variant, count, ask.epsilon(), 1, &ask.weights);
        let wanted = refused(verdict).map(|needed| {
            rand::set_draws(ask.weights[..needed].to_vec());
            let rows = ask.theirs.single_fit_loop(ask.epsilon_override);
            their_rows(&rows.expect("accepted"))
        });
        let got = ours.single_fit_loop(ask.epsilon_override, &ask.weights);
        let got = got.map(|rows| own_rows(&rows));
        found += usize::from(got.as_ref().is_ok_and(|rows| !rows.is_empty()));
        turned_away += usize::from(got.is_err());
        assert_eq!(got, wanted, "{ours:?}");
        assert_eq!(own_bits(&ours), their_bits(&ask.theirs), "{ours:?}");
    }
    assert!(found > 500 && turned_away > 300, "{found}, {turned_away}");
}

#[test]
fn several_runs() {
    let mut rng = Rng::new(9);
    let (mut found, mut turned_away) = (0, 0);
    for _ in 0..2_000 {
        let runs = rng.pick(&[0, 1, 2, 5, 64, 65]);
        let ask = ask(&mut rng, runs);
        let ours = own_state(&ask.theirs);
        let (variant, count) = (ours.variant, ours.moments.len());
        let verdict = match runs {
            0 => Ok(0),
            _ => refusals::mp_fit(variant, count, ask.epsilon(), runs, runs, &ask.weights),
        };
        let wanted = refused(verdict).map(|needed| {
            rand::set_draws(ask.weights[..needed].to_vec());
            their_rows(&ask.theirs.mp_fit().expect("accepted"))
        });
        let got = ours.mp_fit(&ask.weights).map(|rows| own_rows(&rows));
        found += usize::from(got.as_ref().is_ok_and(|rows| !rows.is_empty()));
        turned_away += usize::from(got.is_err());
        assert_eq!(got, wanted, "{ours:?}");
    }
    assert!(found > 200 && turned_away > 200, "{found}, {turned_away}");
}
