//! One state for both sides.

use oracle::ef3m;
use woddirme::ef3m::M2N;

/// The same state for the wrapper.
pub fn own_state(theirs: &ef3m::M2N) -> M2N {
    let five = |list: &[f64]| list.try_into().expect("five numbers");
    M2N {
        moments: theirs.moments.clone(),
        epsilon: theirs.epsilon,
        factor: theirs.factor,
        n_runs: theirs.n_runs,
        variant: theirs.variant,
        max_iter: theirs.max_iter,
        new_moments: five(&theirs.new_moments),
        parameters: five(&theirs.parameters),
        error: theirs.error,
    }
}
