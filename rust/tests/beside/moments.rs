use crate::mixture::{mixture, target};
use crate::rng::Rng;
use crate::values::any;
use crate::{all_bits, refused};
use oracle::{ef3m, refusals};
use woddirme::ef3m as own;

fn numbers(rng: &mut Rng, count: usize) -> Vec<f64> {
    (0..count).map(|_| any(rng)).collect()
}

/// True moments for the most part, and any numbers.
fn list(rng: &mut Rng, count: usize) -> Vec<f64> {
    if rng.one_in(3) {
        return numbers(rng, count);
    }
    target(rng, count).moments
}

#[test]
fn moments_of_mixtures() {
    let mut rng = Rng::new(3);
    let mut theirs = ef3m::M2N::with_defaults(vec![]);
    let mut ours = crate::state::own_state(&theirs);
    for _ in 0..100_000 {
        let mut parameters = mixture(&mut rng).parameters();
        if rng.one_in(3) {
            parameters = std::array::from_fn(|_| any(&mut rng));
        }
        let wanted = theirs.get_moments(&parameters, true).expect("returned");
        let got = ours.get_moments(&parameters, true).expect("returned");
        assert_eq!(all_bits(&got), all_bits(&wanted), "{parameters:?}");
        assert_eq!(ours.get_moments(&parameters, false), None);
        assert_eq!(all_bits(&ours.new_moments), all_bits(&wanted));
    }
}

#[test]
fn centred_moments() {
    let mut rng = Rng::new(4);
    for _ in 0..100_000 {
        let (count, order) = (rng.size(0, 17), rng.size(0, 17));
        let moments = list(&mut rng, count);
        let verdict = refused(refusals::centered_moment(order, count));
        let wanted = verdict.map(|()| ef3m::centered_moment(&moments, order).expect("accepted"));
        let got = own::centered_moment(&moments, order);
        let both = [got, wanted].map(|answer| answer.map(|x| all_bits(&[x])));
        assert_eq!(both[0], both[1], "order {order} of {moments:?}");
    }
}

#[test]
fn raw_moments() {
    let mut rng = Rng::new(5);
    for _ in 0..100_000 {
        let count = rng.size(0, 17);
        let (central, mean) = (list(&mut rng, count), any(&mut rng));
        let verdict = refused(refusals::raw_moment(count, usize::MAX));
        let wanted = verdict.map(|()| ef3m::raw_moment(&central, mean));
        let got = own::raw_moment(&central, mean);
        let both = [got, wanted].map(|answer| answer.map(|list| all_bits(&list)));
        assert_eq!(both[0], both[1], "mean {mean:e} of {central:?}");
    }
}
