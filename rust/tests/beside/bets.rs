use crate::rng::Rng;
use crate::values::{any, any_i64, ordinary};
use crate::{all_bits, refused};
use chrono::NaiveDateTime;
use oracle::protocol::bits;
use oracle::{bet_sizing, refusals};
use woddirme::bet_sizing as own;

/// Instants on a few places, so that spans meet, or any.
fn instant(rng: &mut Rng) -> i64 {
    if rng.one_in(8) {
        return any_i64(rng);
    }
    rng.between(-20, 20)
}

fn their_spans(spans: &[own::Span]) -> Vec<(NaiveDateTime, NaiveDateTime)> {
    let both = |(start, end): &own::Span| (NaiveDateTime(*start), NaiveDateTime(*end));
    spans.iter().map(both).collect()
}

#[test]
fn counts_and_budgets() {
    let mut rng = Rng::new(10);
    for turn in 0..20_000 {
        // now and then more than are taken
        let count = if turn % 5_000 == 0 {
            16_385
        } else {
            rng.size(0, 40)
        };
        let spans: Vec<_> = (0..count)
            .map(|_| (instant(&mut rng), instant(&mut rng)))
            .collect();
        let given = if rng.one_in(20) {
            rng.size(0, 40)
        } else {
            count
        };
        let sides: Vec<f64> = (0..given).map(|_| any(&mut rng)).collect();
        let verdict = refused(refusals::spans(count, count, given, usize::MAX));
        let theirs = their_spans(&spans);
        let counts = verdict.map(|()| {
            let rows = bet_sizing::get_concurrent_sides(&theirs, &sides).expect("accepted");
            let plain = |(start, long, short): &(NaiveDateTime, f64, f64)| (start.0, *long, *short);
            rows.iter().map(plain).collect::<Vec<_>>()
        });
        assert_eq!(
            own::get_concurrent_sides(&spans, &sides),
            counts,
            "{spans:?}"
        );
        let sizes = verdict.map(|()| {
            let rows = bet_sizing::bet_size_budget(&theirs, &sides).expect("accepted");
            let plain = |(start, size): &(NaiveDateTime, f64)| (start.0, bits(*size));
            rows.iter().map(plain).collect::<Vec<_>>()
        });
        let got = own::bet_size_budget(&spans, &sides);
        let got = got.map(|rows| {
            rows.iter()
                .map(|(at, x)| (*at, bits(*x)))
                .collect::<Vec<_>>()
        });
        assert_eq!(got, sizes, "{spans:?}");
    }
}

#[test]
fn widths_and_prices() {
    let mut rng = Rng::new(11);
    for _ in 0..200_000 {
        let (a, b, c) = (any(&mut rng), any(&mut rng), any(&mut rng));
        let pairs = [
            (own::get_w_sigmoid(a, b), bet_sizing::get_w_sigmoid(a, b)),
            (
                own::inv_price_sigmoid(a, b, c),
                bet_sizing::inv_price_sigmoid(a, b, c),
            ),
        ];
        for (got, wanted) in pairs {
            assert_eq!(bits(got), bits(wanted), "{a:e}, {b:e}, {c:e}");
        }
    }
}

#[test]
fn limit_prices() {
    let mut rng = Rng::new(12);
    let mut turned_away = 0;
    for _ in 0..50_000 {
        let [t_pos, pos] = match rng.below(8) {
            0 => [any(&mut rng), any(&mut rng)],
            _ => [0; 2].map(|_| rng.between(-400, 400) as f64 / 4.0),
        };
        let [f, w, max_pos] = match rng.below(4) {
            0 => [0; 3].map(|_| any(&mut rng)),
            _ => [
                100.0 + ordinary(&mut rng),
                rng.unit() * 30.0,
                rng.pick(&[50.0, 100.0, 200.0]),
            ],
        };
        let wanted = refused(refusals::limit_price(t_pos, pos))
            .map(|()| all_bits(&[bet_sizing::limit_price_sigmoid(t_pos, pos, f, w, max_pos)]));
        let got = own::limit_price_sigmoid(t_pos, pos, f, w, max_pos).map(|x| all_bits(&[x]));
        turned_away += usize::from(got.is_err());
        assert_eq!(got, wanted, "{t_pos:e}, {pos:e}, {f:e}, {w:e}, {max_pos:e}");
    }
    assert!(turned_away > 500, "{turned_away}");
}
