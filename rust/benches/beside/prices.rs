//! Limit prices over half of the largest position.

use crate::clock::repeated;
use crate::measure::{measure, Row};
use crate::table::grouped;
use oracle::bet_sizing;
use std::hint::black_box;
use woddirme::bet_sizing as own;

pub fn limit_price(lots: usize) -> Row {
    let far = lots as f64;
    let [t_pos, pos, f, w, max_pos] = [far, 0.0, 100.0, 25.0, 2.0 * far];
    let rust = |t_pos| bet_sizing::limit_price_sigmoid(t_pos, pos, f, w, max_pos);
    let port = |t_pos| own::limit_price_sigmoid(t_pos, pos, f, w, max_pos).expect("accepted");
    assert_eq!(rust(t_pos).to_bits(), port(t_pos).to_bits(), "{lots} lots");
    measure(
        format!("`limit_price_sigmoid`, {} lots", grouped(lots)),
        ("lot", lots),
        &mut |calls| repeated(calls, || rust(black_box(t_pos))),
        &mut |calls| repeated(calls, || port(black_box(t_pos))),
    )
}
