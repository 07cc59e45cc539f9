//! One request in, one answer out: the names of requests.md, and the number leaves.

use crate::protocol::{Reply, Stop, Words, LINE_LIMIT};
use crate::{counts, fit};
use std::hint::black_box;

/// The answer to one line, given without its newline.
pub fn answer(line: impl AsRef<[u8]>) -> String {
    match ask(line.as_ref()) {
        Ok(reply) => reply.text(),
        Err(stop) => stop.to_string(),
    }
}

fn ask(line: &[u8]) -> Result<Reply, Stop> {
    if line.len() + 1 > LINE_LIMIT {
        return Err(Stop::Bad);
    }
    let mut words = Words::of(line);
    match words.word()? {
        b"sqrt" => of_one(words, |x| Reply::ok().fraction(x.sqrt())),
        b"abs" => of_one(words, |x| Reply::ok().fraction(x.abs())),
        b"powi" => powi(words),
        b"larger" => larger(words),
        b"is_finite" => of_one(words, |x| Reply::ok().word(u8::from(x.is_finite()))),
        b"as_i64" => of_one(words, |x| Reply::ok().word(x as i64)),
        b"as_usize" => of_one(words, |x| Reply::ok().word(x as usize)),
        b"i64_as_f64" => i64_as_f64(words),
        b"get_moments" => fit::get_moments(words),
        b"centered_moment" => fit::centered_moment(words),
        b"raw_moment" => fit::raw_moment(words),
        b"iter_4" => fit::iter_4(words),
        b"iter_5" => fit::iter_5(words),
        b"walk" => fit::walk(words),
        b"single_fit" => fit::single_fit(words),
        b"mp_fit" => fit::mp_fit(words),
        b"concurrent_sides" => counts::concurrent_sides(words),
        b"budget" => counts::budget(words),
        b"w_sigmoid" => counts::w_sigmoid(words),
        b"inv_price_sigmoid" => counts::inv_price_sigmoid(words),
        b"limit_price_sigmoid" => counts::limit_price_sigmoid(words),
        _ => Err(Stop::Bad),
    }
}

fn of_one(mut words: Words, leaf: fn(f64) -> Reply) -> Result<Reply, Stop> {
    let x = words.fraction()?;
    words.end()?;
    Ok(leaf(x))
}

fn powi(mut words: Words) -> Result<Reply, Stop> {
    let x = words.fraction()?;
    let order = words.whole()?;
    words.end()?;
    if order > 16 {
        return Err(Stop::Bad);
    }
    // Hidden from the compiler, so that the routine of run time is what answers.
    Ok(Reply::ok().fraction(x.powi(black_box(order as i32))))
}

fn larger(mut words: Words) -> Result<Reply, Stop> {
    let [x, y] = words.fractions()?;
    words.end()?;
    Ok(Reply::ok().fraction(x.max(y)))
}

fn i64_as_f64(mut words: Words) -> Result<Reply, Stop> {
    let n = words.instant()?;
    words.end()?;
    Ok(Reply::ok().fraction(n as f64))
}
