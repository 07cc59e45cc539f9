//! Counts and prices, by the Rust of bet_sizing.rs.

use crate::protocol::{Reply, Stop, Words};
use crate::{bet_sizing, refusals};
use chrono::NaiveDateTime;

/// What both count requests ask about, once document 01 has let it through.
struct Spans {
    t1: Vec<(NaiveDateTime, NaiveDateTime)>,
    side: Vec<f64>,
}

fn spans(mut words: Words) -> Result<Spans, Stop> {
    let room = words.whole()?;
    let starts = words.instant_list()?;
    let ends = words.instant_list()?;
    let side = words.fraction_list()?;
    words.end()?;
    refusals::spans(starts.len(), ends.len(), side.len(), room)?;
    let t1 = starts
        .into_iter()
        .map(NaiveDateTime)
        .zip(ends.into_iter().map(NaiveDateTime));
    Ok(Spans {
        t1: t1.collect(),
        side,
    })
}

pub fn concurrent_sides(words: Words) -> Result<Reply, Stop> {
    let Spans { t1, side } = spans(words)?;
    let rows = bet_sizing::get_concurrent_sides(&t1, &side).expect("the lengths are equal");
    let reply = Reply::ok().word(rows.len());
    Ok(rows.iter().fold(reply, |reply, (start, long, short)| {
        reply.word(start.0).fraction(*long).fraction(*short)
    }))
}

pub fn budget(words: Words) -> Result<Reply, Stop> {
    let Spans { t1, side } = spans(words)?;
    let rows = bet_sizing::bet_size_budget(&t1, &side).expect("the lengths are equal");
    let reply = Reply::ok().word(rows.len());
    Ok(rows.iter().fold(reply, |reply, (start, size)| {
        reply.word(start.0).fraction(*size)
    }))
}

pub fn w_sigmoid(mut words: Words) -> Result<Reply, Stop> {
    let [price_div, m_bet_size] = words.fractions()?;
    words.end()?;
    Ok(Reply::ok().fraction(bet_sizing::get_w_sigmoid(price_div, m_bet_size)))
}

pub fn inv_price_sigmoid(mut words: Words) -> Result<Reply, Stop> {
    let [forecast, w, m] = words.fractions()?;
    words.end()?;
    Ok(Reply::ok().fraction(bet_sizing::inv_price_sigmoid(forecast, w, m)))
}

pub fn limit_price_sigmoid(mut words: Words) -> Result<Reply, Stop> {
    let [t_pos, pos, f, w, max_pos] = words.fractions()?;
    words.end()?;
    refusals::limit_price(t_pos, pos)?;
    Ok(Reply::ok().fraction(bet_sizing::limit_price_sigmoid(t_pos, pos, f, w, max_pos)))
}
