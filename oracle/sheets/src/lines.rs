//! Lines of count sheets, and good sheets.

use crate::rng::Rng;
use crate::values::{any, any_i64, extreme, infinity, nan, zero};

/// The longest line there is, its newline with it: both instants of 20 bytes.
pub const WIDEST: usize = 85;

/// The bytes of a line beside its two instants.
pub const FRAME: usize = 45;

/// One line by its parts, which may be any text.
#[derive(Clone)]
pub struct Line {
    pub from: String,
    pub to: String,
    pub side: String,
}

impl Line {
    pub fn new(from: i64, to: i64, side: f64) -> Line {
        Line {
            from: from.to_string(),
            to: to.to_string(),
            side: format!("{:016x}", side.to_bits()),
        }
    }

    /// The start or the end.
    pub fn instant_mut(&mut self, rng: &mut Rng) -> &mut String {
        if rng.one_in(2) {
            &mut self.from
        } else {
            &mut self.to
        }
    }

    pub fn bytes(&self) -> Vec<u8> {
        let Line { from, to, side } = self;
        format!("(span (from {from}) (to {to}) (side {side}))\n").into_bytes()
    }
}

/// The lines as a sheet.
pub fn sheet(lines: &[Line]) -> Vec<u8> {
    lines.iter().flat_map(Line::bytes).collect()
}

/// What the instants of a sheet are like.
#[derive(Clone, Copy)]
pub enum Style {
    /// few different ones, for ties
    Ties,
    /// so close that spans overlap
    Close,
    /// hours of nanoseconds
    Hours,
    /// of every size, the ends of i64 often
    Any,
}

pub const STYLES: [Style; 4] = [Style::Ties, Style::Close, Style::Hours, Style::Any];

const HOUR: i64 = 3_600_000_000_000;

pub fn instant(rng: &mut Rng, style: Style) -> i64 {
    match style {
        Style::Ties => rng.between(-1, 3),
        Style::Close => rng.between(-60, 60),
        Style::Hours => 1_700_000_000_000_000_000 + rng.between(0, 40) * HOUR,
        Style::Any if rng.one_in(3) => extreme(rng),
        Style::Any => any_i64(rng),
    }
}

fn end(rng: &mut Rng, style: Style, start: i64) -> i64 {
    let unit = if let Style::Hours = style { HOUR } else { 1 };
    match rng.below(12) {
        0 => start,
        1 => start.saturating_sub(rng.between(1, 5) * unit),
        2 => instant(rng, style),
        3 => rng.pick(&[i64::MIN, i64::MAX, start.saturating_add(1)]),
        _ => start.saturating_add(rng.between(1, 24) * unit),
    }
}

pub fn side(rng: &mut Rng) -> f64 {
    match rng.below(24) {
        0 => nan(rng),
        1 => zero(rng),
        2 => infinity(rng),
        3 => any(rng),
        4 => rng.pick(&[5e-324, -5e-324]),
        _ => rng.pick(&[1.0, 1.0, -1.0]),
    }
}

pub fn line(rng: &mut Rng, style: Style) -> Line {
    let from = instant(rng, style);
    let to = end(rng, style, from);
    Line::new(from, to, side(rng))
}

/// A line of so many bytes, from FRAME + 2 to WIDEST.
pub fn line_of(rng: &mut Rng, bytes: usize) -> Line {
    let room = bytes - FRAME;
    let first = rng.size(room.saturating_sub(20).max(1), (room - 1).min(20));
    let (from, to) = (instant_of(rng, first), instant_of(rng, room - first));
    Line::new(from, to, side(rng))
}

/// An instant of so many bytes, from 1 to 20.
fn instant_of(rng: &mut Rng, bytes: usize) -> i64 {
    let minus = bytes == 20 || (bytes > 1 && rng.one_in(2));
    let digits = bytes - usize::from(minus);
    let least = if digits == 1 {
        i64::from(minus)
    } else {
        10i64.pow(digits as u32 - 1)
    };
    let most = if digits == 19 {
        i64::MAX
    } else {
        10i64.pow(digits as u32) - 1
    };
    let size = rng.between(least, most);
    if minus {
        -size
    } else {
        size
    }
}

/// So many good lines of one style.
pub fn lines(rng: &mut Rng, count: usize) -> Vec<Line> {
    let style = rng.pick(&STYLES);
    (0..count).map(|_| line(rng, style)).collect()
}

/// A good sheet of exactly so many bytes, 94 or more; its lines, but for the last few, of `low` to
/// `high` bytes.
pub fn sheet_of(rng: &mut Rng, bytes: usize, low: usize, high: usize) -> Vec<u8> {
    let two_lines = 2 * (FRAME + 2);
    let mut out = Vec::with_capacity(bytes);
    while out.len() < bytes {
        // one line cannot end between its widest and two of the narrowest: two or three share the rest
        let left = bytes - out.len();
        let next = match left {
            _ if left >= two_lines + high => rng.size(low, high),
            _ if left <= WIDEST => left,
            _ if left <= 2 * WIDEST => left / 2,
            _ => left / 3,
        };
        out.extend(line_of(rng, next).bytes());
    }
    out
}
