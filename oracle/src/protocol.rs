//! The words of the line protocol (requests.md): strict reading, plain printing.

use std::fmt::{Display, Write};
use std::hint::black_box;

/// The longest line, its newline counted.
pub const LINE_LIMIT: usize = 65_536;

/// Why a line gets no `ok`.
#[derive(Debug, Clone, Copy, PartialEq, Eq)]
pub enum Stop {
    /// The line is no request.
    Bad,
    /// Document 01 turns the request away by this number.
    Refused(u32),
}

impl Display for Stop {
    fn fmt(&self, f: &mut std::fmt::Formatter<'_>) -> std::fmt::Result {
        match self {
            Stop::Bad => f.write_str("bad"),
            Stop::Refused(number) => write!(f, "refused {number}"),
        }
    }
}

/// The words of one line that are not read yet.
pub struct Words<'a>(std::slice::Split<'a, u8, fn(&u8) -> bool>);

impl<'a> Words<'a> {
    /// Two blanks in a row, or one at an end, make an empty word, and no reader takes that.
    pub fn of(line: &'a [u8]) -> Self {
        Words(line.split(|byte| *byte == b' '))
    }

    pub fn word(&mut self) -> Result<&'a [u8], Stop> {
        self.0.next().ok_or(Stop::Bad)
    }

    /// A request is asked for only once this has passed: `bad` comes before any refusal.
    pub fn end(mut self) -> Result<(), Stop> {
        match self.0.next() {
            None => Ok(()),
            Some(_) => Err(Stop::Bad),
        }
    }

    /// F.
    pub fn fraction(&mut self) -> Result<f64, Stop> {
        fraction(self.word()?).ok_or(Stop::Bad)
    }

    /// N.
    pub fn whole(&mut self) -> Result<usize, Stop> {
        Ok(whole(self.word()?).ok_or(Stop::Bad)? as usize)
    }

    /// I.
    pub fn instant(&mut self) -> Result<i64, Stop> {
        instant(self.word()?).ok_or(Stop::Bad)
    }

    /// F, or `-` for none.
    pub fn fraction_or_none(&mut self) -> Result<Option<f64>, Stop> {
        match self.word()? {
            b"-" => Ok(None),
            word => Ok(Some(fraction(word).ok_or(Stop::Bad)?)),
        }
    }

    /// So many F as the caller's array holds.
    pub fn fractions<const N: usize>(&mut self) -> Result<[f64; N], Stop> {
        let mut out = [0.0; N];
        for place in &mut out {
            *place = self.fraction()?;
        }
        Ok(out)
    }

    /// LIST of F.
    pub fn fraction_list(&mut self) -> Result<Vec<f64>, Stop> {
        self.list(Words::fraction)
    }

    /// LIST of I.
    pub fn instant_list(&mut self) -> Result<Vec<i64>, Stop> {
        self.list(Words::instant)
    }

    /// Nothing is set aside by the count beforehand: it may be any N, and the line is short.
    fn list<T>(&mut self, entry: fn(&mut Self) -> Result<T, Stop>) -> Result<Vec<T>, Stop> {
        let count = self.whole()?;
        (0..count).map(|_| entry(self)).collect()
    }
}

/// Exactly 16 lower-case hexadecimal digits; NaNs are one class.
fn fraction(word: &[u8]) -> Option<f64> {
    if word.len() != 16 {
        return None;
    }
    let mut bits = 0u64;
    for byte in word {
        let digit = match byte {
            b'0'..=b'9' => byte - b'0',
            b'a'..=b'f' => byte - b'a' + 10,
            _ => return None,
        };
        bits = bits << 4 | u64::from(digit);
    }
    Some(f64::from_bits(one_nan(bits)))
}

/// Decimal digits without a leading zero, within u64.
fn whole(word: &[u8]) -> Option<u64> {
    if word.is_empty() || (word[0] == b'0' && word.len() > 1) {
        return None;
    }
    word.iter().try_fold(0u64, |sum, byte| match byte {
        b'0'..=b'9' => sum.checked_mul(10)?.checked_add(u64::from(byte - b'0')),
        _ => None,
    })
}

/// A minus first where negative, "-0" never, within i64.
fn instant(word: &[u8]) -> Option<i64> {
    match word.strip_prefix(b"-") {
        None => i64::try_from(whole(word)?).ok(),
        Some(b"0") => None,
        Some(size) => 0i64.checked_sub_unsigned(whole(size)?),
    }
}

/// An answer being written; each word after the first stands behind one blank.
pub struct Reply(String);

impl Reply {
    pub fn of(first: &str) -> Self {
        Reply(first.to_string())
    }

    pub fn ok() -> Self {
        Reply::of("ok")
    }

    /// A word as it stands, a whole number or an instant.
    pub fn word(mut self, word: impl Display) -> Self {
        write!(self.0, " {word}").expect("a String takes everything");
        self
    }

    pub fn fraction(mut self, value: f64) -> Self {
        write!(self.0, " {:016x}", bits(value)).expect("a String takes everything");
        self
    }

    pub fn fractions(self, values: &[f64]) -> Self {
        values
            .iter()
            .fold(self, |reply, value| reply.fraction(*value))
    }

    pub fn text(self) -> String {
        self.0
    }
}

/// The bits that are printed. They are hidden from the compiler first: LLVM 22 turns "if the
/// root is NaN, these bits, else the root's" into the root's, whose NaN has its sign set.
pub fn bits(value: f64) -> u64 {
    one_nan(black_box(value.to_bits()))
}

/// Every NaN pattern as one.
fn one_nan(bits: u64) -> u64 {
    let size = bits & u64::MAX >> 1;
    if size > 0x7ff0_0000_0000_0000 {
        0x7ff8_0000_0000_0000
    } else {
        bits
    }
}
