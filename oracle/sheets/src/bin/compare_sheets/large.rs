//! Sheets at the limits: 1,024 lines, 65,536 bytes.

use crate::cases::Case;
use sheets::lines::{line_of, sheet_of, WIDEST};
use sheets::rng::Rng;

/// Puts a fault into a line and keeps its length; which places are of the frame does not matter.
fn spoil(rng: &mut Rng, line: &mut [u8]) {
    let at = rng.pick(&[0, 3, 5, 7, 11]);
    line[at] = rng.pick(b"x)A0\t\r\0\n\xff");
}

/// 1,023 to 1,026 lines: whole, with a fault in the last line, or from line 1,025 on, or before it;
/// and newlines alone.
pub fn many_lines(rng: &mut Rng, turn: u64) -> Case {
    let count = 1_023 + turn as usize % 4;
    let mut all: Vec<Vec<u8>> = (0..count)
        .map(|_| {
            let width = rng.size(47, 60);
            line_of(rng, width).bytes()
        })
        .collect();
    let (which, line) = match turn / 4 % 6 {
        0 => ("no fault", None),
        1 => ("a fault in the last", Some(count)),
        2 => ("no last newline", None),
        3 if count > 1_024 => ("a fault from line 1025 on", Some(rng.size(1_025, count))),
        4 => return newlines_alone(rng),
        _ => (
            "a fault before line 1025",
            Some(rng.size(1, 1_024.min(count))),
        ),
    };
    if which == "no last newline" {
        all[count - 1].pop();
    }
    if let Some(line) = line {
        spoil(rng, &mut all[line - 1]);
    }
    Case::new(format!("{count} lines, {which}"), all.concat())
}

fn newlines_alone(rng: &mut Rng) -> Case {
    let count = rng.pick(&[1_024, 1_025, 65_535, 65_536, 65_537]);
    Case::new(format!("{count} newlines alone"), vec![b'\n'; count])
}

/// 65,535 to 65,537 bytes, in fewer than 1,024 lines and in more, with and without a fault; and more
/// bytes than that.
pub fn many_bytes(rng: &mut Rng, turn: u64) -> Case {
    let count = match turn % 4 {
        3 => rng.size(65_538, 80_000),
        more => 65_535 + more as usize,
    };
    let (low, high, lines) = match turn / 4 % 2 {
        0 => (66, WIDEST, "wide lines"),
        _ => (47, 60, "over 1024 lines"),
    };
    let mut bytes = sheet_of(rng, count, low, high);
    let fault = match turn / 8 % 4 {
        0 | 1 => "no fault",
        2 => {
            let start = bytes[..count - 1]
                .iter()
                .rposition(|byte| *byte == b'\n')
                .map_or(0, |at| at + 1);
            spoil(rng, &mut bytes[start..]);
            "a fault in the last line"
        }
        _ => {
            bytes[count - 1] = b' ';
            "no last newline"
        }
    };
    let count = if count > 65_537 {
        "more".to_string()
    } else {
        count.to_string()
    };
    Case::new(format!("{count} bytes, {lines}, {fault}"), bytes)
}
