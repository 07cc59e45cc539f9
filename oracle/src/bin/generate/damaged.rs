//! Lines that are mostly no requests, with whole ones between, so that it is seen whether the
//! reader finds the next line again.

use crate::line::{Line, LIMIT};
use crate::rng::Rng;
use crate::values::{any, halves, ordinary};
use crate::{make, KINDS};

/// Leaves a line without its newline.
pub fn damaged(rng: &mut Rng, line: &mut Line) {
    match rng.weighted(&[3000, 3000, 1200, 600, 500, 300, 400, 300, 700, 4]) {
        0 => change_bytes(rng, line),
        1 => change_words(rng, line),
        2 => request(rng, line),
        3 => cut(rng, line),
        4 => name(rng, line),
        5 => random_bytes(rng, line),
        6 => likely_bytes(rng, line),
        7 => blank(rng, line),
        8 => bad_number(rng, line),
        _ => long(rng, line),
    }
    debug_assert!(!line.bytes.contains(&b'\n'));
}

/// A whole request. Those with a step limit have only small whole numbers, because a changed
/// byte could otherwise start a walk that never ends.
fn request(rng: &mut Rng, line: &mut Line) {
    loop {
        let at = rng.below(KINDS.len() as u64) as usize;
        make(&KINDS[at], rng, line);
        let small = line.greatest <= 99;
        if line.bytes.len() < 3000 && (small || !line.has_step_limit) {
            return;
        }
    }
}

fn place(rng: &mut Rng, bytes: &[u8]) -> usize {
    rng.below(bytes.len() as u64) as usize
}

/// Any byte but a newline; those that requests are written with more often.
fn byte(rng: &mut Rng) -> u8 {
    let random = rng.below(256) as u8;
    let likely = rng.pick(b"0123456789abcdef  -");
    let near = rng.pick(b"\t\r\0ABCDEF+_.,xg\x0b\x0c\x7f\x80\xff");
    match rng.below(4) {
        0 if random != b'\n' => random,
        1 => near,
        _ => likely,
    }
}

fn change_bytes(rng: &mut Rng, line: &mut Line) {
    request(rng, line);
    // two changes together could move a fraction into a step limit's place
    let times = if line.has_step_limit || !rng.one_in(5) {
        1
    } else {
        2
    };
    for _ in 0..times {
        change_byte(rng, &mut line.bytes);
    }
}

fn change_byte(rng: &mut Rng, bytes: &mut Vec<u8>) {
    let at = place(rng, bytes);
    match rng.below(8) {
        0..=3 => bytes[at] = byte(rng),
        4 => bytes.insert(at, byte(rng)),
        5 => drop(bytes.remove(at)),
        6 => bytes.push(byte(rng)),
        _ => {
            let other = place(rng, bytes);
            bytes.swap(at, other);
        }
    }
    if bytes.is_empty() {
        bytes.push(byte(rng));
    }
}

fn split(line: &Line) -> Vec<Vec<u8>> {
    line.bytes
        .split(|b| *b == b' ')
        .map(|w| w.to_vec())
        .collect()
}

fn join(line: &mut Line, words: &[Vec<u8>]) {
    line.bytes = words.join(&b' ');
}

fn change_words(rng: &mut Rng, line: &mut Line) {
    request(rng, line);
    let mut words = split(line);
    let at = rng.below(words.len() as u64) as usize;
    let other = rng.below(words.len() as u64) as usize;
    match rng.below(12) {
        0 => drop(words.remove(at)),
        1 => words.insert(at, words[other].clone()),
        2 => words.push(words[other].clone()),
        3 => words.swap(at, other),
        4 => words.insert(at, Vec::new()),
        5 => words.insert(0, Vec::new()),
        6 => words.push(Vec::new()),
        7 => words[at].make_ascii_uppercase(),
        8 => drop(words.pop()),
        9 => words[at].push(rng.pick(b"0f\r\t\0 ")),
        10 => words[at].insert(0, rng.pick(b"0-+ \t")),
        _ => words[at].truncate(rng.pick(&[0, 1, 15])),
    }
    join(line, &words);
    if rng.one_in(12) {
        other_separator(rng, line);
    }
}

fn other_separator(rng: &mut Rng, line: &mut Line) {
    let with = rng.pick(b"\t\0\r,\x0b");
    line.bytes
        .iter_mut()
        .filter(|b| **b == b' ')
        .for_each(|b| *b = with);
}

fn cut(rng: &mut Rng, line: &mut Line) {
    request(rng, line);
    let at = place(rng, &line.bytes);
    line.bytes.truncate(at);
}

/// Names that are none: other case, cut, lengthened, mixed up.
fn name(rng: &mut Rng, line: &mut Line) {
    request(rng, line);
    let mut words = split(line);
    let at = rng.below(KINDS.len() as u64) as usize;
    let head = &mut words[0];
    match rng.below(8) {
        0 => head.make_ascii_uppercase(),
        1 => head[0].make_ascii_uppercase(),
        2 => drop(head.pop()),
        3 => head.push(rng.pick(b"s_40 \t\0")),
        4 => *head = KINDS[at].name.as_bytes().to_vec(),
        5 => head.extend_from_slice(KINDS[at].name.as_bytes()),
        6 => {
            *head = rng
                .pick(&["", "ok", "bad", "comb", "fit", "iterate_from", "-"])
                .into()
        }
        _ => drop(head.remove(0)),
    }
    join(line, &words);
}

fn random_bytes(rng: &mut Rng, line: &mut Line) {
    line.bytes.clear();
    for _ in 0..rng.below(60) {
        let b = rng.below(256) as u8;
        line.bytes.push(if b == b'\n' { b' ' } else { b });
    }
}

fn likely_bytes(rng: &mut Rng, line: &mut Line) {
    let at = rng.below(KINDS.len() as u64) as usize;
    line.bytes.clear();
    if rng.one_in(2) {
        line.bytes.extend_from_slice(KINDS[at].name.as_bytes());
        line.bytes.push(b' ');
    }
    for _ in 0..rng.below(60) {
        line.bytes.push(rng.pick(b"0123456789abcdef   -"));
    }
}

fn blank(rng: &mut Rng, line: &mut Line) {
    let only = rng.pick(&[
        "", "", " ", "  ", "\t", "\r", "\0", " \r", "\0\0", "\u{feff}",
    ]);
    line.bytes.clear();
    line.bytes.extend_from_slice(only.as_bytes());
}

/// Whole numbers that are malformed, or just inside or outside a range. None is put into a
/// request with a step limit unless every reader must turn it away.
fn bad_number(rng: &mut Rng, line: &mut Line) {
    match rng.below(5) {
        0 => number_alone(rng, line, "i64_as_f64 ", b""),
        1 => power_request(rng, line),
        2 => count_too_great(rng, line),
        3 => number_alone(rng, line, "raw_moment ", b" 3ff0000000000000 0"),
        _ => malformed_inside(rng, line),
    }
}

const NUMBERS: [&str; 30] = [
    "9223372036854775807",
    "9223372036854775808",
    "-9223372036854775808",
    "-9223372036854775809",
    "18446744073709551615",
    "18446744073709551616",
    "18446744073709551617",
    "18446744073709551625",
    "19446744073709551615",
    "28446744073709551615",
    "99999999999999999999",
    "100000000000000000000",
    "184467440737095516160",
    "36893488147419103232",
    "340282366920938463463374607431768211456",
    "-18446744073709551615",
    "-18446744073709551616",
    "-18446744073709551617",
    "00",
    "01",
    "-0",
    "-00",
    "-01",
    "+0",
    "+1",
    "-",
    "--1",
    "1-",
    "",
    "00000000000000000001",
];

const MALFORMED: [&str; 12] = [
    "00",
    "01",
    "-0",
    "+1",
    "-1",
    "-",
    "",
    "18446744073709551616",
    "1.",
    "0x1",
    "1e1",
    "٣",
];

fn number_alone(rng: &mut Rng, line: &mut Line, before: &str, after: &[u8]) {
    line.bytes.clear();
    line.bytes.extend_from_slice(before.as_bytes());
    line.bytes.extend_from_slice(rng.pick(&NUMBERS).as_bytes());
    line.bytes.extend_from_slice(after);
}

/// Powers above 16, which the protocol does not take.
fn power_request(rng: &mut Rng, line: &mut Line) {
    line.start("powi");
    line.f(halves(rng));
    if rng.one_in(2) {
        line.n(rng.pick(&[
            16,
            17,
            18,
            32,
            255,
            256,
            1 << 31,
            1 << 32,
            1 << 63,
            u64::MAX,
        ]));
    } else {
        line.word(rng.pick(&NUMBERS));
    }
}

/// A list that says it is longer, or far longer, than the line.
fn count_too_great(rng: &mut Rng, line: &mut Line) {
    let given = rng.below(6);
    let counts = [
        given + 1,
        given + 2,
        given.saturating_sub(1),
        1 << 16,
        1 << 61,
        1 << 63,
        u64::MAX,
    ];
    line.start(rng.pick(&[
        "centered_moment 2",
        "iter_4",
        "raw_moment 9 3ff0000000000000",
    ]));
    line.n(rng.pick(&counts));
    for _ in 0..given {
        line.f(ordinary(rng));
    }
    if rng.one_in(2) {
        line.f(any(rng));
        line.f(any(rng));
    }
}

fn malformed_inside(rng: &mut Rng, line: &mut Line) {
    request(rng, line);
    let mut words = split(line);
    let whole = |w: &Vec<u8>| w.len() != 16 && w.iter().all(u8::is_ascii_digit);
    let places: Vec<usize> = (1..words.len()).filter(|i| whole(&words[*i])).collect();
    let at = if places.is_empty() {
        words.len() - 1
    } else {
        rng.pick(&places)
    };
    words[at] = rng.pick(&MALFORMED).into();
    join(line, &words);
}

/// Lines at the length limit and beyond it.
fn long(rng: &mut Rng, line: &mut Line) {
    match rng.below(8) {
        0 | 1 => sized(rng, line, LIMIT),
        2 => sized(rng, line, LIMIT + 1),
        3 => {
            let off = rng.size(0, 40);
            sized(rng, line, LIMIT - 20 + off);
        }
        4 => padded(rng, line, LIMIT),
        5 => padded(rng, line, LIMIT + 1),
        6 => {
            let much = rng.pick(&[LIMIT + 2, 2 * LIMIT - 1, 2 * LIMIT, 2 * LIMIT + 1, 100_000]);
            padded(rng, line, much);
        }
        _ => request_behind(rng, line),
    }
}

/// A true request of exactly so many bytes, newline counted.
fn sized(rng: &mut Rng, line: &mut Line, total: usize) {
    match rng.below(3) {
        0 => sized_runs(rng, line, total),
        1 => sized_moments(rng, line, total),
        _ => sized_spans(rng, line, total),
    }
}

/// A whole number of so many digits, from 1 to 20.
fn digits(count: usize) -> u64 {
    if count == 20 {
        u64::MAX
    } else {
        10u64.pow(count as u32) - 1
    }
}

/// How many fractions of 17 bytes, and a number of how many digits (1 to 17), fill so much.
fn fill(left: usize) -> (usize, usize) {
    let count = (left - 1) / 17;
    (count, left - 17 * count)
}

/// Surplus weights fill the line; the number of list places takes what is left.
fn sized_runs(rng: &mut Rng, line: &mut Line, total: usize) {
    let around = "mp_fit 1 5".len() + 5 * 17 + 2 * 17 + " 9 2 ".len() + 11 * 17 + " 3800\n".len();
    let (count, width) = fill(total - around);
    line.start("mp_fit 1");
    line.list(&[1.0, 4.5, 16.0, 81.5, 416.0]);
    line.fs(&[0.25, 5.0]);
    line.step_limit(9);
    line.n(2);
    line.n(digits(width));
    line.fs(&[0.0; 11]);
    line.n(count as u64);
    for _ in 0..count {
        line.f(rng.unit());
    }
    assert_eq!(line.bytes.len() + 1, total);
}

/// Refused by 2, and read whole before that is known.
fn sized_moments(rng: &mut Rng, line: &mut Line, total: usize) {
    let around = "raw_moment  3ff0000000000000 3800\n".len();
    let (count, width) = fill(total - around);
    line.start("raw_moment");
    line.n(digits(width));
    line.f(1.0);
    line.n(count as u64);
    for _ in 0..count {
        line.f(ordinary(rng));
    }
    assert_eq!(line.bytes.len() + 1, total);
}

/// As many spans of one-digit instants as go in; the last start and end take what is left.
fn sized_spans(rng: &mut Rng, line: &mut Line, total: usize) {
    let around = "budget 4000 3000 3000 3000\n".len();
    let count = (total - around) / 21;
    let left = (total - around) % 21;
    let (first, second) = (1 + left.min(12), 1 + left.saturating_sub(12));
    let mut starts: Vec<i64> = (0..count).map(|_| rng.between(0, 9)).collect();
    let mut ends: Vec<i64> = (0..count).map(|_| rng.between(0, 9)).collect();
    starts[count - 1] = digits(first) as i64;
    ends[count - 1] = digits(second) as i64;
    line.start("budget");
    line.n(4000);
    line.instants(&starts);
    line.instants(&ends);
    line.n(count as u64);
    for _ in 0..count {
        line.f(rng.pick(&[1.0, -1.0]));
    }
    assert_eq!(line.bytes.len() + 1, total);
}

/// Bytes of one kind, or a true request with blanks behind it.
fn padded(rng: &mut Rng, line: &mut Line, total: usize) {
    line.start(rng.pick(&["", "sqrt 4000000000000000", "sqrt ", "abs"]));
    let with = rng.pick(b" 0a\0\t");
    line.bytes.resize(total - 1, with);
}

/// Too long, with a true request where a reader that splits long lines would begin the next.
fn request_behind(rng: &mut Rng, line: &mut Line) {
    request(rng, line);
    let behind = line.bytes.clone();
    let before = rng.pick(&[LIMIT - 1, LIMIT, LIMIT + 1]);
    padded(rng, line, before + 1);
    line.bytes.extend_from_slice(&behind);
}
