//! Sheets that are damaged as text: bytes put, lines cut, newlines, parts moved.

use crate::cases::{index, some_lines, Case};
use sheets::lines::{line_of, lines, sheet, Line, WIDEST};
use sheets::rng::Rng;

const CLASSES: [&str; 13] = [
    "a digit",
    "an upper-case letter",
    "a lower-case letter",
    "a bracket",
    "a blank",
    "a tab",
    "a minus",
    "a plus",
    "a newline",
    "a carriage return",
    "a NUL",
    "a byte from 128 up",
    "another byte",
];

fn byte(rng: &mut Rng, class: usize) -> u8 {
    match class {
        0 => rng.pick(b"0123456789"),
        1 => b'A' + rng.below(26) as u8,
        2 => b'a' + rng.below(26) as u8,
        3 => rng.pick(b"()()()[]{}"),
        4 => b' ',
        5 => b'\t',
        6 => b'-',
        7 => b'+',
        8 => b'\n',
        9 => b'\r',
        10 => 0,
        11 => 128 + rng.below(128) as u8,
        _ => rng.pick(b"\x01\x07\x08\x0b\x0c\x0e\x1a\x1b\x1f!\"#$%&'*,./:;<=>?@\\^_`|~\x7f"),
    }
}

/// The lines of a sheet as bytes, one of them at least so wide that it has the place.
fn with_place(rng: &mut Rng, count: usize, place: usize) -> (Vec<Vec<u8>>, usize) {
    let mut all = lines(rng, count);
    let at = index(rng, &all);
    if all[at].bytes().len() <= place {
        all[at] = line_of(rng, WIDEST);
    }
    (all.iter().map(Line::bytes).collect(), at)
}

/// Every class in every place of a line, for another byte and between two, in sheets of one to five
/// lines.
pub fn byte_put(rng: &mut Rng, turn: u64) -> Case {
    let class = turn as usize % CLASSES.len();
    let step = turn as usize / CLASSES.len();
    let place = step % (2 * WIDEST + 1);
    let count = 1 + step / (2 * WIDEST + 1) % 5;
    let byte = byte(rng, class);
    let (case, at) = if place < WIDEST {
        let (mut all, at) = with_place(rng, count, place);
        all[at][place] = byte;
        let name = format!("byte: {} for another", CLASSES[class]);
        (Case::new(name, all.concat()).at(place), at)
    } else {
        // behind the newline too
        let place = place - WIDEST;
        let (mut all, at) = with_place(rng, count, place.min(WIDEST - 1));
        all[at].insert(place, byte);
        let name = format!("byte: {} put between", CLASSES[class]);
        (Case::new(name, all.concat()).at(place), at)
    };
    case.also(format!("byte: in line {} of {count}", at + 1))
}

/// A line is cut at every place, and the sheet ends there, goes on in the next line, or at once.
pub fn line_cut(rng: &mut Rng, turn: u64) -> Case {
    let place = (turn / 3) as usize % WIDEST;
    let count = rng.size(1, 5);
    let (mut all, at) = with_place(rng, count, place);
    all[at].truncate(place);
    let name = match turn % 3 {
        0 => {
            all.truncate(at + 1);
            "cut: and the sheet ends"
        }
        1 => {
            all[at].push(b'\n');
            "cut: and a newline put"
        }
        _ => "cut: and what follows goes on",
    };
    Case::new(name, all.concat()).at(place)
}

pub fn no_last_newline(rng: &mut Rng, _turn: u64) -> Case {
    let mut bytes = sheet(&some_lines(rng));
    bytes.pop();
    Case::new("newline: the last is missing", bytes)
}

/// Carriage returns with the newlines, or for them.
pub fn returns(rng: &mut Rng, turn: u64) -> Case {
    let mut all: Vec<Vec<u8>> = some_lines(rng).iter().map(Line::bytes).collect();
    let chosen = index(rng, &all);
    let (name, new, every) = match turn % 4 {
        0 => ("newline: CRLF in every line", &b"\r\n"[..], true),
        1 => ("newline: CRLF in one line", &b"\r\n"[..], false),
        2 => ("newline: CR for every one", &b"\r"[..], true),
        _ => ("newline: CR for one", &b"\r"[..], false),
    };
    for (at, line) in all.iter_mut().enumerate() {
        if every || at == chosen {
            line.pop();
            line.extend(new);
        }
    }
    Case::new(name, all.concat())
}

/// No bytes, newlines alone, and newlines where none should be.
pub fn newlines(rng: &mut Rng, turn: u64) -> Case {
    let mut all: Vec<Vec<u8>> = some_lines(rng).iter().map(Line::bytes).collect();
    let more = vec![b'\n'; rng.size(1, 3)];
    match turn % 5 {
        0 => return Case::new("newline: no bytes at all", Vec::new()),
        1 => return Case::new("newline: newlines alone", vec![b'\n'; rng.size(1, 40)]),
        2 => all.insert(0, more),
        3 => all.push(more),
        _ => all.insert(rng.size(0, all.len()), more),
    }
    let names = ["at the front", "at the end", "somewhere"];
    let name = format!("newline: more {}", names[turn as usize % 5 - 2]);
    Case::new(name, all.concat())
}

/// Something of a list doubled, deleted, or two things of it swapped.
fn moved<T: Clone>(rng: &mut Rng, turn: u64, list: &mut Vec<T>) -> &'static str {
    let (at, other) = (index(rng, list), index(rng, list));
    match turn % 4 {
        0 => {
            list.insert(other, list[at].clone());
            "doubled"
        }
        1 => {
            list.remove(at);
            "deleted"
        }
        2 => {
            list.swap(at, other);
            "swapped"
        }
        _ => {
            list.insert(at, list[at].clone());
            "doubled in place"
        }
    }
}

pub fn lines_moved(rng: &mut Rng, turn: u64) -> Case {
    let mut all = some_lines(rng);
    let name = format!("lines: {}", moved(rng, turn, &mut all));
    Case::new(name, sheet(&all))
}

pub fn bytes_moved(rng: &mut Rng, turn: u64) -> Case {
    let mut bytes = sheet(&some_lines(rng));
    let mut name = "";
    for _ in 0..rng.pick(&[1, 1, 1, 2, 3]) {
        name = moved(rng, turn, &mut bytes);
    }
    Case::new(format!("bytes: {name}"), bytes)
}

/// The words of a line, with the brackets and blanks between.
pub fn words_moved(rng: &mut Rng, turn: u64) -> Case {
    let mut all: Vec<Vec<u8>> = some_lines(rng).iter().map(Line::bytes).collect();
    let at = index(rng, &all);
    let mut words: Vec<Vec<u8>> = all[at]
        .chunk_by(|a, b| a.is_ascii_alphanumeric() && b.is_ascii_alphanumeric())
        .map(<[u8]>::to_vec)
        .collect();
    let name = match turn % 6 {
        4 => other_word(rng, &mut words),
        5 => {
            all.insert(
                at,
                b"(row (at 0) (long 1) (short 0) (size 3ff0000000000000))\n".to_vec(),
            );
            return Case::new("words: a row form", all.concat());
        }
        _ => moved(rng, turn, &mut words),
    };
    all[at] = words.concat();
    Case::new(format!("words: {name}"), all.concat())
}

fn other_word(rng: &mut Rng, words: &mut [Vec<u8>]) -> &'static str {
    let at = index(rng, words);
    words[at] = match rng.below(4) {
        0 => words[at].to_ascii_uppercase(),
        1 => rng
            .pick(&["span", "from", "to", "side", "row", "at", "x"])
            .into(),
        2 => rng.pick(&["((", "))", "  ", ") (", "\t"]).into(),
        _ => rng
            .pick(&["0", "-1", "1.0", "1e3", "0x10", "NaN", "0000000000000000"])
            .into(),
    };
    "another"
}

/// Bytes with no form at all.
pub fn random(rng: &mut Rng, _turn: u64) -> Case {
    let length = rng.size(1, 200);
    let bytes = (0..length).map(|_| rng.below(256) as u8).collect();
    Case::new("random bytes", bytes)
}
