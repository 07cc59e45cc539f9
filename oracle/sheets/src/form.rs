//! The form of an answer, without an answer to compare it with.

const MOST_BYTES: usize = 65_536;
const MOST_LINES: usize = 1_024;

/// What is wrong with an answer, going by its form and by how long the sheet is.
pub fn fault(sheet: &[u8], answer: &[u8]) -> Option<&'static str> {
    let newlines = sheet.iter().filter(|byte| **byte == b'\n').count();
    let Ok(text) = std::str::from_utf8(answer) else {
        return Some("an answer that is no text");
    };
    let right = match text {
        "" => sheet.is_empty(),
        "(refused 11)\n" => sheet.len() > MOST_BYTES || newlines > MOST_LINES,
        _ if sheet.len() > MOST_BYTES => false,
        _ if text.starts_with("(refused") => refused_at(text, newlines + 1),
        _ => newlines <= MOST_LINES && are_rows(sheet, text, newlines),
    };
    (!right).then_some("an answer of another form")
}

/// One line that names a line, at most the last.
fn refused_at(text: &str, last: usize) -> bool {
    let line = text
        .strip_prefix("(refused 15 ")
        .and_then(|rest| rest.strip_suffix(")\n"));
    let Some(Ok(number)) = line.map(str::parse::<usize>) else {
        return false;
    };
    (1..=last).contains(&number) && line == Some(&number.to_string())
}

/// A row for each line of the sheet, and nothing behind the last newline of either.
fn are_rows(sheet: &[u8], text: &str, lines: usize) -> bool {
    let rows: Vec<&str> = text.split_inclusive('\n').collect();
    let starts = sheet.split_inclusive(|byte| *byte == b'\n');
    rows.len() == lines
        && sheet.ends_with(b"\n")
        && rows
            .iter()
            .zip(starts)
            .all(|(row, line)| is_row(row, line, lines))
}

/// A row at the start of its line, with counts that there can be and a size from -1 to 1. It is
/// printed again from what was read, so that it has no other spelling.
fn is_row(row: &str, line: &[u8], lines: usize) -> bool {
    let words: Vec<&str> = row.split([' ', ')', '\n']).collect();
    let [_, _, at, _, _, long, _, _, short, _, _, size, ..] = words[..] else {
        return false;
    };
    let (Ok(at), Ok(bits)) = (at.parse::<i64>(), u64::from_str_radix(size, 16)) else {
        return false;
    };
    let (Ok(long), Ok(short)) = (long.parse::<usize>(), short.parse::<usize>()) else {
        return false;
    };
    row == format!("(row (at {at}) (long {long}) (short {short}) (size {bits:016x}))\n")
        && line.starts_with(format!("(span (from {at}) (to ").as_bytes())
        && long + short <= lines
        && f64::from_bits(bits).abs() <= 1.0
}
