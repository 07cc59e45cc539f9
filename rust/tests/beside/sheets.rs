use crate::lines::{lines, sheet, sheet_of, WIDEST};
use crate::rng::Rng;
use oracle::sheet::answer;
use woddirme::sheet::count_sheet;

/// Few lines for the most part; now and then as many lines or bytes as are taken, or more.
fn good(rng: &mut Rng) -> Vec<u8> {
    match rng.below(60) {
        0 => {
            let bytes = rng.size(65_530, 65_540);
            sheet_of(rng, bytes, 66, WIDEST)
        }
        1 => {
            let count = rng.size(1_023, 1_025);
            sheet(&lines(rng, count))
        }
        _ => {
            let count = rng.size(0, 40);
            sheet(&lines(rng, count))
        }
    }
}

/// One byte put, taken away or put in, the end cut off, or a byte moved.
fn damage(rng: &mut Rng, sheet: &mut Vec<u8>) {
    if sheet.is_empty() {
        return sheet.push(b'\n');
    }
    let at = rng.size(0, sheet.len() - 1);
    let byte = rng.pick(b"(sx )\n\r\0-0179aF\xff");
    match rng.below(5) {
        0 => sheet[at] = byte,
        1 => drop(sheet.remove(at)),
        2 => sheet.insert(at, byte),
        3 => sheet.truncate(at),
        _ => {
            let to = rng.size(0, sheet.len() - 1);
            sheet.swap(at, to);
        }
    }
}

#[test]
fn count_sheets() {
    let mut rng = Rng::new(13);
    let mut seen = [0; 3];
    for _ in 0..6_000 {
        let mut sheet = good(&mut rng);
        for _ in 0..rng.pick(&[0, 0, 1, 1, 1, 3]) {
            damage(&mut rng, &mut sheet);
        }
        let wanted = answer(&sheet);
        let got = count_sheet(&sheet);
        assert_eq!(got, wanted.as_bytes(), "{}", sheet.escape_ascii());
        seen[match &got[..] {
            b"(refused 11)\n" => 0,
            refused if refused.starts_with(b"(refused 15 ") => 1,
            _ => 2,
        }] += 1;
    }
    assert!(
        seen[0] > 20 && seen[1] > 1_000 && seen[2] > 1_000,
        "{seen:?}"
    );
}
