//! The form of answers: good ones pass, and each small change of one is seen.

use sheets::form::fault;
use sheets::port::{Room, ENOUGH};

const SHEET: &[u8] = b"(span (from 0) (to 10) (side 3ff0000000000000))\n\
(span (from -5) (to 15) (side bff0000000000000))\n";

const ROWS: &str = "(row (at 0) (long 1) (short 1) (size 0000000000000000))\n\
(row (at -5) (long 0) (short 1) (size bff0000000000000))\n";

fn wrong(sheet: &[u8], answer: &str) -> bool {
    fault(sheet, answer.as_bytes()).is_some()
}

#[test]
fn the_port_answers_the_rows() {
    let answer = Room::new()
        .answer(SHEET, ENOUGH)
        .expect("nothing behind it is changed");
    assert_eq!(answer, ROWS.as_bytes());
    Room::new()
        .answers_exactly(SHEET, &answer)
        .expect("in room for it alone");
}

#[test]
fn rows_and_refusals_pass() {
    assert!(!wrong(SHEET, ROWS));
    assert!(!wrong(b"", ""));
    assert!(!wrong(b"x", "(refused 15 1)\n"));
    assert!(!wrong(&[b'\n'; 1_025], "(refused 11)\n"));
    assert!(!wrong(&[b'x'; 65_537], "(refused 11)\n"));
}

#[test]
fn other_refusals_are_seen() {
    for answer in [
        "",
        "(refused 11)\n",
        "(refused 15 0)\n",
        "(refused 15 3)\n",
        "(refused 15 01)\n",
        "(refused 15 +1)\n",
        "(refused 15 1)",
        "(refused 15)\n",
        "(refused 15 )\n",
        "(refused 8)\n",
        "(refused 15 1)\n(refused 15 1)\n",
    ] {
        assert!(wrong(b"x\n", answer), "{answer}");
    }
    assert!(wrong(&[b'x'; 65_537], "(refused 15 1)\n"));
}

#[test]
fn other_rows_are_seen() {
    let (first, second) = ROWS.split_at(ROWS.find('\n').expect("two rows") + 1);
    assert!(wrong(SHEET, first));
    assert!(wrong(SHEET, &format!("{second}{first}")));
    assert!(wrong(SHEET, &format!("{ROWS}{second}")));
    for (old, new) in [
        ("(at 0)", "(at -0)"),
        ("(at 0)", "(at 1)"),
        ("long 1", "long 01"),
        ("long 1", "long 2"),
        ("long 1", "long -1"),
        ("short", "shorts"),
        ("bff0", "bff1"),
        ("bff0", "BFF0"),
        ("(size 0", "(size "),
        ("))\n(row", ")) \n(row"),
        ("))\n(row", "))\r\n(row"),
        ("))\n(row", "))\n\n(row"),
    ] {
        assert!(wrong(SHEET, &ROWS.replacen(old, new, 1)), "{old} {new}");
    }
}
