//! `compare_sheets SEED COUNT`: the port's count sheet beside the reference, on sheets good and
//! damaged, byte by byte. Exit status 1 where any answer differs.

#[path = "compare_sheets/cases.rs"]
mod cases;
#[path = "compare_sheets/large.rs"]
mod large;
#[path = "compare_sheets/numbers.rs"]
mod numbers;
#[path = "compare_sheets/table.rs"]
mod table;
#[path = "compare_sheets/text.rs"]
mod text;

use cases::{Case, Cases};
use oracle::sheet;
use sheets::port::{Room, ENOUGH};
use sheets::{seed_and_count, shown};
use std::process::exit;
use table::Table;

/// So many differences are shown.
const SHOWN: u64 = 10;

/// Nothing where the port's answer is the one wanted, in ample room and, if asked, in scarce room.
fn difference(room: &mut Room, sheet: &[u8], wanted: &[u8], scarce: bool) -> Option<String> {
    match room.answer(sheet, ENOUGH) {
        Ok(answer) if answer == wanted => {}
        Ok(answer) => return Some(shown(&answer)),
        Err(why) => return Some(why),
    }
    if scarce {
        return room.answers_exactly(sheet, wanted).err();
    }
    None
}

fn show(number: u64, case: &Case, wanted: &[u8], own: &str) {
    println!("DIFFERS sheet {number}: {}", case.names.join(", "));
    println!("  sheet {}", shown(&case.sheet));
    println!("  Rust  {}", shown(wanted));
    println!("  port  {own}");
}

fn main() {
    let (seed, count) = seed_and_count("compare_sheets SEED COUNT");
    let mut cases = Cases::new(seed);
    let mut room = Room::new();
    let mut table = Table::new();
    let mut differing = 0;
    for number in 0..count {
        let case = cases.next();
        let wanted = sheet::answer(&case.sheet).into_bytes();
        if let Some(own) = difference(&mut room, &case.sheet, &wanted, number % 8 == 0) {
            differing += 1;
            if differing <= SHOWN {
                show(number, &case, &wanted, &own);
            }
        }
        table.count(&case, &wanted);
    }
    table.print();
    println!("{count} sheets compared, {differing} differ");
    exit(i32::from(differing > 0));
}
