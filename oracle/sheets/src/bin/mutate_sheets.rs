//! `mutate_sheets SEED COUNT PROGRAM`: mutated sheets to the port alone, whose every answer must have
//! the form of one and leave the room behind it as it was; each 50th also to the program by standard
//! input, which must write the same. Exit status 1 where anything is wrong.

#[path = "mutate_sheets/mutations.rs"]
mod mutations;
#[path = "mutate_sheets/program.rs"]
mod program;

use mutations::Mutations;
use sheets::port::{Room, ENOUGH};
use sheets::{form, seed_and_count, shown};
use std::process::exit;

const USAGE: &str = "mutate_sheets SEED COUNT PROGRAM";

/// Each so manieth sheet goes to the program.
const PROGRAM_EACH: u64 = 50;

/// So many faults are shown.
const SHOWN: u64 = 10;

/// How often each kind of answer came, and the longest sheet.
#[derive(Default)]
struct Tally {
    rows: u64,
    refused_11: u64,
    refused_15: u64,
    nothing: u64,
    lines: u64,
    longest: usize,
}

impl Tally {
    fn count(&mut self, sheet: &[u8], answer: &[u8]) {
        self.longest = self.longest.max(sheet.len());
        match answer {
            [] => self.nothing += 1,
            b"(refused 11)\n" => self.refused_11 += 1,
            _ if answer.starts_with(b"(refused") => self.refused_15 += 1,
            _ => {
                self.rows += 1;
                self.lines += answer.iter().filter(|byte| **byte == b'\n').count() as u64;
            }
        }
    }
}

/// The port's answer, or what is wrong with it.
fn answered(room: &mut Room, sheet: &[u8]) -> Result<Vec<u8>, String> {
    let answer = room.answer(sheet, ENOUGH)?;
    match form::fault(sheet, &answer) {
        Some(why) => Err(format!("{why}: {}", shown(&answer))),
        None => Ok(answer),
    }
}

fn main() {
    let (seed, count) = seed_and_count(USAGE);
    let Some(program) = std::env::args().nth(3) else {
        eprintln!("usage: {USAGE}");
        exit(2)
    };
    let mut mutations = Mutations::new(seed);
    let mut room = Room::new();
    let mut tally = Tally::default();
    let mut to_program = 0;
    let mut faults = 0;
    for number in 0..count {
        let sheet = mutations.next();
        let mut result = answered(&mut room, &sheet);
        if let Ok(answer) = &result {
            tally.count(&sheet, answer);
            if number % PROGRAM_EACH == 0 {
                to_program += 1;
                let same = program::writes(&program, &sheet, answer);
                let exact = same.and_then(|()| room.answers_exactly(&sheet, answer));
                result = exact.map(|()| Vec::new());
            }
        }
        if let Err(why) = result {
            faults += 1;
            if faults <= SHOWN {
                println!("WRONG sheet {number}: {why}\n  sheet {}", shown(&sheet));
            }
        }
    }
    println!("rows {} ({} in all)", tally.rows, tally.lines);
    println!("refused 11 {}", tally.refused_11);
    println!("refused 15 {}", tally.refused_15);
    println!("nothing {}", tally.nothing);
    println!("longest sheet {} bytes", tally.longest);
    println!("{count} sheets, {to_program} of them also to the program, {faults} wrong");
    exit(i32::from(faults > 0));
}
