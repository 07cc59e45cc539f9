//! What occurred: for each name that cases have, how many sheets and how they were answered.

use crate::cases::Case;
use std::collections::{BTreeSet, HashMap};

#[derive(Default)]
struct Tally {
    sheets: u64,
    rows: u64,
    refused_11: u64,
    refused_15: u64,
    nothing: u64,
    places: BTreeSet<usize>,
}

impl Tally {
    fn count(&mut self, answer: &[u8]) {
        self.sheets += 1;
        let kind = match answer {
            [] => &mut self.nothing,
            b"(refused 11)\n" => &mut self.refused_11,
            _ if answer.starts_with(b"(refused 15 ") => &mut self.refused_15,
            _ => &mut self.rows,
        };
        *kind += 1;
    }

    /// The places that were gone through, and how many between the first and the last were not.
    fn places(&self) -> String {
        let (Some(first), Some(last)) = (self.places.first(), self.places.last()) else {
            return String::new();
        };
        match last - first + 1 - self.places.len() {
            _ if first == last => String::new(),
            0 => format!("  each of {first} to {last}"),
            without => format!("  of {first} to {last}, without {without} of them"),
        }
    }

    fn print(&self, name: &str) {
        println!(
            "{name:54} {:>7} {:>7} {:>7} {:>7} {:>7}{}",
            self.sheets,
            self.rows,
            self.refused_11,
            self.refused_15,
            self.nothing,
            self.places()
        );
    }
}

pub struct Table {
    all: Tally,
    named: HashMap<String, Tally>,
}

impl Table {
    pub fn new() -> Table {
        Table {
            all: Tally::default(),
            named: HashMap::new(),
        }
    }

    pub fn count(&mut self, case: &Case, answer: &[u8]) {
        self.all.count(answer);
        for name in &case.names {
            let tally = self.named.entry(name.clone()).or_default();
            tally.count(answer);
            tally.places.extend(case.place);
        }
    }

    /// By name, and all together last.
    pub fn print(&self) {
        let heads = ["sheets", "rows", "11", "15", "nothing"];
        let [a, b, c, d, e] = heads;
        println!("{:54} {a:>7} {b:>7} {c:>7} {d:>7} {e:>7}", "");
        let mut names: Vec<&String> = self.named.keys().collect();
        names.sort();
        for name in names {
            self.named[name].print(name);
        }
        self.all.print("all sheets");
    }
}
