//! What a comparison over a list of cases has whatever it compares.

use std::process::exit;

pub struct Case<Ask> {
    pub name: String,
    pub ask: Ask,
    /// The number that the port must refuse by; 0 where the Rust is asked too.
    pub refusal: u64,
}

impl<Ask> Case<Ask> {
    /// What must be left: all as it was where the case is one that is refused, else what the Rust leaves.
    pub fn wanted<Left>(&self, rust: fn(&Ask) -> Left, unchanged: fn(&Ask, u64) -> Left) -> Left {
        match self.refusal {
            0 => rust(&self.ask),
            number => unchanged(&self.ask, number),
        }
    }

    /// One line, and one more of the first difference; true where the sides agree.
    pub fn agree(&self, wanted: &Side, own: &Side) -> bool {
        if wanted.words == own.words {
            println!("equal   {}: {}", self.name, own.told);
            return true;
        }
        println!("DIFFERS {}: {} and {}", self.name, wanted.told, own.told);
        let mut pairs = wanted.words.iter().zip(&own.words).enumerate();
        match pairs.find(|(_, (theirs, ours))| theirs != ours) {
            Some((at, (theirs, ours))) => {
                println!("  number {at}: Rust {theirs:016x}, port {ours:016x}");
            }
            None => println!("  numbers: {} and {}", wanted.words.len(), own.words.len()),
        }
        false
    }
}

/// What a side leaves: in a word or two, and bit for bit.
pub struct Side {
    pub told: String,
    pub words: Vec<u64>,
}

/// The seed that the command line gives.
pub fn seed(program: &str) -> u64 {
    let word = std::env::args().nth(1);
    word.and_then(|word| word.parse().ok()).unwrap_or_else(|| {
        eprintln!("usage: {program} SEED");
        exit(2)
    })
}

/// Compares each case and ends: exit status 1 where any differs.
pub fn compare_all<Ask>(cases: &[Case<Ask>], agrees: impl Fn(&Case<Ask>) -> bool) -> ! {
    let differing = cases.iter().filter(|case| !agrees(case)).count();
    println!("{} cases, {differing} differ", cases.len());
    exit(i32::from(differing > 0));
}
