//! Walks and their scaled twins, for demand 3 on a program that answers requests.
//!
//! `twins make` reads requests of walks and writes four for each ordinary one: the walk, its twin
//! (the k-th moment 2^(k s) times, the mean 2^s times, another error before), and both again with
//! one step. `twins check` reads `request<tab>answer` lines and compares twins: the same count and
//! reason or refusal, the last iterate's moments scaled, and of one step the parameters scaled.

use std::io::{self, BufRead, BufWriter, Write};
use std::process::exit;

const SHIFTS: [i32; 5] = [1, -3, 7, -20, 40];
const STATE: usize = 11;

fn float(word: &str) -> f64 {
    f64::from_bits(u64::from_str_radix(word, 16).expect("a fraction"))
}

fn word(x: f64) -> String {
    let bits = if x.is_nan() {
        0x7ff8000000000000
    } else {
        x.to_bits()
    };
    format!("{bits:016x}")
}

/// 2^(k s) times: exact, as both sides are ordinary.
fn scaled(x: f64, k: i32, s: i32) -> f64 {
    x * 2f64.powi(k * s)
}

/// Zero, or of a size that leaves the powers and quotients of the steps in range.
fn ordinary(x: f64) -> bool {
    x == 0.0 || (x.abs() > 2f64.powi(-60) && x.abs() < 2f64.powi(60))
}

struct Walk {
    variant: String,
    moments: Vec<f64>,
    mean: f64,
    weight: String,
    epsilon: String,
    max_iter: String,
}

impl Walk {
    fn read(line: &str) -> Option<Walk> {
        let words: Vec<&str> = line.strip_prefix("walk ")?.split(' ').collect();
        let n: usize = words.get(1)?.parse().ok()?;
        if words.len() != 2 + n + 4 + STATE {
            return None;
        }
        let moments: Vec<f64> = words[2..2 + n].iter().map(|w| float(w)).collect();
        let mean = float(words[2 + n]);
        let weight = float(words[3 + n]);
        if !moments.iter().chain([&mean]).all(|x| ordinary(*x)) {
            return None;
        }
        // a weight that is refused may be any
        if weight >= 0.0 && !ordinary(weight) && weight < 1.0 {
            return None;
        }
        Some(Walk {
            variant: words[0].into(),
            moments,
            mean,
            weight: words[3 + n].into(),
            epsilon: words[4 + n].into(),
            max_iter: words[5 + n].into(),
        })
    }

    fn request(&self, s: i32, max_iter: &str, error: f64) -> String {
        let mut line = format!("walk {} {}", self.variant, self.moments.len());
        for (m, k) in self.moments.iter().zip(1..) {
            line += &format!(" {}", word(scaled(*m, k, s)));
        }
        line += &format!(
            " {} {} {} {}",
            word(scaled(self.mean, 1, s)),
            self.weight,
            self.epsilon,
            max_iter
        );
        for i in 0..STATE {
            line += &format!(" {}", word(if i == 5 { error } else { 0.0 }));
        }
        line
    }
}

fn make() {
    let mut out = BufWriter::new(io::stdout().lock());
    let mut made = 0;
    for line in io::stdin().lock().lines() {
        let Some(walk) = Walk::read(&line.expect("a line")) else {
            continue;
        };
        let s = SHIFTS[made % SHIFTS.len()];
        made += 1;
        for (max_iter, error) in [(walk.max_iter.as_str(), 1.0), ("1", f64::INFINITY)] {
            for request in [
                walk.request(0, max_iter, error),
                walk.request(s, max_iter, f64::INFINITY),
            ] {
                writeln!(out, "{request}").expect("room");
            }
        }
    }
}

/// The words of two answers agree, where those from `first` on are of these degrees.
fn agree(a: &str, b: &str, s: i32, first: usize, degrees: [i32; 5]) -> bool {
    let a: Vec<&str> = a.split(' ').collect();
    let b: Vec<&str> = b.split(' ').collect();
    if a[0] != "ok" || b[0] != "ok" {
        return a == b;
    }
    a[..3] == b[..3]
        && (0..5).all(|i| word(scaled(float(a[first + i]), degrees[i], s)) == b[first + i])
}

fn check() {
    let lines: Vec<String> = io::stdin()
        .lock()
        .lines()
        .map(|l| l.expect("a line"))
        .collect();
    let mut wrong = 0;
    let mut steps = 0u64;
    for (i, four) in lines.chunks(4).enumerate() {
        let s = SHIFTS[i % SHIFTS.len()];
        let answers: Vec<&str> = four
            .iter()
            .map(|l| l.split('\t').nth(1).expect("an answer"))
            .collect();
        steps += answers[0]
            .split(' ')
            .nth(1)
            .and_then(|w| w.parse::<u64>().ok())
            .unwrap_or(0);
        let walks = agree(answers[0], answers[1], s, 9, [1, 2, 3, 4, 5]);
        let firsts = agree(answers[2], answers[3], s, 3, [1, 1, 1, 1, 0]);
        if !walks || !firsts {
            wrong += 1;
            if wrong <= 10 {
                println!("s = {s}");
                four.iter().for_each(|l| println!("  {l}"));
            }
        }
    }
    println!(
        "{} walks of {steps} steps, each with its twin: {wrong} part",
        lines.len() / 4
    );
    exit((wrong > 0) as i32);
}

fn main() {
    match std::env::args().nth(1).as_deref() {
        Some("make") => make(),
        Some("check") => check(),
        _ => {
            eprintln!("usage: twins make | twins check");
            exit(2);
        }
    }
}
