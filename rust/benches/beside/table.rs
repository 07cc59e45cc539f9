//! Markdown.

use crate::measure::{median, Row};

/// Three digits or so.
fn short(x: f64) -> String {
    match x {
        _ if x >= 99.95 => format!("{x:.0}"),
        _ if x >= 9.995 => format!("{x:.1}"),
        _ => format!("{x:.2}"),
    }
}

/// With a comma before every three digits.
pub fn grouped(n: usize) -> String {
    match n {
        0..1_000 => n.to_string(),
        _ => format!("{},{:03}", grouped(n / 1_000), n % 1_000),
    }
}

fn time(seconds: f64) -> String {
    let (scale, unit) = match seconds {
        _ if seconds < 1e-6 => (1e9, "ns"),
        _ if seconds < 1e-3 => (1e6, "µs"),
        _ if seconds < 1.0 => (1e3, "ms"),
        _ => (1.0, "s"),
    };
    format!("{} {unit}", short(seconds * scale))
}

fn listed(numbers: &[f64]) -> String {
    numbers
        .iter()
        .map(|x| short(*x))
        .collect::<Vec<_>>()
        .join(", ")
}

pub fn ratios(title: &str, rows: &[&Row]) {
    println!("\n| {title} | ratio | three runs | Rust | port |");
    println!("|---|---|---|---|---|");
    for row in rows {
        let Row { name, unit, .. } = row;
        let (rust, port) = (time(median(&row.rust)), time(median(&row.port)));
        let runs = row.ratios();
        let (ratio, runs) = (short(median(&runs)), listed(&runs));
        println!("| {name} | {ratio} | {runs} | {rust} a {unit} | {port} a {unit} |");
    }
}

/// The same thing at growing sizes.
pub struct Growth<'a> {
    pub name: &'static str,
    pub sizes: &'static str,
    pub rows: &'a [Row; 3],
}

impl Growth<'_> {
    /// The whole work at each size, beside the smallest.
    fn of(&self, seconds: impl Fn(&Row) -> f64) -> String {
        let works = self
            .rows
            .each_ref()
            .map(|row| seconds(row) * row.units as f64);
        listed(&works.map(|work| work / works[0]))
    }
}

pub fn growths(growths: &[Growth]) {
    println!("\n| growth | sizes | port's seconds | Rust's seconds |");
    println!("|---|---|---|---|");
    for growth in growths {
        let Growth { name, sizes, .. } = growth;
        let port = growth.of(|row| median(&row.port));
        let rust = growth.of(|row| median(&row.rust));
        println!("| {name} | {sizes} | {port} | {rust} |");
    }
}
