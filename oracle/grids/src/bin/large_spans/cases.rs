//! The cases: every kind of spans at the largest sizes and at some 1,000, and each refusal at its border.

use crate::rng::Rng;
use crate::values::{any, any_i64, extreme, infinity, nan, zero};
use grids::spans::{Ask, Lent};

/// The most spans that are taken.
const MOST: usize = 16384;

pub type Case = grids::cases::Case<Ask>;

#[derive(Clone, Copy)]
enum Kind {
    Random,
    /// starts that never fall, spans that overlap
    InOrder,
    Backwards,
    /// four different instants
    Ties,
    /// most spans are never live: they end at their start or before
    Unborn,
    /// the ends of i64 and what lies beside them, and any whole number
    Extreme,
    /// each span within the one before, so that all are live at the last start
    Nested,
    /// one span, over and over
    Same,
}

const KINDS: [(Kind, &str); 8] = [
    (Kind::Random, "random"),
    (Kind::InOrder, "in order"),
    (Kind::Backwards, "backwards"),
    (Kind::Ties, "ties"),
    (Kind::Unborn, "ends not after starts"),
    (Kind::Extreme, "extremes"),
    (Kind::Nested, "nested"),
    (Kind::Same, "all the same"),
];

fn instant(rng: &mut Rng) -> i64 {
    if rng.one_in(2) {
        extreme(rng)
    } else {
        any_i64(rng)
    }
}

/// Span i of n.
fn span(rng: &mut Rng, kind: Kind, i: i64, n: i64) -> (i64, i64) {
    match kind {
        Kind::Random => {
            let start = rng.between(-1_000_000_000, 1_000_000_000);
            (start, start + rng.between(-1_000, 20_000_000))
        }
        Kind::InOrder => (10 * i + rng.between(0, 10), 10 * i + rng.between(0, 400)),
        Kind::Backwards => (
            10 * (n - i) + rng.between(0, 10),
            10 * (n - i) + rng.between(0, 400),
        ),
        Kind::Ties => (rng.between(0, 3), rng.between(0, 4)),
        Kind::Unborn => {
            let start = rng.between(-n, n);
            let least = if rng.one_in(8) { 1 } else { -3 };
            (start, start + rng.between(least, least.max(0)))
        }
        Kind::Extreme => (instant(rng), instant(rng)),
        Kind::Nested => (i, i64::MAX - i),
        Kind::Same => (7, 8),
    }
}

#[derive(Clone, Copy)]
enum Sides {
    Both,
    /// zeros of both signs, NaN, infinities, the least numbers and any other
    Wild,
    Long,
    Short,
}

const SIDES: [(Sides, &str); 4] = [
    (Sides::Both, "both sides"),
    (Sides::Wild, "wild sides"),
    (Sides::Long, "longs only"),
    (Sides::Short, "shorts only"),
];

fn side(rng: &mut Rng, sides: Sides) -> f64 {
    match sides {
        Sides::Both => rng.pick(&[1.0, -1.0]),
        Sides::Wild => match rng.below(6) {
            0 => nan(rng),
            1 => zero(rng),
            2 => infinity(rng),
            3 => rng.pick(&[5e-324, -5e-324]),
            4 => any(rng),
            _ => rng.pick(&[1.0, -1.0]),
        },
        Sides::Long => 0.5,
        Sides::Short => rng.pick(&[-1.0, 0.0]),
    }
}

/// Numbers of any kind, so that what must not be looked at shows.
fn numbers(rng: &mut Rng, count: usize) -> Vec<f64> {
    (0..count).map(|_| any(rng)).collect()
}

/// An ask that is accepted, with some room to spare in each lent list.
fn ask(rng: &mut Rng, kind: Kind, sides: Sides, n: usize, budget: bool) -> Ask {
    let spans = (0..n).map(|i| span(rng, kind, i as i64, n as i64));
    let (starts, ends) = spans.collect::<Vec<_>>().into_iter().unzip();
    let sides = (0..n).map(|_| side(rng, sides)).collect();
    let spare = rng.size(0, 3);
    let lent = if budget {
        Lent::Budget(numbers(rng, n + spare))
    } else {
        let more = rng.size(0, 3);
        Lent::Counts(numbers(rng, n + spare), numbers(rng, n + more))
    };
    Ask {
        starts,
        ends,
        sides,
        lent,
    }
}

struct Cases {
    rng: Rng,
    list: Vec<Case>,
}

impl Cases {
    fn add(&mut self, name: &str, refusal: u64, ask: Ask) {
        let what = match ask.lent {
            Lent::Counts(..) => "counts",
            Lent::Budget(_) => "budget",
        };
        let rooms: Vec<usize> = ask.lent.lists().iter().map(|list| list.len()).collect();
        let name = format!(
            "{what}, {} starts, {} ends, {} sides, room {rooms:?}, {name}",
            ask.starts.len(),
            ask.ends.len(),
            ask.sides.len()
        );
        self.list.push(Case { name, ask, refusal });
    }

    fn accepted(
        &mut self,
        (kind, name): (Kind, &str),
        (sides, of): (Sides, &str),
        n: usize,
        budget: bool,
    ) {
        let ask = ask(&mut self.rng, kind, sides, n, budget);
        self.add(&format!("{name}, {of}"), 0, ask);
    }

    /// The Rust takes up to a second for each.
    fn large(&mut self) {
        for (i, kind) in KINDS.into_iter().enumerate() {
            self.accepted(kind, SIDES[i % 2], MOST, false);
            self.accepted(kind, SIDES[1 - i % 2], MOST, true);
        }
        self.accepted(KINDS[0], SIDES[2], MOST - 1, true);
        self.accepted(KINDS[1], SIDES[3], MOST - 1, true);
    }

    fn middling(&mut self) {
        for kind in KINDS {
            for sides in SIDES {
                for budget in [false, true] {
                    for (low, high) in [(900, 1100), (1023, 1025), (2000, 3000)] {
                        let n = self.rng.size(low, high);
                        self.accepted(kind, sides, n, budget);
                    }
                }
            }
        }
    }

    /// No spans at all, and one; lent lists with no place to spare.
    fn small(&mut self) {
        for budget in [false, true] {
            for n in [0, 1, 2, 1000] {
                let mut ask = ask(&mut self.rng, Kind::Ties, Sides::Wild, n, budget);
                for list in ask.lent.lists_mut() {
                    list.truncate(n);
                }
                self.add("no place to spare", 0, ask);
            }
        }
    }

    /// One list longer or shorter than the others, at both sides of the most that is taken.
    fn unequal(&mut self, whole: &Ask) {
        for by in [-1, 1] {
            let to = whole.starts.len().wrapping_add_signed(by);
            let mut ask = whole.clone();
            ask.starts.resize(to, 0);
            self.add("unequal", 10, ask);
            let mut ask = whole.clone();
            ask.ends.resize(to, 0);
            self.add("unequal", 10, ask);
            let mut ask = whole.clone();
            ask.sides.resize(to, 0.0);
            self.add("unequal", 10, ask);
        }
        let mut ask = whole.clone();
        ask.sides.clear();
        for list in ask.lent.lists_mut() {
            list.clear();
        }
        self.add("unequal, and no room", 10, ask);
    }

    /// One list too short at a time, by one and wholly.
    fn tight(&mut self, whole: &Ask, refusal: u64) {
        let n = whole.starts.len();
        for place in 0..whole.lent.lists().len() {
            for room in [n - 1, 0] {
                let mut ask = whole.clone();
                ask.lent.lists_mut()[place].truncate(room);
                self.add("short room", refusal, ask);
            }
        }
    }

    fn refused(&mut self, budget: bool) {
        for n in [1000, MOST] {
            let whole = ask(&mut self.rng, Kind::Random, Sides::Both, n, budget);
            self.unequal(&whole);
            self.tight(&whole, 8);
        }
        let whole = ask(&mut self.rng, Kind::Random, Sides::Wild, MOST + 1, budget);
        self.unequal(&whole);
        self.tight(&whole, 11);
        self.add("too many", 11, whole);
        let far = ask(&mut self.rng, Kind::Ties, Sides::Wild, 10 * MOST, budget);
        self.add("far too many", 11, far);
    }
}

pub fn all(seed: u64) -> Vec<Case> {
    let mut cases = Cases {
        rng: Rng::new(seed),
        list: vec![],
    };
    cases.large();
    cases.middling();
    cases.small();
    cases.refused(false);
    cases.refused(true);
    cases.list
}
