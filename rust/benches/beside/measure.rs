//! Both sides of one thing, in turn, three times.

/// A run goes on until each side has worked so many seconds,
const LEAST: f64 = 0.05;
/// in pieces of so many, of the one side and then of the other.
const PIECE: f64 = 0.01;
const RUNS: usize = 3;

/// Does its work so many times, and gives the processor's seconds of that.
pub type Side<'a> = dyn FnMut(usize) -> f64 + 'a;

/// What was measured: the seconds of one unit of the work in each run.
pub struct Row {
    pub name: String,
    /// What a unit is: a call, a step, a lot; and how many of them one doing of the work has.
    pub unit: &'static str,
    pub units: usize,
    pub rust: [f64; RUNS],
    pub port: [f64; RUNS],
}

pub fn median(of: &[f64; RUNS]) -> f64 {
    let mut sorted = *of;
    sorted.sort_by(f64::total_cmp);
    sorted[RUNS / 2]
}

impl Row {
    pub fn ratios(&self) -> [f64; RUNS] {
        std::array::from_fn(|run| self.rust[run] / self.port[run])
    }
}

/// How many times make a piece.
fn piece(side: &mut Side) -> usize {
    let mut times = 1;
    while side(times) < PIECE {
        times *= 2;
    }
    times
}

/// A side with what it has done in this run.
struct Worker<'a, 'b> {
    side: &'a mut Side<'b>,
    piece: usize,
    times: usize,
    seconds: f64,
}

impl<'a, 'b> Worker<'a, 'b> {
    fn new(side: &'a mut Side<'b>) -> Worker<'a, 'b> {
        Worker {
            piece: piece(side),
            side,
            times: 0,
            seconds: 0.0,
        }
    }

    fn lacks(&self) -> bool {
        self.seconds < LEAST
    }

    fn go_on(&mut self) {
        if self.lacks() {
            self.seconds += (self.side)(self.piece);
            self.times += self.piece;
        }
    }

    /// The seconds of doing the work once; the next run begins.
    fn end_run(&mut self) -> f64 {
        let each = self.seconds / self.times as f64;
        (self.times, self.seconds) = (0, 0.0);
        each
    }
}

pub fn measure(
    name: String,
    (unit, units): (&'static str, usize),
    rust: &mut Side,
    port: &mut Side,
) -> Row {
    eprintln!("{name}");
    let mut workers = [Worker::new(rust), Worker::new(port)];
    let (mut rust, mut port) = ([0.0; RUNS], [0.0; RUNS]);
    for run in 0..RUNS {
        while workers.iter().any(Worker::lacks) {
            workers.iter_mut().for_each(Worker::go_on);
        }
        [rust[run], port[run]] = workers.each_mut().map(|side| side.end_run() / units as f64);
    }
    Row {
        name,
        unit,
        units,
        rust,
        port,
    }
}
