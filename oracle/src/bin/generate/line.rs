//! One request line under construction: words with one blank between, the newline at the end.

pub const LIMIT: usize = 65_536;

#[derive(Default)]
pub struct Line {
    pub bytes: Vec<u8>,
    /// Whether a step limit was written, and the greatest whole number that was: damage must
    /// never turn a great number into a limit that nobody could wait for.
    pub has_step_limit: bool,
    pub greatest: u64,
}

impl Line {
    pub fn start(&mut self, name: &str) {
        self.bytes.clear();
        self.bytes.extend_from_slice(name.as_bytes());
        self.has_step_limit = false;
        self.greatest = 0;
    }

    pub fn word(&mut self, word: &str) {
        self.bytes.push(b' ');
        self.bytes.extend_from_slice(word.as_bytes());
    }

    pub fn f(&mut self, x: f64) {
        let bits = x.to_bits();
        self.bytes.push(b' ');
        for place in (0..16).rev() {
            self.bytes
                .push(b"0123456789abcdef"[(bits >> (4 * place)) as usize & 15]);
        }
    }

    pub fn fs(&mut self, xs: &[f64]) {
        for x in xs {
            self.f(*x);
        }
    }

    pub fn n(&mut self, n: u64) {
        self.greatest = self.greatest.max(n);
        self.word(&n.to_string());
    }

    pub fn step_limit(&mut self, n: u64) {
        self.has_step_limit = true;
        self.n(n);
    }

    pub fn i(&mut self, i: i64) {
        self.word(&i.to_string());
    }

    pub fn list(&mut self, xs: &[f64]) {
        self.n(xs.len() as u64);
        self.fs(xs);
    }

    pub fn instants(&mut self, is: &[i64]) {
        self.n(is.len() as u64);
        for i in is {
            self.i(*i);
        }
    }

    pub fn close(&mut self) {
        self.bytes.push(b'\n');
    }
}
