//! Requests on standard input, one a line, and one answer a line on standard output.

use std::io::{self, BufRead, BufReader, BufWriter, Write};

fn main() -> io::Result<()> {
    let mut input = BufReader::with_capacity(1 << 20, io::stdin().lock());
    let mut output = BufWriter::with_capacity(1 << 20, io::stdout().lock());
    let mut line = Vec::new();
    while input.read_until(b'\n', &mut line)? > 0 {
        // A last line that no newline closes is no request.
        let answer = match line.strip_suffix(b"\n") {
            Some(request) => oracle::answer(request),
            None => "bad".to_string(),
        };
        output.write_all(answer.as_bytes())?;
        output.write_all(b"\n")?;
        line.clear();
    }
    output.flush()
}
