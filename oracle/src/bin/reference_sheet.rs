//! The count sheet of document 01 by `oracle::sheet`. Without an argument standard input is one
//! sheet. With `many` it is a sequence of sheets, each behind a line with its length in bytes; each
//! answer then stands behind such a line too.

use oracle::sheet::answer;
use std::io::{self, BufRead, BufReader, BufWriter, Read, Write};

fn one() -> io::Result<()> {
    let mut sheet = Vec::new();
    io::stdin().lock().read_to_end(&mut sheet)?;
    io::stdout().lock().write_all(answer(&sheet).as_bytes())
}

fn many() -> io::Result<()> {
    let mut input = BufReader::new(io::stdin().lock());
    let mut output = BufWriter::new(io::stdout().lock());
    let mut length = String::new();
    while input.read_line(&mut length)? > 0 {
        let bytes = length.trim_end().parse().map_err(io::Error::other)?;
        let mut sheet = vec![0; bytes];
        input.read_exact(&mut sheet)?;
        let answer = answer(&sheet);
        write!(output, "{}\n{answer}", answer.len())?;
        length.clear();
    }
    output.flush()
}

fn main() -> io::Result<()> {
    let args: Vec<String> = std::env::args().skip(1).collect();
    match args.iter().map(String::as_str).collect::<Vec<_>>()[..] {
        [] => one(),
        ["many"] => many(),
        _ => {
            eprintln!("usage: reference_sheet [many]");
            std::process::exit(2)
        }
    }
}
