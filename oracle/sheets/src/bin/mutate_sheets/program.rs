//! The program that counts sheets, asked by standard input.

use std::io::{ErrorKind, Write};
use std::process::{Command, Stdio};

/// So many bytes the program reads; what comes after them it may leave.
const READ: usize = 65_537;

/// Nothing where the program writes the answer and ends well; else what it does.
pub fn writes(program: &str, sheet: &[u8], answer: &[u8]) -> Result<(), String> {
    let child = Command::new(program)
        .stdin(Stdio::piped())
        .stdout(Stdio::piped())
        .stderr(Stdio::piped())
        .spawn();
    let mut child = child.map_err(|why| format!("{program}: {why}"))?;
    // Written whole before the answer is read: what the program leaves fits the pipe.
    let written = child.stdin.take().expect("it is piped").write_all(sheet);
    let output = child.wait_with_output();
    let output = output.map_err(|why| format!("{program}: {why}"))?;
    match written {
        Err(why) if why.kind() != ErrorKind::BrokenPipe || sheet.len() <= READ => {
            return Err(format!("the program did not read: {why}"));
        }
        _ => {}
    }
    if output.status.code() != Some(0) {
        return Err(format!("the program ended with {}", output.status));
    }
    if output.stdout != answer {
        return Err("the program writes something else than the library".to_string());
    }
    if !output.stderr.is_empty() {
        return Err("the program complains".to_string());
    }
    Ok(())
}
