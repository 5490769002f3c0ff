//! The converter as a program: an hMETIS file on standard input, the catalogue on standard output.
//! Rests on the library; the exit status is the number of the refusal.

use std::io::{self, Read, Write};
use std::process::ExitCode;

fn main() -> io::Result<ExitCode> {
    let mut input = Vec::new();
    io::stdin().lock().read_to_end(&mut input)?;
    let outcome = reference::converter::convert(&input);
    io::stdout().lock().write_all(&outcome.report)?;
    Ok(ExitCode::from(outcome.code as u8))
}
