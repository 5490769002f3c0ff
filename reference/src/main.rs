//! The program: a sale file on standard input, its report on standard output.
//! Rests on the library; the exit status is the engine's number.

use std::io::{self, Read, Write};
use std::process::ExitCode;

fn main() -> io::Result<ExitCode> {
    let mut file = Vec::new();
    io::stdin().lock().read_to_end(&mut file)?;
    let outcome = reference::run(&file);
    io::stdout().lock().write_all(&outcome.report)?;
    Ok(ExitCode::from(outcome.code as u8))
}
