//! Runs the hall on standard input and prints its report; the exit status is 0 or the refusal.

use kapokdrill::Hall;
use std::io::{self, Read, Write};
use std::process::ExitCode;

fn main() -> io::Result<ExitCode> {
    let mut file = Vec::new();
    io::stdin().lock().read_to_end(&mut file)?;
    let mut hall = Hall::new();
    let (code, report) = hall.run(&file);
    io::stdout().lock().write_all(report)?;
    Ok(ExitCode::from(code as u8))
}
