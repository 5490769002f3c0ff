//! Runs the sale on standard input and prints its report; the exit status is 0 or the refusal. With
//! the argument `fine` it goes through the superfine desk's entry.

use kapokdrill::{Desk, Memory};
use std::io::{self, Read, Write};
use std::process::ExitCode;

fn main() -> io::Result<ExitCode> {
    let desk = match std::env::args().nth(1).as_deref() {
        Some("fine") => Desk::Superfine,
        _ => Desk::Main,
    };
    let mut file = Vec::new();
    io::stdin().lock().read_to_end(&mut file)?;
    let mut memory = Memory::new(desk);
    let (code, report) = memory.run(&file);
    io::stdout().lock().write_all(report)?;
    Ok(ExitCode::from(code as u8))
}
