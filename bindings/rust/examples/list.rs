//! Runs a list of calls on the catalogue on standard input, apart from it, and prints their answers:
//! lot 1 is withdrawn, a lot of 10 bales comes to session 1 for buyers 1 and 2, and lot 5 is joined
//! into lot 2. The exit status is 0 or the refusal.

use kapokdrill::Memory;
use std::io::{self, Read, Write};
use std::process::ExitCode;

fn main() -> io::Result<ExitCode> {
    let mut file = Vec::new();
    io::stdin().lock().read_to_end(&mut file)?;
    // N's own numbers stand in the operands, from place 0 on, four of them.
    let operands = [10, 1, 1, 2];
    let list = [
        [b'X'.into(), 1, 0],
        [b'N'.into(), 0, 4],
        [b'J'.into(), 2, 5],
    ];
    let mut memory = Memory::default();
    let (outcome, answers) = memory.run_list(&file, list.as_flattened(), &operands);
    io::stdout().lock().write_all(answers)?;
    if outcome.code == 0 {
        println!(
            "total {}, joins {}",
            outcome.total,
            outcome.stack.joins().count()
        );
    }
    Ok(ExitCode::from(outcome.code as u8))
}
