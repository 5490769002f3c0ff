//! Prints one buyer's sheet of the sale on standard input in plain words: the sessions to sit in, and the
//! lots marked in each. The buyer's number is the argument; without it buyer 1. The exit status is 0, the
//! refusal, or 64 for a number that names no buyer.

use std::io::{self, Read, Write};
use std::process::ExitCode;

/// The status for a buyer that the sale has not; none of the engine's codes.
const NO_SUCH_BUYER: u8 = 64;

/// The fields of a line behind its first word.
fn fields(line: &str) -> Vec<&str> {
    line.split(',').skip(1).collect()
}

/// One buyer's part of the sheets in words.
fn in_words(sheets: &str, buyer: &str) -> Option<String> {
    let mut lines = sheets.lines();
    let head = lines.find(|line| line.starts_with("SHEET,") && fields(line)[0] == buyer)?;
    let mut words = format!("buyer {buyer}, sessions to sit in: {}", fields(head)[1]);
    let mut session = "";
    for line in lines.take_while(|line| line.starts_with("AT,")) {
        let at = fields(line);
        if at[0] == session {
            words += &format!(", {}", at[1]);
        } else {
            session = at[0];
            words += &format!("\nsession {session}: lots {}", at[1]);
        }
    }
    Some(words + "\n")
}

fn main() -> io::Result<ExitCode> {
    let buyer = std::env::args().nth(1).unwrap_or("1".into());
    let mut file = Vec::new();
    io::stdin().lock().read_to_end(&mut file)?;
    let (code, sheets) = kapokdrill::sheets(&file);
    let mut output = io::stdout().lock();
    if code != 0 {
        output.write_all(&sheets)?;
        return Ok(ExitCode::from(code as u8));
    }
    match in_words(&String::from_utf8_lossy(&sheets), &buyer) {
        Some(words) => output.write_all(words.as_bytes())?,
        None => {
            eprintln!("no buyer {buyer}");
            return Ok(ExitCode::from(NO_SUCH_BUYER));
        }
    }
    Ok(ExitCode::SUCCESS)
}
