//! What the package's programs share: the refusals in words, a file read whole, a text written whole.
//! Rests on the standard library alone; the programs call the engine.

use crate::lent::OUTPUT;
use std::ffi::OsStr;
use std::fs::File;
use std::io::{self, Read, Write};

/// The status of a program that can't read a file or write its output; none of the engine's codes.
pub const FAILED: u8 = 74;

/// The status of a program that was called with wrong words; none of the engine's codes.
pub const MISUSED: u8 = 64;

/// A refusal in words by its number: of a whole file, of the converter's input, or of a call, which a
/// report answers with `NO,number`.
pub fn words(code: u32) -> &'static str {
    match code {
        1 => "over 60,000 bytes",
        2 => "badly written",
        3 => "a field out of range",
        4 => "a lot twice with one buyer",
        5 => "the 8,193rd mark",
        6 => "a session of the draft above its cap",
        7 => "the 513th call line",
        8 => "lent memory too short",
        9 => "an unknown number",
        10 => "a lot off the board",
        11 => "a lot joined into itself",
        12 => "a move to its own session",
        13 => "a join across sessions",
        14 => "above the cap",
        15 => "nothing to undo",
        16 => "a join stands",
        17 => "badly written",
        18 => "cannot be carried over",
        19 => "a listing of the wrong length, or with an unknown block",
        20 => "a kept lot",
        21 => "a low above its high",
        22 => "a buyer named twice",
        23 => "no room for the lot or its marks",
        24 => "drafts above the hall's limit together",
        25 => "above the hall's limit",
        _ => "refused",
    }
}

/// A refusal with its line, where the report `NO,number,line` names one: `line 7: a lot twice with one
/// buyer (4)`. Line 0 stands for the whole file, and the converter names no line.
pub fn refusal(code: u32, report: &[u8]) -> String {
    let report = String::from_utf8_lossy(report);
    let words = format!("{} ({code})", words(code));
    match report.trim_end().split(',').nth(2) {
        Some(line) if line != "0" => format!("line {line}: {words}"),
        _ => words,
    }
}

/// The bytes of a file, or of standard input if there is no name or the name is `-`. No more are read
/// than one above the 60,000 that a file may have, so an endless input is refused like any long one.
pub fn read(name: Option<&OsStr>) -> io::Result<Vec<u8>> {
    let mut bytes = Vec::new();
    let limit = OUTPUT as u64 + 1;
    match name {
        Some(name) if name != "-" => File::open(name)?.take(limit).read_to_end(&mut bytes)?,
        _ => io::stdin().lock().take(limit).read_to_end(&mut bytes)?,
    };
    Ok(bytes)
}

/// Writes all bytes to standard output, and says so if some did not get there.
pub fn write(bytes: &[u8]) -> io::Result<()> {
    let mut output = io::stdout().lock();
    output.write_all(bytes)?;
    output.flush()
}

/// A line on standard error. There is nowhere left to tell that it can't be written.
pub fn tell(line: &str) {
    let _ = writeln!(io::stderr().lock(), "{line}");
}
