//! `picture [FILE]`: a sale or hall file as an SVG on standard output, draft beside result. The exit status
//! is 0 or the refusal, which the SVG then says in words.

use kapokdrill::command::{self, FAILED, MISUSED};
use kapokdrill::picture::picture;
use std::ffi::OsString;
use std::process::ExitCode;

const HELP: &str = "usage: picture [FILE]

Draws a sale file, from FILE or standard input, as an SVG on standard output: the bales of each session
against the cap, the sessions that each buyer visits and the lots that moved, draft beside result. The
draft is the catalogue without its calls. Of a file that begins with HALL it draws the bales of each
session over all catalogues against the hall's limit, and then each catalogue as a sale.

Exit status: 0, or the number of the refusal (1 to 7, 21, 24), which the SVG says in words;
64 if called with other words, 74 if the file can't be read or the SVG can't be written.";

fn main() -> ExitCode {
    let names: Vec<OsString> = std::env::args_os().skip(1).collect();
    let name = match names.as_slice() {
        [] => None,
        [word] if word == "--help" || word == "-h" => {
            return match command::write(format!("{HELP}\n").as_bytes()) {
                Ok(()) => ExitCode::SUCCESS,
                Err(error) => failed(&format!("standard output: {error}")),
            };
        }
        [name] => Some(name.as_os_str()),
        _ => {
            command::tell(HELP);
            return ExitCode::from(MISUSED);
        }
    };
    let file = match command::read(name) {
        Ok(file) => file,
        Err(error) => {
            let shown = name.map_or("standard input".into(), |name| name.to_string_lossy());
            return failed(&format!("{shown}: {error}"));
        }
    };
    let (code, svg) = picture(&file);
    match command::write(svg.as_bytes()) {
        Ok(()) => ExitCode::from(code as u8),
        Err(error) => failed(&format!("standard output: {error}")),
    }
}

fn failed(what: &str) -> ExitCode {
    command::tell(&format!("picture: {what}"));
    ExitCode::from(FAILED)
}
