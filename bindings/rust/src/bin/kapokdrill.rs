//! `kapokdrill run|fine|hall|sheets|convert [FILE..]`: the engine, the buyers' sheets and the converter for
//! scripts. It reads, calls and writes; the exit status is the code, and a refusal is told in words on
//! standard error.

use kapokdrill::command::{self, refusal, FAILED, MISUSED};
use kapokdrill::{convert, sheets, Desk, Hall, Memory};
use std::ffi::{OsStr, OsString};
use std::io::{self, IsTerminal, Write};
use std::path::{Path, PathBuf};
use std::process::ExitCode;

const HELP: &str = "usage: kapokdrill run|fine|hall|sheets|convert [--progress] [FILE..]

  run      runs each sale file and writes its report
  fine     the same through the superfine desk's entry, for 256 lots and 8 sessions
  hall     runs each hall file, of two to four catalogues under one limit, and writes its report
  sheets   runs each sale file and writes its buyers' sheets
  convert  writes an hMETIS file with its partition listing as a sale file without calls

Without FILE, or where it is -, standard input is read. A folder stands for the files in it that end in
.sale, for hall in .hall, for convert in .hgr, in the order of their names. Reports go to standard output; where there is more than one file, a line with its name comes before each. A
refusal is told on standard error too, in words and with its line. For several files or a folder the
progress is shown there where it is a terminal, and anywhere with --progress. Words behind -- are names
of files.

Exit status: that of the first file for which it is not 0, where a file's is
  0           accepted; a refused call is an answer in the report
  1 to 8, 21  refused by run, fine, hall or sheets, with this number
  24          drafts above the hall's limit together, refused by hall
  17 to 19    refused by convert, with this number
  74          it can't be read
If the output can't be written, the rest is left and the status is 74; called with other words it is 64.";

/// What is asked of each file.
#[derive(Clone, Copy, PartialEq, Eq)]
enum Task {
    Run(Desk),
    Hall,
    Sheets,
    Convert,
}

/// A call of the program.
struct Request {
    task: Task,
    progress: bool,
    names: Vec<OsString>,
}

/// The words of a call; an error is what is wrong with them, `None` asks for help.
fn request(words: Vec<OsString>) -> Result<Option<Request>, String> {
    let mut task = None;
    let mut progress = false;
    let mut names = Vec::new();
    let mut only_names = false;
    for word in words {
        let text = word.to_string_lossy();
        if only_names {
            names.push(word);
        } else if text == "--help" || text == "-h" {
            return Ok(None);
        } else if text == "--" {
            only_names = true;
        } else if text == "--progress" {
            progress = true;
        } else if text.starts_with('-') && text != "-" {
            return Err(format!("unknown: {text}"));
        } else if task.is_none() {
            task = Some(match &*text {
                "run" => Task::Run(Desk::Main),
                "fine" => Task::Run(Desk::Superfine),
                "hall" => Task::Hall,
                "sheets" => Task::Sheets,
                "convert" => Task::Convert,
                _ => return Err(format!("unknown: {text}")),
            });
        } else {
            names.push(word);
        }
    }
    match task {
        Some(task) => Ok(Some(Request {
            task,
            progress,
            names,
        })),
        None => Err("run, fine, hall, sheets or convert is missing".into()),
    }
}

/// The files of a folder with one of the task's endings, in the order of their names.
fn files_of(folder: &Path, task: Task) -> io::Result<Vec<PathBuf>> {
    let endings: &[&str] = match task {
        Task::Run(_) | Task::Sheets => &["sale"],
        Task::Hall => &["hall"],
        Task::Convert => &["hgr"],
    };
    let mut files = Vec::new();
    for entry in std::fs::read_dir(folder)? {
        let path = entry?.path();
        let ending = path.extension().and_then(OsStr::to_str);
        if ending.is_some_and(|ending| endings.contains(&ending)) && !path.is_dir() {
            files.push(path);
        }
    }
    files.sort();
    if files.is_empty() {
        let endings = endings.join(" or .");
        return Err(io::Error::other(format!("no file that ends in .{endings}")));
    }
    Ok(files)
}

/// What a task is served with, used again for each file.
enum Server {
    Sales(Memory),
    Halls(Hall),
    /// The text of a function that has its own memory.
    Text(fn(&[u8]) -> (u32, Vec<u8>), Vec<u8>),
}

impl Server {
    fn new(task: Task) -> Self {
        match task {
            Task::Run(desk) => Server::Sales(Memory::new(desk)),
            Task::Hall => Server::Halls(Hall::new()),
            Task::Sheets => Server::Text(sheets, Vec::new()),
            Task::Convert => Server::Text(convert, Vec::new()),
        }
    }

    /// The code of a file and its report.
    fn serve(&mut self, file: &[u8]) -> (u32, &[u8]) {
        match self {
            Server::Sales(memory) => memory.run(file),
            Server::Halls(hall) => hall.run(file),
            Server::Text(make, text) => {
                let code;
                (code, *text) = make(file);
                (code, text)
            }
        }
    }
}

/// The status of all files together: the first that is not 0.
#[derive(Default)]
struct Status(u8);

impl Status {
    fn add(&mut self, status: u8) {
        if self.0 == 0 {
            self.0 = status;
        }
    }
}

/// The progress on standard error: one line that is written over on a terminal, else a line each time.
struct Progress {
    shown: bool,
    terminal: bool,
    count: usize,
}

impl Progress {
    fn show(&self, place: usize, name: &str) {
        if self.shown {
            let (before, after) = if self.terminal {
                ("\r\x1b[K", "")
            } else {
                ("", "\n")
            };
            let mut error = io::stderr().lock();
            // nowhere is left to tell that it can't be written
            let _ = write!(
                error,
                "{before}{} of {}: {name}{after}",
                place + 1,
                self.count
            );
            let _ = error.flush();
        }
    }

    /// Removes the line before other text comes, which may go to the same terminal.
    fn clear(&self) {
        if self.shown && self.terminal {
            let mut error = io::stderr().lock();
            let _ = write!(error, "\r\x1b[K");
            let _ = error.flush();
        }
    }
}

/// Runs every file; an error is one of writing.
fn serve(request: &Request) -> io::Result<u8> {
    let mut status = Status::default();
    let mut folders = false;
    // no name stands for standard input
    let mut inputs: Vec<Option<OsString>> = Vec::new();
    // a folder that can't be read has its place among the files
    let mut unread: Vec<(usize, String)> = Vec::new();
    for name in &request.names {
        if name != "-" && Path::new(name).is_dir() {
            folders = true;
            match files_of(Path::new(name), request.task) {
                Ok(files) => inputs.extend(files.into_iter().map(|path| Some(path.into()))),
                Err(error) => {
                    unread.push((inputs.len(), format!("{}: {error}", name.to_string_lossy())));
                }
            }
        } else {
            inputs.push(Some(name.clone()).filter(|name| name != "-"));
        }
    }
    if request.names.is_empty() {
        inputs.push(None);
    }
    let terminal = io::stderr().is_terminal();
    let several = inputs.len() > 1;
    let progress = Progress {
        shown: request.progress || (terminal && (several || folders)),
        terminal,
        count: inputs.len(),
    };
    let mut server = Server::new(request.task);
    let mut unread = unread.into_iter().peekable();
    for place in 0..=inputs.len() {
        while let Some((_, what)) = unread.next_if(|(before, _)| *before == place) {
            progress.clear();
            command::tell(&what);
            status.add(FAILED);
        }
        let Some(input) = inputs.get(place) else {
            break;
        };
        let shown = input
            .as_deref()
            .map_or("standard input".into(), OsStr::to_string_lossy);
        progress.show(place, &shown);
        let file = match command::read(input.as_deref()) {
            Ok(file) => file,
            Err(error) => {
                progress.clear();
                command::tell(&format!("{shown}: {error}"));
                status.add(FAILED);
                continue;
            }
        };
        let (code, report) = server.serve(&file);
        progress.clear();
        if several {
            command::write(format!("{shown}\n").as_bytes())?;
        }
        command::write(report)?;
        if code != 0 {
            let words = refusal(code, report);
            // standard input needs no name where it is the only one
            command::tell(&match input {
                None if !several => words,
                _ => format!("{shown}: {words}"),
            });
        }
        status.add(code as u8);
    }
    Ok(status.0)
}

fn main() -> ExitCode {
    let done = match request(std::env::args_os().skip(1).collect()) {
        Ok(Some(request)) => serve(&request),
        Ok(None) => command::write(format!("{HELP}\n").as_bytes()).map(|()| 0),
        Err(what) => {
            command::tell(&format!("kapokdrill: {what}\n\n{HELP}"));
            return ExitCode::from(MISUSED);
        }
    };
    match done {
        Ok(status) => ExitCode::from(status),
        Err(error) => {
            command::tell(&format!("standard output: {error}"));
            ExitCode::from(FAILED)
        }
    }
}
