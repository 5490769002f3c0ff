//! The program `kapokdrill` as a script calls it: reports, exit status, words on standard error, files by
//! name, from standard input and in folders, and what fails.

use kapokdrill::command::words;
use kapokdrill::{convert, sheets, Desk, Hall, Memory};
use std::collections::BTreeSet;
use std::fs::File;
use std::io::Write;
use std::path::{Path, PathBuf};
use std::process::{Command, Output, Stdio};

fn folder(name: &str) -> PathBuf {
    Path::new(env!("CARGO_MANIFEST_DIR"))
        .join("../..")
        .join(name)
}

fn sale(name: &str) -> PathBuf {
    folder("sales").join(name)
}

/// The files of a folder with an ending, in the order of their names.
fn on_file(name: &str, ending: &str) -> Vec<PathBuf> {
    let entries = std::fs::read_dir(folder(name)).expect("the folder");
    let mut files: Vec<PathBuf> = entries
        .map(|entry| entry.expect("an entry").path())
        .filter(|path| path.extension().is_some_and(|found| found == ending))
        .collect();
    files.sort();
    files
}

/// A folder of the test's own, empty.
fn own_folder(name: &str) -> PathBuf {
    let folder = Path::new(env!("CARGO_TARGET_TMPDIR")).join(name);
    let _ = std::fs::remove_dir_all(&folder);
    std::fs::create_dir_all(&folder).expect("the folder is made");
    folder
}

fn program() -> Command {
    Command::new(env!("CARGO_BIN_EXE_kapokdrill"))
}

/// The end of the program, with an input.
fn with_input(words: &[&str], input: &[u8]) -> Output {
    let mut child = program()
        .args(words)
        .stdin(Stdio::piped())
        .stdout(Stdio::piped())
        .stderr(Stdio::piped())
        .spawn()
        .expect("the program starts");
    let mut pipe = child.stdin.take().expect("the input is a pipe");
    pipe.write_all(input).expect("the program reads its input");
    drop(pipe);
    child.wait_with_output().expect("the program ends")
}

/// The end of the program on files, with nothing to read on standard input.
fn on(task: &str, files: &[&Path]) -> Output {
    program()
        .arg(task)
        .args(files)
        .stdin(Stdio::null())
        .output()
        .expect("the program ends")
}

/// Status, standard output and standard error.
fn parts(end: &Output) -> (i32, String, String) {
    let text = |bytes: &[u8]| String::from_utf8(bytes.to_vec()).expect("text");
    let status = end.status.code().expect("no signal");
    (status, text(&end.stdout), text(&end.stderr))
}

#[test]
fn the_worked_sale_by_name_and_from_standard_input() {
    let name = sale("worked-sale.sale");
    let report = std::fs::read_to_string(sale("worked-sale.report")).expect("the report");
    let file = std::fs::read(&name).expect("the sale");
    for task in ["run", "fine"] {
        let wanted = (0, report.clone(), String::new());
        assert_eq!(parts(&on(task, &[&name])), wanted);
        assert_eq!(parts(&with_input(&[task], &file)), wanted);
        assert_eq!(parts(&with_input(&[task, "-"], &file)), wanted);
    }
}

#[test]
fn the_status_is_the_code_of_every_sale_on_file() {
    let mut codes = BTreeSet::new();
    for (task, desk) in [("run", Desk::Main), ("fine", Desk::Superfine)] {
        let mut memory = Memory::new(desk);
        for path in on_file("sales", "sale") {
            let file = std::fs::read(&path).expect("a sale file");
            let (code, report) = memory.run(&file);
            let end = on(task, &[&path]);
            assert_eq!(end.status.code(), Some(code as i32), "{}", path.display());
            assert!(end.stdout == report, "{}", path.display());
            assert_eq!(end.stderr.is_empty(), code == 0);
            codes.insert(code);
        }
    }
    assert_eq!(codes, BTreeSet::from([0, 1, 2, 3, 4, 5, 6, 7, 21]));
}

#[test]
fn the_status_is_the_code_of_every_hall_on_file() {
    let mut codes = BTreeSet::new();
    let mut hall = Hall::new();
    for path in on_file("sales", "hall") {
        let file = std::fs::read(&path).expect("a hall file");
        let (code, report) = hall.run(&file);
        let end = on("hall", &[&path]);
        assert_eq!(end.status.code(), Some(code as i32), "{}", path.display());
        assert!(end.stdout == report, "{}", path.display());
        assert_eq!(end.stderr.is_empty(), code == 0);
        codes.insert(code);
    }
    assert_eq!(codes, BTreeSet::from([0, 1, 2, 3, 4, 5, 6, 7, 21, 24]));
}

#[test]
fn sheets_and_their_status_of_every_sale_on_file() {
    let mut codes = BTreeSet::new();
    for path in on_file("sales", "sale") {
        let file = std::fs::read(&path).expect("a sale file");
        let (code, text) = sheets(&file);
        let end = on("sheets", &[&path]);
        assert_eq!(end.status.code(), Some(code as i32), "{}", path.display());
        assert!(end.stdout == text, "{}", path.display());
        assert_eq!(end.stderr.is_empty(), code == 0);
        codes.insert(code);
    }
    assert_eq!(codes, BTreeSet::from([0, 1, 2, 3, 4, 5, 6, 7, 21]));
}

#[test]
fn the_status_is_the_code_of_every_input_of_the_converter() {
    let mut codes = BTreeSet::new();
    for path in on_file("hgr", "hgr") {
        let input = std::fs::read(&path).expect("an input");
        let (code, text) = convert(&input);
        let end = on("convert", &[&path]);
        assert_eq!(end.status.code(), Some(code as i32), "{}", path.display());
        assert!(end.stdout == text, "{}", path.display());
        assert_eq!(end.stderr.is_empty(), code == 0);
        codes.insert(code);
    }
    assert_eq!(codes, BTreeSet::from([0, 17, 18, 19]));
}

#[test]
fn refusals_are_told_in_words_with_their_line() {
    let header = b"SALE,2,2,2,0\nLOT,5,1\nLOT,5,2\n";
    let catalogue = |lines: &[u8]| [&header[..], lines].concat();
    let calls = [&b"BUY,1,1\nBUY,1,2\n"[..], &b"P\n".repeat(513)].concat();
    let drafts = b"HALL,2,9\nSALE,1,0,2,1000\nLOT,5,1\nSALE,1,0,2,1000\nLOT,5,1\n";
    let cases: [(&str, Vec<u8>, i32, &str); 15] = [
        ("run", vec![b'1'; 60_001], 1, "over 60,000 bytes (1)\n"),
        ("run", vec![], 2, "line 1: badly written (2)\n"),
        (
            "run",
            catalogue(b"BUY,1,3\nBUY,1,1\n"),
            3,
            "line 4: a field out of range (3)\n",
        ),
        (
            "run",
            catalogue(b"BUY,1,1\nBUY,1,2,1,2\n"),
            4,
            "line 5: a lot twice with one buyer (4)\n",
        ),
        (
            "run",
            b"SALE,2,0,2,0\nLOT,5,1\nLOT,4,1\n".to_vec(),
            6,
            "line 3: a session of the draft above its cap (6)\n",
        ),
        (
            "run",
            catalogue(&calls),
            7,
            "line 518: the 513th call line (7)\n",
        ),
        (
            "run",
            b"EST,1,0,2,0\nLOT,5,4,1\n".to_vec(),
            21,
            "line 2: a low above its high (21)\n",
        ),
        (
            "fine",
            b"SALE,257,0,2,0\n".to_vec(),
            3,
            "line 1: a field out of range (3)\n",
        ),
        (
            "hall",
            drafts.to_vec(),
            24,
            "line 5: drafts above the hall's limit together (24)\n",
        ),
        ("run", drafts.to_vec(), 2, "line 1: badly written (2)\n"),
        (
            "hall",
            catalogue(b"BUY,1,1\nBUY,1,2\n"),
            2,
            "line 1: badly written (2)\n",
        ),
        ("sheets", vec![b'1'; 60_001], 1, "over 60,000 bytes (1)\n"),
        (
            "sheets",
            catalogue(b"BUY,1,1\nBUY,1,2,1,2\n"),
            4,
            "line 5: a lot twice with one buyer (4)\n",
        ),
        ("convert", b"HGR\n".to_vec(), 17, "badly written (17)\n"),
        (
            "convert",
            b"HGR,2,0\n1 1\n1\nPART\n".to_vec(),
            19,
            "a listing of the wrong length, or with an unknown block (19)\n",
        ),
    ];
    for (task, file, code, words) in cases {
        let (status, report, told) = parts(&with_input(&[task], &file));
        assert_eq!((status, &*told), (code, words));
        assert!(report.starts_with(&format!("NO,{code}")), "{report}");
    }
    let refused = sale("refused-4-marked-twice.sale");
    let told = parts(&on("run", &[&refused])).2;
    let words = "line 4: a lot twice with one buyer (4)";
    assert_eq!(told, format!("{}: {words}\n", refused.display()));
}

#[test]
fn refused_calls_are_answers_and_leave_the_status_alone() {
    let file = b"SALE,1,0,2,0\nLOT,1,1\nS\n";
    let report = "NO,15\nTOTAL,0,0\nLOT,1,1\n".to_string();
    assert_eq!(
        parts(&with_input(&["run"], file)),
        (0, report, String::new())
    );
}

#[test]
fn a_call_above_the_halls_limit_is_an_answer() {
    let file = b"HALL,2,5\nSALE,1,0,2,1000\nLOT,3,1\nSALE,1,0,2,1000\nLOT,3,2\n1,M,1,2\n";
    let report = "1,NO,25\nTOTAL,0,0\nLOT,1,1\nTOTAL,0,0\nLOT,1,2\n".to_string();
    assert_eq!(
        parts(&with_input(&["hall"], file)),
        (0, report, String::new())
    );
}

#[test]
fn every_refusal_has_words() {
    let told: BTreeSet<&str> = (1..=25).map(words).collect();
    // a badly written file is 2 for the engine and 17 for the converter
    assert_eq!(told.len(), 24);
    assert!(!told.contains(words(26)));
}

#[test]
fn several_files_have_names_and_the_first_status_that_is_not_0() {
    let [good, bad, worse] = [
        "worked-sale.sale",
        "refused-4-marked-twice.sale",
        "refused-6-overfull-draft.sale",
    ]
    .map(sale);
    let report = |path: &Path| {
        let file = std::fs::read(path).expect("a sale file");
        let mut memory = Memory::default();
        let report = memory.run(&file).1.to_vec();
        format!(
            "{}\n{}",
            path.display(),
            String::from_utf8(report).expect("text")
        )
    };
    let (status, reports, told) = parts(&on("run", &[&good, &bad, &worse]));
    assert_eq!(status, 4);
    assert_eq!(
        reports,
        [&good, &bad, &worse].map(|path| report(path)).concat()
    );
    assert_eq!(told.lines().count(), 2);
    assert_eq!(parts(&on("run", &[&worse, &good, &bad])).0, 6);
    assert_eq!(parts(&on("run", &[&good, &good])).0, 0);
}

#[test]
fn a_folder_stands_for_its_files_and_progress_is_shown_where_asked() {
    let sales = folder("sales");
    let files = on_file("sales", "sale");
    let (status, reports, told) = parts(&on("run", &[&sales]));
    assert_ne!(status, 0);
    let names = reports.lines().filter(|line| line.ends_with(".sale"));
    let wanted: Vec<String> = files.iter().map(|p| p.display().to_string()).collect();
    assert_eq!(names.collect::<Vec<_>>(), wanted);
    // standard error is no terminal here, so it has refusals only
    let refusal = |line: &str| {
        wanted
            .iter()
            .any(|name| line.starts_with(&format!("{name}: ")))
    };
    assert!(told.lines().all(refusal), "{told}");

    let halls = on_file("sales", "hall");
    let reports = parts(&on("hall", &[&sales])).1;
    let names = reports.lines().filter(|line| line.ends_with(".hall"));
    assert_eq!(names.count(), halls.len());

    let inputs = on_file("hgr", "hgr");
    let end = program()
        .args(["convert", "--progress"])
        .arg(folder("hgr"))
        .output()
        .expect("the program ends");
    let told = parts(&end).2;
    for (place, path) in inputs.iter().enumerate() {
        let line = format!("{} of {}: {}", place + 1, inputs.len(), path.display());
        assert!(told.lines().any(|found| found == line), "{line}");
    }
}

#[test]
fn a_folder_of_one_file_gives_its_report_alone() {
    let own = own_folder("command-one-file");
    std::fs::copy(sale("worked-sale.sale"), own.join("a.sale")).expect("the copy");
    std::fs::write(own.join("b.report"), "no sale").expect("another file");
    std::fs::create_dir(own.join("c.sale")).expect("a folder with a sale's ending");
    let report = std::fs::read_to_string(sale("worked-sale.report")).expect("the report");
    assert_eq!(parts(&on("run", &[&own])), (0, report, String::new()));
}

#[test]
fn failed_reads_are_told_and_the_other_files_run() {
    let (good, bad) = (
        sale("worked-sale.sale"),
        sale("refused-4-marked-twice.sale"),
    );
    let missing = Path::new("no-such.sale");
    let (status, reports, told) = parts(&on("run", &[missing]));
    assert_eq!((status, &*reports), (74, ""));
    assert!(told.starts_with("no-such.sale: "), "{told}");
    let (status, reports, _) = parts(&on("run", &[missing, &bad, &good]));
    assert_eq!(status, 74);
    assert!(reports.contains("TOTAL,3,0\n"));
    assert_eq!(parts(&on("run", &[&bad, missing])).0, 4);

    let empty = own_folder("command-no-file");
    let (status, reports, told) = parts(&on("run", &[&empty, &bad]));
    assert_eq!((status, &*reports), (74, "NO,4,4\n"));
    assert!(told.contains("no file that ends in .sale"), "{told}");
    assert_eq!(parts(&on("run", &[&bad, &empty])).0, 4);
}

#[test]
fn failed_writes_are_told() {
    for name in ["worked-sale.sale", "refused-4-marked-twice.sale"] {
        let full = File::options().write(true).open("/dev/full");
        let end = program()
            .arg("run")
            .arg(sale(name))
            .stdout(full.expect("a full device"))
            .stderr(Stdio::piped())
            .output()
            .expect("the program ends");
        let (status, _, told) = parts(&end);
        assert_eq!(status, 74, "{name}");
        assert!(told.starts_with("standard output: "), "{told}");
    }
}

#[test]
fn other_words_are_told_and_help_is_given() {
    for words in [&[][..], &["walk"], &["run", "--quick"], &["-x", "run"]] {
        let end = program().args(words).stdin(Stdio::null()).output();
        let (status, output, told) = parts(&end.expect("the program ends"));
        assert_eq!((status, &*output), (64, ""), "{words:?}");
        assert!(told.contains("usage: kapokdrill run|fine|hall|sheets|convert"));
    }
    for words in [&["--help"][..], &["run", "--help"], &["-h"]] {
        let end = program().args(words).output().expect("the program ends");
        let (status, help, told) = parts(&end);
        assert_eq!((status, &*told), (0, ""));
        assert!(help.starts_with("usage: kapokdrill run|fine|hall|sheets|convert"));
        assert!(help.contains("74"));
    }
    let end = program().args(["run", "--", "--progress"]).output();
    let (status, _, told) = parts(&end.expect("the program ends"));
    assert_eq!(status, 74);
    assert!(told.starts_with("--progress: "), "{told}");
}
