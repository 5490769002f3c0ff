//! Every sale on file gives its report and its number, and the time for the large ones holds.
//! Rests on the pairs `sales/NAME.sale` and `sales/NAME.report` beside this package.

use std::fs;
use std::path::{Path, PathBuf};
use std::time::{Duration, Instant};

use reference::generator::{sale_of_kind, KINDS};

fn folder() -> PathBuf {
    Path::new(env!("CARGO_MANIFEST_DIR")).join("../sales")
}

/// The paths of all sale files, by name.
fn sale_files() -> Vec<PathBuf> {
    let mut paths: Vec<PathBuf> = fs::read_dir(folder())
        .expect("the folder of sales is there")
        .map(|item| item.expect("the folder can be read").path())
        .filter(|path| path.extension().is_some_and(|ending| ending == "sale"))
        .collect();
    paths.sort();
    paths
}

/// The number that a report stands for: `NO,number,line` alone is a file turned down.
fn code_of(report: &[u8]) -> u32 {
    let text = std::str::from_utf8(report).expect("a report is plain text");
    let fields: Vec<&str> = text.trim_end_matches('\n').split(',').collect();
    match fields[..] {
        ["NO", number, line] if line.parse::<u64>().is_ok() => {
            number.parse().expect("a refusal has a number")
        }
        _ => 0,
    }
}

#[test]
fn every_sale_gives_its_report_and_code() {
    let paths = sale_files();
    assert!(paths.len() >= 60, "only {} sales found", paths.len());
    let mut different = Vec::new();
    for path in &paths {
        let file = fs::read(path).expect("a sale can be read");
        let report = fs::read(path.with_extension("report")).expect("every sale has a report");
        let outcome = reference::run(&file);
        if outcome.report != report || outcome.code != code_of(&report) {
            different.push(path.file_stem().expect("a sale has a name").to_owned());
        }
    }
    assert!(different.is_empty(), "other reports: {different:?}");
}

#[test]
fn every_sale_gives_its_superfine_report() {
    for path in sale_files() {
        let file = fs::read(&path).expect("a sale can be read");
        let report = fs::read(path.with_extension("report")).expect("every sale has a report");
        // Only where it is another has it a file of its own.
        let fine = fs::read(path.with_extension("fine"));
        assert!(fine.as_ref().ok() != Some(&report), "{}", path.display());
        let wanted = fine.unwrap_or(report);
        let outcome = reference::run_fine(&file);
        assert!(outcome.report == wanted, "{}", path.display());
        assert_eq!(outcome.code, code_of(&wanted), "{}", path.display());
    }
}

#[test]
fn every_report_belongs_to_a_sale_or_a_hall() {
    for item in fs::read_dir(folder()).expect("the folder of sales is there") {
        let path = item.expect("the folder can be read").path();
        if path
            .extension()
            .is_some_and(|ending| ending == "report" || ending == "fine")
        {
            let of_sale = path.with_extension("sale").exists();
            let of_hall = path.with_extension("hall").exists();
            assert!(of_sale != of_hall, "{}", path.display());
        }
    }
}

#[test]
fn every_sale_is_listed_in_the_readme() {
    let readme = fs::read_to_string(folder().join("README.md")).expect("the folder has a list");
    for path in sale_files() {
        let name = path
            .file_stem()
            .expect("a sale has a name")
            .to_string_lossy();
        assert!(
            readme.contains(&format!("`{name}`")),
            "{name} is not listed"
        );
    }
}

#[test]
fn every_refusal_of_a_file_and_of_a_call_is_on_file() {
    let mut of_files = Vec::new();
    let mut of_calls = Vec::new();
    for path in sale_files() {
        let report = fs::read(path.with_extension("report")).expect("every sale has a report");
        of_files.push(code_of(&report));
        for line in String::from_utf8(report).expect("plain text").lines() {
            if let Some(number) = line.strip_prefix("NO,").and_then(|rest| rest.parse().ok()) {
                of_calls.push(number);
            }
        }
    }
    assert!((1..=7).chain([21]).all(|number| of_files.contains(&number)));
    assert!((9..=16)
        .chain([20, 22, 23])
        .all(|number: u32| of_calls.contains(&number)));
}

#[test]
fn generated_sales_on_file_come_from_the_generator() {
    for (seed, (name, kind)) in (1_000..).zip(KINDS) {
        let path = folder().join(format!("generated-{name}.sale"));
        let file = fs::read(path).expect("there is one sale on file for each kind");
        assert_eq!(file, sale_of_kind(seed, kind), "{name}");
    }
}

#[test]
fn files_and_reports_reach_60_000_bytes_at_most() {
    let mut longest = 0;
    for path in sale_files() {
        let file = fs::read(&path).expect("a sale can be read");
        let report = fs::read(path.with_extension("report")).expect("every sale has a report");
        assert!(report.len() <= 60_000);
        if code_of(&report) == 0 {
            longest = longest.max(file.len());
        }
    }
    assert_eq!(longest, 60_000, "an accepted sale has exactly 60,000 bytes");
}

#[test]
fn a_over_1_024_lots_takes_some_seconds_at_most() {
    let file = fs::read(folder().join("large-1024-lots-a.sale")).expect("the large sale is there");
    let start = Instant::now();
    assert_eq!(reference::run(&file).code, 0);
    assert!(start.elapsed() < Duration::from_secs(30));
}

#[test]
fn the_program_hands_over_report_and_status() {
    use std::io::Write;
    use std::process::{Command, Stdio};
    for name in ["worked-sale", "refused-2-empty-file", "refused-6-no-buyers"] {
        let path = folder().join(name).with_extension("sale");
        let report = fs::read(path.with_extension("report")).expect("every sale has a report");
        let mut program = Command::new(env!("CARGO_BIN_EXE_reference"))
            .stdin(Stdio::piped())
            .stdout(Stdio::piped())
            .spawn()
            .expect("the program starts");
        let mut input = program.stdin.take().expect("the input is a pipe");
        input
            .write_all(&fs::read(&path).expect("a sale can be read"))
            .expect("the program reads its input");
        drop(input);
        let output = program.wait_with_output().expect("the program ends");
        assert_eq!(output.stdout, report, "{name}");
        assert_eq!(
            output.status.code(),
            Some(code_of(&report) as i32),
            "{name}"
        );
    }
}
