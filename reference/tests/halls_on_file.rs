//! Every hall on file gives its report and its number, and every sale and hall on file with sheets gives
//! these. Rests on `sales/NAME.hall` with `sales/NAME.report`, and on the `sales/NAME.sheets` beside a
//! sale or a hall.

use std::fs;
use std::path::{Path, PathBuf};

use reference::hall_generator::{hall_of_kind, HALL_KINDS};
use reference::{hall, run, sheets, sheets_on};

fn folder() -> PathBuf {
    Path::new(env!("CARGO_MANIFEST_DIR")).join("../sales")
}

/// The paths of all files of the folder with this ending, by name.
fn ending_in(ending: &str) -> Vec<PathBuf> {
    let mut paths: Vec<PathBuf> = fs::read_dir(folder())
        .expect("the folder of sales is there")
        .map(|item| item.expect("the folder can be read").path())
        .filter(|path| path.extension().is_some_and(|found| found == ending))
        .collect();
    paths.sort();
    paths
}

fn read(path: &Path) -> Vec<u8> {
    fs::read(path).unwrap_or_else(|error| panic!("{}: {error}", path.display()))
}

/// The number that a report or a print stands for: `NO,number,line` alone is a file turned down.
fn code_of(report: &[u8]) -> u32 {
    let text = std::str::from_utf8(report).expect("a report is plain text");
    let fields: Vec<&str> = text.trim_end_matches('\n').split(',').collect();
    match fields[..] {
        ["NO", number, line] if line.parse::<u64>().is_ok() => {
            number.parse().expect("a refusal has a number")
        }
        _ => 0,
    }
}

#[test]
fn every_hall_gives_its_report_and_code() {
    let paths = ending_in("hall");
    assert!(paths.len() >= 120, "only {} halls found", paths.len());
    let mut different = Vec::new();
    for path in &paths {
        let report = read(&path.with_extension("report"));
        let outcome = hall(&read(path));
        if outcome.report != report || outcome.code != code_of(&report) {
            different.push(path.file_stem().expect("a hall has a name").to_owned());
        }
    }
    assert!(different.is_empty(), "other reports: {different:?}");
}

#[test]
fn every_sheet_on_file_is_printed() {
    let paths = ending_in("sheets");
    assert!(paths.len() >= 15, "only {} prints found", paths.len());
    let mut different = Vec::new();
    for path in &paths {
        let (sale, hall) = (path.with_extension("sale"), path.with_extension("hall"));
        assert!(sale.exists() != hall.exists(), "{}", path.display());
        let file = read(if sale.exists() { &sale } else { &hall });
        let wanted = read(path);
        let outcome = sheets(&file);
        if outcome.report != wanted || outcome.code != code_of(&wanted) {
            different.push(path.file_stem().expect("a print has a name").to_owned());
        }
        assert_eq!(sheets_on(&file, 122_880), outcome);
        for short in [0, 60_000, 122_879] {
            let told = sheets_on(&file, short);
            assert_eq!((told.code, told.report), (8, Vec::new()));
        }
    }
    assert!(different.is_empty(), "other sheets: {different:?}");
}

#[test]
fn a_hall_is_2_on_line_1_at_the_main_entry_and_a_sale_at_the_halls() {
    let turned_down = |file: &[u8]| match file.len() {
        ..=60_000 => (2, b"NO,2,1\n".to_vec()),
        _ => (1, b"NO,1,0\n".to_vec()),
    };
    for path in ending_in("hall") {
        let file = read(&path);
        if file.starts_with(b"HALL") {
            let outcome = run(&file);
            let found = (outcome.code, outcome.report);
            assert_eq!(found, turned_down(&file), "{}", path.display());
        }
    }
    for path in ending_in("sale") {
        let file = read(&path);
        if !file.starts_with(b"HALL") {
            let outcome = hall(&file);
            let found = (outcome.code, outcome.report);
            assert_eq!(found, turned_down(&file), "{}", path.display());
        }
    }
}

#[test]
fn every_hall_and_its_like_is_listed_in_the_readme() {
    let readme = fs::read_to_string(folder().join("README.md")).expect("the folder has a list");
    for path in [ending_in("hall"), ending_in("sheets")].concat() {
        let name = path.file_stem().expect("a name").to_string_lossy();
        assert!(
            readme.contains(&format!("`{name}`")),
            "{name} is not listed"
        );
    }
}

#[test]
fn every_refusal_of_a_hall_and_of_its_calls_is_on_file() {
    let mut of_files = Vec::new();
    let mut of_calls = Vec::new();
    for path in ending_in("hall") {
        let report = read(&path.with_extension("report"));
        of_files.push(code_of(&report));
        for line in String::from_utf8(report).expect("plain text").lines() {
            if let [lead, "NO", number] = line.split(',').collect::<Vec<&str>>()[..] {
                assert!(["1", "2", "3", "4"].contains(&lead));
                of_calls.push(number.parse().expect("a refusal has a number"));
            }
        }
    }
    assert!((1..=7)
        .chain([21, 24])
        .all(|number| of_files.contains(&number)));
    assert!((9..=16)
        .chain([20, 22, 23, 25])
        .all(|number: u32| of_calls.contains(&number)));
}

#[test]
fn an_accepted_hall_on_file_has_60_000_bytes_and_reports_no_more() {
    let mut longest = 0;
    for path in ending_in("hall") {
        let report = read(&path.with_extension("report"));
        assert!(report.len() <= 60_000);
        if code_of(&report) == 0 {
            longest = longest.max(read(&path).len());
        }
    }
    assert_eq!(longest, 60_000);
}

#[test]
fn generated_halls_on_file_come_from_the_generator() {
    for (seed, (name, kind)) in (2_000..).zip(HALL_KINDS) {
        let path = folder().join(format!("generated-hall-{name}.hall"));
        assert_eq!(read(&path), hall_of_kind(seed, kind), "{name}");
    }
}
