//! The proved sheets against the reference's: on the sales on file, as a library and as the program, on
//! generated and damaged sales, on random bytes, on halls, which are turned down, and on a short output.
//! The environment's SEED, a number, gives other files.

use compare::sheets::compare_sheets;
use compare::{random_bytes, sales_on_file};
use kapokdrill::lent::{self, Outcome, SHEETS_OUTPUT};
use kapokdrill::sheets;
use reference::generator::{damaged, sale, sale_of_kind, Kind, Random};
use reference::hall_generator::{damaged_hall, hall_file};
use std::fs::File;
use std::path::{Path, PathBuf};
use std::process::Command;

/// The program over the crate `sheets`.
const PROGRAM: &str = concat!(env!("CARGO_MANIFEST_DIR"), "/../target/bin/sheet_printer");

fn seed() -> u64 {
    match std::env::var("SEED") {
        Ok(text) => text.parse().expect("SEED is a number"),
        Err(_) => 0,
    }
}

/// How many files had each return, 0 to 21.
type Returns = [u64; 22];

/// Compares `count` files, each made from a seed of its own; how many had each return.
fn all_agree(name: &str, count: u64, make: impl Fn(u64) -> Vec<u8>) -> Returns {
    let mut returns: Returns = [0; 22];
    let first = seed() * 1_000_000;
    for seed in first..first + count {
        match compare_sheets(&make(seed), &mut Random::new(seed)) {
            Ok(code) => returns[code as usize] += 1,
            Err(what) => panic!("{name}, seed {seed}: {what}"),
        }
    }
    returns
}

/// The hall files of the folder `sales`.
fn halls_on_file() -> Vec<PathBuf> {
    let folder = Path::new(env!("CARGO_MANIFEST_DIR")).join("../sales");
    let entries = std::fs::read_dir(folder).expect("the folder sales");
    entries
        .map(|entry| entry.expect("an entry").path())
        .filter(|path| path.extension().is_some_and(|ending| ending == "hall"))
        .collect()
}

/// The sales on file that have their sheets beside them, with the sheets.
fn sheets_on_file() -> Vec<(PathBuf, Vec<u8>)> {
    let sales = sales_on_file().into_iter();
    let with_sheets = sales.filter_map(|path| {
        let text = std::fs::read(path.with_extension("sheets")).ok()?;
        Some((path, text))
    });
    with_sheets.collect()
}

#[test]
fn sheets_on_file_are_printed() {
    let on_file = sheets_on_file();
    assert!(on_file.len() >= 11);
    for (path, text) in on_file {
        let file = std::fs::read(&path).expect("a sale file");
        assert!(sheets(&file).1 == text, "{}", path.display());
    }
}

#[test]
fn the_program_prints_what_the_library_does() {
    for path in sales_on_file() {
        let file = std::fs::read(&path).expect("a sale file");
        let sale = File::open(&path).expect("a sale file");
        let end = Command::new(PROGRAM).stdin(sale).output();
        let end = end.expect("the program runs");
        assert!(end.status.success());
        assert!(end.stdout == sheets(&file).1, "{}", path.display());
    }
}

#[test]
fn sheets_of_all_files_on_file_agree() {
    let sales = sales_on_file();
    assert!(sales.len() >= 300);
    let mut random = Random::new(seed());
    for path in sales.into_iter().chain(halls_on_file()) {
        let file = std::fs::read(&path).expect("a file");
        if let Err(what) = compare_sheets(&file, &mut random) {
            panic!("{}: {what}", path.display());
        }
    }
}

#[test]
fn sheets_of_generated_sales_agree() {
    let returns = all_agree("sale", 10_000, sale);
    assert_eq!(returns[0], 10_000);
    let withdrawn = |seed| sale_of_kind(seed, Kind::Withdrawn);
    assert_eq!(all_agree("withdrawn", 1_000, withdrawn)[0], 1_000);
    let crowded = |seed| sale_of_kind(seed, Kind::Crowded);
    assert_eq!(all_agree("crowded", 200, crowded)[0], 200);
}

#[test]
fn sheets_of_large_sales_agree() {
    let large = |seed| sale_of_kind(seed, Kind::Large);
    assert_eq!(all_agree("large", 6, large)[0], 6);
    let full = |seed| sale_of_kind(seed, Kind::Full);
    assert_eq!(all_agree("full tables", 24, full)[0], 24);
}

#[test]
fn sheets_of_damaged_sales_agree() {
    let returns = all_agree("damaged", 5_000, damaged);
    assert!(returns[0] > 50);
    for code in [1, 2, 3, 4, 6, 7, 21] {
        assert!(returns[code] > 0, "no damaged file gave {code}");
    }
}

#[test]
fn sheets_of_random_bytes_agree() {
    let returns = all_agree("bytes", 3_000, random_bytes);
    assert_eq!(returns[2], 3_000);
}

#[test]
fn halls_are_turned_down() {
    for path in halls_on_file() {
        let file = std::fs::read(&path).expect("a hall file");
        if file.starts_with(b"HALL") && file.len() <= 60_000 {
            let refused = (2, b"NO,2,1\n".to_vec());
            assert_eq!(sheets(&file), refused, "{}", path.display());
        }
    }
    assert_eq!(all_agree("hall", 300, hall_file)[2], 300);
    let returns = all_agree("damaged hall", 1_000, damaged_hall);
    assert!(returns[2] > 800);
}

#[test]
fn a_short_output_is_told_first_and_not_touched() {
    let too_long = [b'\n'; 60_001];
    for file in [&b""[..], &too_long, &sale(seed())] {
        for length in [SHEETS_OUTPUT - 1, 0] {
            let mut output = vec![7; length];
            let outcome = lent::sheets(file, &mut output);
            let (code, written) = (reference::sheets::SHORT_OUTPUT, 0);
            assert_eq!(outcome, Outcome { code, written });
            assert_eq!(reference::sheets_on(file, length).code, code);
            assert!(output.iter().all(|&byte| byte == 7));
        }
        let outcome = lent::sheets(file, &mut vec![7; SHEETS_OUTPUT]);
        assert_eq!(outcome.code, reference::sheets_on(file, SHEETS_OUTPUT).code);
    }
}
