//! `soak SEED COUNT`: so many files through the engine and the reference, each with a seed of its own
//! from SEED on: generated sales, damaged ones, random bytes, every fifth of them through the
//! superfine desk's entry, and lists of calls apart from their catalogue. Shows its progress, stops at
//! the first difference and writes that file.
//! `soak --folder DIR`: every file of a folder instead, through both desks' entries; it names the file
//! that differs.

use compare::folder::{compare_files, files, DESKS};
use compare::lists::{random_list, List};
use compare::{compare, compare_fine, compare_list, random_bytes};
use reference::generator::{damaged, sale, Random};
use std::collections::BTreeMap;
use std::path::Path;
use std::process::ExitCode;

/// The file of a seed, and the list of calls that goes with every fourth.
fn case(seed: u64) -> (Vec<u8>, Option<List>) {
    let file = match seed % 10 {
        0..=2 => damaged(seed),
        3 => random_bytes(seed),
        _ => sale(seed),
    };
    let list = (seed % 4 == 0).then(|| random_list(seed, &file));
    (file, list)
}

/// Every file of a folder. An empty folder fails, since nothing was compared.
fn soak_folder(folder: &Path) -> ExitCode {
    let files = match files(folder) {
        Ok(files) if !files.is_empty() => files,
        Ok(_) => {
            println!("{}: no file", folder.display());
            return ExitCode::FAILURE;
        }
        Err(error) => {
            println!("{}: {error}", folder.display());
            return ExitCode::FAILURE;
        }
    };
    let count = files.len();
    let compared = compare_files(&files, &DESKS, |done| {
        if done % 100 == 0 {
            println!("{done} of {count} agree");
        }
    });
    match compared {
        Ok(returns) => {
            println!("{count} agree; by return: {returns:?}");
            ExitCode::SUCCESS
        }
        Err(what) => {
            println!("{what}");
            ExitCode::FAILURE
        }
    }
}

fn main() -> ExitCode {
    let words: Vec<_> = std::env::args_os().skip(1).collect();
    if let [word, folder] = words.as_slice() {
        if word == "--folder" {
            return soak_folder(Path::new(folder));
        }
    }
    let mut numbers = words
        .iter()
        .map(|word| word.to_string_lossy().parse::<u64>());
    let (Some(Ok(first)), Some(Ok(count)), None) = (numbers.next(), numbers.next(), numbers.next())
    else {
        eprintln!("usage: soak SEED COUNT | soak --folder DIR");
        return ExitCode::from(2);
    };
    let mut returns: BTreeMap<u32, u64> = BTreeMap::new();
    for done in 0..count {
        let seed = first + done;
        let (file, list) = case(seed);
        let random = &mut Random::new(seed);
        let found = match &list {
            Some(list) => compare_list(&file, list, random),
            None if seed % 5 == 0 => compare_fine(&file, random),
            None => compare(&file, random),
        };
        match found {
            Ok(code) => *returns.entry(code).or_default() += 1,
            Err(what) => {
                let name = format!("soak-{seed}.sale");
                println!("seed {seed}: {what}; the file is {name}, the list {list:?}");
                if let Err(error) = std::fs::write(&name, &file) {
                    println!("{name} can't be written: {error}");
                }
                return ExitCode::FAILURE;
            }
        }
        if (done + 1) % 10_000 == 0 {
            println!("{} of {count} agree", done + 1);
        }
    }
    println!("{count} agree; by return: {returns:?}");
    ExitCode::SUCCESS
}
