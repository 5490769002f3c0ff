//! The generator as a program: `generate SEED KIND` writes one sale to standard output and
//! `generate SEED COUNT DIR` writes COUNT sales with their reports into a folder.
//! Rests on the library's generators; KIND is `any`, `damaged` or one of the generator's kinds, or
//! `hall`, `damaged-hall` or `hall-` with one of the halls' kinds, or `hgr` or `damaged-hgr` for an input
//! of the converter.

use std::io::{self, Write};
use std::path::Path;
use std::process::ExitCode;

use reference::generator::{damaged, sale, sale_of_kind, KINDS};
use reference::hall_generator::{damaged_hall, hall_file, hall_of_kind, HALL_KINDS};
use reference::hgr_generator::{damaged_hgr, hgr};

fn main() -> ExitCode {
    let arguments: Vec<String> = std::env::args().skip(1).collect();
    let done = match &arguments[..] {
        [seed, kind] => seed.parse().ok().and_then(|seed| one(seed, kind)),
        [seed, count, folder] => match (seed.parse(), count.parse()) {
            (Ok(seed), Ok(count)) => Some(many(seed, count, Path::new(folder))),
            _ => None,
        },
        _ => None,
    };
    match done {
        Some(Ok(())) => ExitCode::SUCCESS,
        Some(Err(error)) => {
            eprintln!("generate: {error}");
            ExitCode::FAILURE
        }
        None => {
            let kinds: Vec<&str> = KINDS.iter().map(|&(name, _)| name).collect();
            eprintln!("usage: generate SEED KIND | generate SEED COUNT DIR");
            eprintln!("KIND: any damaged hgr damaged-hgr {}", kinds.join(" "));
            let kinds: Vec<&str> = HALL_KINDS.iter().map(|&(name, _)| name).collect();
            eprintln!("or: hall damaged-hall hall-{}", kinds.join(" hall-"));
            ExitCode::FAILURE
        }
    }
}

/// One file to standard output; nothing if the kind is unknown.
fn one(seed: u64, kind: &str) -> Option<io::Result<()>> {
    let file = match kind {
        "any" => sale(seed),
        "damaged" => damaged(seed),
        "hgr" => hgr(seed),
        "damaged-hgr" => damaged_hgr(seed),
        "hall" => hall_file(seed),
        "damaged-hall" => damaged_hall(seed),
        _ => match kind.strip_prefix("hall-") {
            Some(kind) => {
                let &(_, kind) = HALL_KINDS.iter().find(|&&(name, _)| name == kind)?;
                hall_of_kind(seed, kind)
            }
            None => {
                let &(_, kind) = KINDS.iter().find(|&&(name, _)| name == kind)?;
                sale_of_kind(seed, kind)
            }
        },
    };
    Some(io::stdout().lock().write_all(&file))
}

/// Files of the seeds from `seed` on with their reports; every fourth one is damaged.
fn many(seed: u64, count: u64, folder: &Path) -> io::Result<()> {
    std::fs::create_dir_all(folder)?;
    for number in 0..count {
        let seed = seed.wrapping_add(number);
        let file = if number % 4 == 3 {
            damaged(seed)
        } else {
            sale(seed)
        };
        std::fs::write(folder.join(format!("{seed}.sale")), &file)?;
        std::fs::write(
            folder.join(format!("{seed}.report")),
            reference::run(&file).report,
        )?;
    }
    Ok(())
}
