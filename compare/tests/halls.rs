//! The proved engine against the reference on halls: those on file, generated and damaged ones of every
//! kind, sales and random bytes, on memory of random bytes and of more than its least length; then on
//! short memory. Refused call lines, and the order of moves. The program `hall` on the halls on file. The
//! environment's SEED, a number, gives other halls than the usual ones.

use compare::halls::{compare_hall, same_hall_without_refused, same_left, two_ways, HallMemory};
use compare::{compare, compare_fine, halls_on_file, random_bytes, sales_on_file};
use kapokdrill::lent::{Outcome, HALL_VERTICES, OUTPUT, SETS};
use reference::generator::{damaged, sale, Random};
use reference::hall_generator::{damaged_hall, hall_file, hall_of_kind, HallKind, HALL_KINDS};
use reference::{parse_hall, LedCall};
use std::fs::File;
use std::process::Command;

/// The program over the hall's entry.
const PROGRAM: &str = concat!(env!("CARGO_MANIFEST_DIR"), "/../target/bin/hall");

fn seed() -> u64 {
    match std::env::var("SEED") {
        Ok(text) => text.parse().expect("SEED is a number"),
        Err(_) => 0,
    }
}

fn seeds(count: u64) -> std::ops::Range<u64> {
    let first = seed() * 1_000_000;
    first..first + count
}

/// How many files had each return, 0 to 24.
type Returns = [u64; 25];

/// Compares `count` files, each made from a seed of its own; how many had each return.
fn all_agree(name: &str, count: u64, make: impl Fn(u64) -> Vec<u8>) -> Returns {
    let mut returns: Returns = [0; 25];
    for seed in seeds(count) {
        match compare_hall(&make(seed), &mut Random::new(seed)) {
            Ok(code) => returns[code as usize] += 1,
            Err(what) => panic!("{name}, seed {seed}: {what}"),
        }
    }
    returns
}

#[test]
fn halls_on_file_agree() {
    let halls = halls_on_file();
    assert!(halls.len() >= 120);
    let mut random = Random::new(seed());
    for path in &halls {
        let file = std::fs::read(path).expect("a hall file");
        for compare in [compare_hall, compare, compare_fine] {
            if let Err(what) = compare(&file, &mut random) {
                panic!("{}: {what}", path.display());
            }
        }
    }
}

#[test]
fn sales_are_no_halls() {
    let mut random = Random::new(seed());
    for path in sales_on_file() {
        let file = std::fs::read(&path).expect("a sale file");
        let found = compare_hall(&file, &mut random);
        if !file.starts_with(b"HALL") {
            let wanted = if file.len() > 60_000 { 1 } else { 2 };
            assert_eq!(found, Ok(wanted), "{}", path.display());
        } else if let Err(what) = found {
            panic!("{}: {what}", path.display());
        }
    }
    let returns = all_agree("sale", 200, sale);
    assert_eq!(returns[2], 200);
    let returns = all_agree("damaged sale", 200, damaged);
    assert!(returns[2] > 150);
}

#[test]
fn the_program_prints_the_reports_on_file() {
    for path in halls_on_file() {
        let hall = File::open(&path).expect("a hall file");
        let end = Command::new(PROGRAM).stdin(hall).output();
        let end = end.expect("the program runs");
        assert!(end.status.success());
        let report = std::fs::read(path.with_extension("report")).expect("its report");
        assert!(end.stdout == report, "{}", path.display());
    }
}

#[test]
fn generated_halls_agree() {
    let returns = all_agree("hall", 4_000, hall_file);
    assert_eq!(returns[0], 4_000);
}

#[test]
fn halls_of_every_kind_agree() {
    for (name, kind) in HALL_KINDS {
        let count = match kind {
            HallKind::Large => 3,
            HallKind::Full | HallKind::ManyCalls => 20,
            _ => 200,
        };
        let returns = all_agree(name, count, |seed| hall_of_kind(seed, kind));
        assert_eq!(returns[0], count, "{name}");
    }
}

#[test]
fn damaged_halls_agree() {
    let returns = all_agree("damaged", 4_000, damaged_hall);
    assert!(returns[0] > 100);
    for code in [1, 2, 3, 4, 5, 6, 7, 21, 24] {
        assert!(returns[code] > 0, "no damaged file gave {code}");
    }
}

#[test]
fn random_bytes_agree() {
    let bytes = |seed| match seed % 2 {
        0 => random_bytes(seed),
        _ => [b"HALL,2,9\n", &random_bytes(seed)[..]].concat(),
    };
    let returns = all_agree("bytes", 600, bytes);
    assert!(returns[2] > 500);
}

/// The entries, bytes or sets that a piece of lent memory must have, and how it is cut to fewer.
type Cut = (usize, fn(&mut HallMemory, usize));

#[test]
fn short_memory_is_told_first_and_nothing_is_touched() {
    let cuts: [Cut; 11] = [
        (HALL_VERTICES, |memory, length| memory.lots.truncate(length)),
        (OUTPUT, |memory, length| memory.output.truncate(length)),
        (SETS, |memory, sets| memory.loadedpins.truncate(sets)),
        (SETS, |memory, sets| memory.presentpins.truncate(sets)),
        (SETS, |memory, sets| memory.firsts.truncate(sets)),
        (SETS, |memory, sets| memory.loadedsizes.truncate(sets)),
        (SETS, |memory, sets| memory.presentsizes.truncate(sets)),
        (SETS, |memory, sets| memory.counts.truncate(sets)),
        (SETS, |memory, sets| memory.gains.truncate(sets)),
        (SETS, |memory, sets| memory.index.truncate(sets)),
        (SETS, |memory, sets| memory.visited.truncate(sets)),
    ];
    // of two catalogues, so that the last set is not in use
    let accepted: &[u8] = b"HALL,2,9\nSALE,1,0,2,1000\nLOT,7,1\nSALE,1,0,2,1000\nLOT,7,2\n";
    let too_long = [b'\n'; 60_001];
    let mut random = Random::new(seed());
    let told = Outcome {
        code: 8,
        written: 0,
    };
    for (length, cut) in cuts {
        for short in [length - 1, length / 2, 0] {
            for file in [accepted, b"", &too_long] {
                let mut memory = HallMemory::noise(&mut random);
                cut(&mut memory, short);
                let before = memory.clone();
                assert_eq!(memory.run(file), told);
                assert!(memory == before, "8 touched something");
            }
        }
    }
    let mut memory = HallMemory::noise(&mut random);
    assert_eq!(memory.run(accepted).code, 0);
}

#[test]
fn a_hall_without_its_refused_call_lines_leaves_the_same() {
    let mut with_refused = 0;
    for seed in seeds(1_500) {
        let file = match seed % 3 {
            0 => hall_of_kind(seed, HallKind::BadCalls),
            1 => hall_of_kind(seed, HallKind::Moves),
            _ => hall_file(seed),
        };
        match same_hall_without_refused(&file, &mut Random::new(seed)) {
            Ok(refused) => with_refused += u64::from(refused > 0),
            Err(what) => panic!("hall, seed {seed}: {what}"),
        }
    }
    assert!(with_refused > 1_000, "{with_refused} halls");
}

#[test]
fn a_hall_that_meets_23_without_it_leaves_the_same() {
    let mut with_refused = 0;
    for seed in seeds(12) {
        let file = hall_of_kind(seed, HallKind::Full);
        match same_hall_without_refused(&file, &mut Random::new(seed)) {
            Ok(refused) => with_refused += u64::from(refused > 0),
            Err(what) => panic!("full, seed {seed}: {what}"),
        }
    }
    assert!(with_refused > 3, "{with_refused} halls");
}

#[test]
fn the_order_of_moves_is_immaterial() {
    let (mut tried, mut reordered) = (0, 0);
    for seed in seeds(1_500) {
        let file = match seed % 2 {
            0 => hall_of_kind(seed, HallKind::Late),
            _ => hall_of_kind(seed, HallKind::Mixed),
        };
        let hall = parse_hall(&file).expect("a generated hall is accepted");
        let mut random = Random::new(seed);
        let most = hall.calls.len().min(12) as u64;
        let before = &hall.calls[..random.between(0, most) as usize];
        let Some(ways) = two_ways(&hall, before, &mut random) else {
            continue;
        };
        tried += 1;
        reordered += u64::from(ways[0] != ways[1]);
        let lists: [Vec<LedCall>; 2] = ways.map(|moves| [before, &moves].concat());
        if lists.iter().any(|list| list.len() > 512) {
            continue;
        }
        if let Err(what) = same_left(&hall, [&lists[0], &lists[1]], &mut random) {
            panic!("moves, seed {seed}: {what}");
        }
    }
    assert!(reordered > 400, "{tried} pairs, {reordered} of two lists");
}
