//! A refused call changes nothing, in any entry of lent memory: lists with and without their refused
//! calls through the list's entry, and files with and without their refused call lines through both
//! others. The environment's SEED, a number, gives other sales than the usual ones.

use compare::refused::{same_file_without_refused, same_without_refused};
use reference::generator::{late_calls, sale, sale_of_kind, Kind, Random};
use reference::parse;

fn seeds(count: u64) -> std::ops::Range<u64> {
    let seed: u64 = std::env::var("SEED").map_or(0, |text| text.parse().expect("SEED is a number"));
    seed * 1_000_000..seed * 1_000_000 + count
}

/// A generated sale, of every three one with calls that are mostly refused and one with lots
/// withdrawn and added.
fn file_of(seed: u64) -> Vec<u8> {
    match seed % 3 {
        0 => sale_of_kind(seed, Kind::BadCalls),
        1 => sale_of_kind(seed, Kind::Withdrawn),
        _ => sale(seed),
    }
}

#[test]
fn a_list_without_its_refused_calls_leaves_the_same() {
    let mut with_refused = 0;
    for seed in seeds(3_000) {
        let file = file_of(seed);
        let sale = parse(&file).expect("a generated sale is accepted");
        let mut random = Random::new(seed);
        let mut list = sale.calls;
        let more = random.between(0, 20) as usize;
        list.extend(late_calls(seed, &sale.catalogue, more));
        list.truncate(512);
        match same_without_refused(&file, &list, &mut random) {
            Ok(refused) => with_refused += u64::from(refused > 0),
            Err(what) => panic!("list, seed {seed}: {what}"),
        }
    }
    assert!(with_refused > 1_500, "{with_refused} lists");
}

#[test]
fn a_file_without_its_refused_call_lines_leaves_the_same() {
    let mut with_refused = 0;
    for seed in seeds(3_000) {
        match same_file_without_refused(&file_of(seed), &mut Random::new(seed)) {
            Ok(refused) => with_refused += u64::from(refused > 0),
            Err(what) => panic!("file, seed {seed}: {what}"),
        }
    }
    assert!(with_refused > 1_500, "{with_refused} files");
}

#[test]
fn a_file_that_meets_23_without_it_leaves_the_same() {
    let mut with_refused = 0;
    for seed in seeds(12) {
        let file = sale_of_kind(seed, Kind::Full);
        match same_file_without_refused(&file, &mut Random::new(seed)) {
            Ok(refused) => with_refused += u64::from(refused > 0),
            Err(what) => panic!("full, seed {seed}: {what}"),
        }
    }
    assert!(with_refused > 3, "{with_refused} files");
}
