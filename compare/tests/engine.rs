//! The proved engine against the reference on sales on file, generated ones, damaged ones and
//! random bytes; through the superfine desk's entry too; on lists of calls apart from their catalogue;
//! then on short memory. The program `splitter` on the sales on file. The environment's SEED, a
//! number, gives other sales than the usual ones.

use compare::lists::{random_list, List};
use compare::{compare, compare_fine, compare_list, random_bytes, sales_on_file, Memory};
use kapokdrill::lent::{Outcome, Record, Stack, NETS, OUTPUT, PINS, ROWS, VERTICES};
use reference::catalogue::{Buyer, Lot};
use reference::generator::{
    calls, damaged, late_calls, sale, sale_of_kind, write_sale, Kind, Random,
};
use reference::{parse, Call, Catalogue, Limits, Sale};
use std::fs::File;
use std::process::Command;

fn seed() -> u64 {
    match std::env::var("SEED") {
        Ok(text) => text.parse().expect("SEED is a number"),
        Err(_) => 0,
    }
}

/// How many files had each return, 0 to 21.
type Returns = [u64; 22];

/// Compares `count` files, each made from a seed of its own; how many had each return.
fn all_agree(name: &str, count: u64, make: impl Fn(u64) -> Vec<u8>) -> Returns {
    all_agree_by(compare, name, count, make)
}

/// How a file is compared: the return, or what differs.
type Comparison = fn(&[u8], &mut Random) -> Result<u32, String>;

fn all_agree_by(
    compare: Comparison,
    name: &str,
    count: u64,
    make: impl Fn(u64) -> Vec<u8>,
) -> Returns {
    let mut returns: Returns = [0; 22];
    let first = seed() * 1_000_000;
    for seed in first..first + count {
        let file = make(seed);
        match compare(&file, &mut Random::new(seed)) {
            Ok(code) => returns[code as usize] += 1,
            Err(what) => panic!("{name}, seed {seed}: {what}"),
        }
    }
    returns
}

#[test]
fn sales_on_file_agree() {
    let sales = sales_on_file();
    assert!(sales.len() >= 150);
    let mut random = Random::new(seed());
    for path in &sales {
        let file = std::fs::read(path).expect("a sale file");
        for compare in [compare, compare_fine] {
            if let Err(what) = compare(&file, &mut random) {
                panic!("{}: {what}", path.display());
            }
        }
    }
}

#[test]
fn the_program_prints_the_reports_on_file() {
    let program = concat!(env!("CARGO_MANIFEST_DIR"), "/../target/bin/splitter");
    for path in sales_on_file() {
        let sale = File::open(&path).expect("a sale file");
        let end = Command::new(program).stdin(sale).output();
        let end = end.expect("the program runs");
        assert!(end.status.success());
        let report = std::fs::read(path.with_extension("report")).expect("its report");
        assert!(end.stdout == report, "{}", path.display());
    }
}

#[test]
fn generated_sales_agree() {
    let returns = all_agree("sale", 20_000, sale);
    assert_eq!(returns[0], 20_000);
}

#[test]
fn damaged_sales_agree() {
    let returns = all_agree("damaged", 10_000, damaged);
    assert!(returns[0] > 100);
    for code in [1, 2, 3, 4, 6, 7, 21] {
        assert!(returns[code] > 0, "no damaged file gave {code}");
    }
}

#[test]
fn random_bytes_agree() {
    let returns = all_agree("bytes", 3_000, random_bytes);
    assert_eq!(returns[2], 3_000);
}

#[test]
fn the_superfine_entry_agrees() {
    let returns = all_agree_by(compare_fine, "superfine", 100, |seed| {
        sale_of_kind(seed, Kind::Superfine)
    });
    assert!(returns[0] > 20 && returns[3] > 20);
    let returns = all_agree_by(compare_fine, "sale", 4_000, sale);
    assert!(returns[0] > 2_000 && returns[3] > 200);
    let returns = all_agree_by(compare_fine, "damaged", 4_000, damaged);
    assert!(returns[2] > 1_000 && returns[3] > 200);
}

#[test]
fn crowded_sales_agree() {
    let crowded = |seed| sale_of_kind(seed, Kind::Crowded);
    let returns = all_agree("crowded", 400, crowded);
    assert_eq!(returns[0], 400);
    // of the sales with 6 and 8 sessions the superfine desk has the index too
    let returns = all_agree_by(compare_fine, "crowded, superfine", 400, crowded);
    assert!(returns[0] > 100 && returns[3] > 100);
}

#[test]
fn large_sales_agree() {
    let returns = all_agree("large", 12, |seed| sale_of_kind(seed, Kind::Large));
    assert_eq!(returns[0], 12);
}

#[test]
fn withdrawn_and_late_lots_agree() {
    let withdrawn = |seed| sale_of_kind(seed, Kind::Withdrawn);
    let returns = all_agree("withdrawn", 2_000, withdrawn);
    assert_eq!(returns[0], 2_000);
    let returns = all_agree_by(compare_fine, "withdrawn, superfine", 1_000, withdrawn);
    assert!(returns[0] > 500);
    let full = |seed| sale_of_kind(seed, Kind::Full);
    let returns = all_agree("full tables", 24, full);
    assert_eq!(returns[0], 24);
    let returns = all_agree_by(compare_fine, "full tables, superfine", 24, full);
    assert!(returns[0] > 8 && returns[3] > 4);
}

/// How a list of calls for a catalogue is made from a seed.
type Calls = fn(u64, &Catalogue, usize) -> Vec<Call>;

/// A sale of `buyers` lists of `marks` marks with `count` calls of every sort.
fn long_list(
    seed: u64,
    lots: usize,
    buyers: usize,
    marks: usize,
    count: usize,
    calls: Calls,
) -> Vec<u8> {
    let mut random = Random::new(seed);
    let sessions = random.between(2, 16) as usize;
    let mut catalogue = Catalogue {
        estimated: false,
        sessions,
        slack: random.between(50, 1_000),
        lots: Vec::new(),
        buyers: Vec::new(),
    };
    for number in 0..lots {
        catalogue.lots.push(Lot::free(10, number % sessions + 1));
    }
    for _ in 0..buyers {
        catalogue.buyers.push(Buyer {
            weight: random.between(1, 1_000),
            marks: random.some_lots(lots, marks),
        });
    }
    let calls = calls(seed, &catalogue, count);
    write_sale(&Sale { catalogue, calls })
}

#[test]
fn long_lists_of_calls_agree() {
    let returns = all_agree("512 calls", 6, |seed| {
        long_list(seed, 80, 60, 6, 512, calls)
    });
    assert_eq!(returns[0], 6);
    let late = |seed| long_list(seed, 80, 60, 6, 512, late_calls);
    let returns = all_agree("512 calls with X and N", 6, late);
    assert_eq!(returns[0], 6);
}

#[test]
fn full_tables_agree() {
    for calls in [calls, late_calls] {
        let full = |seed| long_list(seed, 1_024, 1_024, 8, 6, calls);
        assert_eq!(all_agree("full", 2, full)[0], 2);
        let broad = |seed| long_list(seed, 1_024, 8, 1_024, 6, calls);
        assert_eq!(all_agree("broad", 2, broad)[0], 2);
    }
}

#[test]
fn lists_apart_from_their_catalogue_agree() {
    let mut returns: Returns = [0; 22];
    let first = seed() * 1_000_000;
    for seed in first..first + 4_000 {
        let file = if seed % 8 == 0 {
            damaged(seed)
        } else {
            sale(seed)
        };
        match compare_list(&file, &random_list(seed, &file), &mut Random::new(seed)) {
            Ok(code) => returns[code as usize] += 1,
            Err(what) => panic!("list, seed {seed}: {what}"),
        }
    }
    assert!(returns[0] > 2_000);
    for code in [2, 3, 7] {
        assert!(returns[code] > 0, "no list gave {code}");
    }
}

#[test]
fn tables_after_each_call_of_a_list_agree() {
    let first = seed() * 1_000_000;
    for seed in first..first + 150 {
        let file = match seed % 3 {
            0 => sale(seed),
            _ => sale_of_kind(seed, Kind::Crowded),
        };
        let catalogue = parse(&file).expect("a generated sale").catalogue;
        let calls = if seed % 2 == 0 { calls } else { late_calls };
        let list = List::of(&calls(seed, &catalogue, 12));
        for count in 0..=12 {
            let found = compare_list(&file, &list.first(count), &mut Random::new(seed));
            assert_eq!(found, Ok(0), "seed {seed}, {count} calls");
        }
    }
}

#[test]
fn operands_of_a_list_agree() {
    let file = b"SALE,2,3,2,1000\nLOT,5,1\nLOT,5,2\nBUY,1,1,2\nBUY,2,2\nBUY,3,1\n";
    let operands = [3, 1, 1, 2, 3, 3, 2, 9];
    let random = &mut Random::new(seed());
    let mut codes = [0; 3];
    for first in (0..=9).chain([u32::MAX - 1, u32::MAX]) {
        for count in (0..=9).chain([1 << 31, u32::MAX - 1, u32::MAX]) {
            // the second N's stretch overlaps the first's
            for more in [0, 1] {
                let mut list = List {
                    calls: vec![b'N'.into(), first, count],
                    operands: operands.to_vec(),
                };
                list.calls.extend([b'N'.into(), 1, 2].repeat(more));
                match compare_list(file, &list, random) {
                    Ok(code) => codes[code as usize] += 1,
                    Err(what) => panic!("{first}, {count}: {what}"),
                }
            }
        }
    }
    assert!(codes[0] > 40 && codes[2] > 100, "{codes:?}");
    // as many buyers as no catalogue has, all of them there or not
    for buyer in [1, 4] {
        let list = List {
            calls: vec![b'N'.into(), 0, 5_000],
            operands: [vec![1, 1], vec![buyer; 4_998]].concat(),
        };
        assert_eq!(compare_list(file, &list, random), Ok(0));
    }
    let list = List {
        calls: [b'N'.into(), 0, 1].repeat(513),
        operands: Vec::new(),
    };
    assert_eq!(compare_list(file, &list, random), Ok(7));
}

#[test]
fn stretches_of_pins_agree_in_short_and_odd_tables() {
    let mut random = Random::new(seed());
    for _ in 0..2_000 {
        let mut memory = Memory::noise(&mut random);
        // most stretches then lie in their table
        let span = *random.pick(&[64, 8_192, 65_536]);
        for table in [&mut memory.firsts, &mut memory.loadedsizes] {
            for entry in table.iter_mut() {
                *entry = (u32::from(*entry) % span) as u16;
            }
        }
        match random.between(0, 9) {
            0 => memory.loadedpins.truncate(PINS - 1),
            1 => memory.presentpins.truncate(PINS - 1),
            2 => memory.firsts.truncate(NETS - 1),
            3 => memory.loadedsizes.truncate(NETS - 1),
            4 => memory.presentsizes.truncate(0),
            _ => {}
        }
        for net in [0, 1, 2, 1_023, 1_024, 1_025, u32::MAX] {
            for present in [false, true] {
                if let Err(what) = memory.compare_pins(present, net) {
                    panic!("{what}");
                }
            }
        }
    }
}

/// The entries that a piece of lent memory must have, and how it is cut to fewer.
type Cut = (usize, fn(&mut Memory, usize));

#[test]
fn short_memory_is_told_first_and_nothing_is_touched() {
    let cuts: [Cut; 11] = [
        (VERTICES, |memory, length| memory.lots.truncate(length)),
        (OUTPUT, |memory, length| memory.output.truncate(length)),
        (PINS, |memory, length| memory.loadedpins.truncate(length)),
        (PINS, |memory, length| memory.presentpins.truncate(length)),
        (NETS, |memory, length| memory.firsts.truncate(length)),
        (NETS, |memory, length| memory.loadedsizes.truncate(length)),
        (NETS, |memory, length| memory.presentsizes.truncate(length)),
        (ROWS, |memory, length| memory.counts.truncate(length)),
        (ROWS, |memory, length| memory.gains.truncate(length)),
        (ROWS, |memory, length| memory.index.truncate(length)),
        (NETS, |memory, length| memory.visited.truncate(length)),
    ];
    let accepted: &[u8] = b"SALE,1,0,2,1000\nLOT,7,1\n";
    let too_long = [b'\n'; 60_001];
    let mut random = Random::new(seed());
    let told = Outcome {
        code: 8,
        written: 0,
    };
    for (length, cut) in cuts {
        for short in [length - 1, 0] {
            for file in [accepted, b"", &too_long] {
                let mut memory = Memory::noise(&mut random);
                cut(&mut memory, short);
                let before = memory.clone();
                assert_eq!(memory.run(file), told);
                assert!(memory == before, "8 touched something");
                let refused = List {
                    calls: vec![b'N'.into(), 0, 1],
                    operands: Vec::new(),
                };
                let list = memory.run_list(file, &refused);
                assert_eq!((list.code, list.written, list.total), (8, 0, 0));
                assert!(list.stack == Stack::of(&[]) && list.record == Record::of(&[]));
                assert!(memory == before, "8 touched something");
            }
        }
    }
    let fine: [Cut; 4] = [
        (256, |memory, length| memory.lots.truncate(length)),
        (ROWS, |memory, length| memory.counts.truncate(length)),
        (4_096, |memory, length| memory.gains.truncate(length)),
        (4_096, |memory, length| memory.index.truncate(length)),
    ];
    for (length, cut) in fine {
        for short in [length - 1, 0] {
            let mut memory = Memory::noise_within(&Limits::SUPERFINE, &mut random);
            cut(&mut memory, short);
            let before = memory.clone();
            assert_eq!(memory.run_fine(accepted), told);
            assert!(memory == before, "8 touched something");
            assert_eq!(memory.run(accepted), told, "the main entry asks for more");
        }
    }
    for column in 0..4 {
        for short in [VERTICES - 1, 0] {
            let mut memory = Memory::noise(&mut random);
            let before = memory.clone();
            let mut entries = [VERTICES; 4];
            entries[column] = short;
            let list = memory.run_list_with(accepted, &List::default(), entries);
            assert_eq!((list.code, list.written, list.total), (8, 0, 0));
            assert!(memory == before, "8 touched something");
        }
    }
}
