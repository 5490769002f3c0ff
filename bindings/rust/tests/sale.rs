//! The worked sale of document 01 through the bindings: its report from the examples' programs, in
//! Rust and in C, its tables through `Memory`, and its calls apart.

use kapokdrill::lent::{self, Lent, Lot, NETS, OUTPUT, PINS, ROWS, VERTICES};
use kapokdrill::{entry, Memory};
use std::io::Write;
use std::path::Path;
use std::process::{Command, Output, Stdio};

fn on_file(name: &str) -> Vec<u8> {
    let folder = Path::new(env!("CARGO_MANIFEST_DIR")).join("../../sales");
    std::fs::read(folder.join(name)).expect("the sale is on file")
}

/// The example as cargo builds it before the tests run: beside the folder of the test programs.
fn example(name: &str) -> Command {
    let test = std::env::current_exe().expect("the test is a program");
    let folder = test.parent().and_then(Path::parent).expect("a folder");
    Command::new(folder.join("examples").join(name))
}

/// The example in C, compiled and linked.
fn example_in_c(name: &str) -> Command {
    let top = Path::new(env!("CARGO_MANIFEST_DIR")).join("../..");
    let program = Path::new(env!("CARGO_TARGET_TMPDIR")).join(format!("{name}-in-c"));
    let compiled = Command::new("cc")
        .current_dir(top)
        .args(["-std=c99", "-Wall", "-Wextra", "-pedantic", "-Werror"])
        .args(["-I", "bindings", &format!("bindings/c/{name}.c")])
        .args(["target/staticlib/libengine.a", "-o"])
        .arg(&program)
        .status()
        .expect("the C compiler starts");
    assert!(compiled.success());
    Command::new(&program)
}

/// What a program ends with, and prints, for the worked sale on its standard input.
fn run_worked_sale(mut program: Command) -> Output {
    let mut child = program
        .stdin(Stdio::piped())
        .stdout(Stdio::piped())
        .spawn()
        .expect("the program starts");
    let mut input = child.stdin.take().expect("the input is a pipe");
    input
        .write_all(&on_file("worked-sale.sale"))
        .expect("the program reads its input");
    drop(input);
    child.wait_with_output().expect("the program ends")
}

/// A program prints the report of the worked sale, through the main entry and through the superfine
/// desk's.
fn prints_the_worked_sale(program: impl Fn() -> Command) {
    let mut fine = program();
    fine.arg("fine");
    for words in [program(), fine] {
        let end = run_worked_sale(words);
        assert_eq!(end.status.code(), Some(0));
        assert_eq!(end.stdout, on_file("worked-sale.report"));
    }
}

#[test]
fn the_example_prints_the_worked_sale() {
    prints_the_worked_sale(|| example("sale"));
}

#[test]
fn the_examples_of_a_list_print_its_answers() {
    for program in [example("list"), example_in_c("list")] {
        let end = run_worked_sale(program);
        assert_eq!(end.status.code(), Some(0));
        assert_eq!(end.stdout, b"X,0\nN,1,3\nJ,20\ntotal 3, joins 1\n");
    }
}

#[test]
fn the_example_in_c_prints_the_worked_sale() {
    prints_the_worked_sale(|| example_in_c("sale"));
}

#[test]
fn a_file_turned_down_gives_its_number() {
    let mut memory = Memory::default();
    assert_eq!(memory.run(b""), (2, &b"NO,2,1\n"[..]));
}

/// The worked sale's catalogue with one join.
const ONE_JOIN: &[u8] = b"SALE,5,3,2,200\nLOT,10,1\nLOT,10,1\nLOT,10,2\nLOT,10,2\nLOT,10,1\n\
    BUY,3,1,3\nBUY,2,2,5\nBUY,1,3,4\nJ,2,5\n";

/// The record of a lot that is not kept.
const fn lot(bales: u32, session: u16, above: u16) -> Lot {
    Lot {
        bales,
        session,
        above,
        kept: 0,
    }
}

/// Its lots' records.
const WITH_ONE_JOIN: [Lot; 5] = [
    lot(10, 1, 0),
    lot(20, 1, 0),
    lot(10, 2, 0),
    lot(10, 2, 0),
    lot(10, 0, 2),
];

/// Their rows of the index: one other session and a 0, and nothing for lot 5, which is off the board.
const WITH_ONE_JOIN_INDEX: [[u16; 2]; 5] = [[2, 0], [2, 0], [1, 0], [1, 0], [0, 0]];

#[test]
fn tables_of_the_worked_sale_with_one_join() {
    let mut memory = Memory::default();
    assert_eq!(memory.run(ONE_JOIN).0, 0);
    assert_eq!(memory.lots()[..5], WITH_ONE_JOIN);
    assert_eq!(memory.firsts()[..3], [0, 2, 4]);
    assert_eq!(memory.loadedsizes()[..3], [2, 2, 2]);
    assert_eq!(memory.presentsizes()[..3], [2, 1, 2]);
    assert_eq!(memory.loadedpins(2), [2, 5]);
    assert_eq!(memory.presentpins(2), [2]);
    assert_eq!(memory.counts()[entry(3, 2)], 2);
    assert_eq!(memory.gains()[entry(1, 2)], 3);
    assert_eq!(memory.gains()[entry(4, 1)], -1);
    for (lot, row) in (1..).zip(WITH_ONE_JOIN_INDEX) {
        assert_eq!(memory.index()[entry(lot, 1)..][..2], row, "lot {lot}");
    }
    assert_eq!(memory.visited()[..3], [0b11, 0b01, 0b10]);
}

#[test]
fn the_record_of_a_kept_lot_says_so() {
    let mut memory = Memory::default();
    let file = b"SALE,3,0,2,1000\nLOT,1,1\nLOT,2,1,K\nLOT,4,2,K\nJ,1,2\nM,1,2\n";
    let (code, report) = memory.run(file);
    assert_eq!(code, 0);
    assert!(report.starts_with(b"J,3\nNO,20\n"));
    let kept = |record: Lot| Lot { kept: 1, ..record };
    let wanted = [lot(3, 1, 0), kept(lot(2, 0, 1)), kept(lot(4, 2, 0))];
    assert_eq!(memory.lots()[..3], wanted);
}

#[test]
fn the_worked_sale_with_its_calls_apart() {
    let sale = on_file("worked-sale.sale");
    let report = on_file("worked-sale.report");
    let mut memory = Memory::default();
    let list = [
        (b'J', 2, 5),
        (b'M', 2, 2),
        (b'S', 0, 0),
        (b'B', 0, 0),
        (b'A', 0, 0),
    ];
    let list: Vec<u32> = list
        .iter()
        .flat_map(|&(c, x, y)| [c.into(), x, y])
        .collect();
    let (outcome, answers) = memory.run_list(&sale, &list, &[]);
    assert_eq!(outcome.code, 0);
    assert_eq!(outcome.stack.joins().count(), 0);
    assert!(report.starts_with(answers));
    let rest = &report[answers.len()..];
    assert!(rest.starts_with(b"TOTAL,"));

    let (outcome, answers) = memory.run_list(&sale, &list[..3], &[]);
    assert_eq!(outcome.stack.joins().collect::<Vec<_>>(), [(2, 5)]);
    assert_eq!(answers, b"J,20\n");
    assert_eq!(outcome.total, 3);
    assert_eq!(outcome.record.moves().count(), 0);

    let (outcome, answers) = memory.run_list(&sale, &[b'M'.into(), 1, 2], &[]);
    assert_eq!(answers, b"M,3,0,0\n");
    assert_eq!(outcome.record.moves().collect::<Vec<_>>(), [(1, 1)]);

    let (outcome, answers) = memory.run_list(&sale, &[b'Q'.into(), 0, 0], &[]);
    assert_eq!((outcome.code, answers), (2, &b""[..]));
}

/// Withdraws lot 1 of the worked sale and adds one of 10 bales to session 1 for buyers 1 and 2.
const LATE: [u32; 6] = [b'X' as u32, 1, 0, b'N' as u32, 1, 4];
const LATE_OPERANDS: [u32; 6] = [7, 10, 1, 1, 2, 7];

#[test]
fn a_withdrawn_and_a_late_lot_in_a_list() {
    let sale = on_file("worked-sale.sale");
    let mut memory = Memory::default();
    let (outcome, answers) = memory.run_list(&sale, &LATE, &LATE_OPERANDS);
    assert_eq!((outcome.code, outcome.total), (0, 3));
    assert_eq!(answers, b"X,0\nN,1,3\n");
    assert_eq!(memory.lots()[0], lot(10, 1, 0));
    assert_eq!(memory.firsts()[..3], [0, 2, 5]);
    assert_eq!(memory.loadedpins(1), [3, 1]);
    assert_eq!(memory.loadedpins(2), [2, 5, 1]);
    assert_eq!(memory.presentpins(1), [1, 3]);
    assert_eq!(memory.presentpins(2), [1, 2, 5]);

    let (outcome, answers) = memory.run_list(&sale, &LATE[..3], &[]);
    assert_eq!((outcome.code, outcome.total), (0, 0));
    assert_eq!(answers, b"X,0\n");
    assert_eq!(memory.lots()[0], lot(0, 0, 0));
    assert_eq!(memory.loadedpins(1), [3]);
}

#[test]
fn operands_that_are_too_few_or_not_there_refuse_the_list() {
    let sale = on_file("worked-sale.sale");
    let mut memory = Memory::default();
    for (first, count) in [
        (0, 0),
        (0, 1),
        (3, 4),
        (6, 2),
        (7, 0),
        (u32::MAX, 2),
        (2, u32::MAX),
    ] {
        let list = [b'N'.into(), first, count];
        let (outcome, answers) = memory.run_list(&sale, &list, &LATE_OPERANDS);
        assert_eq!((outcome.code, answers), (2, &b""[..]), "{first}, {count}");
    }
    // more than 512 calls are told before
    let list = [b'N'.into(), 0, 1].repeat(513);
    assert_eq!(memory.run_list(&sale, &list, &[]).0.code, 7);
}

#[test]
fn a_withdrawn_and_a_late_lot_in_a_file() {
    let mut memory = Memory::default();
    for name in [
        "withdrawn-numbers-reused-last-first",
        "superfine-late-n-23-at-256",
    ] {
        let sale = on_file(&format!("{name}.sale"));
        let report = on_file(&format!("{name}.report"));
        assert_eq!(memory.run(&sale), (0, &report[..]));
    }
    let mut memory = Memory::new(kapokdrill::Desk::Superfine);
    let sale = on_file("superfine-late-n-23-at-256.sale");
    let report = on_file("superfine-late-n-23-at-256.fine");
    assert_eq!(memory.run(&sale), (0, &report[..]));
}

#[test]
fn a_row_of_the_index_has_the_order_of_choice() {
    // Lot 1 to 2, 3, 4 wins 1, 3, 1; while 2 is joined into it 6, 3, 1.
    let file = b"SALE,5,4,4,1000\nLOT,1,1\nLOT,1,1\nLOT,1,2\nLOT,1,3\nLOT,1,4\n\
        BUY,1,1,3\nBUY,3,1,4\nBUY,1,1,5\nBUY,5,2,3\n";
    let mut memory = Memory::default();
    let rows = |memory: &Memory| {
        let row = |lot| memory.index()[entry(lot, 1)..][..4].to_vec();
        [row(1), row(2)]
    };
    assert_eq!(memory.run(file).0, 0);
    assert_eq!(rows(&memory), [[3, 2, 4, 0], [2, 3, 4, 0]]);
    let join = [b'J'.into(), 1, 2];
    assert_eq!(memory.run_list(file, &join, &[]).0.code, 0);
    assert_eq!(rows(&memory), [[2, 3, 4, 0], [0, 0, 0, 0]]);
}

#[test]
fn records_and_rows_past_the_sale_keep_what_they_held() {
    let unused = Lot {
        kept: 10,
        ..lot(7, 8, 9)
    };
    let mut lots = vec![unused; VERTICES];
    let mut index = vec![7_001; ROWS];
    let mut presentpins = vec![7_001; PINS];
    let outcome = lent::run(
        ONE_JOIN,
        &mut lots,
        Lent {
            output: &mut [0; OUTPUT],
            loadedpins: &mut [0; PINS],
            presentpins: &mut presentpins,
            firsts: &mut [0; NETS],
            loadedsizes: &mut [0; NETS],
            presentsizes: &mut [0; NETS],
            counts: &mut [0; ROWS],
            gains: &mut [0; ROWS],
            index: &mut index,
            visited: &mut [0; NETS],
        },
    );
    assert_eq!(outcome.code, 0);
    assert_eq!(lots[..5], WITH_ONE_JOIN);
    assert!(lots[5..].iter().all(|&record| record == unused));
    // buyer 2's mark 5, which the join took out, stands behind its present one
    assert_eq!(presentpins[..6], [1, 3, 2, 5, 3, 4]);
    assert!(presentpins[6..].iter().all(|&mark| mark == 7_001));
    // of the rows in use the entries past the two sessions too
    let mut wanted = vec![7_001; ROWS];
    for (lot, row) in (1..).zip(WITH_ONE_JOIN_INDEX) {
        wanted[entry(lot, 1)..][..2].copy_from_slice(&row);
    }
    assert!(index == wanted);
}

#[test]
fn numbers_that_name_no_buyer_have_no_marks() {
    let mut memory = Memory::default();
    memory.run(&on_file("worked-sale.sale"));
    for buyer in [0, 1_025, u32::MAX] {
        assert_eq!(memory.loadedpins(buyer).len(), 0);
        assert_eq!(memory.presentpins(buyer).len(), 0);
    }
}

#[test]
fn buyers_of_an_earlier_sale_have_no_marks() {
    let mut memory = Memory::default();
    assert_eq!(memory.run(&on_file("worked-sale.sale")).0, 0);
    assert!(!memory.loadedpins(3).is_empty());
    assert_eq!(memory.run(b"SALE,2,1,2,1000\nLOT,1,1\nLOT,1,2\nBUY,1,2,1\n").0, 0);
    assert_eq!(memory.loadedpins(1), [2, 1]);
    assert_eq!(memory.presentpins(1), [1, 2]);
    assert!(memory.loadedpins(2).is_empty());
    assert!(memory.presentpins(3).is_empty());
    assert_eq!(memory.run(b"SALE\n").0, 2);
    assert!(memory.loadedpins(1).is_empty());
}

#[test]
fn the_worked_sale_as_an_hmetis_file() {
    let folder = Path::new(env!("CARGO_MANIFEST_DIR")).join("../../hgr");
    let input = std::fs::read(folder.join("worked-sale.hgr")).expect("the input is on file");
    let (code, mut sale) = kapokdrill::convert(&input);
    assert_eq!(code, 0);
    assert!(on_file("worked-sale.sale").starts_with(&sale));
    sale.extend(b"J,2,5\nM,2,2\nS\nB\nA\n");
    let mut memory = Memory::default();
    assert_eq!(memory.run(&sale), (0, &on_file("worked-sale.report")[..]));
    assert_eq!(kapokdrill::convert(b""), (17, b"NO,17\n".to_vec()));
}
