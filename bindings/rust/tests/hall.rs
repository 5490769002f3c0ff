//! Halls through the bindings: the reports on file from the examples' programs in Rust and in C, each
//! catalogue's tables through `Hall`, the sets that keep what they held, and lent memory that is short.

use kapokdrill::lent::{
    self, LentSets, Lot, Outcome, HALL_VERTICES, NETS, OUTPUT, PINS, ROWS, SETS, VERTICES,
};
use kapokdrill::{entry, Hall, Memory};
use std::io::Write;
use std::path::{Path, PathBuf};
use std::process::{Command, Output, Stdio};

fn top() -> PathBuf {
    Path::new(env!("CARGO_MANIFEST_DIR")).join("../..")
}

fn on_file(name: &str) -> Vec<u8> {
    std::fs::read(top().join("sales").join(name)).expect("it is on file")
}

/// The halls on file, in the order of their names.
fn halls_on_file() -> Vec<PathBuf> {
    let entries = std::fs::read_dir(top().join("sales")).expect("the folder sales");
    let mut halls: Vec<PathBuf> = entries
        .map(|entry| entry.expect("an entry").path())
        .filter(|path| path.extension().is_some_and(|ending| ending == "hall"))
        .collect();
    halls.sort();
    halls
}

/// The example as cargo builds it before the tests run: beside the folder of the test programs.
fn example() -> PathBuf {
    let test = std::env::current_exe().expect("the test is a program");
    let folder = test.parent().and_then(Path::parent).expect("a folder");
    folder.join("examples/hall")
}

/// The example in C, compiled and linked.
fn example_in_c() -> PathBuf {
    let program = Path::new(env!("CARGO_TARGET_TMPDIR")).join("hall-in-c");
    let compiled = Command::new("cc")
        .current_dir(top())
        .args(["-std=c99", "-Wall", "-Wextra", "-pedantic", "-Werror"])
        .args(["-I", "bindings", "bindings/c/hall.c"])
        .args(["target/staticlib/libengine.a", "-o"])
        .arg(&program)
        .status()
        .expect("the C compiler starts");
    assert!(compiled.success());
    program
}

/// How a program ends that has a file on its standard input.
fn with_input(program: &Path, file: &[u8]) -> Output {
    let mut child = Command::new(program)
        .stdin(Stdio::piped())
        .stdout(Stdio::piped())
        .spawn()
        .expect("the program starts");
    let mut input = child.stdin.take().expect("the input is a pipe");
    input.write_all(file).expect("the program reads its input");
    drop(input);
    child.wait_with_output().expect("the program ends")
}

/// 0, or the number of a report that is one line `NO,number,line`.
fn code_of(report: &[u8]) -> i32 {
    let text = String::from_utf8_lossy(report);
    match text.trim_end().split(',').collect::<Vec<_>>()[..] {
        ["NO", number, _] => number.parse().expect("a number"),
        _ => 0,
    }
}

#[test]
fn the_examples_print_the_reports_of_the_halls_on_file() {
    let programs = [example(), example_in_c()];
    let halls = halls_on_file();
    assert!(halls.len() >= 120);
    for path in halls {
        let file = std::fs::read(&path).expect("a hall file");
        let report = std::fs::read(path.with_extension("report")).expect("its report");
        for program in &programs {
            let end = with_input(program, &file);
            assert!(end.stdout == report, "{}", path.display());
            let status = end.status.code();
            assert_eq!(status, Some(code_of(&report)), "{}", path.display());
        }
    }
}

#[test]
fn one_memory_runs_the_halls_on_file_in_turn() {
    let mut hall = Hall::new();
    for path in halls_on_file() {
        let file = std::fs::read(&path).expect("a hall file");
        let report = std::fs::read(path.with_extension("report")).expect("its report");
        let (code, found) = hall.run(&file);
        assert!(found == report, "{}", path.display());
        assert_eq!(code as i32, code_of(&report), "{}", path.display());
        let accepted = hall.catalogues() >= 2;
        assert_eq!(accepted, code == 0, "{}", path.display());
    }
}

/// The catalogue of the worked sale.
const CATALOGUE: &str = "SALE,5,3,2,200\nLOT,10,1\nLOT,10,1\nLOT,10,2\nLOT,10,2\nLOT,10,1\n\
    BUY,3,1,3\nBUY,2,2,5\nBUY,1,3,4\n";

/// A hall of this catalogue and of a smaller one, whose buyer has one mark.
fn two_catalogues(calls: &str) -> Vec<u8> {
    format!("HALL,2,60\n{CATALOGUE}EST,2,1,3,1000\nLOT,2,4,3\nLOT,4,4,2,K\nBUY,7,2\n{calls}")
        .into_bytes()
}

/// The record of a lot that is not kept.
const fn lot(bales: u32, session: u16, above: u16) -> Lot {
    Lot {
        bales,
        session,
        above,
        kept: 0,
    }
}

#[test]
fn each_catalogue_has_a_set_of_tables() {
    let mut hall = Hall::new();
    let (code, report) = hall.run(&two_catalogues("1,J,2,5\n2,M,1,1\n"));
    assert_eq!(code, 0);
    assert!(report.starts_with(b"1,J,20\n2,M,0,0,0\nTOTAL,3,3\n"));
    assert_eq!(hall.catalogues(), 2);

    let mut memory = Memory::default();
    assert_eq!(memory.run(format!("{CATALOGUE}J,2,5\n").as_bytes()).0, 0);
    assert_eq!(hall.lots(1)[..5], memory.lots()[..5]);
    assert_eq!(hall.lots(1)[4], lot(10, 0, 2));
    assert_eq!(hall.firsts(1)[..3], [0, 2, 4]);
    assert_eq!(hall.loadedsizes(1)[..3], [2, 2, 2]);
    assert_eq!(hall.presentsizes(1)[..3], [2, 1, 2]);
    for buyer in 1..=3 {
        assert_eq!(hall.loadedpins(1, buyer), memory.loadedpins(buyer));
        assert_eq!(hall.presentpins(1, buyer), memory.presentpins(buyer));
    }
    assert_eq!(hall.presentpins(1, 2), [2]);
    // both began with zeros, so the rest is alike too
    assert_eq!(hall.counts(1), memory.counts());
    assert_eq!(hall.gains(1), memory.gains());
    assert_eq!(hall.index(1), memory.index());
    assert_eq!(hall.visited(1), memory.visited());

    let kept = Lot {
        kept: 1,
        ..lot(4, 2, 0)
    };
    assert_eq!(hall.lots(2)[..2], [lot(4, 1, 0), kept]);
    assert_eq!(hall.loadedpins(2, 1), [2]);
    assert_eq!(hall.counts(2)[entry(1, 2)], 1);
    assert_eq!(hall.visited(2)[0], 0b10);
    assert_eq!(hall.index(2)[entry(2, 1)..][..3], [1, 3, 0]);
    assert_eq!(hall.gains(2)[entry(2, 1)], 0);
}

#[test]
fn numbers_that_name_nothing_have_no_entries() {
    let mut hall = Hall::new();
    assert_eq!(hall.run(&two_catalogues("")).0, 0);
    for catalogue in [0, 5, usize::MAX] {
        assert!(hall.lots(catalogue).is_empty());
        assert!(hall.firsts(catalogue).is_empty());
        assert!(hall.loadedsizes(catalogue).is_empty());
        assert!(hall.presentsizes(catalogue).is_empty());
        assert!(hall.counts(catalogue).is_empty());
        assert!(hall.gains(catalogue).is_empty());
        assert!(hall.index(catalogue).is_empty());
        assert!(hall.visited(catalogue).is_empty());
        assert!(hall.loadedpins(catalogue, 1).is_empty());
        assert!(hall.presentpins(catalogue, 1).is_empty());
    }
    for (catalogue, buyer) in [(1, 0), (1, 4), (2, 2), (3, 1), (4, 1), (1, u32::MAX)] {
        assert!(hall.loadedpins(catalogue, buyer).is_empty());
        assert!(hall.presentpins(catalogue, buyer).is_empty());
    }
    assert_eq!(hall.lots(4).len(), VERTICES);
}

#[test]
fn buyers_of_an_earlier_hall_have_no_marks() {
    let mut hall = Hall::new();
    assert_eq!(hall.run(&two_catalogues("")).0, 0);
    assert!(!hall.loadedpins(1, 3).is_empty());
    let small = b"HALL,2,9\nSALE,1,1,2,1000\nLOT,1,1\nBUY,1,1\nSALE,1,0,2,1000\nLOT,1,1\n";
    assert_eq!(hall.run(small).0, 0);
    assert_eq!(hall.loadedpins(1, 1), [1]);
    assert!(hall.loadedpins(1, 2).is_empty());
    assert!(hall.loadedpins(2, 1).is_empty());
    assert_eq!(hall.run(b"HALL\n"), (2, &b"NO,2,1\n"[..]));
    assert_eq!(hall.catalogues(), 0);
    assert!(hall.loadedpins(1, 1).is_empty());
}

/// So many of each of the nine tables' sets, records and bytes.
#[derive(Clone, Copy)]
struct Lengths {
    lots: usize,
    output: usize,
    sets: [usize; 9],
}

const LEAST: Lengths = Lengths {
    lots: HALL_VERTICES,
    output: OUTPUT,
    sets: [SETS; 9],
};

/// All that a hall was lent, every entry 7 before it ran.
struct Sevens {
    lots: Vec<Lot>,
    output: Vec<u8>,
    pins: [Vec<[u16; PINS]>; 2],
    nets: [Vec<[u16; NETS]>; 4],
    rows: [Vec<[u16; ROWS]>; 2],
    gains: Vec<[i32; ROWS]>,
}

const SEVEN: Lot = Lot {
    bales: 7,
    session: 7,
    above: 7,
    kept: 7,
};

impl Sevens {
    fn new(lengths: Lengths) -> Self {
        let [a, b, c, d, e, f, g, h, i] = lengths.sets;
        Sevens {
            lots: vec![SEVEN; lengths.lots],
            output: vec![7; lengths.output],
            pins: [a, b].map(|sets| vec![[7; PINS]; sets]),
            nets: [c, d, e, i].map(|sets| vec![[7; NETS]; sets]),
            rows: [f, h].map(|sets| vec![[7; ROWS]; sets]),
            gains: vec![[7; ROWS]; g],
        }
    }

    fn run(&mut self, file: &[u8]) -> Outcome {
        let [loadedpins, presentpins] = &mut self.pins;
        let [firsts, loadedsizes, presentsizes, visited] = &mut self.nets;
        let [counts, index] = &mut self.rows;
        let lent = LentSets {
            output: &mut self.output,
            loadedpins,
            presentpins,
            firsts,
            loadedsizes,
            presentsizes,
            counts,
            gains: &mut self.gains,
            index,
            visited,
        };
        lent::hall(file, &mut self.lots, lent)
    }

    /// Whether the sets from a place on, and the records that go with them, hold 7 throughout.
    fn are_left(&self, first: usize) -> bool {
        let all = |table: &[u16]| table.iter().all(|&entry| entry == 7);
        self.lots
            .iter()
            .skip(VERTICES * first)
            .all(|&record| record == SEVEN)
            && self
                .pins
                .iter()
                .flat_map(|sets| sets.iter().skip(first))
                .all(|set| all(set))
            && self
                .nets
                .iter()
                .flat_map(|sets| sets.iter().skip(first))
                .all(|set| all(set))
            && self
                .rows
                .iter()
                .flat_map(|sets| sets.iter().skip(first))
                .all(|set| all(set))
            && self
                .gains
                .iter()
                .skip(first)
                .flatten()
                .all(|&entry| entry == 7)
    }
}

#[test]
fn sets_past_the_last_catalogue_keep_what_they_held() {
    let more = Lengths {
        lots: HALL_VERTICES + VERTICES + 1,
        output: OUTPUT + 1,
        sets: [SETS + 1; 9],
    };
    for lengths in [LEAST, more] {
        let mut sevens = Sevens::new(lengths);
        let outcome = sevens.run(&two_catalogues("1,J,2,5\n"));
        assert_eq!(outcome.code, 0);
        assert!(sevens.output[..outcome.written].starts_with(b"1,J,20\n"));
        assert!(sevens.output[outcome.written..]
            .iter()
            .all(|&byte| byte == 7));
        assert!(sevens.are_left(2));
        assert!(!sevens.are_left(1));
        // records past the lots of a catalogue too
        assert!(sevens.lots[5..VERTICES]
            .iter()
            .all(|&record| record == SEVEN));
        assert_eq!(sevens.lots[VERTICES], lot(4, 3, 0));
        assert!(sevens.lots[VERTICES + 2..]
            .iter()
            .all(|&record| record == SEVEN));
    }
    let mut sevens = Sevens::new(more);
    let outcome = sevens.run(&on_file("hall-four-catalogues.hall"));
    assert_eq!(outcome.code, 0);
    assert!(sevens.are_left(4) && !sevens.are_left(3));
}

#[test]
fn short_memory_is_8_and_nothing_is_touched() {
    let mut short = Vec::new();
    for lots in [HALL_VERTICES - 1, VERTICES, 0] {
        short.push(Lengths { lots, ..LEAST });
    }
    for output in [OUTPUT - 1, 0] {
        short.push(Lengths { output, ..LEAST });
    }
    for table in 0..9 {
        for sets in [SETS - 1, 2, 0] {
            let mut lengths = LEAST;
            lengths.sets[table] = sets;
            short.push(lengths);
        }
    }
    for lengths in short {
        let mut sevens = Sevens::new(lengths);
        let outcome = sevens.run(&two_catalogues(""));
        let (code, written) = (8, 0);
        assert_eq!(outcome, Outcome { code, written });
        assert!(sevens.are_left(0));
        assert!(sevens.output.iter().all(|&byte| byte == 7));
    }
}
