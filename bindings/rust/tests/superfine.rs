//! The superfine desk's entry beside the main one: its ranges, the least length of each piece of lent
//! memory, and the same sale through both.

use kapokdrill::lent::{
    self, Lent, Lot, Outcome, FINE_ROWS, FINE_VERTICES, NETS, OUTPUT, PINS, ROWS, VERTICES,
};
use kapokdrill::{Desk, Memory};
use std::fmt::Write;

/// Buyers of the sale below.
const BUYERS: usize = 40;

/// A sale of so many lots and sessions, with a call of each kind.
fn sale(lots: usize, sessions: usize) -> String {
    let mut text = format!("SALE,{lots},{BUYERS},{sessions},300\n");
    for i in 0..lots {
        let _ = writeln!(text, "LOT,{},{}", 3 + i % 5, i % sessions + 1);
    }
    for b in 0..BUYERS {
        let _ = write!(text, "BUY,{}", 1 + b % 9);
        for j in 0..7 {
            let _ = write!(text, ",{}", (b * 37 + j * 13) % lots + 1);
        }
        text.push('\n');
    }
    text.push_str("J,1,14\nM,1,2\nW,1,38\nP\nS\nB\nA\n");
    text
}

/// Lent memory with entries that no run writes by chance.
#[derive(Clone, Debug, PartialEq, Eq)]
struct Pieces {
    lots: Vec<Lot>,
    output: Vec<u8>,
    sixteens: [Vec<u16>; 7],
    gains: Vec<i32>,
    index: Vec<u16>,
}

/// The lengths of the eleven pieces in the order of the entries' parameters: lots, output, loaded
/// pins, present pins, firsts, loaded sizes, present sizes, counts, gains, index, visited.
type Lengths = [usize; 11];

const MAIN: Lengths = [
    VERTICES, OUTPUT, PINS, PINS, NETS, NETS, NETS, ROWS, ROWS, ROWS, NETS,
];
const FINE: Lengths = [
    FINE_VERTICES,
    OUTPUT,
    PINS,
    PINS,
    NETS,
    NETS,
    NETS,
    ROWS,
    FINE_ROWS,
    FINE_ROWS,
    NETS,
];

impl Pieces {
    fn new(lengths: Lengths) -> Self {
        let lot = Lot {
            bales: 70_001,
            session: 70,
            above: 7_001,
            kept: 71,
        };
        Pieces {
            lots: vec![lot; lengths[0]],
            output: vec![7; lengths[1]],
            sixteens: [2, 3, 4, 5, 6, 7, 10].map(|piece| vec![7_001; lengths[piece]]),
            gains: vec![-7_000_001; lengths[8]],
            index: vec![7_001; lengths[9]],
        }
    }

    fn run(&mut self, desk: Desk, file: &[u8]) -> Outcome {
        let [loadedpins, presentpins, firsts, loadedsizes, presentsizes, counts, visited] =
            &mut self.sixteens;
        let lent = Lent {
            output: &mut self.output,
            loadedpins,
            presentpins,
            firsts,
            loadedsizes,
            presentsizes,
            counts,
            gains: &mut self.gains,
            index: &mut self.index,
            visited,
        };
        match desk {
            Desk::Main => lent::run(file, &mut self.lots, lent),
            Desk::Superfine => lent::run_fine(file, &mut self.lots, lent),
        }
    }
}

/// Memory of these lengths is too short: 8, and nothing is touched.
fn assert_short(desk: Desk, lengths: Lengths) {
    let mut pieces = Pieces::new(lengths);
    let before = pieces.clone();
    let outcome = pieces.run(desk, sale(9, 2).as_bytes());
    assert_eq!((outcome.code, outcome.written), (8, 0), "{lengths:?}");
    assert!(pieces == before, "{lengths:?} was touched");
}

#[test]
fn each_piece_at_its_least_length_and_one_below() {
    for (desk, least) in [(Desk::Main, MAIN), (Desk::Superfine, FINE)] {
        let outcome = Pieces::new(least).run(desk, sale(9, 2).as_bytes());
        assert_eq!(outcome.code, 0);
        for piece in 0..least.len() {
            let mut lengths = least;
            lengths[piece] -= 1;
            assert_short(desk, lengths);
        }
    }
}

#[test]
fn tables_of_the_superfine_desk_are_too_short_for_the_main_entry() {
    let file = sale(256, 8);
    let mut pieces = Pieces::new(FINE);
    let before = pieces.clone();
    assert_eq!(pieces.run(Desk::Main, file.as_bytes()).code, 8);
    assert!(pieces == before);
    assert_eq!(pieces.run(Desk::Superfine, file.as_bytes()).code, 0);
    for piece in [0, 8, 9] {
        let mut lengths = MAIN;
        lengths[piece] = FINE[piece];
        assert_short(Desk::Main, lengths);
    }
}

#[test]
fn ranges_of_the_superfine_desk() {
    let refused = (3, &b"NO,3,1\n"[..]);
    for (lots, sessions) in [(257, 8), (256, 9), (257, 9), (1_024, 16)] {
        let file = sale(lots, sessions);
        assert_eq!(Memory::default().run(file.as_bytes()).0, 0);
        let mut fine = Memory::new(Desk::Superfine);
        assert_eq!(fine.run(file.as_bytes()), refused);
    }
    let mut fine = Memory::new(Desk::Superfine);
    assert_eq!(fine.run(sale(256, 8).as_bytes()).0, 0);
}

#[test]
fn a_sale_of_256_lots_and_8_sessions_through_both_entries() {
    let file = sale(256, 8);
    let mut main = Pieces::new(MAIN);
    let mut fine = Pieces::new(FINE);
    let outcome = main.run(Desk::Main, file.as_bytes());
    assert_eq!(outcome.code, 0);
    assert_eq!(fine.run(Desk::Superfine, file.as_bytes()), outcome);
    // what the main entry has more is as it was
    let rest = Pieces::new(MAIN);
    assert!(main.lots[FINE_VERTICES..] == rest.lots[FINE_VERTICES..]);
    assert!(main.gains[FINE_ROWS..] == rest.gains[FINE_ROWS..]);
    assert!(main.index[FINE_ROWS..] == rest.index[FINE_ROWS..]);
    main.lots.truncate(FINE_VERTICES);
    main.gains.truncate(FINE_ROWS);
    main.index.truncate(FINE_ROWS);
    assert!(main == fine);
}

#[test]
fn the_list_is_the_main_entrys() {
    let mut fine = Memory::new(Desk::Superfine);
    let (outcome, lines) = fine.run_list(sale(9, 2).as_bytes(), &[], &[]);
    assert_eq!((outcome.code, lines), (8, &b""[..]));
}
