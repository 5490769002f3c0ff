//! The proved splitter for Rust: `Memory` owns all that the engine is lent and runs sales on it, and
//! `Hall` does the same for halls of several catalogues. Rests on the static libraries of the crates
//! `engine`, `hgr` and `sheets`; `lent` has the calls across. `picture` draws a sale or a hall as SVG, and
//! `command` has what the package's programs share.

pub mod command;
mod hall;
pub mod lent;
pub mod picture;

pub use hall::Hall;

use lent::{
    Columns, Lent, ListOutcome, Lot, NetTables, FINE_ROWS, FINE_VERTICES, NETS, OUTPUT, PINS, ROWS,
    SHEETS_OUTPUT, VERTICES,
};

/// The entry that a sale file goes through: the main one, for catalogues of 1,024 lots and 16
/// sessions, or the superfine desk's, for 256 and 8.
#[derive(Clone, Copy, Debug, PartialEq, Eq)]
pub enum Desk {
    Main,
    Superfine,
}

/// The lent output and tables of document 01, used again by every run and never cleared. Lots,
/// buyers (the nets) and sessions (the blocks) count from 1. After a run with code 0 the entries of
/// the sale's own lots and buyers hold what document 01 says; others keep what they held. Once an X or
/// N was accepted, both tables of marks hold 0 from the last mark to place 8,192.
pub struct Memory {
    desk: Desk,
    /// How many buyers the catalogue has that the tables hold: entries past it keep what they held.
    nets: u32,
    lots: Box<[Lot]>,
    output: Box<[u8]>,
    loadedpins: Box<[u16]>,
    presentpins: Box<[u16]>,
    firsts: Box<[u16]>,
    loadedsizes: Box<[u16]>,
    presentsizes: Box<[u16]>,
    counts: Box<[u16]>,
    gains: Box<[i32]>,
    index: Box<[u16]>,
    visited: Box<[u16]>,
}

impl Default for Memory {
    fn default() -> Self {
        Memory::new(Desk::Main)
    }
}

impl Memory {
    /// Memory as long as the entry asks. The lots, the gains and the index go by how many lots it takes.
    pub fn new(desk: Desk) -> Self {
        let lot = Lot {
            bales: 0,
            session: 0,
            above: 0,
            kept: 0,
        };
        let (vertices, rows) = match desk {
            Desk::Main => (VERTICES, ROWS),
            Desk::Superfine => (FINE_VERTICES, FINE_ROWS),
        };
        Memory {
            desk,
            nets: 0,
            lots: vec![lot; vertices].into(),
            output: vec![0; OUTPUT].into(),
            loadedpins: vec![0; PINS].into(),
            presentpins: vec![0; PINS].into(),
            firsts: vec![0; NETS].into(),
            loadedsizes: vec![0; NETS].into(),
            presentsizes: vec![0; NETS].into(),
            counts: vec![0; ROWS].into(),
            gains: vec![0; rows].into(),
            index: vec![0; rows].into(),
            visited: vec![0; NETS].into(),
        }
    }

    /// Reads a sale file, runs its calls and writes the report. The code is 0, or 1 to 7 or 21 for a
    /// file turned down, whose report is one line.
    pub fn run(&mut self, file: &[u8]) -> (u32, &[u8]) {
        let desk = self.desk;
        let (lots, lent) = self.lent();
        let outcome = match desk {
            Desk::Main => lent::run(file, lots, lent),
            Desk::Superfine => lent::run_fine(file, lots, lent),
        };
        self.holds(outcome.code, file);
        (outcome.code, &self.output[..outcome.written])
    }

    /// Runs a list of calls and its operands, as `lent::run_list` takes them, on the catalogue of a
    /// sale file, and writes the lines of their answers. The list's entry has the main one's limits:
    /// the superfine desk's memory is too short for it (8).
    pub fn run_list(
        &mut self,
        file: &[u8],
        list: &[u32],
        operands: &[u32],
    ) -> (ListOutcome, &[u8]) {
        let mut weights: Vec<u32> = self.lots.iter().map(|lot| lot.bales).collect();
        let mut blocks: Vec<u16> = self.lots.iter().map(|lot| lot.session).collect();
        let mut aboves: Vec<u16> = self.lots.iter().map(|lot| lot.above).collect();
        let mut fixed: Vec<u16> = self.lots.iter().map(|lot| lot.kept).collect();
        let columns = Columns {
            weights: &mut weights,
            blocks: &mut blocks,
            aboves: &mut aboves,
            fixed: &mut fixed,
        };
        let (lots, lent) = self.lent();
        let outcome = lent::run_list(file, list, operands, columns, lent);
        for (i, lot) in lots.iter_mut().enumerate() {
            lot.bales = weights[i];
            lot.session = blocks[i];
            lot.above = aboves[i];
            lot.kept = fixed[i];
        }
        self.holds(outcome.code, file);
        let written = outcome.written;
        (outcome, &self.output[..written])
    }

    /// Notes how many buyers the tables hold after a run: those of an accepted file, as many as before
    /// where memory was too short (8), none after any other refusal.
    fn holds(&mut self, code: u32, file: &[u8]) {
        self.nets = match code {
            0 => buyers(file),
            8 => self.nets,
            _ => 0,
        };
    }

    fn lent(&mut self) -> (&mut [Lot], Lent<'_>) {
        let lent = Lent {
            output: &mut self.output,
            loadedpins: &mut self.loadedpins,
            presentpins: &mut self.presentpins,
            firsts: &mut self.firsts,
            loadedsizes: &mut self.loadedsizes,
            presentsizes: &mut self.presentsizes,
            counts: &mut self.counts,
            gains: &mut self.gains,
            index: &mut self.index,
            visited: &mut self.visited,
        };
        (&mut self.lots, lent)
    }

    /// The record of each lot; a withdrawn one's is all 0.
    pub fn lots(&self) -> &[Lot] {
        &self.lots
    }

    /// Where each buyer's stretch begins in both tables of marks, from 0.
    pub fn firsts(&self) -> &[u16] {
        &self.firsts
    }

    /// How many marks each buyer was loaded with, less those of withdrawn lots, plus those of added ones.
    pub fn loadedsizes(&self) -> &[u16] {
        &self.loadedsizes
    }

    /// How many marks each buyer has at present.
    pub fn presentsizes(&self) -> &[u16] {
        &self.presentsizes
    }

    /// How many present marks a buyer has in a session, at `entry(buyer, session)`.
    pub fn counts(&self) -> &[u16] {
        &self.counts
    }

    /// The gain of a lot to a session, at `entry(lot, session)`.
    pub fn gains(&self) -> &[i32] {
        &self.gains
    }

    /// Each lot's moves in the order of choice, its row from `entry(lot, 1)` on. The first entries of a
    /// row, as many as there are sessions, are the lot's other sessions, gain descending, then session
    /// ascending, and one 0 behind them; 0 in all of these for a lot off the board.
    pub fn index(&self) -> &[u16] {
        &self.index
    }

    /// The sessions each buyer visits: session s is bit s - 1 from the lowest.
    pub fn visited(&self) -> &[u16] {
        &self.visited
    }

    /// A buyer's marks in the file's order, without those of withdrawn lots and those of added lots
    /// behind them; none for a number that names no buyer.
    pub fn loadedpins(&self, net: u32) -> &[u16] {
        self.pins(&self.loadedpins, false, net)
    }

    /// A buyer's marks as they stand, the lowest first; none for a number that names no buyer. In the
    /// table the places behind them, to the end of the buyer's loaded stretch, hold the marks that
    /// joins took out, the last one first: of each join of two lots that the buyer had both as
    /// present marks at that time, the one that left the board.
    pub fn presentpins(&self, net: u32) -> &[u16] {
        self.pins(&self.presentpins, true, net)
    }

    /// The stretch of a table of pins that the engine hands out.
    fn pins<'a>(&self, table: &'a [u16], present: bool, net: u32) -> &'a [u16] {
        let tables = NetTables {
            loadedpins: &self.loadedpins,
            presentpins: &self.presentpins,
            firsts: &self.firsts,
            loadedsizes: &self.loadedsizes,
            presentsizes: &self.presentsizes,
        };
        if net > self.nets {
            return &[];
        }
        let stretch = lent::pins(tables, present, net);
        &table[stretch.first..][..stretch.size]
    }
}

/// How many buyers an accepted catalogue has: the third field of its first line.
fn buyers(catalogue: &[u8]) -> u32 {
    let mut fields = catalogue.split(|byte| matches!(byte, b',' | b'\n'));
    fields
        .nth(2)
        .and_then(|field| std::str::from_utf8(field).ok()?.parse().ok())
        .unwrap_or(0)
}

/// The place of a lot's or a buyer's entry for a session in the tables of gains and counts.
pub fn entry(number: usize, session: usize) -> usize {
    16 * (number - 1) + session - 1
}

/// An hMETIS file with its partition listing as a sale file without calls, or the number of its
/// refusal, 17 to 19, with the line `NO,number`.
pub fn convert(input: &[u8]) -> (u32, Vec<u8>) {
    let mut output = vec![0; OUTPUT];
    let outcome = lent::convert(input, &mut output);
    output.truncate(outcome.written);
    (outcome.code, output)
}

/// The buyers' sheets of a sale file after its calls: for each buyer `SHEET,buyer,visited`, then
/// `AT,session,lot` for each lot marked, by session and then lot number. The code is 0, or the number
/// under which the file was turned down, with the line `NO,number,line`.
pub fn sheets(file: &[u8]) -> (u32, Vec<u8>) {
    let mut output = vec![0; SHEETS_OUTPUT];
    let outcome = lent::sheets(file, &mut output);
    output.truncate(outcome.written);
    (outcome.code, output)
}
