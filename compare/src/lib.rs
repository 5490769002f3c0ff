//! The proved engine against the independent reference: report or answers, return and every entry
//! of every lent table, those that must keep what they held included; for halls of every set. Rests on
//! the bindings for the engine and on the reference, which works every entry out afresh.

use kapokdrill::lent::{
    self, Columns, Lent, ListOutcome, Lot, NetTables, Outcome, Record, Stack, Stretch, NETS,
    OUTPUT, PINS, ROWS,
};
use reference::generator::Random;
use reference::tables::{entry, Tables};
use reference::{parse, parse_within, report, run_calls, run_calls_within, Limits};
use std::path::PathBuf;

pub mod folder;
pub mod halls;
pub mod lists;
pub mod orders;
pub mod refused;
pub mod sheets;

use lists::List;

/// Lent memory of lengths that the caller settles.
#[derive(Clone, Debug, PartialEq, Eq)]
pub struct Memory {
    pub lots: Vec<Lot>,
    pub output: Vec<u8>,
    pub loadedpins: Vec<u16>,
    pub presentpins: Vec<u16>,
    pub firsts: Vec<u16>,
    pub loadedsizes: Vec<u16>,
    pub presentsizes: Vec<u16>,
    pub counts: Vec<u16>,
    pub gains: Vec<i32>,
    pub index: Vec<u16>,
    pub visited: Vec<u16>,
}

/// Random entries, and up to three more of them than there must be.
fn noise<T>(random: &mut Random, length: usize, entry: impl Fn(u64) -> T) -> Vec<T> {
    let length = length + random.between(0, 3) as usize;
    (0..length).map(|_| entry(random.bits())).collect()
}

impl Memory {
    /// Memory filled with random bytes.
    pub fn noise(random: &mut Random) -> Self {
        Memory::noise_within(&Limits::default(), random)
    }

    /// The same for an entry with other limits: the tables by lot are as long as these ask for.
    pub fn noise_within(limits: &Limits, random: &mut Random) -> Self {
        let lots = limits.lots as usize;
        let short = |bits: u64| bits as u16;
        let lot = |bits: u64| Lot {
            bales: bits as u32,
            session: (bits >> 32) as u16,
            above: (bits >> 48) as u16,
            kept: (bits >> 24) as u16,
        };
        Memory {
            lots: noise(random, lots, lot),
            output: noise(random, OUTPUT, |bits| bits as u8),
            loadedpins: noise(random, PINS, short),
            presentpins: noise(random, PINS, short),
            firsts: noise(random, NETS, short),
            loadedsizes: noise(random, NETS, short),
            presentsizes: noise(random, NETS, short),
            counts: noise(random, ROWS, short),
            gains: noise(random, 16 * lots, |bits| bits as i32),
            index: noise(random, 16 * lots, short),
            visited: noise(random, NETS, short),
        }
    }

    fn lent(&mut self) -> (&mut [Lot], Lent<'_>) {
        let lent = Lent {
            output: &mut self.output,
            loadedpins: &mut self.loadedpins,
            presentpins: &mut self.presentpins,
            firsts: &mut self.firsts,
            loadedsizes: &mut self.loadedsizes,
            presentsizes: &mut self.presentsizes,
            counts: &mut self.counts,
            gains: &mut self.gains,
            index: &mut self.index,
            visited: &mut self.visited,
        };
        (&mut self.lots, lent)
    }

    /// Runs the engine on this memory.
    pub fn run(&mut self, file: &[u8]) -> Outcome {
        let (lots, lent) = self.lent();
        lent::run(file, lots, lent)
    }

    /// Runs the engine on this memory through the superfine desk's entry.
    pub fn run_fine(&mut self, file: &[u8]) -> Outcome {
        let (lots, lent) = self.lent();
        lent::run_fine(file, lots, lent)
    }

    /// Runs a list of calls on the catalogue of a file, on this memory.
    pub fn run_list(&mut self, file: &[u8], list: &List) -> ListOutcome {
        let entries = [self.lots.len(); 4];
        self.run_list_with(file, list, entries)
    }

    /// The same, with so many entries in the tables of bales, sessions, lots above and who is kept:
    /// they begin as the records' fields, and what they hold at the end is put back.
    pub fn run_list_with(&mut self, file: &[u8], list: &List, entries: [usize; 4]) -> ListOutcome {
        let of = |n: usize| self.lots.iter().take(n);
        let mut weights: Vec<u32> = of(entries[0]).map(|lot| lot.bales).collect();
        let mut blocks: Vec<u16> = of(entries[1]).map(|lot| lot.session).collect();
        let mut aboves: Vec<u16> = of(entries[2]).map(|lot| lot.above).collect();
        let mut fixed: Vec<u16> = of(entries[3]).map(|lot| lot.kept).collect();
        let columns = Columns {
            weights: &mut weights,
            blocks: &mut blocks,
            aboves: &mut aboves,
            fixed: &mut fixed,
        };
        let (lots, lent) = self.lent();
        let outcome = lent::run_list(file, &list.calls, &list.operands, columns, lent);
        for (lot, &bales) in lots.iter_mut().zip(&weights) {
            lot.bales = bales;
        }
        for (lot, &session) in lots.iter_mut().zip(&blocks) {
            lot.session = session;
        }
        for (lot, &above) in lots.iter_mut().zip(&aboves) {
            lot.above = above;
        }
        for (lot, &kept) in lots.iter_mut().zip(&fixed) {
            lot.kept = kept;
        }
        outcome
    }

    /// Compares the stretch that the engine hands out for a net's pins with document 01's.
    pub fn compare_pins(&self, present: bool, net: u32) -> Result<(), String> {
        let tables = NetTables {
            loadedpins: &self.loadedpins,
            presentpins: &self.presentpins,
            firsts: &self.firsts,
            loadedsizes: &self.loadedsizes,
            presentsizes: &self.presentsizes,
        };
        let (found, wanted) = (lent::pins(tables, present, net), self.stretch(present, net));
        if found == wanted {
            return Ok(());
        }
        Err(format!(
            "net {net}, present {present}: {found:?}, not {wanted:?}"
        ))
    }

    /// The stretch of a buyer's marks. A buyer number of 0 or above 1,024, a buyers table or either
    /// mark table below its length, or a stretch reaching past its table gets the empty stretch at
    /// the table's start.
    fn stretch(&self, present: bool, net: u32) -> Stretch {
        let none = Stretch { first: 0, size: 0 };
        let nets = [&self.firsts, &self.loadedsizes, &self.presentsizes];
        let tables = [&self.loadedpins, &self.presentpins];
        let named = (1..=1_024).contains(&net);
        if !named
            || nets.iter().any(|table| table.len() < NETS)
            || tables.iter().any(|table| table.len() < PINS)
        {
            return none;
        }
        let i = net as usize - 1;
        let sizes = nets[1 + usize::from(present)];
        let (first, size) = (usize::from(self.firsts[i]), usize::from(sizes[i]));
        if first + size > tables[usize::from(present)].len() {
            return none;
        }
        Stretch { first, size }
    }

    /// Puts in what the reference says that the tables hold; all else stays.
    fn finish(&mut self, tables: &Tables) {
        let set = Set {
            lots: &mut self.lots,
            loadedpins: &mut self.loadedpins,
            presentpins: &mut self.presentpins,
            firsts: &mut self.firsts,
            loadedsizes: &mut self.loadedsizes,
            presentsizes: &mut self.presentsizes,
            counts: &mut self.counts,
            gains: &mut self.gains,
            index: &mut self.index,
            visited: &mut self.visited,
        };
        set.finish(tables);
    }

    /// After a refused file the tables are free, so they are taken from `found`; the output is not.
    fn free_tables(&mut self, found: &Memory) {
        let output = std::mem::take(&mut self.output);
        *self = found.clone();
        self.output = output;
    }

    /// An error names the first table that differs.
    fn same_as(&self, other: &Memory) -> Result<(), String> {
        let tables = [
            ("lots", self.lots == other.lots),
            ("output", self.output == other.output),
            ("loadedpins", self.loadedpins == other.loadedpins),
            ("presentpins", self.presentpins == other.presentpins),
            ("firsts", self.firsts == other.firsts),
            ("loadedsizes", self.loadedsizes == other.loadedsizes),
            ("presentsizes", self.presentsizes == other.presentsizes),
            ("counts", self.counts == other.counts),
            ("gains", self.gains == other.gains),
            ("index", self.index == other.index),
            ("visited", self.visited == other.visited),
        ];
        match tables.iter().find(|(_, same)| !same) {
            Some(&(name, _)) => Err(name.into()),
            None => Ok(()),
        }
    }
}

/// The lent tables of one catalogue.
struct Set<'a> {
    lots: &'a mut [Lot],
    loadedpins: &'a mut [u16],
    presentpins: &'a mut [u16],
    firsts: &'a mut [u16],
    loadedsizes: &'a mut [u16],
    presentsizes: &'a mut [u16],
    counts: &'a mut [u16],
    gains: &'a mut [i32],
    index: &'a mut [u16],
    visited: &'a mut [u16],
}

impl Set<'_> {
    /// Puts in what the reference says that the tables hold; all else stays.
    fn finish(self, tables: &Tables) {
        for (i, lot) in tables.lots.iter().enumerate() {
            self.lots[i] = Lot {
                bales: lot.bales as u32,
                session: lot.session as u16,
                above: lot.above as u16,
                kept: lot.kept as u16,
            };
            for (j, &gain) in tables.gains[i].iter().enumerate() {
                self.gains[entry(i + 1, j + 1)] = gain as i32;
            }
            for (j, &session) in tables.index[i].iter().enumerate() {
                self.index[entry(i + 1, 1) + j] = session as u16;
            }
        }
        for (i, &mark) in tables.loaded_marks.iter().enumerate() {
            self.loadedpins[i] = mark as u16;
        }
        for (i, buyer) in tables.buyers.iter().enumerate() {
            self.firsts[i] = buyer.first_place as u16;
            self.loadedsizes[i] = buyer.loaded_marks as u16;
            self.presentsizes[i] = buyer.present_marks as u16;
            self.visited[i] = tables.visited[i] as u16;
            for (j, &count) in tables.counts[i].iter().enumerate() {
                self.counts[entry(i + 1, j + 1)] = count as u16;
            }
            let marks = tables.present_marks[i].iter().chain(&tables.taken_out[i]);
            for (place, &mark) in (buyer.first_place..).zip(marks) {
                self.presentpins[place] = mark as u16;
            }
        }
        if tables.gathered {
            let marks = tables.loaded_marks.len();
            self.loadedpins[marks..PINS].fill(0);
            self.presentpins[marks..PINS].fill(0);
        }
    }
}

/// Runs a file on memory of random bytes and compares all with the reference: the return, or what
/// differs. The stretches of pins are compared for numbers that name a net and for some that don't.
pub fn compare(file: &[u8], random: &mut Random) -> Result<u32, String> {
    compare_through(Memory::run, &Limits::default(), file, random)
}

/// The same through the superfine desk's entry.
pub fn compare_fine(file: &[u8], random: &mut Random) -> Result<u32, String> {
    compare_through(Memory::run_fine, &Limits::SUPERFINE, file, random)
}

/// The same through an entry with its limits.
fn compare_through(
    entry: fn(&mut Memory, &[u8]) -> Outcome,
    limits: &Limits,
    file: &[u8],
    random: &mut Random,
) -> Result<u32, String> {
    let before = Memory::noise_within(limits, random);
    let mut found = before.clone();
    let outcome = entry(&mut found, file);

    let mut wanted = before;
    let (code, text) = match parse_within(file, limits) {
        Ok(sale) => {
            let end = run_calls_within(&sale.catalogue, &sale.calls, limits);
            wanted.finish(&end.tables);
            (0, end.report)
        }
        Err(refusal) => {
            wanted.free_tables(&found);
            (refusal.number, report::refused_file(&refusal).into_bytes())
        }
    };
    let written = text.len();
    if outcome != (Outcome { code, written }) {
        return Err(format!("{outcome:?}, not {code} and {written}"));
    }
    wanted.output[..written].copy_from_slice(&text);
    found.same_as(&wanted)?;
    for net in [0, 1, random.between(1, 1_024) as u32, 1_024, 1_025] {
        found.compare_pins(false, net)?;
        found.compare_pins(true, net)?;
    }
    Ok(code)
}

/// What a list of calls should give: the code, the text, the total, the joins and the record.
type Answered = (u32, Vec<u8>, u64, Vec<(u16, u16)>, Vec<(u16, u16)>);

/// Pairs of lots or sessions in the engine's numbers.
fn short(pairs: &[(usize, usize)]) -> Vec<(u16, u16)> {
    pairs.iter().map(|&(x, y)| (x as u16, y as u16)).collect()
}

/// Runs a list of calls on the catalogue of a file, on memory of random bytes, and compares all
/// with the reference: the return, or what differs.
pub fn compare_list(file: &[u8], list: &List, random: &mut Random) -> Result<u32, String> {
    let before = Memory::noise(random);
    let mut found = before.clone();
    let outcome = found.run_list(file, list);

    let mut wanted = before.clone();
    let (code, text, total, joins, moves): Answered = match (list.read(), parse(file)) {
        (Err(code), _) => (code, Vec::new(), 0, Vec::new(), Vec::new()),
        (Ok(calls), Ok(sale)) => {
            let end = run_calls(&sale.catalogue, &calls);
            wanted.finish(&end.tables);
            let mut lines = end.report.split_inclusive(|&byte| byte == b'\n');
            let answers = lines
                .by_ref()
                .take(calls.len())
                .flatten()
                .copied()
                .collect();
            let closing = lines.next().expect("the line of the totals");
            let (joins, moves) = (short(&end.joins), short(&end.record));
            (0, answers, last_number(closing), joins, moves)
        }
        (Ok(_), Err(refusal)) => {
            wanted.free_tables(&found);
            let line = report::refused_file(&refusal).into_bytes();
            (refusal.number, line, 0, Vec::new(), Vec::new())
        }
    };
    let returned = (outcome.code, outcome.written, u64::from(outcome.total));
    if returned != (code, text.len(), total) {
        return Err(format!("{returned:?}, not {code}, {}, {total}", text.len()));
    }
    if outcome.stack != Stack::of(&joins) {
        return Err("the stack".into());
    }
    if outcome.record != Record::of(&moves) {
        return Err("the record of moves".into());
    }
    wanted.output[..text.len()].copy_from_slice(&text);
    found.same_as(&wanted)?;
    Ok(code)
}

/// The last field of a line.
fn last_number(line: &[u8]) -> u64 {
    let text = std::str::from_utf8(line).expect("a line is text");
    let field = text.trim_end().rsplit(',').next().expect("a field");
    field.parse().expect("a number")
}

/// The sale files of the folder `sales`.
pub fn sales_on_file() -> Vec<PathBuf> {
    on_file("sale")
}

/// The hall files of the folder `sales`.
pub fn halls_on_file() -> Vec<PathBuf> {
    on_file("hall")
}

/// The files of the folder `sales` with an ending.
fn on_file(ending: &str) -> Vec<PathBuf> {
    let folder = concat!(env!("CARGO_MANIFEST_DIR"), "/../sales");
    let entries = std::fs::read_dir(folder).expect("the folder sales");
    let mut files: Vec<PathBuf> = entries
        .map(|entry| entry.expect("an entry").path())
        .filter(|path| path.extension().is_some_and(|found| found == ending))
        .collect();
    files.sort();
    files
}

/// Up to 300 bytes, of all values or of those that sale files are made of.
pub fn random_bytes(seed: u64) -> Vec<u8> {
    let mut random = Random::new(seed);
    let any = random.in_hundred(30);
    let length = random.between(0, 300);
    (0..length)
        .map(|_| {
            if any {
                random.bits() as u8
            } else {
                *random.pick(b"SALEOTBUYJMWPXNK,,,,0123456789\n\n\n")
            }
        })
        .collect()
}
