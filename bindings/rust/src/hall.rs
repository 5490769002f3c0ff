//! `Hall` owns all that the hall's entry is lent, four sets of tables, and runs halls on it.
//! Rests on `lent` for the calls across.

use crate::buyers;
use crate::lent::{
    self, LentSets, Lot, NetTables, HALL_VERTICES, NETS, OUTPUT, PINS, ROWS, SETS, VERTICES,
};

/// The lent output and a set of tables for each catalogue that a hall may have, used again by every run
/// and never cleared. Catalogues, lots, buyers (the nets) and sessions (the blocks) count from 1. After a
/// run with code 0 a catalogue's set holds what `Memory` would hold of it; sets past the last catalogue
/// keep what they held. A number other than 1 to 4 names no set, and what is asked of it is empty.
pub struct Hall {
    /// How many buyers each catalogue has that the sets hold: entries past them keep what they held.
    nets: Vec<u32>,
    /// The sets' records in a row.
    lots: Box<[Lot; HALL_VERTICES]>,
    output: Box<[u8; OUTPUT]>,
    loadedpins: Box<[[u16; PINS]; SETS]>,
    presentpins: Box<[[u16; PINS]; SETS]>,
    firsts: Box<[[u16; NETS]; SETS]>,
    loadedsizes: Box<[[u16; NETS]; SETS]>,
    presentsizes: Box<[[u16; NETS]; SETS]>,
    counts: Box<[[u16; ROWS]; SETS]>,
    gains: Box<[[i32; ROWS]; SETS]>,
    index: Box<[[u16; ROWS]; SETS]>,
    visited: Box<[[u16; NETS]; SETS]>,
}

/// An array of one value on the heap, which is never on the stack: the largest have a quarter of a
/// megabyte.
fn boxed<T: Clone, const N: usize>(value: T) -> Box<[T; N]> {
    match vec![value; N].into_boxed_slice().try_into() {
        Ok(array) => array,
        Err(_) => unreachable!("the slice has N entries"),
    }
}

/// The entries of a catalogue's set, none where the number names no set.
fn set<T, const N: usize>(sets: &[[T; N]; SETS], catalogue: usize) -> &[T] {
    let place = catalogue.checked_sub(1);
    place
        .and_then(|place| sets.get(place))
        .map_or(&[], |entries| &entries[..])
}

impl Default for Hall {
    fn default() -> Self {
        Hall::new()
    }
}

impl Hall {
    /// Memory as long as the hall's entry asks.
    pub fn new() -> Self {
        let lot = Lot {
            bales: 0,
            session: 0,
            above: 0,
            kept: 0,
        };
        Hall {
            nets: Vec::new(),
            lots: boxed(lot),
            output: boxed(0),
            loadedpins: boxed([0; PINS]),
            presentpins: boxed([0; PINS]),
            firsts: boxed([0; NETS]),
            loadedsizes: boxed([0; NETS]),
            presentsizes: boxed([0; NETS]),
            counts: boxed([0; ROWS]),
            gains: boxed([0; ROWS]),
            index: boxed([0; ROWS]),
            visited: boxed([0; NETS]),
        }
    }

    /// Reads a hall's file, runs its calls and writes the report: the answers, each led by its
    /// catalogue's number, then the closing reports in turn. The code is 0, or 1 to 7, 21 or 24 for a file
    /// turned down, whose report is one line.
    pub fn run(&mut self, file: &[u8]) -> (u32, &[u8]) {
        let lent = LentSets {
            output: &mut self.output[..],
            loadedpins: &mut self.loadedpins[..],
            presentpins: &mut self.presentpins[..],
            firsts: &mut self.firsts[..],
            loadedsizes: &mut self.loadedsizes[..],
            presentsizes: &mut self.presentsizes[..],
            counts: &mut self.counts[..],
            gains: &mut self.gains[..],
            index: &mut self.index[..],
            visited: &mut self.visited[..],
        };
        let outcome = lent::hall(file, &mut self.lots[..], lent);
        self.nets = match outcome.code {
            0 => buyers_of_each(file),
            _ => Vec::new(),
        };
        (outcome.code, &self.output[..outcome.written])
    }

    /// How many catalogues the sets hold: none after a refusal.
    pub fn catalogues(&self) -> usize {
        self.nets.len()
    }

    /// The record of each lot of a catalogue; a withdrawn one's is all 0.
    pub fn lots(&self, catalogue: usize) -> &[Lot] {
        let place = catalogue.checked_sub(1);
        place
            .and_then(|place| self.lots.chunks(VERTICES).nth(place))
            .unwrap_or(&[])
    }

    /// Where each of the catalogue's buyers' stretches begins in both tables of marks, from 0.
    pub fn firsts(&self, catalogue: usize) -> &[u16] {
        set(&self.firsts, catalogue)
    }

    /// How many marks each buyer was loaded with, less those of withdrawn lots, plus those of added ones.
    pub fn loadedsizes(&self, catalogue: usize) -> &[u16] {
        set(&self.loadedsizes, catalogue)
    }

    /// How many marks each buyer has at present.
    pub fn presentsizes(&self, catalogue: usize) -> &[u16] {
        set(&self.presentsizes, catalogue)
    }

    /// How many present marks a buyer has in a session, at `entry(buyer, session)`.
    pub fn counts(&self, catalogue: usize) -> &[u16] {
        set(&self.counts, catalogue)
    }

    /// The gain of a lot to a session, at `entry(lot, session)`.
    pub fn gains(&self, catalogue: usize) -> &[i32] {
        set(&self.gains, catalogue)
    }

    /// Each lot's moves in the order of choice, its row from `entry(lot, 1)` on, as `Memory::index` has
    /// them.
    // the table's name, as in `Memory`; no index operator is meant
    #[allow(clippy::should_implement_trait)]
    pub fn index(&self, catalogue: usize) -> &[u16] {
        set(&self.index, catalogue)
    }

    /// The sessions each buyer visits: session s is bit s - 1 from the lowest.
    pub fn visited(&self, catalogue: usize) -> &[u16] {
        set(&self.visited, catalogue)
    }

    /// A buyer's marks in the file's order, without those of withdrawn lots and those of added lots
    /// behind them; none for a number that names no catalogue of the hall or no buyer of it.
    pub fn loadedpins(&self, catalogue: usize, net: u32) -> &[u16] {
        self.pins(&self.loadedpins, false, catalogue, net)
    }

    /// A buyer's marks as they stand, the lowest first; none for a number that names no catalogue of the
    /// hall or no buyer of it.
    pub fn presentpins(&self, catalogue: usize, net: u32) -> &[u16] {
        self.pins(&self.presentpins, true, catalogue, net)
    }

    /// The stretch of a catalogue's table of pins that the engine hands out.
    fn pins<'a>(
        &self,
        sets: &'a [[u16; PINS]; SETS],
        present: bool,
        catalogue: usize,
        net: u32,
    ) -> &'a [u16] {
        let place = catalogue.checked_sub(1);
        let nets = place.and_then(|place| self.nets.get(place));
        if nets.is_none_or(|&nets| net > nets) {
            return &[];
        }
        let tables = NetTables {
            loadedpins: set(&self.loadedpins, catalogue),
            presentpins: set(&self.presentpins, catalogue),
            firsts: set(&self.firsts, catalogue),
            loadedsizes: set(&self.loadedsizes, catalogue),
            presentsizes: set(&self.presentsizes, catalogue),
        };
        let stretch = lent::pins(tables, present, net);
        &set(sets, catalogue)[stretch.first..][..stretch.size]
    }
}

/// How many buyers each catalogue of an accepted hall has. No other line begins like a catalogue's first.
fn buyers_of_each(file: &[u8]) -> Vec<u32> {
    file.split(|&byte| byte == b'\n')
        .filter(|line| line.starts_with(b"SALE,") || line.starts_with(b"EST,"))
        .map(buyers)
        .collect()
}
