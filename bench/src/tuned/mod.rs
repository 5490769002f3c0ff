//! A splitter of the same method as the proved engine, written for speed in plain Rust: the
//! measure that the engine is held against. Counts, gains and loads run along with every change,
//! contractions are undone by a stack, and the best move is searched among all open pairs. As an
//! option it keeps an index of gains, as the engine does, and chooses from that. Inside, vertices (lots), nets (buyers) and blocks (sessions) count from 0.

mod bits;
mod board;
mod calls;
mod contracting;
mod index;
mod reading;
mod searching;
mod writing;

use board::Board;
use contracting::Ratings;
use index::Index;
use reading::Catalogue;
use writing::Report;

/// All memory of a splitter, taken once and used again by every run. The tables by block come in
/// three widths, so that a sale of few blocks reads short rows.
#[derive(Default)]
pub struct Splitter {
    catalogue: Catalogue,
    narrow: Box<Board<4>>,
    middle: Box<Board<8>>,
    wide: Box<Board<16>>,
    ratings: Box<Ratings>,
    report: Report,
}

impl Splitter {
    /// One that keeps an index of gains.
    pub fn with_index() -> Self {
        let mut splitter = Splitter::default();
        splitter.narrow.index = Some(Box::default());
        splitter.middle.index = Some(Box::default());
        splitter.wide.index = Some(Box::default());
        splitter
    }

    /// The index after a sale that was accepted, a row for each lot: its other sessions in the order of
    /// choice and one 0 behind them; zeros off the board.
    pub fn index(&self) -> Option<Vec<Vec<usize>>> {
        match self.catalogue.blocks {
            0..=4 => rows(&self.narrow),
            5..=8 => rows(&self.middle),
            _ => rows(&self.wide),
        }
    }

    /// Reads a sale file, runs its calls and writes the report: 0 or the refusal's number.
    pub fn run(&mut self, file: &[u8]) -> (u32, &[u8]) {
        self.run_within(file, 1024, 16)
    }

    /// The same within the superfine desk's limits.
    pub fn run_fine(&mut self, file: &[u8]) -> (u32, &[u8]) {
        self.run_within(file, 256, 8)
    }

    fn run_within(&mut self, file: &[u8], vertices: u32, blocks: u32) -> (u32, &[u8]) {
        self.report.clear();
        if let Err(refusal) = self.catalogue.read(file, vertices, blocks) {
            self.report.refused_file(refusal);
            return (refusal.number, self.report.bytes());
        }
        let (catalogue, ratings, report) = (&self.catalogue, &mut self.ratings, &mut self.report);
        match catalogue.blocks {
            0..=4 => calls::run(&mut self.narrow, catalogue, ratings, report),
            5..=8 => calls::run(&mut self.middle, catalogue, ratings, report),
            _ => calls::run(&mut self.wide, catalogue, ratings, report),
        }
        (0, self.report.bytes())
    }
}

/// The rows of a board's index as sessions.
fn rows<const B: usize>(board: &Board<B>) -> Option<Vec<Vec<usize>>> {
    let index: &Index<B> = board.index.as_ref()?;
    let row = |x| {
        let mut row = vec![0; board.blocks];
        if board.on_board(x) {
            let others = index.others(x, board.blocks);
            for (place, &block) in row.iter_mut().zip(others) {
                *place = block as usize + 1;
            }
        }
        row
    };
    Some((0..board.vertices).map(row).collect())
}
