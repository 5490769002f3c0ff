//! Lent memory that is cleared before every run, as the tables are that sheets have of their own.

use kapokdrill::lent::{run, Lent, Lot, Outcome, NETS, OUTPUT, PINS, ROWS, VERTICES};

const NO_LOT: Lot = Lot {
    bales: 0,
    session: 0,
    above: 0,
    kept: 0,
};

pub struct Cleared {
    lots: Vec<Lot>,
    output: Vec<u8>,
    pins: [Vec<u16>; 2],
    nets: [Vec<u16>; 4],
    rows: [Vec<u16>; 2],
    gains: Vec<i32>,
}

impl Default for Cleared {
    fn default() -> Self {
        Cleared {
            lots: vec![NO_LOT; VERTICES],
            output: vec![0; OUTPUT],
            pins: [(); 2].map(|()| vec![0; PINS]),
            nets: [(); 4].map(|()| vec![0; NETS]),
            rows: [(); 2].map(|()| vec![0; ROWS]),
            gains: vec![0; ROWS],
        }
    }
}

impl Cleared {
    pub fn run(&mut self, file: &[u8]) -> Outcome {
        self.lots.fill(NO_LOT);
        self.output.fill(0);
        for table in self
            .pins
            .iter_mut()
            .chain(&mut self.nets)
            .chain(&mut self.rows)
        {
            table.fill(0);
        }
        self.gains.fill(0);
        let [loadedpins, presentpins] = &mut self.pins;
        let [firsts, loadedsizes, presentsizes, visited] = &mut self.nets;
        let [counts, index] = &mut self.rows;
        let lent = Lent {
            output: &mut self.output,
            loadedpins,
            presentpins,
            firsts,
            loadedsizes,
            presentsizes,
            counts,
            gains: &mut self.gains,
            index,
            visited,
        };
        run(file, &mut self.lots, lent)
    }
}
