//! The sale as its file states it: the catalogue, the calls and the limits.
//! Rests on the standard library alone. Lots, buyers and sessions count from 1.

/// The longest file, in bytes.
pub const MAX_BYTES: usize = 60_000;
/// The most buyers a catalogue may hold.
pub const MAX_BUYERS: u64 = 1_024;
/// The most marks all buyers may hold together.
pub const MAX_MARKS: usize = 8_192;
/// The most call lines a file may hold.
pub const MAX_CALLS: usize = 512;
/// The highest slack, in thousandths.
pub const MAX_SLACK: u64 = 1_000;
/// The most bales of one loaded lot.
pub const MAX_BALES: u64 = 65_535;
/// The highest weight of a buyer.
pub const MAX_WEIGHT: u64 = 1_000;
/// The fewest catalogues of a hall.
pub const MIN_CATALOGUES: u64 = 2;
/// The most catalogues of a hall.
pub const MAX_CATALOGUES: u64 = 4;
/// The highest hall limit, in bales.
pub const MAX_HALL_LIMIT: u64 = 999_999_999;

/// The two limits that the size of the lent tables follows from.
#[derive(Clone, Copy, Debug, PartialEq, Eq)]
pub struct Limits {
    pub lots: u64,
    pub sessions: u64,
}

impl Limits {
    /// Those of the superfine desk, which calls the engine through an entry of its own.
    pub const SUPERFINE: Limits = Limits {
        lots: 256,
        sessions: 8,
    };
}

impl Default for Limits {
    fn default() -> Self {
        Limits {
            lots: 1_024,
            sessions: 16,
        }
    }
}

/// A lot as loaded: the range of its own bales, its session in the draft, and whether its grower
/// keeps it there. `bales` is the high, which every use takes but the cap and the joining limit;
/// these take `low`. In a sale whose bales are counted the two are one.
#[derive(Clone, Debug, PartialEq, Eq)]
pub struct Lot {
    pub low: u64,
    pub bales: u64,
    pub session: usize,
    pub kept: bool,
}

impl Lot {
    /// A lot whose bales are counted and that is not kept.
    pub fn free(bales: u64, session: usize) -> Self {
        Lot {
            low: bales,
            bales,
            session,
            kept: false,
        }
    }

    /// Gives the lot bales that are counted.
    pub fn count(&mut self, bales: u64) {
        self.low = bales;
        self.bales = bales;
    }
}

/// A buyer as loaded: its weight and its marks in the file's order.
#[derive(Clone, Debug, PartialEq, Eq)]
pub struct Buyer {
    pub weight: u64,
    pub marks: Vec<usize>,
}

/// All catalogue lines of a sale. `estimated` is for a file that starts with `EST`. A machine's own
/// catalogue is that of loading less withdrawals plus additions: a withdrawn lot keeps its number and
/// has no bales, as no lot in the sale does.
#[derive(Clone, Debug, PartialEq, Eq)]
pub struct Catalogue {
    pub estimated: bool,
    pub sessions: usize,
    pub slack: u64,
    pub lots: Vec<Lot>,
    pub buyers: Vec<Buyer>,
}

impl Catalogue {
    /// The lot of this number, counted from 1.
    pub fn lot(&self, number: usize) -> &Lot {
        &self.lots[number - 1]
    }

    /// The buyer of this number, counted from 1.
    pub fn buyer(&self, number: usize) -> &Buyer {
        &self.buyers[number - 1]
    }

    /// The numbers of all lots, withdrawn ones too, in order.
    pub fn lot_numbers(&self) -> std::ops::RangeInclusive<usize> {
        1..=self.lots.len()
    }

    /// Whether the lot of this number is in the sale, and not withdrawn.
    pub fn in_sale(&self, number: usize) -> bool {
        self.lot(number).bales > 0
    }

    /// The numbers of the lots in the sale, in order.
    pub fn lots_in_sale(&self) -> impl Iterator<Item = usize> + '_ {
        self.lot_numbers().filter(|&number| self.in_sale(number))
    }

    /// The marks of all buyers together.
    pub fn mark_count(&self) -> usize {
        self.buyers.iter().map(|buyer| buyer.marks.len()).sum()
    }

    /// Takes a lot and its marks out.
    pub fn withdraw(&mut self, number: usize) {
        self.lots[number - 1] = Lot::free(0, 0);
        for buyer in &mut self.buyers {
            buyer.marks.retain(|&mark| mark != number);
        }
    }

    /// Puts a lot that is not kept under a number that is free or the next one; its mark stands
    /// behind each buyer's other ones.
    pub fn add(&mut self, number: usize, bales: u64, session: usize, buyers: &[usize]) {
        let lot = Lot::free(bales, session);
        if number > self.lots.len() {
            self.lots.push(lot);
        } else {
            self.lots[number - 1] = lot;
        }
        for &buyer in buyers {
            self.buyers[buyer - 1].marks.push(number);
        }
    }

    /// The numbers of all buyers, in order.
    pub fn buyer_numbers(&self) -> std::ops::RangeInclusive<usize> {
        1..=self.buyers.len()
    }

    /// The numbers of all sessions, in order.
    pub fn session_numbers(&self) -> std::ops::RangeInclusive<usize> {
        1..=self.sessions
    }
}

/// One call line. The numbers are as written, so they may name nothing.
#[derive(Clone, Debug, PartialEq, Eq)]
pub enum Call {
    J {
        u: u64,
        v: u64,
    },
    S,
    M {
        u: u64,
        t: u64,
    },
    B,
    W {
        u: u64,
        v: u64,
    },
    P,
    A,
    X {
        lot: u64,
    },
    N {
        bales: u64,
        session: u64,
        buyers: Vec<u64>,
    },
}

/// A whole file: the catalogue and the calls after it.
#[derive(Clone, Debug, PartialEq, Eq)]
pub struct Sale {
    pub catalogue: Catalogue,
    pub calls: Vec<Call>,
}

/// A call of a hall: the number of the catalogue that it is led by, counted from 1, and the call.
#[derive(Clone, Debug, PartialEq, Eq)]
pub struct LedCall {
    pub catalogue: usize,
    pub call: Call,
}

/// A whole hall file: the bales that a session may have over all catalogues, the catalogues in turn
/// and the calls after them.
#[derive(Clone, Debug, PartialEq, Eq)]
pub struct Hall {
    pub limit: u64,
    pub catalogues: Vec<Catalogue>,
    pub calls: Vec<LedCall>,
}
