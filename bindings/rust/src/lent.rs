//! The engine over memory of the caller's: a sale file (`run`, and `run_fine` for the superfine
//! desk), a hall of several catalogues (`hall`), a list of calls apart from the catalogue (`run_list`),
//! and a net's pins as a stretch of a table (`pins`); the converter of hMETIS files (`convert`); and the
//! buyers' sheets (`sheets`). Every slice crosses with its own length, and the lengths are tested on the
//! other side, so no call of these functions can be wrong. The tables have the names that the engine
//! gives them.

/// Bytes that the output must have.
pub const OUTPUT: usize = 60_000;
/// Records of lots, and entries of a table by lot.
pub const VERTICES: usize = 1_024;
/// Entries of a table by net.
pub const NETS: usize = 1_024;
/// Entries of a table of pins.
pub const PINS: usize = 8_192;
/// Entries of the tables of counts and gains and of the index.
pub const ROWS: usize = 16_384;
/// Records of lots at the superfine desk's entry.
pub const FINE_VERTICES: usize = 256;
/// Entries of its table of gains and of its index.
pub const FINE_ROWS: usize = 4_096;
/// Sets of tables that a hall is lent, one for each catalogue that it may have.
pub const SETS: usize = 4;
/// Records of lots that a hall is lent: those of its sets in a row, `VERTICES` to a set.
pub const HALL_VERTICES: usize = SETS * VERTICES;
/// Bytes that the output of `sheets` must have.
pub const SHEETS_OUTPUT: usize = 122_880;

/// A lot's record: its bales, its session (0 off the board), the lot that it was joined into (0 on
/// the board) and whether its own line ends in `,K` (1, else 0). All 0 for a withdrawn lot; a lot that
/// was added under its number is not kept.
#[repr(C)]
#[derive(Clone, Copy, Debug, PartialEq, Eq)]
pub struct Lot {
    pub bales: u32,
    pub session: u16,
    pub above: u16,
    pub kept: u16,
}

/// What the engine is lent beside the lots. A slice shorter than it must be gives 8.
pub struct Lent<'a> {
    pub output: &'a mut [u8],
    pub loadedpins: &'a mut [u16],
    pub presentpins: &'a mut [u16],
    pub firsts: &'a mut [u16],
    pub loadedsizes: &'a mut [u16],
    pub presentsizes: &'a mut [u16],
    pub counts: &'a mut [u16],
    pub gains: &'a mut [i32],
    pub index: &'a mut [u16],
    pub visited: &'a mut [u16],
}

/// What a hall is lent beside the lots: of each table a set for each catalogue. Fewer than `SETS` of any
/// table, or a shorter output, gives 8.
pub struct LentSets<'a> {
    pub output: &'a mut [u8],
    pub loadedpins: &'a mut [[u16; PINS]],
    pub presentpins: &'a mut [[u16; PINS]],
    pub firsts: &'a mut [[u16; NETS]],
    pub loadedsizes: &'a mut [[u16; NETS]],
    pub presentsizes: &'a mut [[u16; NETS]],
    pub counts: &'a mut [[u16; ROWS]],
    pub gains: &'a mut [[i32; ROWS]],
    pub index: &'a mut [[u16; ROWS]],
    pub visited: &'a mut [[u16; NETS]],
}

/// The fields of the lots' records, a table each: what `run_list` is lent for the lots.
pub struct Columns<'a> {
    pub weights: &'a mut [u32],
    pub blocks: &'a mut [u16],
    pub aboves: &'a mut [u16],
    pub fixed: &'a mut [u16],
}

/// The tables that hand out a net's pins.
#[derive(Clone, Copy)]
pub struct NetTables<'a> {
    pub loadedpins: &'a [u16],
    pub presentpins: &'a [u16],
    pub firsts: &'a [u16],
    pub loadedsizes: &'a [u16],
    pub presentsizes: &'a [u16],
}

/// 0 or the refusal's number of 1 to 8, 21 or 24, and how many bytes of the output hold the report.
#[repr(C)]
#[derive(Clone, Copy, Debug, PartialEq, Eq)]
pub struct Outcome {
    pub code: u32,
    pub written: usize,
}

/// A stretch of a table: its first place, from 0, and how many places it has.
#[repr(C)]
#[derive(Clone, Copy, Debug, PartialEq, Eq)]
pub struct Stretch {
    pub first: usize,
    pub size: usize,
}

/// Pairs as the engine returns them: two arrays, which are 0 past the pairs, and their number.
fn columns(pairs: &[(u16, u16)]) -> ([u16; VERTICES], [u16; VERTICES], usize) {
    let (mut left, mut right) = ([0; VERTICES], [0; VERTICES]);
    for (i, &(x, y)) in pairs.iter().enumerate() {
        (left[i], right[i]) = (x, y);
    }
    (left, right, pairs.len())
}

/// The joins that stand after a list of calls.
#[repr(C)]
#[derive(Clone, Debug, PartialEq, Eq)]
pub struct Stack {
    into: [u16; VERTICES],
    gone: [u16; VERTICES],
    depth: usize,
}

impl Stack {
    /// The stack of these joins, the earliest first.
    pub fn of(joins: &[(u16, u16)]) -> Self {
        let (into, gone, depth) = columns(joins);
        Stack { into, gone, depth }
    }

    /// Each join as the lot on the board and the lot that went into it, the earliest first.
    pub fn joins(&self) -> impl Iterator<Item = (u16, u16)> + '_ {
        let pairs = self.into.iter().zip(&self.gone);
        pairs.take(self.depth).map(|(&into, &gone)| (into, gone))
    }
}

/// The record of moves after a list of calls.
#[repr(C)]
#[derive(Clone, Debug, PartialEq, Eq)]
pub struct Record {
    lots: [u16; VERTICES],
    sessions: [u16; VERTICES],
    length: usize,
}

impl Record {
    /// The record of these moves, the earliest first.
    pub fn of(moves: &[(u16, u16)]) -> Self {
        let (lots, sessions, length) = columns(moves);
        Record {
            lots,
            sessions,
            length,
        }
    }

    /// Each move as the lot and the session that it left, the earliest first.
    pub fn moves(&self) -> impl Iterator<Item = (u16, u16)> + '_ {
        let pairs = self.lots.iter().zip(&self.sessions);
        pairs.take(self.length).map(|(&lot, &from)| (lot, from))
    }
}

/// What a list of calls gives: 0 or the refusal's number, how many bytes of the output hold the
/// lines of its answers, and the total, the joins and the record of moves at its end; 0 and none
/// after a refusal.
#[repr(C)]
#[derive(Clone, Debug)]
pub struct ListOutcome {
    pub code: u32,
    pub written: usize,
    pub total: u32,
    pub stack: Stack,
    pub record: Record,
}

// A slice is passed as its pointer and its number of entries, a slice of arrays with the number of
// arrays; `bindings/kapokdrill.h` says the same for C.
extern "C" {
    fn kapokdrill_hall(
        file: *const u8,
        file_length: usize,
        lots: *mut Lot,
        lots_length: usize,
        output: *mut u8,
        output_length: usize,
        loadedpins: *mut [u16; PINS],
        loadedpins_sets: usize,
        presentpins: *mut [u16; PINS],
        presentpins_sets: usize,
        firsts: *mut [u16; NETS],
        firsts_sets: usize,
        loadedsizes: *mut [u16; NETS],
        loadedsizes_sets: usize,
        presentsizes: *mut [u16; NETS],
        presentsizes_sets: usize,
        counts: *mut [u16; ROWS],
        counts_sets: usize,
        gains: *mut [i32; ROWS],
        gains_sets: usize,
        index: *mut [u16; ROWS],
        index_sets: usize,
        visited: *mut [u16; NETS],
        visited_sets: usize,
    ) -> Outcome;

    fn kapokdrill_list(
        file: *const u8,
        file_length: usize,
        list: *const u32,
        list_length: usize,
        operands: *const u32,
        operands_length: usize,
        output: *mut u8,
        output_length: usize,
        weights: *mut u32,
        weights_length: usize,
        blocks: *mut u16,
        blocks_length: usize,
        aboves: *mut u16,
        aboves_length: usize,
        fixed: *mut u16,
        fixed_length: usize,
        loadedpins: *mut u16,
        loadedpins_length: usize,
        presentpins: *mut u16,
        presentpins_length: usize,
        firsts: *mut u16,
        firsts_length: usize,
        loadedsizes: *mut u16,
        loadedsizes_length: usize,
        presentsizes: *mut u16,
        presentsizes_length: usize,
        counts: *mut u16,
        counts_length: usize,
        gains: *mut i32,
        gains_length: usize,
        index: *mut u16,
        index_length: usize,
        visited: *mut u16,
        visited_length: usize,
    ) -> ListOutcome;

    fn kapokdrill_pins(
        loadedpins: *const u16,
        loadedpins_length: usize,
        presentpins: *const u16,
        presentpins_length: usize,
        firsts: *const u16,
        firsts_length: usize,
        loadedsizes: *const u16,
        loadedsizes_length: usize,
        presentsizes: *const u16,
        presentsizes_length: usize,
        present: bool,
        net: u32,
    ) -> Stretch;

    fn kapokdrill_convert(
        input: *const u8,
        input_length: usize,
        output: *mut u8,
        output_length: usize,
    ) -> Outcome;

    fn kapokdrill_sheets(
        file: *const u8,
        file_length: usize,
        output: *mut u8,
        output_length: usize,
    ) -> Outcome;
}

/// An entry over records: the engine's function, and the one here that calls it.
macro_rules! over_records {
    ($(#[$says:meta])* $here:ident, $entry:ident) => {
        extern "C" {
            fn $entry(
                file: *const u8,
                file_length: usize,
                lots: *mut Lot,
                lots_length: usize,
                output: *mut u8,
                output_length: usize,
                loadedpins: *mut u16,
                loadedpins_length: usize,
                presentpins: *mut u16,
                presentpins_length: usize,
                firsts: *mut u16,
                firsts_length: usize,
                loadedsizes: *mut u16,
                loadedsizes_length: usize,
                presentsizes: *mut u16,
                presentsizes_length: usize,
                counts: *mut u16,
                counts_length: usize,
                gains: *mut i32,
                gains_length: usize,
                index: *mut u16,
                index_length: usize,
                visited: *mut u16,
                visited_length: usize,
            ) -> Outcome;
        }

        $(#[$says])*
        pub fn $here(file: &[u8], lots: &mut [Lot], lent: Lent<'_>) -> Outcome {
            // SAFETY: each pointer with its length is a slice that lives through the call, the
            // `&mut` ones overlap nothing, and `Lot` has the fields and the layout of the engine's
            // own.
            unsafe {
                $entry(
                    file.as_ptr(),
                    file.len(),
                    lots.as_mut_ptr(),
                    lots.len(),
                    lent.output.as_mut_ptr(),
                    lent.output.len(),
                    lent.loadedpins.as_mut_ptr(),
                    lent.loadedpins.len(),
                    lent.presentpins.as_mut_ptr(),
                    lent.presentpins.len(),
                    lent.firsts.as_mut_ptr(),
                    lent.firsts.len(),
                    lent.loadedsizes.as_mut_ptr(),
                    lent.loadedsizes.len(),
                    lent.presentsizes.as_mut_ptr(),
                    lent.presentsizes.len(),
                    lent.counts.as_mut_ptr(),
                    lent.counts.len(),
                    lent.gains.as_mut_ptr(),
                    lent.gains.len(),
                    lent.index.as_mut_ptr(),
                    lent.index.len(),
                    lent.visited.as_mut_ptr(),
                    lent.visited.len(),
                )
            }
        }
    };
}

over_records! {
    /// Reads a sale file, runs its calls and writes the report, on slices of any length.
    run, kapokdrill_run
}

over_records! {
    /// The same through the superfine desk's entry: 257 lots or 9 sessions are out of range (3), and
    /// the lots may have `FINE_VERTICES` records, the gains and the index `FINE_ROWS` entries each.
    run_fine, kapokdrill_run_fine
}

/// Reads a hall's file, runs its calls and writes the report, on slices of any length: set c - 1 of each
/// table is catalogue c's, and of the lots the `VERTICES` records from `VERTICES * (c - 1)` on. Sets past
/// the last catalogue keep what they held.
pub fn hall(file: &[u8], lots: &mut [Lot], lent: LentSets<'_>) -> Outcome {
    // SAFETY: as in `run`; an array has its entries in a row, as the engine's own has.
    unsafe {
        kapokdrill_hall(
            file.as_ptr(),
            file.len(),
            lots.as_mut_ptr(),
            lots.len(),
            lent.output.as_mut_ptr(),
            lent.output.len(),
            lent.loadedpins.as_mut_ptr(),
            lent.loadedpins.len(),
            lent.presentpins.as_mut_ptr(),
            lent.presentpins.len(),
            lent.firsts.as_mut_ptr(),
            lent.firsts.len(),
            lent.loadedsizes.as_mut_ptr(),
            lent.loadedsizes.len(),
            lent.presentsizes.as_mut_ptr(),
            lent.presentsizes.len(),
            lent.counts.as_mut_ptr(),
            lent.counts.len(),
            lent.gains.as_mut_ptr(),
            lent.gains.len(),
            lent.index.as_mut_ptr(),
            lent.index.len(),
            lent.visited.as_mut_ptr(),
            lent.visited.len(),
        )
    }
}

/// Runs a list of calls on the catalogue of a sale file, whose own calls are read and do not run:
/// three numbers for each call, the letter's byte and two numbers, which are not looked at where the
/// call has none. X has the lot as the first of them. N's two say where its own numbers stand: from
/// the first on (counted from 0), and so many, of `operands` are its bales, its session and its
/// buyers. A list of more than 512 calls is refused as 7; one that is not made of such threes, or has
/// an N with fewer than two operands or with a stretch past the end of `operands`, as 2.
pub fn run_list(
    file: &[u8],
    list: &[u32],
    operands: &[u32],
    lots: Columns<'_>,
    lent: Lent<'_>,
) -> ListOutcome {
    // SAFETY: as in `run`; `ListOutcome` has the fields and the layout of the engine's own.
    unsafe {
        kapokdrill_list(
            file.as_ptr(),
            file.len(),
            list.as_ptr(),
            list.len(),
            operands.as_ptr(),
            operands.len(),
            lent.output.as_mut_ptr(),
            lent.output.len(),
            lots.weights.as_mut_ptr(),
            lots.weights.len(),
            lots.blocks.as_mut_ptr(),
            lots.blocks.len(),
            lots.aboves.as_mut_ptr(),
            lots.aboves.len(),
            lots.fixed.as_mut_ptr(),
            lots.fixed.len(),
            lent.loadedpins.as_mut_ptr(),
            lent.loadedpins.len(),
            lent.presentpins.as_mut_ptr(),
            lent.presentpins.len(),
            lent.firsts.as_mut_ptr(),
            lent.firsts.len(),
            lent.loadedsizes.as_mut_ptr(),
            lent.loadedsizes.len(),
            lent.presentsizes.as_mut_ptr(),
            lent.presentsizes.len(),
            lent.counts.as_mut_ptr(),
            lent.counts.len(),
            lent.gains.as_mut_ptr(),
            lent.gains.len(),
            lent.index.as_mut_ptr(),
            lent.index.len(),
            lent.visited.as_mut_ptr(),
            lent.visited.len(),
        )
    }
}

/// The stretch of `presentpins` that holds a net's present pins, or of `loadedpins` with its loaded
/// ones; the empty stretch at the table's start for a number that names no net, a short table or a
/// stretch that reaches past its table.
pub fn pins(tables: NetTables<'_>, present: bool, net: u32) -> Stretch {
    // SAFETY: each pointer with its length is a slice that lives through the call.
    unsafe {
        kapokdrill_pins(
            tables.loadedpins.as_ptr(),
            tables.loadedpins.len(),
            tables.presentpins.as_ptr(),
            tables.presentpins.len(),
            tables.firsts.as_ptr(),
            tables.firsts.len(),
            tables.loadedsizes.as_ptr(),
            tables.loadedsizes.len(),
            tables.presentsizes.as_ptr(),
            tables.presentsizes.len(),
            present,
            net,
        )
    }
}

/// Turns an hMETIS file with its partition listing into a sale file without calls: 0, or 8 for a
/// short output and 17 to 19 for an input that is refused, and how many bytes were written.
pub fn convert(input: &[u8], output: &mut [u8]) -> Outcome {
    // SAFETY: as in `run`; the converter's result has the fields and the layout of `Outcome`.
    unsafe {
        kapokdrill_convert(
            input.as_ptr(),
            input.len(),
            output.as_mut_ptr(),
            output.len(),
        )
    }
}

/// Reads a sale file, runs its calls and writes the buyers' sheets: 0, or 8 for an output below
/// `SHEETS_OUTPUT` bytes, or the number under which the engine turned the file down, and how many bytes
/// were written.
pub fn sheets(file: &[u8], output: &mut [u8]) -> Outcome {
    // SAFETY: as in `run`; the result of the sheets has the fields and the layout of `Outcome`.
    unsafe { kapokdrill_sheets(file.as_ptr(), file.len(), output.as_mut_ptr(), output.len()) }
}
