//! A second reading of documents 01 and 02, kept plain: every number is worked out afresh from the
//! catalogue, the stack of joins and the sessions, and no table is carried along.
//! Rests on the standard library alone.

pub mod catalogue;
pub mod converter;
pub mod generator;
pub mod hall_generator;
pub mod halls;
pub mod hgr_generator;
pub mod machine;
pub mod measure;
pub mod move_orders;
pub mod parse;
pub mod report;
pub mod search;
pub mod sheets;
pub mod tables;

pub use catalogue::{Call, Catalogue, Hall, LedCall, Limits, Sale};
pub use halls::HallMachine;
pub use machine::{Answer, Beside, Machine};
pub use parse::{parse, parse_hall, parse_within, Refusal};
pub use sheets::{sheets, sheets_on};
pub use tables::Tables;

/// What the engine gives back for a file, or the converter for an input: 0 or the number of the
/// refusal, and the text.
#[derive(Clone, Debug, PartialEq, Eq)]
pub struct Outcome {
    pub code: u32,
    pub report: Vec<u8>,
}

/// Where a list of calls leads: the report, the stack, the record and the lent tables.
#[derive(Clone, Debug, PartialEq, Eq)]
pub struct Finish {
    pub report: Vec<u8>,
    pub joins: Vec<(usize, usize)>,
    pub record: Vec<(usize, usize)>,
    pub tables: Tables,
}

/// Runs a list of calls, of any length, from a fresh machine over the catalogue.
pub fn run_calls(catalogue: &Catalogue, calls: &[Call]) -> Finish {
    run_calls_within(catalogue, calls, &Limits::default())
}

/// The same at an entry with the given limits, of which N's 23 asks.
pub fn run_calls_within(catalogue: &Catalogue, calls: &[Call], limits: &Limits) -> Finish {
    let mut machine = Machine::fresh_within(catalogue, limits);
    let mut text = String::new();
    for call in calls {
        text.push_str(&report::answer_line(&machine.call(call)));
    }
    text.push_str(&report::closing_lines(&machine));
    let tables = Tables::of(&machine);
    Finish {
        report: text.into_bytes(),
        joins: machine.joins,
        record: machine.record,
        tables,
    }
}

/// Reads a file, runs its calls and writes the report.
pub fn run(file: &[u8]) -> Outcome {
    run_within(file, &Limits::default())
}

/// As `run`, through the superfine desk's entry.
pub fn run_fine(file: &[u8]) -> Outcome {
    run_within(file, &Limits::SUPERFINE)
}

/// As `run`, with limits other than those of document 01.
pub fn run_within(file: &[u8], limits: &Limits) -> Outcome {
    match parse_within(file, limits) {
        Ok(sale) => Outcome {
            code: 0,
            report: run_calls_within(&sale.catalogue, &sale.calls, limits).report,
        },
        Err(refusal) => Outcome {
            code: refusal.number,
            report: report::refused_file(&refusal).into_bytes(),
        },
    }
}

/// What the lent tables hold at the end of an accepted file; nothing for one turned down.
pub fn tables_after(file: &[u8]) -> Option<Tables> {
    let sale = parse(file).ok()?;
    Some(run_calls(&sale.catalogue, &sale.calls).tables)
}

/// Where a hall's list of calls leads one catalogue: its stack, its record and its lent tables.
#[derive(Clone, Debug, PartialEq, Eq)]
pub struct CatalogueEnd {
    pub joins: Vec<(usize, usize)>,
    pub record: Vec<(usize, usize)>,
    pub tables: Tables,
}

/// Where a hall's list of calls leads: the report, and each catalogue's end in turn.
#[derive(Clone, Debug, PartialEq, Eq)]
pub struct HallFinish {
    pub report: Vec<u8>,
    pub catalogues: Vec<CatalogueEnd>,
}

/// Runs a hall's list of calls, of any length, from fresh machines. Answers are led by the catalogue's
/// number; the closing reports follow in turn and are not.
pub fn run_hall_calls(catalogues: &[Catalogue], limit: u64, calls: &[LedCall]) -> HallFinish {
    let mut hall = HallMachine::fresh(catalogues, limit);
    let mut text = String::new();
    for led in calls {
        let answer = report::answer_line(&hall.call(led));
        text.push_str(&format!("{},{answer}", led.catalogue));
    }
    let mut ends = Vec::new();
    for machine in hall.machines {
        text.push_str(&report::closing_lines(&machine));
        let tables = Tables::of(&machine);
        ends.push(CatalogueEnd {
            joins: machine.joins,
            record: machine.record,
            tables,
        });
    }
    HallFinish {
        report: text.into_bytes(),
        catalogues: ends,
    }
}

/// Reads a hall's file, runs its calls and writes the report, as the hall's entry does.
pub fn hall(file: &[u8]) -> Outcome {
    match parse_hall(file) {
        Ok(hall) => Outcome {
            code: 0,
            report: run_hall_calls(&hall.catalogues, hall.limit, &hall.calls).report,
        },
        Err(refusal) => Outcome {
            code: refusal.number,
            report: report::refused_file(&refusal).into_bytes(),
        },
    }
}

/// What the lent tables of each catalogue hold at the end of an accepted hall file, in turn; nothing
/// for one turned down.
pub fn hall_tables_after(file: &[u8]) -> Option<Vec<Tables>> {
    let hall = parse_hall(file).ok()?;
    let ends = run_hall_calls(&hall.catalogues, hall.limit, &hall.calls).catalogues;
    Some(ends.into_iter().map(|end| end.tables).collect())
}
