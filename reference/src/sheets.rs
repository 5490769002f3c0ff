//! The buyers' sheets of a sale or a hall: for each buyer the sessions to sit in and the lots marked.
//! Rests on `parse` for reading, on the machines for the calls and on `measure` for where lots stand.

use std::fmt::Write;

use crate::halls::HallMachine;
use crate::machine::Machine;
use crate::measure::View;
use crate::parse::{parse, parse_hall, Refusal};
use crate::report::refused_file;
use crate::Outcome;

/// The bytes that the lent output must have: 8,192 lines `4,AT,16,1024` and 1,024 lines
/// `4,SHEET,1024,16`.
pub const OUTPUT: usize = 122_880;

/// The lent output is below its length.
pub const SHORT_OUTPUT: u32 = 8;

/// The sheets after all calls of a file, which is a hall's if its first line begins with `HALL`. A
/// file that is turned down gives the engine's line and number.
pub fn sheets(file: &[u8]) -> Outcome {
    let printed = if file.starts_with(b"HALL") {
        hall_sheets(file)
    } else {
        sale_sheets(file)
    };
    match printed {
        Ok(text) => Outcome {
            code: 0,
            report: text.into_bytes(),
        },
        Err(refusal) => Outcome {
            code: refusal.number,
            report: refused_file(&refusal).into_bytes(),
        },
    }
}

/// The same on a lent output of so many bytes, whose length is tested first.
pub fn sheets_on(file: &[u8], output: usize) -> Outcome {
    if output < OUTPUT {
        return Outcome {
            code: SHORT_OUTPUT,
            report: Vec::new(),
        };
    }
    sheets(file)
}

fn sale_sheets(file: &[u8]) -> Result<String, Refusal> {
    let sale = parse(file)?;
    let mut machine = Machine::fresh(&sale.catalogue);
    for call in &sale.calls {
        // Answers are not printed, and a refused call changes nothing.
        let _ = machine.call(call);
    }
    Ok(catalogue_sheets(&machine, ""))
}

fn hall_sheets(file: &[u8]) -> Result<String, Refusal> {
    let hall = parse_hall(file)?;
    let mut machine = HallMachine::fresh(&hall.catalogues, hall.limit);
    for led in &hall.calls {
        let _ = machine.call(led);
    }
    let numbered = (1..).zip(&machine.machines);
    Ok(numbered
        .map(|(number, machine)| catalogue_sheets(machine, &format!("{number},")))
        .collect())
}

/// The sheets of one catalogue's buyers, each line with this lead.
fn catalogue_sheets(machine: &Machine, lead: &str) -> String {
    let standing = machine.standing();
    let view = View::of(&standing, &machine.sessions);
    let mut lines = String::new();
    for buyer in machine.catalogue.buyer_numbers() {
        let visited = view.visited(buyer).len();
        writeln!(lines, "{lead}SHEET,{buyer},{visited}").expect("a string takes any text");
        let marks = &machine.catalogue.buyer(buyer).marks;
        let mut places: Vec<(usize, usize)> = marks
            .iter()
            .map(|&lot| (view.session(standing.stand(lot)), lot))
            .collect();
        places.sort_unstable();
        for (session, lot) in places {
            writeln!(lines, "{lead}AT,{session},{lot}").expect("a string takes any text");
        }
    }
    lines
}
