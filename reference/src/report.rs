//! The bytes of the report: answers, refusals and the closing lines.
//! Rests on `machine` for the answers and on `measure` for the closing numbers.

use std::fmt::Write;

use crate::machine::{Answer, Machine};
use crate::measure::View;
use crate::parse::Refusal;

/// The whole report on a file turned down.
pub fn refused_file(refusal: &Refusal) -> String {
    format!("NO,{},{}\n", refusal.number, refusal.line)
}

/// The line for one call.
pub fn answer_line(answer: &Result<Answer, u32>) -> String {
    match answer {
        Err(number) => format!("NO,{number}\n"),
        Ok(Answer::J { bales }) => format!("J,{bales}\n"),
        Ok(Answer::S { u, v }) => format!("S,{u},{v}\n"),
        Ok(Answer::M {
            freed,
            drawn,
            total,
        }) => format!("M,{freed},{drawn},{total}\n"),
        Ok(Answer::B { u, session, total }) => format!("B,{u},{session},{total}\n"),
        Ok(Answer::W { tried, kept, total }) => format!("W,{tried},{kept},{total}\n"),
        Ok(Answer::P { moves, total }) => format!("P,{moves},{total}\n"),
        Ok(Answer::A {
            joins,
            tried,
            kept,
            moves,
            total,
        }) => format!("A,{joins},{tried},{kept},{moves},{total}\n"),
        Ok(Answer::X { total }) => format!("X,{total}\n"),
        Ok(Answer::N { lot, total }) => format!("N,{lot},{total}\n"),
    }
}

/// The lines after the calls: totals, the session of the stand of each lot in the sale, visited per
/// buyer. The draft total is the one at loading.
pub fn closing_lines(machine: &Machine) -> String {
    let catalogue = &machine.catalogue;
    let standing = machine.standing();
    let view = View::of(&standing, &machine.sessions);
    let draft_total = Machine::fresh(machine.loaded).total();

    let mut lines = format!("TOTAL,{},{}\n", draft_total, view.total());
    for lot in catalogue.lots_in_sale() {
        let session = view.session(standing.stand(lot));
        writeln!(lines, "LOT,{lot},{session}").expect("a string takes any text");
    }
    for buyer in catalogue.buyer_numbers() {
        let visited = view.visited(buyer).len();
        writeln!(lines, "BUY,{buyer},{visited}").expect("a string takes any text");
    }
    lines
}
