//! A refused call changes nothing: a list and the same list without its refused calls, and two files
//! that differ in refused call lines, and what the engine leaves of each. Rests on the reference for
//! which calls are refused.

use crate::lists::List;
use crate::Memory;
use kapokdrill::lent::{ListOutcome, Outcome};
use reference::generator::{write_sale, Random};
use reference::{parse_within, Call, Catalogue, Limits, Machine, Sale};

/// The calls that the machine accepts on the way, in order, at an entry with the given limits.
pub fn accepted(catalogue: &Catalogue, calls: &[Call], limits: &Limits) -> Vec<Call> {
    let mut machine = Machine::fresh_within(catalogue, limits);
    let mut taken = calls.to_vec();
    taken.retain(|call| machine.call(call).is_ok());
    taken
}

/// Runs a list of calls, and the same list without those that the reference refuses, on equal memory
/// of random bytes: how many are refused, or what differs in the total, the stack, the record and the
/// tables, which are compared in every entry.
pub fn same_without_refused(
    file: &[u8],
    calls: &[Call],
    random: &mut Random,
) -> Result<usize, String> {
    let limits = Limits::default();
    let sale = parse_within(file, &limits).map_err(|_| "the file is turned down")?;
    let taken = accepted(&sale.catalogue, calls, &limits);
    let before = Memory::noise(random);
    let run = |calls: &[Call]| -> (ListOutcome, Memory) {
        let mut memory = before.clone();
        let outcome = memory.run_list(file, &List::of(calls));
        memory.output.clear();
        (outcome, memory)
    };
    let (whole, less) = (run(calls), run(&taken));
    if (whole.0.code, less.0.code) != (0, 0) {
        return Err("a list is refused".into());
    }
    if whole.0.total != less.0.total {
        return Err("the total".into());
    }
    if whole.0.stack != less.0.stack {
        return Err("the stack".into());
    }
    if whole.0.record != less.0.record {
        return Err("the record of moves".into());
    }
    whole.1.same_as(&less.1)?;
    Ok(calls.len() - taken.len())
}

/// Runs a sale file, and the same without the call lines that the reference refuses, through each
/// entry that accepts it, on equal memory of random bytes: how many lines are refused, or what differs
/// in the tables, compared in every entry, or in the closing report.
pub fn same_file_without_refused(file: &[u8], random: &mut Random) -> Result<usize, String> {
    let entries: [(Limits, Entry); 2] = [
        (Limits::default(), Memory::run),
        (Limits::SUPERFINE, Memory::run_fine),
    ];
    let mut refused = 0;
    for (limits, entry) in entries {
        let Ok(sale) = parse_within(file, &limits) else {
            continue;
        };
        let taken = accepted(&sale.catalogue, &sale.calls, &limits);
        refused += sale.calls.len() - taken.len();
        let shorter = write_sale(&Sale {
            catalogue: sale.catalogue,
            calls: taken,
        });
        let before = Memory::noise_within(&limits, random);
        let run = |file: &[u8]| -> Result<(Vec<u8>, Memory), String> {
            let mut memory = before.clone();
            let outcome = entry(&mut memory, file);
            if outcome.code != 0 {
                return Err(format!("turned down as {}", outcome.code));
            }
            let closing = closing(&memory.output[..outcome.written])?;
            memory.output.clear();
            Ok((closing, memory))
        };
        let (whole, less) = (run(file)?, run(&shorter)?);
        if whole.0 != less.0 {
            return Err("the closing report".into());
        }
        whole.1.same_as(&less.1)?;
    }
    Ok(refused)
}

/// An entry that takes a file.
type Entry = fn(&mut Memory, &[u8]) -> Outcome;

/// The lines of a report from `TOTAL` on.
fn closing(report: &[u8]) -> Result<Vec<u8>, String> {
    let mut start = 0;
    for line in report.split_inclusive(|&byte| byte == b'\n') {
        if line.starts_with(b"TOTAL,") {
            return Ok(report[start..].to_vec());
        }
        start += line.len();
    }
    Err("no closing report".into())
}
