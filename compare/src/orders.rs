//! The order of moves: lists of accepted moves behind one list of calls that leave each lot in the
//! same session, and what the engine leaves of them. Rests on the reference for what is accepted.

use crate::lists::List;
use crate::Memory;
use reference::generator::Random;
use reference::{Call, Machine};

/// Accepted moves from a state on, then others from the same state that leave each lot in the same
/// session: in another order, with detours and returns. None where no such way was found.
pub fn two_ways(machine: &Machine, random: &mut Random) -> Option<[Vec<Call>; 2]> {
    let lots = machine.catalogue.lots.len() as u64;
    let sessions = machine.catalogue.sessions as u64;
    let mut one = machine.clone();
    let mut moves = Vec::new();
    for _ in 0..random.between(1, 12) {
        let call = Call::M {
            u: random.between(1, lots),
            t: random.between(1, sessions),
        };
        if one.call(&call).is_ok() {
            moves.push(call);
        }
    }
    let mut other = machine.clone();
    let mut others = Vec::new();
    let detours = random.between(0, 6);
    for turn in 0..50 * lots {
        let u = random.between(1, lots);
        let t = if turn < detours {
            random.between(1, sessions)
        } else {
            one.sessions[u as usize] as u64
        };
        let call = Call::M { u, t };
        if other.call(&call).is_ok() {
            others.push(call);
        }
        if turn >= detours && other.sessions == one.sessions {
            return Some([moves, others]);
        }
    }
    None
}

/// Runs two lists of calls on the catalogue of a file, on equal memory of random bytes: what differs
/// in the total, the stack and the tables, which are compared in every entry.
pub fn same_left(file: &[u8], lists: &[Vec<Call>; 2], random: &mut Random) -> Result<(), String> {
    let before = Memory::noise(random);
    let run = |calls: &Vec<Call>| {
        let mut memory = before.clone();
        let outcome = memory.run_list(file, &List::of(calls));
        memory.output.clear();
        (outcome, memory)
    };
    let (one, other) = (run(&lists[0]), run(&lists[1]));
    if (one.0.code, other.0.code) != (0, 0) {
        return Err("a list is refused".into());
    }
    if one.0.total != other.0.total {
        return Err("the total".into());
    }
    if one.0.stack != other.0.stack {
        return Err("the stack".into());
    }
    one.1.same_as(&other.1)
}
