//! Seeded pairs of lists of accepted M calls that continue one list and leave each lot in the same
//! session: moves in another order, detours, returns; one seed gives one pair.
//! Rests on `generator` for the catalogue and the list before, on `machine` to try each move.

use crate::catalogue::{Call, Catalogue, Sale, MAX_CALLS};
use crate::generator::{calls, catalogue_of_kind, late_calls, write_sale, Kind, Random, KINDS};
use crate::machine::Machine;
use crate::measure::View;

/// A catalogue's bytes, a list of calls of any sort, and two lists of M calls that may follow it.
/// The longer of them and the list before have at most 512 calls together.
#[derive(Clone, Debug, PartialEq, Eq)]
pub struct MoveOrders {
    pub catalogue: Vec<u8>,
    pub before: Vec<Call>,
    pub first: Vec<Call>,
    pub second: Vec<Call>,
}

/// The pair of lists that the seed settles.
pub fn move_orders(seed: u64) -> MoveOrders {
    let mut random = Random::new(seed ^ 0x4F_52_44_45_52);
    let (_, mut kind) = *random.pick(&KINDS);
    if matches!(kind, Kind::Large | Kind::Superfine | Kind::Full) {
        kind = Kind::Mixed;
    }
    let catalogue = catalogue_of_kind(random.bits(), kind);
    let before_count = random.between(0, 20) as usize;
    let before = if random.in_hundred(40) {
        late_calls(random.bits(), &catalogue, before_count)
    } else {
        calls(random.bits(), &catalogue, before_count)
    };
    let start = after(&catalogue, &before);

    let most = MAX_CALLS - before.len();
    let (first, second) = if random.in_hundred(20) {
        two_moves(&mut random, &start)
    } else {
        let count = match random.between(0, 19) {
            0 => most,
            1..=4 => random.between(0, most as u64 / 4) as usize,
            _ => random.between(0, 12) as usize,
        };
        let first = random_moves(&mut random, &start, count);
        let goal = after_moves(&start, &first).sessions;
        let second = match towards(&mut random, &start, &goal, most) {
            Some(list) => list,
            None => with_returns(&mut random, &start, &first, most),
        };
        (first, second)
    };

    MoveOrders {
        catalogue: write_sale(&Sale {
            catalogue,
            calls: Vec::new(),
        }),
        before,
        first,
        second,
    }
}

/// The machine after a list of calls, from a fresh one.
fn after<'a>(catalogue: &'a Catalogue, list: &[Call]) -> Machine<'a> {
    let mut machine = Machine::fresh(catalogue);
    for call in list {
        // An answer or a refusal serves alike: only the state after the call is used.
        let _ = machine.call(call);
    }
    machine
}

/// The machine after accepted moves, from a given state.
fn after_moves<'a>(start: &Machine<'a>, moves: &[Call]) -> Machine<'a> {
    let mut machine = start.clone();
    for call in moves {
        machine.call(call).expect("the move is accepted");
    }
    machine
}

/// Every M call that the state accepts.
fn accepted_moves(machine: &Machine) -> Vec<Call> {
    let standing = machine.standing();
    let view = View::of(&standing, &machine.sessions);
    let mut found = Vec::new();
    for u in standing.board().into_iter().filter(|&u| !standing.kept(u)) {
        for t in machine.catalogue.session_numbers() {
            if t != machine.sessions[u] && view.space(u, t) {
                found.push(Call::M {
                    u: u as u64,
                    t: t as u64,
                });
            }
        }
    }
    found
}

/// Up to `count` random accepted moves, fewer if none is left.
fn random_moves(random: &mut Random, start: &Machine, count: usize) -> Vec<Call> {
    let mut machine = start.clone();
    let mut moves = Vec::new();
    for _ in 0..count {
        let found = accepted_moves(&machine);
        if found.is_empty() {
            break;
        }
        let call = random.pick(&found).clone();
        machine.call(&call).expect("the move is accepted");
        moves.push(call);
    }
    moves
}

/// One move of each of two lots, accepted in either order; the two orders. Two empty lists if no
/// such moves were found.
fn two_moves(random: &mut Random, start: &Machine) -> (Vec<Call>, Vec<Call>) {
    let found = accepted_moves(start);
    for _ in 0..20 {
        if found.is_empty() {
            break;
        }
        let (one, other) = (random.pick(&found), random.pick(&found));
        let both = |first: &Call, second: &Call| {
            let mut machine = start.clone();
            machine.call(first).is_ok() && machine.call(second).is_ok()
        };
        if lot_of(one) != lot_of(other) && both(one, other) && both(other, one) {
            let list = |first: &Call, second: &Call| vec![first.clone(), second.clone()];
            return (list(one, other), list(other, one));
        }
    }
    (Vec::new(), Vec::new())
}

/// The lot that a move names.
fn lot_of(call: &Call) -> u64 {
    match call {
        Call::M { u, .. } => *u,
        _ => 0,
    }
}

/// Accepted moves that bring every lot to its session in `goal`, in random order and with some
/// detours. Nothing if no way was found.
fn towards(random: &mut Random, start: &Machine, goal: &[usize], most: usize) -> Option<Vec<Call>> {
    let detours = *random.pick(&[0, 10, 40]);
    let mut machine = start.clone();
    let mut moves = Vec::new();
    while machine.sessions != goal {
        if moves.len() == most || moves.len() > 4 * goal.len() + 100 {
            return None;
        }
        let found = accepted_moves(&machine);
        let homeward: Vec<Call> = found
            .iter()
            .filter(|call| leads_to(call, goal))
            .cloned()
            .collect();
        let call = if homeward.is_empty() || random.in_hundred(detours) {
            if found.is_empty() {
                return None;
            }
            random.pick(&found).clone()
        } else {
            random.pick(&homeward).clone()
        };
        machine.call(&call).expect("the move is accepted");
        moves.push(call);
    }
    Some(moves)
}

/// Whether a move brings its lot to its session in `goal`.
fn leads_to(call: &Call, goal: &[usize]) -> bool {
    matches!(*call, Call::M { u, t } if goal[u as usize] == t as usize)
}

/// The same moves, with some lots sent away and brought back in between.
fn with_returns(random: &mut Random, start: &Machine, list: &[Call], most: usize) -> Vec<Call> {
    let mut machine = start.clone();
    let mut moves = Vec::new();
    let mut spare = most - list.len();
    for call in list {
        let found = accepted_moves(&machine);
        if spare >= 2 && !found.is_empty() && random.in_hundred(60) {
            let away = random.pick(&found).clone();
            let u = lot_of(&away);
            // The session was within its cap with this lot in it, so it has space for it again.
            let back = Call::M {
                u,
                t: machine.sessions[u as usize] as u64,
            };
            moves.extend([away, back]);
            spare -= 2;
        }
        machine.call(call).expect("the move is accepted");
        moves.push(call.clone());
    }
    moves
}
