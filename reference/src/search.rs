//! The walk of W, the moves of P and the joins of A.
//! Rests on `machine` for the state and on `measure`, asked afresh after every change.

use std::collections::BTreeSet;

use crate::catalogue::Catalogue;
use crate::machine::Machine;
use crate::measure::{fair_share, Standing, View};

/// A walk stops this many moves after the prefix that it would keep.
const PATIENCE: usize = 25;

/// The number of moves a walk made and the length of the prefix it kept.
#[derive(Clone, Copy, Debug, PartialEq, Eq)]
pub struct Walk {
    pub tried: u64,
    pub kept: u64,
}

/// A lot, a session that is not its own and has space for it, and the gain of the move.
#[derive(Clone, Copy, Debug, PartialEq, Eq)]
pub struct Pair {
    pub lot: usize,
    pub session: usize,
    pub gain: i64,
}

/// The pair with space, in a hall under both limits, of highest gain, then lowest lot, then lowest
/// session, by looking at all of them. The lots come in rising order, so a later pair is taken only for a higher gain.
pub fn best_pair(machine: &Machine, view: &View, lots: &[usize]) -> Option<Pair> {
    let mut best: Option<Pair> = None;
    for &lot in lots {
        for session in machine.catalogue.session_numbers() {
            if session == view.session(lot) || !machine.space(view, lot, session) {
                continue;
            }
            let gain = view.gain(lot, session);
            if best.as_ref().is_none_or(|pair| gain > pair.gain) {
                best = Some(Pair { lot, session, gain });
            }
        }
    }
    best
}

/// The length of the prefix to keep: of lowest total, then of lowest heaviest session, then the
/// first. `prefixes[n]` has the total and the heaviest session's bales after n moves.
fn kept_prefix(prefixes: &[(u64, u64)]) -> usize {
    let best = prefixes.iter().min().expect("the empty prefix is there");
    prefixes
        .iter()
        .position(|prefix| prefix == best)
        .expect("the best prefix is one of them")
}

/// A walk from the board lots u and v. A kept lot may be a candidate, but no pair of it is open.
pub fn walk(machine: &mut Machine, u: usize, v: usize) -> Walk {
    let standing = machine.standing();
    let mut view = View::of(&standing, &machine.sessions);
    let mut candidates = BTreeSet::from([u, v]);
    let mut moves: Vec<(usize, usize)> = Vec::new();
    let mut prefixes = vec![(view.total(), view.heaviest_session())];

    while moves.len() - kept_prefix(&prefixes) < PATIENCE {
        let movable: Vec<usize> = candidates
            .iter()
            .copied()
            .filter(|&lot| !standing.kept(lot))
            .filter(|&lot| moves.iter().all(|&(moved, _)| moved != lot))
            .collect();
        let Some(pair) = best_pair(machine, &view, &movable) else {
            break;
        };
        moves.push((pair.lot, machine.sessions[pair.lot]));
        machine.sessions[pair.lot] = pair.session;
        view = View::of(&standing, &machine.sessions);
        prefixes.push((view.total(), view.heaviest_session()));
        for &buyer in standing.buyers(pair.lot) {
            candidates.extend(standing.present(buyer));
        }
    }

    let kept = kept_prefix(&prefixes);
    for &(lot, old_session) in moves[kept..].iter().rev() {
        machine.sessions[lot] = old_session;
    }
    Walk {
        tried: moves.len() as u64,
        kept: kept as u64,
    }
}

/// The moves of P: the best pair over all board lots not kept while its gain is at least 1.
/// Answers their number.
pub fn improve(machine: &mut Machine) -> u64 {
    let standing = machine.standing();
    let mut movable = standing.board();
    movable.retain(|&lot| !standing.kept(lot));
    let mut moves = 0;
    loop {
        let view = View::of(&standing, &machine.sessions);
        match best_pair(machine, &view, &movable) {
            Some(pair) if pair.gain >= 1 => {
                machine.sessions[pair.lot] = pair.session;
                moves += 1;
            }
            _ => return moves,
        }
    }
}

/// The joins of A: the best pair while more than 2 × k lots, kept ones too, are on the board.
/// Answers their number.
pub fn join_down(machine: &mut Machine) -> u64 {
    let mut joins = 0;
    let mut left = machine.standing().board().len();
    while left > 2 * machine.catalogue.sessions {
        match best_join(machine) {
            Some((u, v)) => {
                machine.join(u, v);
                joins += 1;
                left -= 1;
            }
            None => break,
        }
    }
    joins
}

/// Among pairs u < v on the board in one session, neither kept, sharing a mark set, with bales
/// together at most ⌈W/k⌉: the one of highest rating, then lowest u, then lowest v.
fn best_join(machine: &Machine) -> Option<(usize, usize)> {
    let standing = machine.standing();
    let most_bales = fair_share(machine.loaded);
    let mut best: Option<(u64, usize, usize)> = None;
    for u in standing.board() {
        for (v, rating) in ratings(&machine.catalogue, &standing, u) {
            let free = !standing.kept(u) && !standing.kept(v);
            let one_session = machine.sessions[u] == machine.sessions[v];
            let light = standing.bales(u) + standing.bales(v) <= most_bales;
            let may_join = free && one_session && light;
            if may_join && best.is_none_or(|(highest, _, _)| rating > highest) {
                best = Some((rating, u, v));
            }
        }
    }
    best.map(|(_, u, v)| (u, v))
}

/// The rating of u with every v above it that shares a mark set with it, by rising v: over
/// shared buyers, the sum of 5,040 × weight / (present marks − 1), each rounded down.
fn ratings(catalogue: &Catalogue, standing: &Standing, u: usize) -> Vec<(usize, u64)> {
    let mut shared = vec![false; catalogue.lots.len() + 1];
    let mut sum = vec![0; catalogue.lots.len() + 1];
    for &buyer in standing.buyers(u) {
        let present = standing.present(buyer);
        let above_u = &present[present.partition_point(|&v| v <= u)..];
        if above_u.is_empty() {
            continue;
        }
        // The set holds u and a lot above it, so it has at least two marks.
        let term = 5_040 * catalogue.buyer(buyer).weight / (present.len() as u64 - 1);
        for &v in above_u {
            shared[v] = true;
            sum[v] += term;
        }
    }
    catalogue
        .lot_numbers()
        .filter(|&v| shared[v])
        .map(|v| (v, sum[v]))
        .collect()
}

/// The rating of two board lots; 0 if they share no mark set.
pub fn rating(machine: &Machine, u: usize, v: usize) -> u64 {
    let (low, high) = (u.min(v), u.max(v));
    ratings(&machine.catalogue, &machine.standing(), low)
        .into_iter()
        .find(|&(lot, _)| lot == high)
        .map_or(0, |(_, rating)| rating)
}
