//! The calls with their refusals and answers, and the closing report.

use super::bits::{contains, insert, Bits, WORDS};
use super::board::Board;
use super::contracting::Ratings;
use super::reading::{Call, Catalogue};
use super::writing::Report;

/// Runs the calls of a catalogue and writes the whole report.
pub fn run<const B: usize>(
    board: &mut Board<B>,
    catalogue: &Catalogue,
    ratings: &mut Ratings,
    report: &mut Report,
) {
    board.open(catalogue);
    let draft_total = board.total as u32;
    for &call in &catalogue.calls {
        match answer(board, catalogue, ratings, report, call) {
            Err(number) => report.line(b"NO", [number]),
            Ok(()) if matches!(call, Call::Move { .. } | Call::Reverse) => {}
            Ok(()) => board.journal.clear(),
        }
    }
    report.line(b"TOTAL", [draft_total, board.total as u32]);
    for x in 0..board.vertices {
        if contains(&board.withdrawn, x) {
            continue;
        }
        let mut representative = x;
        while !board.on_board(representative) {
            representative = board.above[representative] as usize;
        }
        let block = u32::from(board.block[representative]) + 1;
        report.line(b"LOT", [x as u32 + 1, block]);
    }
    for e in 0..board.nets {
        report.line(b"BUY", [e as u32 + 1, board.connectivity(e) as u32]);
    }
}

/// The index of a number of 1 to `highest`; 9 for any other.
fn known(number: u32, highest: usize) -> Result<usize, u32> {
    if number >= 1 && number <= highest as u32 {
        Ok(number as usize - 1)
    } else {
        Err(9)
    }
}

fn unless(refused: bool, number: u32) -> Result<(), u32> {
    if refused {
        Err(number)
    } else {
        Ok(())
    }
}

/// Runs one call and writes its answer; a refused one gives its number and changes nothing.
fn answer<const B: usize>(
    board: &mut Board<B>,
    catalogue: &Catalogue,
    ratings: &mut Ratings,
    report: &mut Report,
    call: Call,
) -> Result<(), u32> {
    let n = board.vertices;
    match call {
        Call::Contract { u, v } => {
            let (u, v) = (known(u, n)?, known(v, n)?);
            unless(u == v, 11)?;
            unless(!board.on_board(u) || !board.on_board(v), 10)?;
            unless(board.block[u] != board.block[v], 13)?;
            board.contract(u, v);
            report.line(b"J", [board.weights[u]]);
        }
        Call::Uncontract => {
            let (u, v) = board.uncontract().ok_or(15u32)?;
            report.line(b"S", [u as u32 + 1, v as u32 + 1]);
        }
        Call::Move { u, t } => {
            let (u, t) = (known(u, n)?, known(t, board.blocks)?);
            unless(!board.on_board(u), 10)?;
            unless(board.block[u] as usize == t, 12)?;
            unless(contains(&board.fixed, u), 20)?;
            unless(board.loads[t] + board.weights[u] > board.capacity, 14)?;
            let (freed, drawn) = (board.freed[u] as u32, board.drawn[u][t] as u32);
            board.journal.push((u as u16, board.block[u]));
            board.go(u, t);
            report.line(b"M", [freed, drawn, board.total as u32]);
        }
        Call::Reverse => {
            let (u, block) = board.journal.pop().ok_or(15u32)?;
            board.go(u as usize, block as usize);
            let numbers = [u32::from(u) + 1, u32::from(block) + 1, board.total as u32];
            report.line(b"B", numbers);
        }
        Call::Walk { u, v } => {
            let (u, v) = (known(u, n)?, known(v, n)?);
            unless(!board.on_board(u) || !board.on_board(v), 10)?;
            let walk = board.walk(u, v);
            report.line(b"W", [walk.tried, walk.kept, board.total as u32]);
        }
        Call::Polish => {
            let moves = board.polish();
            report.line(b"P", [moves, board.total as u32]);
        }
        Call::Cycle => {
            unless(!board.contractions.is_empty(), 16)?;
            let joins = board.coarsen(ratings);
            let (mut tried, mut kept) = (0, 0);
            while let Some((u, v)) = board.uncontract() {
                let walk = board.walk(u, v);
                tried += walk.tried;
                kept += walk.kept;
            }
            let moves = board.polish();
            report.line(b"A", [joins, tried, kept, moves, board.total as u32]);
        }
        Call::Withdraw { x } => {
            let x = known(x, n)?;
            unless(!board.contractions.is_empty(), 16)?;
            unless(!board.on_board(x), 10)?;
            board.withdraw(x);
            report.line(b"X", [board.total as u32]);
        }
        Call::Add { first, count } => {
            let operands = &catalogue.operands[first..first + count];
            let (weight, named) = (operands[0], &operands[2..]);
            known(weight, 65_535)?;
            let b = known(operands[1], board.blocks)?;
            let (mut nets, mut twice): (Bits, bool) = ([0; WORDS], false);
            for &net in named {
                let e = known(net, board.nets)?;
                twice |= contains(&nets, e);
                insert(&mut nets, e);
            }
            unless(!board.contractions.is_empty(), 16)?;
            unless(twice, 22)?;
            let marks = board.firsts[board.nets] as usize + named.len();
            unless(board.present == catalogue.limit || marks > 8_192, 23)?;
            unless(board.loads[b] + weight > board.capacity, 14)?;
            let x = board.add(weight, b, &nets);
            report.line(b"N", [x as u32 + 1, board.total as u32]);
        }
    }
    Ok(())
}
