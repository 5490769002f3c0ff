//! What the lent tables hold in a state, entry by entry, worked out afresh.
//! Rests on `machine` for the state and on `measure` for every entry.

use std::cmp::Reverse;

use crate::machine::Machine;
use crate::measure::View;

/// A lot's record. Off the board the session is 0; on the board the lot above is 0; `kept` is 1 for
/// a lot whose own line ends in `,K`, else 0, whatever is joined. A withdrawn lot's record is all 0.
#[derive(Clone, Copy, Debug, PartialEq, Eq)]
pub struct LotRecord {
    pub bales: u64,
    pub session: usize,
    pub above: usize,
    pub kept: usize,
}

/// A buyer's record: its first place in both mark tables (from 0) and the two lengths.
#[derive(Clone, Copy, Debug, PartialEq, Eq)]
pub struct BuyerRecord {
    pub first_place: usize,
    pub loaded_marks: usize,
    pub present_marks: usize,
}

/// The entries in use of all lent tables. Vectors by lot or buyer start with number 1;
/// vectors by session within them start with session 1, and a lot's row of the index has as many
/// places as there are sessions. A buyer's present marks stand lowest first; behind them, to the end
/// of its loaded stretch, those that joins took out, the last one first. Document 01 leaves this
/// layout free; it is told, so that nothing in lent memory is left open. For the same reason it is
/// told that both tables of marks hold 0 from the last mark to place 8,192 once an X or N was accepted
/// (`gathered`); their stretches have no gaps between them.
#[derive(Clone, Debug, PartialEq, Eq)]
pub struct Tables {
    pub lots: Vec<LotRecord>,
    pub loaded_marks: Vec<usize>,
    pub present_marks: Vec<Vec<usize>>,
    pub taken_out: Vec<Vec<usize>>,
    pub buyers: Vec<BuyerRecord>,
    pub counts: Vec<Vec<u64>>,
    pub gains: Vec<Vec<i64>>,
    pub index: Vec<Vec<usize>>,
    pub visited: Vec<u64>,
    pub gathered: bool,
}

/// The place of an entry in the lent tables of counts and gains. A row of the index begins where
/// the lot's row of gains does.
pub fn entry(number: usize, session: usize) -> usize {
    16 * (number - 1) + session - 1
}

/// A board lot's row of the index, from the gains of its row: its other sessions in the order of
/// choice, which is gain descending, then session ascending, and one 0 behind them.
fn index_row(own_session: usize, gains: &[i64]) -> Vec<usize> {
    let mut row: Vec<usize> = (1..=gains.len())
        .filter(|&session| session != own_session)
        .collect();
    row.sort_by_key(|&session| (Reverse(gains[session - 1]), session));
    row.push(0);
    row
}

impl Tables {
    /// The tables of a machine's present state.
    pub fn of(machine: &Machine) -> Self {
        let catalogue = &machine.catalogue;
        let standing = machine.standing();
        let view = View::of(&standing, &machine.sessions);

        let lots = catalogue
            .lot_numbers()
            .map(|lot| LotRecord {
                bales: standing.bales(lot),
                session: machine.sessions[lot],
                above: standing.above(lot),
                kept: usize::from(catalogue.lot(lot).kept),
            })
            .collect();

        let loaded_marks = catalogue
            .buyers
            .iter()
            .flat_map(|buyer| buyer.marks.iter().copied())
            .collect();

        let present_marks = catalogue
            .buyer_numbers()
            .map(|buyer| standing.present(buyer).to_vec())
            .collect();

        let taken_out = catalogue
            .buyer_numbers()
            .map(|buyer| standing.taken_out(buyer))
            .collect();

        let buyers = catalogue
            .buyer_numbers()
            .map(|buyer| BuyerRecord {
                first_place: catalogue.buyers[..buyer - 1]
                    .iter()
                    .map(|earlier| earlier.marks.len())
                    .sum(),
                loaded_marks: catalogue.buyer(buyer).marks.len(),
                present_marks: standing.present(buyer).len(),
            })
            .collect();

        let counts = catalogue
            .buyer_numbers()
            .map(|buyer| {
                catalogue
                    .session_numbers()
                    .map(|session| view.count(buyer, session))
                    .collect()
            })
            .collect();

        let gains: Vec<Vec<i64>> = catalogue
            .lot_numbers()
            .map(|lot| {
                catalogue
                    .session_numbers()
                    .map(|session| {
                        if standing.on_board(lot) {
                            view.gain(lot, session)
                        } else {
                            0
                        }
                    })
                    .collect()
            })
            .collect();

        let index = catalogue
            .lot_numbers()
            .map(|lot| {
                if standing.on_board(lot) {
                    index_row(view.session(lot), &gains[lot - 1])
                } else {
                    vec![0; catalogue.sessions]
                }
            })
            .collect();

        let visited = catalogue
            .buyer_numbers()
            .map(|buyer| {
                view.visited(buyer)
                    .into_iter()
                    .map(|session| 1 << (session - 1))
                    .sum()
            })
            .collect();

        Tables {
            lots,
            loaded_marks,
            present_marks,
            taken_out,
            buyers,
            counts,
            gains,
            index,
            visited,
            gathered: machine.gathered,
        }
    }
}
