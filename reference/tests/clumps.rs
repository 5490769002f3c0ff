//! What a clump's gain means: the gain of a board lot is the fall of the unjoined catalogue's total
//! when all lots of its clump go to the target. Everything but the gain is worked out here, from the
//! catalogue, the stack of joins and the sessions alone. The catalogue is the machine's own: that of
//! loading less withdrawals plus additions.
//! Rests on the library's generator, machine and table of gains.

use std::collections::BTreeSet;

use reference::generator::{sale, sale_of_kind, Kind};
use reference::{parse, Call, Catalogue, Machine, Tables};

/// The lot at the end of the joins that lead up from a lot.
fn clump_of(joins: &[(usize, usize)], lot: usize) -> usize {
    match joins.iter().find(|&&(_, v)| v == lot) {
        Some(&(u, _)) => clump_of(joins, u),
        None => lot,
    }
}

/// The total of the unjoined catalogue with each lot in the session that `place` gives it.
fn unjoined_total(catalogue: &Catalogue, place: impl Fn(usize) -> usize) -> i64 {
    let mut total = 0;
    for buyer in &catalogue.buyers {
        let visited: BTreeSet<usize> = buyer.marks.iter().map(|&lot| place(lot)).collect();
        // A buyer left without marks adds 0.
        total += buyer.weight as i64 * (visited.len() as i64 - 1).max(0);
    }
    total
}

/// Every board lot's gain to every other session is what its clump's move does to the sale itself.
fn check_clumps(machine: &Machine) {
    let catalogue = &machine.catalogue;
    let gains = Tables::of(machine).gains;
    let clumps: Vec<usize> = (0..=catalogue.lots.len())
        .map(|lot| clump_of(&machine.joins, lot))
        .collect();
    let now = unjoined_total(catalogue, |lot| machine.sessions[clumps[lot]]);
    for u in catalogue.lots_in_sale().filter(|&lot| clumps[lot] == lot) {
        for t in catalogue
            .session_numbers()
            .filter(|&t| t != machine.sessions[u])
        {
            let moved = unjoined_total(catalogue, |lot| {
                if clumps[lot] == u {
                    t
                } else {
                    machine.sessions[clumps[lot]]
                }
            });
            assert_eq!(gains[u - 1][t - 1], now - moved, "lot {u} to session {t}");
        }
    }
}

/// Checks the fresh machine of a file and its state after each call.
fn check_file(file: &[u8]) {
    let sale = parse(file).expect("a generated sale is accepted");
    let mut machine = Machine::fresh(&sale.catalogue);
    check_clumps(&machine);
    for call in &sale.calls {
        // A refused call changes nothing, so the check holds after it as well.
        let _ = machine.call(call);
        check_clumps(&machine);
    }
}

#[test]
fn gains_of_clumps_in_generated_sales() {
    for seed in 0..300 {
        check_file(&sale(seed));
    }
}

#[test]
fn gains_of_clumps_in_sales_of_many_joins() {
    for kind in [
        Kind::Chain,
        Kind::Star,
        Kind::Tree,
        Kind::Nested,
        Kind::Broad,
        Kind::Withdrawn,
    ] {
        for seed in 0..20 {
            check_file(&sale_of_kind(seed, kind));
        }
    }
}

/// The gain of lot u to session t after some joins.
fn gain_after(file: &str, joins: &[(u64, u64)], u: usize, t: usize) -> i64 {
    let sale = parse(file.as_bytes()).expect("the sale is accepted");
    let mut machine = Machine::fresh(&sale.catalogue);
    for &(u, v) in joins {
        machine
            .call(&Call::J { u, v })
            .expect("the join is accepted");
    }
    check_clumps(&machine);
    Tables::of(&machine).gains[u - 1][t - 1]
}

#[test]
fn the_clump_of_the_worked_sale() {
    // With 2 and 5 in session 2 the total is 3 as before: 3 - 3.
    let file = "SALE,5,3,2,200\nLOT,10,1\nLOT,10,1\nLOT,10,2\nLOT,10,2\nLOT,10,1\n\
                BUY,3,1,3\nBUY,2,2,5\nBUY,1,3,4\n";
    assert_eq!(gain_after(file, &[(2, 5)], 2, 2), 0);
}

#[test]
fn a_clump_of_three_with_a_list_inside_it() {
    // Buyer 1 lies within the clump. The total is 2, by buyer 2; with 1, 2 and 3 in session 2 it is
    // 3, by buyer 3.
    let file = "SALE,5,3,2,1000\nLOT,1,1\nLOT,1,1\nLOT,1,1\nLOT,1,2\nLOT,1,1\n\
                BUY,4,1,2,3\nBUY,2,3,4\nBUY,3,2,5\n";
    assert_eq!(gain_after(file, &[(1, 2), (1, 3)], 1, 2), -1);
    assert_eq!(gain_after(file, &[(2, 3), (1, 2)], 1, 2), -1);
}
