//! Lots that a grower has tied to a session: each sentence of the request by itself.
//! Rests on the library's parser, machine, searches and tables.

use reference::measure::View;
use reference::{parse, run, tables_after, Answer, Call, Machine, Sale};

fn accepted(file: &str) -> Sale {
    parse(file.as_bytes()).expect("the file is accepted")
}

/// The number and the line under which a file is turned down.
fn refused(file: &str) -> (u32, usize) {
    let refusal = parse(file.as_bytes()).expect_err("the file is turned down");
    (refusal.number, refusal.line)
}

/// Which lots of a file are kept.
fn kept_lots(file: &str) -> Vec<bool> {
    let lots = accepted(file).catalogue.lots;
    lots.iter().map(|lot| lot.kept).collect()
}

#[test]
fn a_lot_line_may_end_in_a_k() {
    let file = "SALE,3,0,2,1000\nLOT,5,1\nLOT,5,2,K\nLOT,5,2\n";
    assert_eq!(kept_lots(file), [false, true, false]);
    let file = "SALE,2,0,2,1000\nLOT,5,1,K\nLOT,5,2,K\n";
    assert_eq!(kept_lots(file), [true, true]);
}

#[test]
fn any_other_end_of_a_lot_line_is_2() {
    for end in [
        ",k", ",K,", ",KK", ",K,K", ",K,1", ",1", ",1,K", ",1,1", "K", ", K", ",K ", ",K\r", ",",
        ",,K",
    ] {
        let file = format!("SALE,2,0,2,1000\nLOT,5,1\nLOT,5,2{end}\n");
        assert_eq!(refused(&file), (2, 3), "{end}");
    }
    for line in [
        "LOT,K",
        "LOT,5,K",
        "LOT,5,K,1",
        "LOT,K,5,1",
        "LOT,,K",
        "K",
        ",K",
    ] {
        let file = format!("SALE,2,0,2,1000\nLOT,5,1\n{line}\n");
        assert_eq!(refused(&file), (2, 3), "{line}");
    }
    assert_eq!(refused("SALE,1,0,2,1000\nLOT,5,1,K"), (2, 2));
}

#[test]
fn a_k_at_the_end_of_another_line_is_2() {
    assert_eq!(refused("SALE,1,0,2,0,K\nLOT,1,1\n"), (2, 1));
    assert_eq!(refused("SALE,1,1,2,0\nLOT,1,1\nBUY,1,1,K\n"), (2, 3));
    for call in ["J,1,1", "S", "M,1,1", "B", "W,1,1", "P", "A"] {
        let file = format!("SALE,1,0,2,0\nLOT,1,1,K\n{call},K\n");
        assert_eq!(refused(&file), (2, 3), "{call}");
    }
}

#[test]
fn the_form_comes_before_the_ranges() {
    assert_eq!(refused("SALE,1,0,2,0\nLOT,0,1,k\n"), (2, 2));
    assert_eq!(refused("SALE,1,0,2,0\nLOT,0,1,K\n"), (3, 2));
    assert_eq!(refused("SALE,1,0,2,0\nLOT,1,3,K\n"), (3, 2));
}

/// Whether a lot is kept in the machine's present state.
fn kept(machine: &Machine, lot: usize) -> bool {
    machine.standing().kept(lot)
}

#[test]
fn a_joined_lot_is_kept_while_any_lot_that_it_stands_for_is() {
    let file = "SALE,4,0,2,1000\nLOT,1,1\nLOT,1,1\nLOT,1,1,K\nLOT,1,2\n";
    let sale = accepted(file);
    let mut machine = Machine::fresh(&sale.catalogue);
    let mut join = |u, v| machine.call(&Call::J { u, v }).expect("a join");
    join(2, 3);
    join(1, 2);
    assert!(kept(&machine, 1));
    machine.call(&Call::S).expect("a split");
    assert!(!kept(&machine, 1) && kept(&machine, 2));
    machine.call(&Call::S).expect("a split");
    assert!(!kept(&machine, 2) && kept(&machine, 3));
    // A kept lot stays kept, whatever is joined into it and parted again.
    machine.call(&Call::J { u: 3, v: 1 }).expect("a join");
    assert!(kept(&machine, 3));
    machine.call(&Call::S).expect("a split");
    assert!(kept(&machine, 3) && !kept(&machine, 1));
}

/// Two lots that would win 7 by moving together, and one that would win 2. Every move has space.
const PAIRS: &str = "SALE,4,2,2,1000\nLOT,1,1\nLOT,1,2\nLOT,1,1\nLOT,1,2\nBUY,7,1,2\nBUY,2,3,4\n";

/// The same with some lots kept.
fn pairs_keeping(lots: &[usize]) -> Sale {
    let mut sale = accepted(PAIRS);
    for &lot in lots {
        sale.catalogue.lots[lot - 1].kept = true;
    }
    sale
}

#[test]
fn p_passes_over_kept_lots() {
    let moves = |kept: &[usize]| {
        let sale = pairs_keeping(kept);
        let mut machine = Machine::fresh(&sale.catalogue);
        match machine.call(&Call::P) {
            Ok(Answer::P { moves, total }) => (moves, total, machine.sessions[1..].to_vec()),
            other => panic!("{other:?}"),
        }
    };
    assert_eq!(moves(&[]), (2, 0, vec![2, 2, 2, 2]));
    assert_eq!(moves(&[1]), (2, 0, vec![1, 1, 2, 2]));
    assert_eq!(moves(&[1, 2]), (1, 7, vec![1, 2, 2, 2]));
    assert_eq!(moves(&[1, 2, 3, 4]), (0, 9, vec![1, 2, 1, 2]));
}

#[test]
fn w_is_accepted_on_kept_lots_and_moves_none() {
    let walk = |kept: &[usize], u, v| {
        let sale = pairs_keeping(kept);
        let mut machine = Machine::fresh(&sale.catalogue);
        match machine.call(&Call::W { u, v }) {
            Ok(Answer::W { tried, kept, total }) => (tried, kept, total),
            other => panic!("{other:?}"),
        }
    };
    // Without kept lots 1 goes to 2, then 2 to 1.
    assert_eq!(walk(&[], 1, 1), (2, 1, 2));
    assert_eq!(walk(&[1], 1, 1), (0, 0, 9));
    assert_eq!(walk(&[2], 1, 1), (1, 1, 2));
    assert_eq!(walk(&[1], 1, 2), (1, 1, 2));
    assert_eq!(walk(&[1, 2], 1, 2), (0, 0, 9));
}

/// Five lots in one of two sessions' drafts, so that one join is due; lots 1, 2 and 3 share a buyer.
fn joins_of_a(kept: &str) -> Answer {
    let line = |lot: char, session| {
        let end = if kept.contains(lot) { ",K" } else { "" };
        format!("LOT,1,{session}{end}\n")
    };
    let lots: String = "12345"
        .chars()
        .zip([1, 1, 1, 2, 2])
        .map(|(lot, session)| line(lot, session))
        .collect();
    let sale = accepted(&format!("SALE,5,1,2,0\n{lots}BUY,1,1,2,3\n"));
    let mut machine = Machine::fresh(&sale.catalogue);
    machine.call(&Call::A).expect("no join stands")
}

#[test]
fn the_joining_in_a_passes_over_kept_lots_and_counts_them_on_the_board() {
    let joins = |kept| match joins_of_a(kept) {
        Answer::A { joins, .. } => joins,
        other => panic!("{other:?}"),
    };
    assert_eq!(joins(""), 1);
    // The other two of the three still make a pair.
    for kept in ["1", "2", "3", "45", "345"] {
        assert_eq!(joins(kept), 1, "{kept}");
    }
    for kept in ["12", "13", "23", "123", "12345"] {
        assert_eq!(joins(kept), 0, "{kept}");
    }
}

#[test]
fn j_and_s_treat_kept_lots_like_others() {
    let file =
        "SALE,3,0,2,1000\nLOT,1,1,K\nLOT,2,1,K\nLOT,4,2\nJ,1,2\nJ,2,1\nJ,1,3\nS\nJ,2,1\nS\nS\n";
    let report = run(file.as_bytes()).report;
    assert!(report.starts_with(b"J,3\nNO,10\nNO,13\nS,1,2\nJ,3\nS,2,1\nNO,15\nTOTAL,"));
}

#[test]
fn m_on_a_kept_lot_is_20_after_12_and_before_14() {
    // Both sessions are full, so every move would be 14 as well.
    let file = "SALE,3,0,2,0\nLOT,2,1,K\nLOT,1,1\nLOT,3,2\n";
    let sale = accepted(file);
    let mut machine = Machine::fresh(&sale.catalogue);
    let mut refusal = |u, t| machine.call(&Call::M { u, t }).expect_err("a refusal");
    assert_eq!(refusal(1, 3), 9);
    assert_eq!(refusal(4, 1), 9);
    assert_eq!(refusal(1, 1), 12);
    assert_eq!(refusal(1, 2), 20);
    assert_eq!(refusal(2, 2), 14);
    machine.call(&Call::J { u: 2, v: 1 }).expect("a join");
    let mut refusal = |u, t| machine.call(&Call::M { u, t }).expect_err("a refusal");
    assert_eq!(refusal(1, 2), 10);
    assert_eq!(refusal(2, 1), 12);
    assert_eq!(refusal(2, 2), 20);
}

#[test]
fn a_20_changes_nothing_and_the_file_goes_on() {
    let file = "SALE,2,0,2,1000\nLOT,1,1,K\nLOT,1,1\nM,2,2\nM,1,2\nB\n";
    let report = run(file.as_bytes()).report;
    assert!(report.starts_with(b"M,0,0,0\nNO,20\nB,2,1,0\nTOTAL,"));
}

#[test]
fn after_a_only_kept_lots_may_have_a_better_move() {
    let sale = pairs_keeping(&[1, 2]);
    let mut machine = Machine::fresh(&sale.catalogue);
    machine.call(&Call::A).expect("no join stands");
    let standing = machine.standing();
    let view = View::of(&standing, &machine.sessions);
    for lot in standing.board() {
        let other = 3 - view.session(lot);
        assert!(view.space(lot, other));
        assert_eq!(view.gain(lot, other) >= 1, standing.kept(lot), "lot {lot}");
    }
}

#[test]
fn the_field_kept_is_of_the_lots_own_line_and_joins_leave_it_alone() {
    let file = "SALE,3,0,2,1000\nLOT,1,1\nLOT,1,1,K\nLOT,1,2,K\n";
    for calls in ["", "J,1,2\n", "J,2,1\n", "J,1,2\nS\n"] {
        let tables = tables_after(format!("{file}{calls}").as_bytes()).expect("it is accepted");
        let fields: Vec<usize> = tables.lots.iter().map(|lot| lot.kept).collect();
        assert_eq!(fields, [0, 1, 1], "{calls}");
    }
}
