//! The lent tables, stack and record of each catalogue of a hall, by the sale of document 01 twice over:
//! what one broker calls shows in that catalogue's alone.
//! Rests on the tables of one sale, which `worked.rs` has by hand.

use reference::{hall_tables_after, parse_hall, run_hall_calls, tables_after};

const CATALOGUE: &str = "SALE,5,3,2,200\nLOT,10,1\nLOT,10,1\nLOT,10,2\nLOT,10,2\nLOT,10,1\n\
                         BUY,3,1,3\nBUY,2,2,5\nBUY,1,3,4\n";

fn hall(calls: &str) -> Vec<u8> {
    format!("HALL,2,60\n{CATALOGUE}{CATALOGUE}{calls}").into_bytes()
}

fn alone(calls: &str) -> reference::Tables {
    tables_after(format!("{CATALOGUE}{calls}").as_bytes()).expect("the sale is accepted")
}

#[test]
fn a_join_shows_in_its_own_catalogue() {
    let found = hall_tables_after(&hall("2,J,2,5\n")).expect("the hall is accepted");
    assert_eq!(found, [alone(""), alone("J,2,5\n")]);
    assert_eq!(found[1].lots[4].above, 2);
    assert_eq!(found[0].lots[4].above, 0);
}

#[test]
fn withdrawals_gather_the_marks_of_their_own_catalogue() {
    let found = hall_tables_after(&hall("1,X,3\n")).expect("the hall is accepted");
    assert_eq!(found, [alone("X,3\n"), alone("")]);
    assert_eq!(found[0].loaded_marks, [1, 2, 5, 4]);
    assert_eq!((found[0].gathered, found[1].gathered), (true, false));
}

#[test]
fn a_call_that_the_limit_refuses_leaves_the_tables() {
    // The second catalogue has its sessions changed over, so each session has 30 + 20. Lot 1 to 2 makes
    // 30 of the cap 30, and 60 over the hall: one more than 59.
    let mirrored = "SALE,5,3,2,200\nLOT,10,2\nLOT,10,2\nLOT,10,1\nLOT,10,1\nLOT,10,2\n\
                    BUY,3,1,3\nBUY,2,2,5\nBUY,1,3,4\n";
    let file = |limit: u64| format!("HALL,2,{limit}\n{CATALOGUE}{mirrored}1,M,1,2\n");
    let end = |limit: u64| {
        let read = parse_hall(file(limit).as_bytes()).expect("the hall is accepted");
        run_hall_calls(&read.catalogues, read.limit, &read.calls)
    };
    let unmoved = tables_after(mirrored.as_bytes()).expect("the sale is accepted");

    let refused = end(59);
    assert!(refused.report.starts_with(b"1,NO,25\nTOTAL,3,3\n"));
    assert_eq!(refused.catalogues[0].tables, alone(""));
    assert_eq!(refused.catalogues[0].record, []);
    assert_eq!(refused.catalogues[1].tables, unmoved);

    let accepted = end(60);
    assert!(accepted.report.starts_with(b"1,M,3,0,0\nTOTAL,3,0\n"));
    assert_eq!(accepted.catalogues[0].tables, alone("M,1,2\n"));
    assert_eq!(accepted.catalogues[0].record, [(1, 1)]);
    assert_eq!(accepted.catalogues[1].tables, unmoved);
}

#[test]
fn stack_and_record_are_each_catalogues_own() {
    let file = hall("1,M,1,2\n2,J,2,5\n");
    let read = parse_hall(&file).expect("the hall is accepted");
    let end = run_hall_calls(&read.catalogues, read.limit, &read.calls);
    let ends: Vec<_> = end
        .catalogues
        .iter()
        .map(|end| (end.joins.clone(), end.record.clone()))
        .collect();
    assert_eq!(ends, [(vec![], vec![(1, 1)]), (vec![(2, 5)], vec![])]);
}
