//! The starred cases of document 01 and the tables of its worked sale, by hand.
//! Rests on the library's measure, machine and tables.

use reference::measure::{cap, Halves, View};
use reference::search::rating;
use reference::tables::{entry, BuyerRecord, LotRecord};
use reference::{parse, run_calls, tables_after, Call, Machine};

const CATALOGUE: &str = "SALE,5,3,2,200\nLOT,10,1\nLOT,10,1\nLOT,10,2\nLOT,10,2\nLOT,10,1\n\
                         BUY,3,1,3\nBUY,2,2,5\nBUY,1,3,4\n";

#[test]
fn starred_cases() {
    let sale = parse(CATALOGUE.as_bytes()).expect("the worked catalogue is accepted");
    let mut machine = Machine::fresh(&sale.catalogue);
    let standing = machine.standing();
    let view = View::of(&standing, &machine.sessions);
    assert_eq!(view.total(), 3);
    assert_eq!(cap(&sale.catalogue), 30);
    assert_eq!(view.gain(1, 2), 3);
    assert_eq!(view.gain(3, 1), 2);
    assert_eq!(view.gain(2, 2), -2);
    assert_eq!(view.halves(1, 2), halves(3, 0));
    assert_eq!(view.halves(3, 1), halves(3, 1));
    assert_eq!(view.halves(2, 2), halves(0, 2));
    assert_eq!(view.halves(2, 1), halves(0, 0));
    assert_eq!(rating(&machine, 2, 5), 10_080);

    machine
        .call(&Call::J { u: 2, v: 5 })
        .expect("the join is accepted");
    let standing = machine.standing();
    let view = View::of(&standing, &machine.sessions);
    assert_eq!(view.gain(2, 2), 0);
    assert_eq!(view.halves(2, 2), halves(2, 2));
}

fn halves(freed: u64, drawn: u64) -> Halves {
    Halves { freed, drawn }
}

/// The cap of a sale of two sessions with the given bales and slack.
fn cap_of(bales: u64, slack: u64) -> u64 {
    let half = bales / 2;
    let file = format!("SALE,2,0,2,{slack}\nLOT,{half},1\nLOT,{},2\n", bales - half);
    let sale = parse(file.as_bytes()).expect("the draft is within the cap");
    cap(&sale.catalogue)
}

#[test]
fn starred_cap_of_51_bales() {
    assert_eq!(cap_of(51, 100), 29);
}

#[test]
fn a_cap_goes_to_the_nearest_bale_and_a_half_to_the_even_number() {
    // 26 at slack 90 is 28.34, 26 at 250 is 32.5, 25 at 340 is 33.5.
    assert_eq!(cap_of(51, 90), 28);
    assert_eq!(cap_of(52, 250), 32);
    assert_eq!(cap_of(50, 340), 34);
    assert_eq!(cap_of(51, 0), 26);
    assert_eq!(cap_of(51, 1_000), 52);
}

#[test]
fn a_cap_lies_between_the_even_share_and_twice_that_and_never_falls() {
    for slack in 0..=1_000 {
        let mut before = 0;
        for share in 1..=60 {
            let found = cap_of(2 * share, slack);
            assert!(share <= found && found <= 2 * share);
            assert!(before <= found);
            before = found;
        }
    }
}

#[test]
fn tables_of_the_worked_sale_with_one_join() {
    let file = format!("{CATALOGUE}J,2,5\n");
    let tables = tables_after(file.as_bytes()).expect("the sale is accepted");
    let lot = |bales, session, above| LotRecord {
        bales,
        session,
        above,
        kept: 0,
    };
    assert_eq!(
        tables.lots,
        [
            lot(10, 1, 0),
            lot(20, 1, 0),
            lot(10, 2, 0),
            lot(10, 2, 0),
            lot(10, 0, 2)
        ]
    );
    assert_eq!(tables.loaded_marks, [1, 3, 2, 5, 3, 4]);
    assert_eq!(tables.present_marks, [vec![1, 3], vec![2], vec![3, 4]]);
    assert_eq!(tables.taken_out, [vec![], vec![5], vec![]]);
    let buyer = |first_place, present_marks| BuyerRecord {
        first_place,
        loaded_marks: 2,
        present_marks,
    };
    assert_eq!(tables.buyers, [buyer(0, 2), buyer(2, 1), buyer(4, 2)]);
    assert_eq!(tables.counts, [[1, 1], [1, 0], [0, 2]]);
    assert_eq!(tables.gains, [[0, 3], [0, 0], [2, 0], [-1, 0], [0, 0]]);
    assert_eq!(tables.index, [[2, 0], [2, 0], [1, 0], [1, 0], [0, 0]]);
    assert_eq!(tables.visited, [0b11, 0b01, 0b10]);
}

#[test]
fn a_lot_off_the_board_keeps_the_bales_it_had_when_joined() {
    let file = "SALE,3,0,2,1000\nLOT,1,1\nLOT,2,1\nLOT,4,1\nJ,2,3\nJ,1,2\n";
    let tables = tables_after(file.as_bytes()).expect("the sale is accepted");
    let bales: Vec<u64> = tables.lots.iter().map(|lot| lot.bales).collect();
    assert_eq!(bales, [7, 6, 4]);
    let above: Vec<usize> = tables.lots.iter().map(|lot| lot.above).collect();
    assert_eq!(above, [0, 1, 2]);
}

#[test]
fn marks_behind_the_present_ones_are_those_taken_out_last_one_first() {
    // Buyer 1 has 5, 2 and 4 and loses 2 to 5, then 4; buyer 2 gets 5 in place of 2 and loses nothing
    // until 5 goes into 3; buyer 3 has one mark all along.
    let catalogue = "SALE,5,3,2,1000\nLOT,1,1\nLOT,1,1\nLOT,1,1\nLOT,1,1\nLOT,1,1\n\
                     BUY,1,5,2,4\nBUY,1,2,3\nBUY,1,4\n";
    let after = |calls: &str| {
        let file = format!("{catalogue}{calls}");
        let tables = tables_after(file.as_bytes()).expect("the sale is accepted");
        (tables.present_marks, tables.taken_out)
    };
    let none = Vec::new;
    assert_eq!(
        after(""),
        (
            vec![vec![2, 4, 5], vec![2, 3], vec![4]],
            vec![none(), none(), none()]
        )
    );
    assert_eq!(
        after("J,5,2\n"),
        (
            vec![vec![4, 5], vec![3, 5], vec![4]],
            vec![vec![2], none(), none()]
        )
    );
    assert_eq!(
        after("J,5,2\nJ,5,4\n"),
        (
            vec![vec![5], vec![3, 5], vec![5]],
            vec![vec![4, 2], none(), none()]
        )
    );
    let all = (
        vec![vec![3], vec![3], vec![3]],
        vec![vec![4, 2], vec![5], none()],
    );
    assert_eq!(after("J,5,2\nJ,5,4\nJ,3,5\n"), all);
    assert_eq!(after("J,5,2\nJ,5,4\nJ,3,5\nS\nJ,3,5\n"), all);
}

#[test]
fn stack_and_record_are_handed_out() {
    let sale = parse(CATALOGUE.as_bytes()).expect("the worked catalogue is accepted");
    let list = [Call::J { u: 2, v: 5 }, Call::M { u: 1, t: 2 }];
    let finish = run_calls(&sale.catalogue, &list);
    assert_eq!(finish.joins, [(2, 5)]);
    assert_eq!(finish.record, [(1, 1)]);
}

#[test]
fn entries_are_sixteen_apart() {
    assert_eq!(entry(1, 1), 0);
    assert_eq!(entry(2, 1), 16);
    assert_eq!(entry(1_024, 16), 16_383);
}
