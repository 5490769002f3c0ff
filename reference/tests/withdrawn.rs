//! Withdrawn and late lots: each sentence of the request by itself.
//! Rests on the library's parser, machine and tables.

use reference::measure::{cap, fair_share};
use reference::tables::{BuyerRecord, LotRecord};
use reference::{parse, run, run_calls, run_fine, tables_after, Call, Machine, Tables};

/// Three lots and three buyers over two sessions, cap 8.
const CATALOGUE: &str = "SALE,3,3,2,1000\nLOT,2,1\nLOT,3,1,K\nLOT,3,2\n\
                         BUY,5,3,1\nBUY,2,2,1,3\nBUY,1,2\n";

/// The answers of calls on the catalogue above.
fn answers(calls: &str) -> Vec<String> {
    let file = format!("{CATALOGUE}{calls}");
    let report = String::from_utf8(run(file.as_bytes()).report).expect("plain text");
    let lines = report.lines().map(str::to_string);
    lines
        .take_while(|line| !line.starts_with("TOTAL,"))
        .collect()
}

/// The closing report of calls on it.
fn closing(calls: &str) -> String {
    let file = format!("{CATALOGUE}{calls}");
    let report = String::from_utf8(run(file.as_bytes()).report).expect("plain text");
    let start = report.find("TOTAL,").expect("the file is accepted");
    report[start..].replace('\n', " ").trim_end().to_string()
}

fn tables(calls: &str) -> Tables {
    tables_after(format!("{CATALOGUE}{calls}").as_bytes()).expect("the file is accepted")
}

#[test]
fn forms_of_the_two_lines() {
    let line = |line: &str| {
        let file = format!("{CATALOGUE}{line}\n");
        parse(file.as_bytes())
            .map(|sale| sale.calls)
            .map_err(|refusal| (refusal.number, refusal.line))
    };
    for bad in [
        "X",
        "X,",
        "X,1,",
        "X,1,1",
        "X,01",
        "X,a",
        "X, 1",
        "x,1",
        "XX,1",
        "X,1,K",
        "X1",
        "X,-1",
        "X,1000000000",
        "N",
        "N,",
        "N,1",
        "N,1,",
        "N,1,1,",
        "N,1,1,,1",
        "N,1,01",
        "N,00,1",
        "N,1,1,1,",
        "N,1,1,K",
        "N,1,1,a",
        "n,1,1",
        "NN,1,1",
        "NO,1,1",
        "N,1,1,1000000000",
        "N,1000000000,1",
        "N,1,1,+1",
    ] {
        assert_eq!(line(bad), Err((2, 8)), "{bad}");
    }
    assert_eq!(line("X,999999999"), Ok(vec![Call::X { lot: 999_999_999 }]));
    assert_eq!(line("X,0"), Ok(vec![Call::X { lot: 0 }]));
    let n = |bales, session, buyers: &[u64]| {
        let buyers = buyers.to_vec();
        Ok(vec![Call::N {
            bales,
            session,
            buyers,
        }])
    };
    assert_eq!(line("N,0,0"), n(0, 0, &[]));
    assert_eq!(line("N,999999999,7,0"), n(999_999_999, 7, &[0]));
    assert_eq!(line("N,1,2,3,3,9"), n(1, 2, &[3, 3, 9]));
}

#[test]
fn x_takes_a_lot_and_its_marks_out() {
    // Buyers 1 and 2 visit both sessions: 5 + 2. Without lot 3 they visit one.
    assert_eq!(answers("X,3\n"), ["X,0"]);
    assert_eq!(
        closing("X,3\n"),
        "TOTAL,7,0 LOT,1,1 LOT,2,1 BUY,1,1 BUY,2,1 BUY,3,1"
    );
    let found = tables("X,3\n");
    assert_eq!(found.loaded_marks, [1, 2, 1, 2]);
    assert_eq!(found.counts, [[1, 0], [2, 0], [1, 0]]);
    assert_eq!(found.visited, [1, 1, 1]);
}

#[test]
fn a_withdrawn_lots_record_is_all_0_and_so_are_its_gains_and_its_row() {
    let found = tables("X,2\n");
    let nothing = LotRecord {
        bales: 0,
        session: 0,
        above: 0,
        kept: 0,
    };
    assert_eq!(found.lots[1], nothing);
    assert_eq!(found.gains[1], [0, 0]);
    assert_eq!(found.index[1], [0, 0]);
}

#[test]
fn marks_are_gathered_in_the_loaded_order_and_an_added_one_stands_last() {
    let found = tables("X,1\nN,1,2,2,1,3\n");
    assert_eq!(found.loaded_marks, [3, 1, 2, 3, 1, 2, 1]);
    assert_eq!(found.present_marks, [vec![1, 3], vec![1, 2, 3], vec![1, 2]]);
    let buyer = |first_place, marks| BuyerRecord {
        first_place,
        loaded_marks: marks,
        present_marks: marks,
    };
    assert_eq!(found.buyers, [buyer(0, 2), buyer(2, 3), buyer(5, 2)]);
    assert!(found.gathered);
    assert!(!tables("X,9\nN,0,1\nP\n").gathered);
}

#[test]
fn a_buyer_left_without_marks_adds_0_and_is_in_the_report() {
    assert_eq!(
        closing("X,2\n"),
        "TOTAL,7,7 LOT,1,1 LOT,3,2 BUY,1,2 BUY,2,2 BUY,3,0"
    );
    let found = tables("X,2\nX,1\n");
    let buyer = |first_place, marks| BuyerRecord {
        first_place,
        loaded_marks: marks,
        present_marks: marks,
    };
    assert_eq!(found.buyers, [buyer(0, 1), buyer(1, 1), buyer(2, 0)]);
    assert_eq!(found.visited, [2, 2, 0]);
    assert_eq!(
        answers("X,1\nX,2\nX,3\nP\nA\nN,8,1,3,2\n")[3..],
        ["P,0,0", "A,0,0,0,0,0", "N,3,0"]
    );
}

#[test]
fn the_number_withdrawn_last_comes_first_then_the_next_unused_one() {
    assert_eq!(
        answers("X,1\nX,3\nX,2\nN,1,1\nN,1,1\nN,1,1\nN,1,1\nX,4\nX,1\nN,1,1\nN,1,1\nN,1,1\n")[3..],
        ["N,2,0", "N,3,0", "N,1,0", "N,4,0", "X,0", "X,0", "N,1,0", "N,4,0", "N,5,0"]
    );
}

#[test]
fn a_number_is_known_from_its_first_use_for_good() {
    // Lot 4 is unknown, then there, then withdrawn.
    let calls = "X,4\nW,4,4\nN,1,1\nX,4\nX,4\nM,4,2\nW,4,1\nJ,4,1\nJ,4,4\nX,5\n";
    assert_eq!(
        answers(calls),
        ["NO,9", "NO,9", "N,4,7", "X,7", "NO,10", "NO,10", "NO,10", "NO,10", "NO,11", "NO,9"]
    );
}

#[test]
fn an_added_lot_is_not_kept_though_its_number_was() {
    assert_eq!(
        answers("M,2,2\nX,2\nN,3,1,3\nM,2,2\n"),
        ["NO,20", "X,7", "N,2,7", "M,1,1,7"]
    );
    assert_eq!(tables("X,2\nN,3,1,3\n").lots[1].kept, 0);
}

#[test]
fn x_tests_9_then_16_then_10() {
    // Lot 9 is unknown, 2 is joined into 1, and 3 is withdrawn before that.
    let calls = "X,3\nJ,1,2\nX,9\nX,2\nX,1\nX,3\nS\nX,9\nX,3\nX,2\n";
    assert_eq!(
        answers(calls),
        ["X,0", "J,5", "NO,9", "NO,16", "NO,16", "NO,16", "S,1,2", "NO,9", "NO,10", "X,0"]
    );
}

#[test]
fn n_tests_9_then_16_then_22_then_14() {
    for unknown in [
        "N,0,1",
        "N,65536,1",
        "N,999999999,1",
        "N,1,0",
        "N,1,3",
        "N,1,1,0",
        "N,1,1,4",
        "N,1,1,1,1,4",
        "N,1,1,4,4",
        "N,9,0",
    ] {
        assert_eq!(answers(&format!("{unknown}\n")), ["NO,9"], "{unknown}");
        let joined = format!("J,1,2\n{unknown}\n");
        assert_eq!(answers(&joined), ["J,5", "NO,9"], "{unknown}");
    }
    assert_eq!(answers("J,1,2\nN,9,1,1,1\n"), ["J,5", "NO,16"]);
    assert_eq!(answers("J,1,2\nN,1,1\nN,9,1\n"), ["J,5", "NO,16", "NO,16"]);
    assert_eq!(answers("N,9,1,1,1\nN,9,1,3,2,3\n"), ["NO,22", "NO,22"]);
    assert_eq!(answers("N,4,1\nN,65535,2\n"), ["NO,14", "NO,14"]);
    assert_eq!(answers("N,3,1\nN,5,2\n"), ["N,4,7", "N,5,7"]);
}

/// A sale of so many lots over two sessions, its first lists of all lots.
fn full(lots: usize, lists: usize, last: usize) -> String {
    let mut text = format!("SALE,{lots},{},2,1000\n", lists + 1);
    for lot in 0..lots {
        text += &format!("LOT,1,{}\n", lot % 2 + 1);
    }
    for list in 0..=lists {
        text += "BUY,1";
        for lot in 1..=if list == lists { last } else { lots } {
            text += &format!(",{lot}");
        }
        text.push('\n');
    }
    text
}

#[test]
fn n_gives_23_with_the_limit_of_lots_present_and_before_14_but_after_22() {
    let calls = "N,1,1\nN,65535,1\nN,1,1,1,1\nX,7\nN,1,1\nN,1,2\n";
    let wanted = "NO,23\nNO,23\nNO,22\nX,1\nN,7,1\nNO,23\nTOTAL,1,1\n";
    let file = full(1_024, 0, 2) + calls;
    assert!(run(file.as_bytes()).report.starts_with(wanted.as_bytes()));
    let file = full(256, 0, 2) + calls;
    assert!(run_fine(file.as_bytes())
        .report
        .starts_with(wanted.as_bytes()));
    // At the main entry 256 lots leave space for more, under the cap of 256.
    let wanted = "N,257,1\nNO,14\nNO,22\nX,1\nN,7,1\nN,258,1\nTOTAL,1,1\n";
    assert!(run(file.as_bytes()).report.starts_with(wanted.as_bytes()));
}

#[test]
fn n_gives_23_when_its_marks_and_those_in_use_pass_8192() {
    // 15 lists of 512 and one of 511 have 8,191 marks.
    let file = full(512, 15, 511)
        + "N,1,1,1,2\nN,1,1,1\nN,1,1,3\nN,65535,1,3\nN,1,2\nX,513\nN,1,1,2,1\nN,1,1,3\n";
    let report = run(file.as_bytes()).report;
    // A list of both sessions adds 1 whatever else it has.
    let wanted = "NO,23\nN,513,16\nNO,23\nNO,23\nN,514,16\nX,16\nNO,23\nN,513,16\nTOTAL,16,16\n";
    assert!(report.starts_with(wanted.as_bytes()));
}

#[test]
fn both_empty_the_record_and_a_refused_one_does_not() {
    assert_eq!(answers("M,1,2\nX,3\nB\n"), ["M,5,0,2", "X,2", "NO,15"]);
    assert_eq!(answers("M,1,2\nN,1,1\nB\n"), ["M,5,0,2", "N,4,2", "NO,15"]);
    assert_eq!(
        answers("M,1,2\nX,9\nN,0,1\nN,1,1,1,1\nB\n"),
        ["M,5,0,2", "NO,9", "NO,9", "NO,22", "B,1,1,7"]
    );
}

#[test]
fn the_cap_the_joining_limit_and_the_draft_total_stay_as_at_loading() {
    let sale = parse(format!("{CATALOGUE}X,3\nX,2\nN,6,1\n").as_bytes()).expect("it is accepted");
    let mut machine = Machine::fresh(&sale.catalogue);
    for call in &sale.calls {
        machine.call(call).expect("every call is accepted");
    }
    assert_eq!(machine.loaded, &sale.catalogue);
    assert_eq!((fair_share(machine.loaded), cap(machine.loaded)), (4, 8));
    assert_eq!(
        closing("X,3\nX,2\nN,6,1\n"),
        "TOTAL,7,0 LOT,1,1 LOT,2,1 BUY,1,1 BUY,2,1 BUY,3,0"
    );
}

#[test]
fn a_list_with_refused_withdrawals_is_the_list_without_them() {
    let sale = parse(CATALOGUE.as_bytes()).expect("it is accepted");
    let call = |line: &str| {
        let file = format!("{CATALOGUE}{line}\n");
        parse(file.as_bytes()).expect("a call").calls.remove(0)
    };
    let taken = ["M,1,2", "X,2"].map(call);
    let all = ["X,0", "M,1,2", "N,1,1,2,2", "X,2", "X,2", "N,99,1"].map(call);
    let (one, other) = (
        run_calls(&sale.catalogue, &taken),
        run_calls(&sale.catalogue, &all),
    );
    assert_eq!(one.tables, other.tables);
    assert_eq!((one.joins, one.record), (other.joins, other.record));
}
