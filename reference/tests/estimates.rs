//! Bales not yet counted: each sentence of the request by itself, and its promise on many counts.
//! Rests on the library's parser, measure and machine and on its generator.

use std::rc::Rc;

use reference::generator::{calls, late_calls, sale, sale_of_kind, Kind, Random};
use reference::measure::{cap, fair_share, Standing, View};
use reference::{parse, run, tables_after, Catalogue, Machine};

/// The number and the line under which a file is turned down.
fn refused(file: &str) -> (u32, usize) {
    let refusal = parse(file.as_bytes()).expect_err("the file is turned down");
    (refusal.number, refusal.line)
}

fn catalogue(file: &str) -> Catalogue {
    let sale = parse(file.as_bytes()).expect("the file is accepted");
    sale.catalogue
}

#[test]
fn a_file_that_starts_with_est_has_low_high_and_session() {
    let found = catalogue("EST,2,0,3,1000\nLOT,1,2,3\nLOT,4,4,1,K\n");
    assert!(found.estimated);
    let fields: Vec<_> = found
        .lots
        .iter()
        .map(|lot| (lot.low, lot.bales, lot.session, lot.kept))
        .collect();
    assert_eq!(fields, [(1, 2, 3, false), (4, 4, 1, true)]);
    let found = catalogue("SALE,1,0,2,1000\nLOT,3,2\n");
    assert!(!found.estimated);
    assert_eq!((found.lots[0].low, found.lots[0].bales), (3, 3));
}

#[test]
fn the_two_sorts_of_lot_lines_do_not_mix() {
    for line in [
        "LOT,1,2",
        "LOT,1,2,K",
        "LOT,1,2,1,1",
        "LOT,1,2,1,k",
        "LOT,1,2,1,K,K",
    ] {
        let file = format!("EST,1,0,2,1000\n{line}\n");
        assert_eq!(refused(&file), (2, 2), "{line}");
    }
    for line in ["LOT,1,2,1", "LOT,1,2,1,K"] {
        let file = format!("SALE,1,0,2,1000\n{line}\n");
        assert_eq!(refused(&file), (2, 2), "{line}");
    }
}

#[test]
fn line_1_has_est_in_place_of_sale_and_nothing_else() {
    for line in [
        "est,1,0,2,0",
        "EST,1,0,2",
        "EST,1,0,2,0,0",
        "EST",
        "EST,",
        "ESTS,1,0,2,0",
        "SALE,EST,1,0,2,0",
    ] {
        let file = format!("{line}\nLOT,1,1,1\n");
        assert_eq!(refused(&file), (2, 1), "{line}");
    }
    for line in [
        "EST,0,0,2,0",
        "EST,1025,0,2,0",
        "EST,1,1025,2,0",
        "EST,1,0,1,0",
        "EST,1,0,17,0",
        "EST,1,0,2,1001",
    ] {
        let file = format!("{line}\nLOT,1,1,1\n");
        assert_eq!(refused(&file), (3, 1), "{line}");
    }
}

#[test]
fn low_3_then_high_3_then_21_then_the_sessions_3() {
    let of = |line: &str| refused(&format!("EST,1,0,2,1000\n{line}\n")).0;
    for line in [
        "LOT,0,1,1",
        "LOT,65536,65535,1",
        "LOT,0,0,3",
        "LOT,5,0,1",
        "LOT,5,0,3",
        "LOT,5,65536,1",
        "LOT,5,5,0",
        "LOT,5,5,3",
    ] {
        assert_eq!(of(line), 3, "{line}");
    }
    for line in ["LOT,2,1,1", "LOT,2,1,3", "LOT,65535,1,0", "LOT,2,1,1,K"] {
        assert_eq!(of(line), 21, "{line}");
    }
    assert_eq!(of("LOT,2,1,1,k"), 2);
}

#[test]
fn a_21_turns_the_file_down_like_3() {
    let outcome = run(b"EST,2,0,2,1000\nLOT,1,1,1\nLOT,2,1,2\nP\n");
    assert_eq!(outcome.code, 21);
    assert_eq!(outcome.report, b"NO,21,3\n");
}

#[test]
fn the_cap_and_the_joining_limit_are_of_the_lows() {
    let found = catalogue("EST,2,0,2,100\nLOT,26,29,1\nLOT,25,28,2\n");
    assert_eq!(fair_share(&found), 26);
    assert_eq!(cap(&found), 29);
}

#[test]
fn the_draft_is_within_the_cap_by_its_highs() {
    assert!(parse(b"EST,2,0,2,100\nLOT,26,29,1\nLOT,25,29,2\n").is_ok());
    assert_eq!(refused("EST,2,0,2,100\nLOT,26,29,1\nLOT,25,30,2\n"), (6, 3));
}

#[test]
fn bales_in_the_tables_are_the_highs() {
    let file = b"EST,3,0,2,1000\nLOT,1,2,1\nLOT,3,4,1\nLOT,8,8,2\nJ,1,2\n";
    let tables = tables_after(file).expect("it is accepted");
    let bales: Vec<u64> = tables.lots.iter().map(|lot| lot.bales).collect();
    assert_eq!(bales, [6, 4, 8]);
}

#[test]
fn a_file_whose_lows_are_its_highs_is_the_sale_itself() {
    for seed in 0..300 {
        let mut sale = parse(&sale(seed)).expect("a generated sale is accepted");
        sale.catalogue
            .lots
            .iter_mut()
            .for_each(|lot| lot.count(lot.bales));
        let mut report = |estimated| {
            sale.catalogue.estimated = estimated;
            run(&reference::generator::write_sale(&sale))
        };
        assert_eq!(report(true), report(false), "{seed}");
    }
}

/// The catalogue with a count of bales in place of each range.
fn counted(catalogue: &Catalogue, mut count: impl FnMut(u64, u64) -> u64) -> Catalogue {
    let mut counted = catalogue.clone();
    for lot in &mut counted.lots {
        let bales = count(lot.low, lot.bales);
        assert!((lot.low..=lot.bales).contains(&bales));
        lot.count(bales);
    }
    counted
}

/// The promise: with these joins and sessions no session has more of the count than the cap that
/// the count itself gives. Answers whether some session is within one bale of that cap.
fn within_own_cap(counted: &Catalogue, machine: &Machine) -> bool {
    let standing = Standing::of(counted, &Rc::new(counted.clone()), &machine.joins);
    let view = View::of(&standing, &machine.sessions);
    let heaviest = view.heaviest_session();
    assert!(heaviest <= cap(counted));
    heaviest + 1 >= cap(counted)
}

/// The promise in one state: on all lows, all highs, each lot alone at its high, each alone at its
/// low, and some random counts. How many counts had a session within one bale of their cap.
fn check_promise(random: &mut Random, machine: &Machine) -> usize {
    let catalogue = machine.loaded;
    let mut close = 0;
    let mut check = |count: &mut dyn FnMut(u64, u64) -> u64| {
        close += usize::from(within_own_cap(&counted(catalogue, count), machine));
    };
    check(&mut |low, _| low);
    check(&mut |_, high| high);
    for one in 0..catalogue.lots.len() {
        let mut place = 0;
        check(&mut |low, high| {
            place += 1;
            if place == one + 1 {
                high
            } else {
                low
            }
        });
        let mut place = 0;
        check(&mut |low, high| {
            place += 1;
            if place == one + 1 {
                low
            } else {
                high
            }
        });
    }
    for _ in 0..5 {
        check(&mut |low, high| random.between(low, high));
        check(&mut |low, high| if random.in_hundred(50) { low } else { high });
    }
    close
}

#[test]
fn no_session_passes_the_cap_of_any_count_within_the_ranges() {
    let mut close = 0;
    for seed in 0..150 {
        let sale = parse(&sale_of_kind(seed, Kind::Estimates)).expect("it is accepted");
        let mut random = Random::new(seed);
        let mut machine = Machine::fresh(&sale.catalogue);
        check_promise(&mut random, &machine);
        for call in calls(seed, &sale.catalogue, 25) {
            // An answer or a refusal serves alike: the promise holds in every state.
            let _ = machine.call(&call);
            close += check_promise(&mut random, &machine);
        }
    }
    assert!(close > 1_000, "{close}");
}

#[test]
fn the_promise_is_kept_for_lists_without_an_accepted_withdrawal_or_addition() {
    let (mut kept, mut ended) = (0, 0);
    for seed in 0..150 {
        let sale = parse(&sale_of_kind(seed, Kind::Estimates)).expect("it is accepted");
        let mut random = Random::new(seed);
        let mut machine = Machine::fresh(&sale.catalogue);
        for call in late_calls(seed, &sale.catalogue, 25) {
            // A refused X or N changes nothing, so the promise holds behind it.
            let _ = machine.call(&call);
            if machine.gathered {
                ended += 1;
                break;
            }
            check_promise(&mut random, &machine);
            kept += 1;
        }
    }
    assert!(kept > 200 && ended > 100, "{kept} {ended}");
}

#[test]
fn an_added_lot_is_low_and_high_alike_and_leaves_cap_and_joining_limit() {
    // The lows are 4 + 4, so the even share is 4 and the cap 6; session 1 may have 4.
    let file = b"EST,2,0,2,500\nLOT,4,4,1\nLOT,4,5,2\nN,2,1\nN,1,1\nN,1,2\nN,1,2\n";
    let outcome = run(file);
    assert!(outcome
        .report
        .starts_with(b"N,3,0\nNO,14\nN,4,0\nNO,14\nTOTAL,0,0\n"));
    let sale = parse(file).expect("it is accepted");
    let mut machine = Machine::fresh(&sale.catalogue);
    machine.call(&sale.calls[0]).expect("there is space");
    let added = machine.catalogue.lot(3);
    assert_eq!((added.low, added.bales), (2, 2));
    assert_eq!((fair_share(machine.loaded), cap(machine.loaded)), (4, 6));
}

#[test]
fn a_draft_that_fits_by_its_lows_alone_would_break_the_promise() {
    assert_eq!(refused("EST,2,0,2,0\nLOT,2,4,1\nLOT,2,2,2\n"), (6, 3));
    // The lows fit under their cap of 2; the count 4, 2 has a cap of 3.
    assert!(parse(b"SALE,2,0,2,0\nLOT,2,1\nLOT,2,2\n").is_ok());
    assert_eq!(refused("SALE,2,0,2,0\nLOT,4,1\nLOT,2,2\n"), (6, 3));
}
