//! Generated sales: the generator is settled by its seed, damaged files never stop the
//! parser, and the calls keep the cap, the totals and the tables as document 01 has them.
//! Rests on the library's generator and on its machine, asked after every call.

use std::collections::BTreeSet;

use reference::catalogue::Lot;
use reference::generator::{calls, damaged, late_calls, sale, sale_of_kind, Kind, KINDS};
use reference::measure::{cap, fair_share, View};
use reference::report::answer_line;
use reference::{parse, parse_within, run, run_calls, run_fine, tables_after};
use reference::{Answer, Call, Catalogue, Limits, Machine, Tables};

#[test]
fn one_seed_gives_one_file() {
    for seed in 0..100 {
        assert_eq!(sale(seed), sale(seed));
        assert_eq!(damaged(seed), damaged(seed));
    }
    let different: BTreeSet<Vec<u8>> = (0..100).map(sale).collect();
    assert!(different.len() > 90);
}

#[test]
fn every_kind_is_accepted() {
    for (name, kind) in KINDS {
        for seed in 0..20 {
            let file = sale_of_kind(seed, kind);
            assert!(parse(&file).is_ok(), "{name} {seed}");
        }
    }
}

#[test]
fn sales_of_half_caps_have_them() {
    let mut halves = 0;
    for seed in 0..50 {
        let file = sale_of_kind(seed, Kind::HalfCaps);
        let catalogue = parse(&file)
            .expect("a generated sale is accepted")
            .catalogue;
        let thousandths = (1_000 + catalogue.slack) * fair_share(&catalogue);
        halves += usize::from(thousandths % 1_000 == 500);
    }
    // A draft that had to be settled may have got another slack.
    assert!(halves > 40);
}

#[test]
fn walks_of_lopsided_sales_keep_lighter_prefixes_of_equal_total() {
    let (mut lighter, mut far) = (0, 0);
    for seed in 0..50 {
        let sale =
            parse(&sale_of_kind(seed, Kind::Lopsided)).expect("a generated sale is accepted");
        let mut machine = Machine::fresh(&sale.catalogue);
        for call in &sale.calls {
            let old_total = machine.total();
            if let Ok(Answer::W { tried, kept, total }) = machine.call(call) {
                lighter += usize::from(kept > 0 && total == old_total);
                far += usize::from(tried > 25);
            }
        }
    }
    assert!(lighter > 50, "{lighter}");
    assert!(far > 10, "{far}");
}

#[test]
fn damaged_files_are_refused_on_a_line_there_is_or_the_next() {
    let mut numbers = BTreeSet::new();
    let mut kept = 0;
    for seed in 0..2_000 {
        let file = damaged(seed);
        let lines = file.split_inclusive(|&byte| byte == b'\n').count();
        kept += usize::from(parse(&file).is_ok_and(|sale| has_kept_lot(&sale.catalogue)));
        if let Err(refusal) = parse(&file) {
            let known = (1..=7).contains(&refusal.number) || refusal.number == 21;
            assert!(known, "{seed}");
            assert_eq!(refusal.line == 0, refusal.number == 1, "{seed}");
            assert!(refusal.line <= lines + 1, "{seed}");
            numbers.insert(refusal.number);
        }
        let outcome = run(&file);
        let code = parse(&file).map_or_else(|refusal| refusal.number, |_| 0);
        assert_eq!(outcome.code, code, "{seed}");
        assert!(outcome.report.ends_with(b"\n"), "{seed}");
        assert_eq!(tables_after(&file).is_some(), outcome.code == 0, "{seed}");
    }
    for number in [1, 2, 3, 4, 6, 7, 21] {
        assert!(numbers.contains(&number), "no damaged file gave {number}");
    }
    assert!(kept > 10, "{kept}");
}

#[test]
fn kept_lots_of_generated_sales_change_reports_and_are_refused_to_m() {
    let (mut kept, mut other_report, mut refused) = (0, 0, 0);
    for seed in 0..400 {
        let sale = parse(&sale(seed)).expect("a generated sale is accepted");
        if !has_kept_lot(&sale.catalogue) {
            continue;
        }
        let report = run_calls(&sale.catalogue, &sale.calls).report;
        let mut free = sale.catalogue.clone();
        free.lots.iter_mut().for_each(|lot| lot.kept = false);
        kept += 1;
        other_report += usize::from(run_calls(&free, &sale.calls).report != report);
        refused += usize::from(report.windows(6).any(|text| text == b"NO,20\n"));
    }
    assert!(kept > 80, "{kept}");
    assert!(other_report > 50, "{other_report}");
    assert!(refused > 40, "{refused}");
}

#[test]
fn estimates_of_generated_sales_change_reports() {
    let (mut estimated, mut open, mut by_highs, mut by_lows) = (0, 0, 0, 0);
    for seed in 0..400 {
        let sale = parse(&sale(seed)).expect("a generated sale is accepted");
        if !sale.catalogue.estimated {
            continue;
        }
        let report = |change: fn(&mut Lot)| {
            let mut other = sale.catalogue.clone();
            other.lots.iter_mut().for_each(change);
            run_calls(&other, &sale.calls).report
        };
        let wanted = report(|_| {});
        estimated += 1;
        open += usize::from(sale.catalogue.lots.iter().any(|lot| lot.low < lot.bales));
        by_highs += usize::from(report(|lot| lot.count(lot.bales)) != wanted);
        by_lows += usize::from(report(|lot| lot.count(lot.low)) != wanted);
    }
    assert!(estimated > 80, "{estimated}");
    assert!(open > 50, "{open}");
    assert!(by_highs > 25, "{by_highs}");
    assert!(by_lows > 35, "{by_lows}");
}

fn has_kept_lot(catalogue: &Catalogue) -> bool {
    catalogue.lots.iter().any(|lot| lot.kept)
}

/// No session above the cap of loading, lots off the board as the rule has it, withdrawn ones with
/// nothing, kept lots where the draft has them, sets and counts in step.
fn check_state(machine: &Machine) {
    let catalogue = &machine.catalogue;
    let standing = machine.standing();
    let view = View::of(&standing, &machine.sessions);
    let tables = Tables::of(machine);
    for session in catalogue.session_numbers() {
        assert!(view.session_bales(session) <= cap(machine.loaded));
    }
    let off_board: BTreeSet<usize> = machine.joins.iter().map(|&(_, v)| v).collect();
    for lot in catalogue.lot_numbers() {
        let record = tables.lots[lot - 1];
        let joined = off_board.contains(&lot);
        let withdrawn = machine.free_numbers.contains(&lot);
        assert!(!joined || !withdrawn);
        assert_eq!(record.session == 0, joined || withdrawn);
        assert_eq!(record.above != 0, joined);
        assert_eq!(record.bales == 0, withdrawn);
        let own = catalogue.lot(lot);
        assert_eq!(record.kept == 1, own.kept);
        if own.kept {
            assert_eq!(own, machine.loaded.lot(lot));
            assert_eq!(view.session(standing.stand(lot)), own.session);
        }
        if joined || withdrawn {
            assert!(tables.gains[lot - 1].iter().all(|&gain| gain == 0));
            assert!(tables.index[lot - 1].iter().all(|&session| session == 0));
        }
    }
    let mut free = machine.free_numbers.clone();
    free.sort_unstable();
    free.dedup();
    assert_eq!(free.len(), machine.free_numbers.len(), "a number twice");
    let lots = catalogue.lots_in_sale().count();
    assert_eq!(lots + free.len(), catalogue.lots.len());
    assert!(lots <= 1_024 && tables.loaded_marks.len() <= 8_192);
    let mut place = 0;
    for buyer in catalogue.buyer_numbers() {
        assert_eq!(tables.buyers[buyer - 1].first_place, place, "a gap");
        place += tables.buyers[buyer - 1].loaded_marks;
        let present = &tables.present_marks[buyer - 1];
        assert_eq!(present.len(), tables.buyers[buyer - 1].present_marks);
        assert_eq!(present.len() as u64, tables.counts[buyer - 1].iter().sum());
        assert!(present.is_sorted_by(|one, next| one < next));
        assert!(present.iter().all(|lot| !off_board.contains(lot)));
        let taken_out = &tables.taken_out[buyer - 1];
        assert!(taken_out.iter().all(|lot| off_board.contains(lot)));
        let loaded = tables.buyers[buyer - 1].loaded_marks;
        assert_eq!(present.len() + taken_out.len(), loaded);
        let bits = tables.visited[buyer - 1];
        assert_eq!(bits.count_ones() as usize, view.visited(buyer).len());
    }
}

/// The gain of every pair is the fall of the total when the move is made; what it frees are the
/// weights of buyers that visit one session less, what it draws in those of buyers with one more.
fn check_gains(machine: &Machine) {
    let catalogue = &machine.catalogue;
    let standing = machine.standing();
    let view = View::of(&standing, &machine.sessions);
    for lot in standing.board() {
        let from = machine.sessions[lot];
        for session in catalogue.session_numbers() {
            let mut sessions = machine.sessions.clone();
            sessions[lot] = session;
            let after = View::of(&standing, &sessions);
            assert_eq!(
                view.gain(lot, session),
                view.total() as i64 - after.total() as i64,
                "lot {lot} to {session}"
            );
            // Buyers that visit a session in one view and not in the other.
            let weights = |one: &View, other: &View, visited: usize| -> u64 {
                let buyers = catalogue.buyer_numbers();
                buyers
                    .filter(|&buyer| one.count(buyer, visited) > 0)
                    .filter(|&buyer| other.count(buyer, visited) == 0)
                    .map(|buyer| catalogue.buyer(buyer).weight)
                    .sum()
            };
            let halves = view.halves(lot, session);
            assert_eq!(halves.freed, weights(&view, &after, from));
            assert_eq!(halves.drawn, weights(&after, &view, session));
        }
    }
}

/// No single move with space of a lot not kept lowers the total.
fn check_no_move_left(machine: &Machine) {
    let standing = machine.standing();
    let view = View::of(&standing, &machine.sessions);
    for lot in standing
        .board()
        .into_iter()
        .filter(|&lot| !standing.kept(lot))
    {
        for session in machine.catalogue.session_numbers() {
            if session != machine.sessions[lot] && view.space(lot, session) {
                let mut sessions = machine.sessions.clone();
                sessions[lot] = session;
                assert!(View::of(&standing, &sessions).total() >= view.total());
            }
        }
    }
}

fn check_calls(catalogue: &Catalogue, list: &[Call]) {
    let mut machine = Machine::fresh(catalogue);
    check_state(&machine);
    check_gains(&machine);
    for call in list {
        let before = machine.clone();
        let total = before.total();
        match machine.call(call) {
            Err(number) => {
                assert!((9..=16).contains(&number) || [20, 22, 23].contains(&number));
                assert_eq!(machine, before, "a refused call changes nothing");
            }
            Ok(answer) => {
                check_state(&machine);
                check_answer(&before, total, &machine, answer);
            }
        }
    }
    check_gains(&machine);
}

/// The bales of the machine's heaviest session.
fn heaviest_session(machine: &Machine) -> u64 {
    let standing = machine.standing();
    View::of(&standing, &machine.sessions).heaviest_session()
}

fn check_answer(before: &Machine, old_total: u64, machine: &Machine, answer: Answer) {
    if !matches!(answer, Answer::M { .. } | Answer::B { .. }) {
        assert!(machine.record.is_empty());
    }
    match answer {
        Answer::J { .. } => {
            assert_eq!(machine.total(), old_total);
            assert_eq!(machine.joins.len(), before.joins.len() + 1);
        }
        Answer::S { .. } => {
            assert_eq!(machine.total(), old_total);
            assert_eq!(machine.joins.len() + 1, before.joins.len());
        }
        Answer::M {
            freed,
            drawn,
            total,
        } => {
            assert_eq!(total + freed, old_total + drawn);
            let mut reversed = machine.clone();
            assert!(reversed.call(&Call::B).is_ok());
            assert_eq!(&reversed, before, "B takes back M");
        }
        Answer::B { total, .. } => assert_eq!(total, machine.total()),
        Answer::W { tried, kept, total } => {
            assert!(kept <= tried && tried <= kept + 25);
            let old = (old_total, heaviest_session(before));
            let new = (total, heaviest_session(machine));
            assert!(new <= old, "a lower total, or a lighter session");
            assert_eq!(kept == 0, new == old);
            let moved = |lot: &usize| machine.sessions[*lot] != before.sessions[*lot];
            let changed = machine.catalogue.lot_numbers().filter(moved).count();
            assert_eq!(changed as u64, kept);
        }
        Answer::P { moves, total } => {
            assert!(total + moves <= old_total);
            check_no_move_left(machine);
        }
        Answer::A { total, .. } => {
            assert!(total <= old_total);
            assert!(machine.joins.is_empty());
            check_no_move_left(machine);
        }
        Answer::X { total } => {
            assert_eq!(total, machine.total());
            assert!(total <= old_total);
            let (lot, earlier) = machine.free_numbers.split_last().expect("a number is free");
            assert_eq!(earlier, before.free_numbers);
            assert!(before.catalogue.in_sale(*lot) && !machine.catalogue.in_sale(*lot));
        }
        Answer::N { lot, total } => {
            assert_eq!(total, machine.total());
            assert!(total >= old_total);
            let next = before.catalogue.lots.len() + 1;
            assert_eq!(lot, *before.free_numbers.last().unwrap_or(&next));
            let mut withdrawn = machine.clone();
            assert_eq!(
                withdrawn.call(&Call::X { lot: lot as u64 }),
                Ok(Answer::X { total: old_total }),
                "X takes back N's total"
            );
        }
    }
    if matches!(answer, Answer::X { .. } | Answer::N { .. }) {
        assert!(before.joins.is_empty() && machine.joins.is_empty());
        assert!(machine.gathered);
        let others = |machine: &Machine| {
            let mut lots = machine.sessions.clone();
            lots.resize(before.sessions.len(), 0);
            lots
        };
        let (old, new) = (others(before), others(machine));
        let differ = (0..old.len()).filter(|&lot| old[lot] != new[lot]).count();
        assert!(differ <= 1, "another lot moved");
    } else {
        assert_eq!(machine.catalogue, before.catalogue);
        assert_eq!(machine.free_numbers, before.free_numbers);
        assert_eq!(machine.gathered, before.gathered);
    }
}

#[test]
fn generated_sales_keep_the_invariants() {
    for seed in 0..600 {
        let sale = parse(&sale(seed)).expect("a generated sale is accepted");
        check_calls(&sale.catalogue, &sale.calls);
    }
}

#[test]
fn withdrawn_and_added_lots_keep_the_invariants() {
    let mut refusals = BTreeSet::new();
    let (mut withdrawn, mut added, mut reused, mut past) = (0, 0, 0, 0);
    let mut go = |catalogue: &Catalogue, list: &[Call]| {
        check_calls(catalogue, list);
        let mut machine = Machine::fresh(catalogue);
        for call in list {
            let late = matches!(call, Call::X { .. } | Call::N { .. });
            match machine.call(call) {
                Ok(Answer::X { .. }) => withdrawn += 1,
                Ok(Answer::N { lot, .. }) => {
                    added += 1;
                    reused += usize::from(lot <= catalogue.lots.len());
                    past += usize::from(lot > catalogue.lots.len());
                }
                Ok(_) => {}
                Err(number) if late => {
                    refusals.insert(number);
                }
                Err(_) => {}
            }
        }
    };
    for seed in 0..300 {
        let sale = parse(&sale_of_kind(seed, Kind::Withdrawn)).expect("it is accepted");
        go(&sale.catalogue, &sale.calls);
    }
    for seed in 0..300 {
        let sale = parse(&sale(seed)).expect("it is accepted");
        go(&sale.catalogue, &late_calls(seed, &sale.catalogue, 30));
    }
    for seed in 0..6 {
        let sale = parse(&sale_of_kind(seed, Kind::Full)).expect("it is accepted");
        // The gains of a thousand lots are looked at elsewhere.
        let mut machine = Machine::fresh(&sale.catalogue);
        for call in &sale.calls {
            if let Err(number) = machine.call(call) {
                refusals.insert(number);
            }
            check_state(&machine);
        }
    }
    assert!(withdrawn > 1_000, "{withdrawn}");
    assert!(added > 1_000, "{added}");
    assert!(reused > 300 && past > 300, "{reused}, {past}");
    for number in [9, 10, 14, 16, 22, 23] {
        assert!(refusals.contains(&number), "no call gave {number}");
    }
}

#[test]
fn sales_of_full_tables_meet_23_at_both_entries() {
    let (mut main, mut fine, mut differ) = (0, 0, 0);
    for seed in 0..40 {
        let file = sale_of_kind(seed, Kind::Full);
        let (at_main, at_fine) = (run(&file), run_fine(&file));
        let told = |report: &[u8]| report.windows(6).any(|text| text == b"NO,23\n");
        main += usize::from(told(&at_main.report));
        fine += usize::from(told(&at_fine.report));
        differ += usize::from(at_fine.code == 0 && at_fine != at_main);
    }
    assert!(main > 8 && fine > 8 && differ > 4, "{main} {fine} {differ}");
}

#[test]
fn lists_longer_than_a_file_may_hold_run_as_well() {
    let sale = parse(&sale(5)).expect("a generated sale is accepted");
    let list = calls(77, &sale.catalogue, 700);
    assert_eq!(list.len(), 700);
    check_calls(&sale.catalogue, &list);
    let finish = run_calls(&sale.catalogue, &list);
    let lines = finish.report.split(|&byte| byte == b'\n').count() - 1;
    assert_eq!(
        lines,
        700 + 1 + sale.catalogue.lots.len() + sale.catalogue.buyers.len()
    );
}

#[test]
fn splits_bring_back_the_board_of_the_joins() {
    for seed in 0..200 {
        let sale = parse(&sale(seed)).expect("a generated sale is accepted");
        let mut machine = Machine::fresh(&sale.catalogue);
        for call in &sale.calls {
            // An answer or a refusal serves alike: only the state after the call is used.
            let _ = machine.call(call);
        }
        while machine.call(&Call::S).is_ok() {}
        assert!(machine.joins.is_empty());
        let mut in_sale = machine.catalogue.lots_in_sale();
        assert!(in_sale.all(|lot| machine.sessions[lot] > 0));
        check_state(&machine);
    }
}

#[test]
fn all_answers_have_their_lines() {
    let line = |answer| answer_line(&answer);
    assert_eq!(line(Ok(Answer::J { bales: 20 })), "J,20\n");
    let moved = Answer::M {
        freed: 3,
        drawn: 10,
        total: 9,
    };
    assert_eq!(line(Ok(moved)), "M,3,10,9\n");
    assert_eq!(line(Ok(Answer::X { total: 7 })), "X,7\n");
    assert_eq!(line(Ok(Answer::N { lot: 4, total: 7 })), "N,4,7\n");
    assert_eq!(line(Err(14)), "NO,14\n");
}

#[test]
fn superfine_sales_give_one_report_within_both_limits_or_3_on_line_1() {
    let (mut same, mut out_of_range) = (0, 0);
    for seed in 0..60 {
        let file = sale_of_kind(seed, Kind::Superfine);
        let Catalogue { lots, sessions, .. } = parse(&file).expect("it is accepted").catalogue;
        let fine = run_fine(&file);
        if lots.len() <= 256 && sessions <= 8 {
            assert_eq!(fine, run(&file), "{seed}");
            same += usize::from(lots.len() == 256);
        } else {
            assert_eq!(fine.code, 3, "{seed}");
            assert_eq!(fine.report, b"NO,3,1\n", "{seed}");
            out_of_range += 1;
        }
    }
    assert!(same > 5, "{same}");
    assert!(out_of_range > 5, "{out_of_range}");
}

#[test]
fn the_limits_move_the_ranges_of_lots_and_sessions() {
    let file = b"SALE,3,0,3,0\nLOT,1,1\nLOT,1,2\nLOT,1,3\n";
    let within = |lots, sessions| parse_within(file, &Limits { lots, sessions });
    assert!(within(3, 3).is_ok());
    assert_eq!(
        within(2, 3)
            .map_err(|found| (found.number, found.line))
            .err(),
        Some((3, 1))
    );
    assert_eq!(
        within(3, 2)
            .map_err(|found| (found.number, found.line))
            .err(),
        Some((3, 1))
    );
}
