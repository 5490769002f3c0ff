//! The index beside the gains: in every state it has each pair of a board lot and another session
//! once and no other, in the order of choice, and its first open pair is the one that the full
//! search takes, on the way of a walk too. The rows of some sales on file are by hand.
//! Rests on the library's tables for the index and on its searches, which do without one.

use std::cmp::Reverse;
use std::collections::BTreeSet;
use std::path::Path;

use reference::generator::{sale, sale_of_kind, Kind, Random};
use reference::measure::View;
use reference::search::{best_pair, Pair};
use reference::{parse, run_calls, Answer, Call, Catalogue, Machine, Tables};

/// The pairs of the index in the order of choice: gain descending, then lot, then session.
fn in_order(tables: &Tables) -> Vec<Pair> {
    let mut pairs = Vec::new();
    for (lot, row) in (1..).zip(&tables.index) {
        let gains = &tables.gains[lot - 1];
        let sessions = row.iter().copied().take_while(|&session| session != 0);
        pairs.extend(sessions.map(|session| Pair {
            lot,
            session,
            gain: gains[session - 1],
        }));
    }
    // The sort is stable: among a lot's pairs of equal gain the order is that of its row.
    pairs.sort_by_key(|pair| (Reverse(pair.gain), pair.lot));
    pairs
}

/// Each pair of a board lot and another session is in the index once and no other is; a row has the
/// order of choice and ends in a 0; a row of a lot off the board has nothing else.
fn check_index(machine: &Machine) {
    let standing = machine.standing();
    let view = View::of(&standing, &machine.sessions);
    let tables = Tables::of(machine);
    assert_eq!(tables.index.len(), machine.catalogue.lots.len());
    let mut wanted = BTreeSet::new();
    for lot in standing.board() {
        let sessions = machine.catalogue.session_numbers();
        let others = sessions.filter(|&session| session != machine.sessions[lot]);
        wanted.extend(others.map(|session| (lot, session)));
    }
    let pairs = in_order(&tables);
    let found: BTreeSet<(usize, usize)> = pairs.iter().map(|p| (p.lot, p.session)).collect();
    assert_eq!(pairs.len(), found.len(), "a pair twice");
    assert_eq!(found, wanted);
    for (lot, row) in (1..).zip(&tables.index) {
        assert_eq!(row.len(), machine.catalogue.sessions);
        if !standing.on_board(lot) {
            assert!(row.iter().all(|&session| session == 0));
            continue;
        }
        let (end, others) = row.split_last().expect("there are two sessions");
        assert_eq!(*end, 0);
        let key = |session: &usize| (Reverse(view.gain(lot, *session)), *session);
        assert!(others.is_sorted_by_key(key), "lot {lot}: {row:?}");
    }
    let key = |pair: &Pair| (Reverse(pair.gain), pair.lot, pair.session);
    assert!(pairs.is_sorted_by_key(key));
}

/// What the choices of some sales were like.
#[derive(Debug, Default)]
struct Seen {
    choices: usize,
    /// Of 16 sessions.
    sixteen: usize,
    /// Another lot had an open pair of the same gain.
    tied_lots: usize,
    /// The lot had another open pair of the same gain.
    tied_sessions: usize,
    /// An earlier pair of a lot in question had no space.
    closed: usize,
    /// The session was the sixth of the lot's row or a later one.
    deep: usize,
    /// No pair was open.
    none: usize,
}

/// The first pair of the index in the order of choice that is of one of these lots and has space.
/// It is the one that the full search takes, and the lot's row has none with space before it.
fn choose(machine: &Machine, lots: &[usize], seen: &mut Seen) -> Option<Pair> {
    let standing = machine.standing();
    let view = View::of(&standing, &machine.sessions);
    let tables = Tables::of(machine);
    let pairs: Vec<Pair> = in_order(&tables)
        .into_iter()
        .filter(|pair| lots.contains(&pair.lot))
        .collect();
    let has_space = |pair: &Pair| view.space(pair.lot, pair.session);
    let place = pairs.iter().position(has_space);
    let chosen = place.map(|place| pairs[place]);
    assert_eq!(chosen, best_pair(machine, &view, lots));

    seen.choices += 1;
    seen.none += usize::from(chosen.is_none());
    let (place, chosen) = (place?, chosen?);
    let row = &tables.index[chosen.lot - 1];
    let in_row = row.iter().position(|&session| session == chosen.session)?;
    assert!(row[..in_row]
        .iter()
        .all(|&session| !view.space(chosen.lot, session)));

    let mut tied = pairs[place + 1..]
        .iter()
        .filter(|pair| pair.gain == chosen.gain && has_space(pair));
    let tied_lot = tied.clone().any(|pair| pair.lot != chosen.lot);
    let tied_session = tied.any(|pair| pair.lot == chosen.lot);
    seen.sixteen += usize::from(machine.catalogue.sessions == 16);
    seen.tied_lots += usize::from(tied_lot);
    seen.tied_sessions += usize::from(tied_session);
    seen.closed += usize::from(place > 0);
    seen.deep += usize::from(in_row >= 5);
    Some(chosen)
}

/// The lots of these that are not kept.
fn free(machine: &Machine, lots: impl IntoIterator<Item = usize>) -> Vec<usize> {
    let standing = machine.standing();
    let free = |&lot: &usize| !standing.kept(lot);
    lots.into_iter().filter(free).collect()
}

/// A walk by the index alone, until no pair is open: the state before each move and at the end.
fn walk_on<'a>(start: &Machine<'a>, u: usize, v: usize, seen: &mut Seen) -> Vec<Machine<'a>> {
    let standing = start.standing();
    let mut states = vec![start.clone()];
    let mut candidates = BTreeSet::from([u, v]);
    let mut moved = BTreeSet::new();
    loop {
        let mut machine = states.last().expect("the start is there").clone();
        let open = free(&machine, candidates.difference(&moved).copied());
        let Some(pair) = choose(&machine, &open, seen) else {
            return states;
        };
        machine.sessions[pair.lot] = pair.session;
        moved.insert(pair.lot);
        for &buyer in standing.buyers(pair.lot) {
            candidates.extend(standing.present(buyer));
        }
        check_index(&machine);
        states.push(machine);
    }
}

/// The moves of P by the index alone.
fn improve<'a>(start: &Machine<'a>, seen: &mut Seen) -> Machine<'a> {
    let mut machine = start.clone();
    let lots = free(&machine, machine.standing().board());
    loop {
        match choose(&machine, &lots, seen) {
            Some(pair) if pair.gain >= 1 => machine.sessions[pair.lot] = pair.session,
            _ => return machine,
        }
        check_index(&machine);
    }
}

/// Runs the calls with the index looked at after each of them; every W and P is gone through by the
/// index alone as well and ends where the machine does. After each call some lots are chosen from.
fn check_calls(catalogue: &Catalogue, calls: &[Call], random: &mut Random, seen: &mut Seen) {
    let mut machine = Machine::fresh(catalogue);
    check_index(&machine);
    for call in calls {
        let before = machine.clone();
        match (machine.call(call), call) {
            (Ok(Answer::W { tried, kept, .. }), &Call::W { u, v }) => {
                let states = walk_on(&before, u as usize, v as usize, seen);
                assert!(states.len() > tried as usize);
                assert_eq!(states[kept as usize].sessions, machine.sessions);
            }
            (Ok(Answer::P { .. }), _) => {
                assert_eq!(improve(&before, seen).sessions, machine.sessions);
            }
            _ => {}
        }
        check_index(&machine);
        let chances = *random.pick(&[20, 50, 100]);
        let mut lots = free(&machine, machine.standing().board());
        lots.retain(|_| random.in_hundred(chances));
        choose(&machine, &lots, seen);
    }
}

/// Checks sales of seeds from 0 on.
fn check_sales(count: u64, make: impl Fn(u64) -> Vec<u8>) -> Seen {
    let mut seen = Seen::default();
    for seed in 0..count {
        let sale = parse(&make(seed)).expect("a generated sale is accepted");
        let random = &mut Random::new(seed);
        check_calls(&sale.catalogue, &sale.calls, random, &mut seen);
    }
    seen
}

#[test]
fn the_first_open_pair_is_the_full_searchs() {
    let seen = check_sales(400, sale);
    assert!(seen.choices > 10_000, "{seen:?}");
    assert!(seen.sixteen > 1_000, "{seen:?}");
    assert!(seen.tied_lots > 4_000, "{seen:?}");
    assert!(seen.tied_sessions > 2_000, "{seen:?}");
    assert!(seen.closed > 4_000, "{seen:?}");
    assert!(seen.deep > 500, "{seen:?}");
    assert!(seen.none > 1_000, "{seen:?}");
}

#[test]
fn the_first_open_pair_is_the_full_searchs_with_lots_withdrawn_and_added() {
    let seen = check_sales(150, |seed| sale_of_kind(seed, Kind::Withdrawn));
    assert!(seen.choices > 3_000, "{seen:?}");
    assert!(seen.tied_lots > 500, "{seen:?}");
    assert!(seen.closed > 500, "{seen:?}");
}

#[test]
fn choices_of_crowded_sales_are_tied_and_far_down() {
    let seen = check_sales(60, |seed| sale_of_kind(seed, Kind::Crowded));
    assert!(2 * seen.tied_lots > seen.choices, "{seen:?}");
    assert!(10 * seen.tied_sessions > seen.choices, "{seen:?}");
    assert!(4 * seen.closed > 3 * seen.choices, "{seen:?}");
    assert!(5 * seen.deep > seen.choices, "{seen:?}");
    assert!(4 * seen.sixteen > seen.choices, "{seen:?}");
}

/// The rows of the index after the first so many calls of a sale on file.
fn rows_after(name: &str, count: usize) -> Vec<Vec<usize>> {
    let folder = Path::new(env!("CARGO_MANIFEST_DIR")).join("../sales");
    let file = std::fs::read(folder.join(name).with_extension("sale"));
    let sale = parse(&file.expect("the sale is on file")).expect("the sale is accepted");
    run_calls(&sale.catalogue, &sale.calls[..count])
        .tables
        .index
}

#[test]
fn rows_with_ties() {
    let rows = |count| rows_after("choice-ties-lowest-lot-then-session", count);
    // The gains are 5 where a buyer's other lots are, 0 elsewhere and for lot 7.
    let draft = [
        [2, 4, 3, 0],
        [1, 2, 3, 0],
        [1, 4, 3, 0],
        [1, 4, 2, 0],
        [3, 4, 2, 0],
        [1, 3, 2, 0],
        [1, 3, 4, 0],
    ];
    assert_eq!(rows(0), draft);
    // Lots 4, 5 and 6 are together, so each loses 5 wherever it goes.
    let [one, two, three, .., seven] = draft;
    let apart = [1, 2, 4, 0];
    assert_eq!(rows(1), [one, two, three, apart, apart, apart, seven]);
    let out_of_2 = [1, 3, 4, 0];
    let all_but_7 = [out_of_2, out_of_2, out_of_2, apart, apart, apart];
    assert_eq!(rows(2)[..6], all_but_7);
    assert_eq!(rows(2)[6], [1, 3, 4, 0]);
    assert_eq!(rows(3)[..6], all_but_7);
    assert_eq!(rows(3)[6], [2, 3, 4, 0]);
}

#[test]
fn rows_whose_first_sessions_have_no_space() {
    // The cap moves no entry: a session without space stands where its gain puts it.
    let draft = [
        [2, 3, 4, 5, 0],
        [2, 3, 4, 5, 0],
        [1, 3, 4, 5, 0],
        [1, 2, 4, 5, 0],
        [1, 2, 3, 5, 0],
        [1, 2, 3, 4, 0],
    ];
    // Gains 6, 4, -3, -3; 3 and -5; 9, 8, 0, 0; 2 and -5; -3; 0.
    let end = [
        [2, 3, 1, 5, 0],
        [2, 1, 4, 5, 0],
        [4, 3, 1, 5, 0],
        [4, 1, 2, 5, 0],
        [1, 2, 3, 5, 0],
        [1, 2, 3, 4, 0],
    ];
    assert_eq!(rows_after("p-best-pairs-closed-by-caps", 0), draft);
    assert_eq!(rows_after("p-best-pairs-closed-by-caps", 1), end);
    // The walk's last two moves are reversed, and so are their traces in the rows.
    assert_eq!(rows_after("walk-best-pairs-closed-by-caps", 1), end);
    assert_eq!(rows_after("walk-best-pairs-closed-by-caps", 2), end);
}

#[test]
fn rows_of_sixteen() {
    let rows = |count| rows_after("walk-and-p-deep-in-row-of-sixteen", count);
    let draft = [7, 15, 4, 10, 13, 3, 9, 2, 12, 16, 5, 6, 11, 8, 14, 0];
    // All gains are 3 less, save that of session 1, which is -3.
    let moved = [7, 15, 4, 10, 13, 3, 9, 2, 12, 16, 5, 11, 8, 14, 1, 0];
    assert_eq!(rows(0)[0], draft);
    assert_eq!(rows(1)[0], moved);
    assert_eq!(rows(2)[0], draft);
    assert_eq!(rows(3)[0], moved);
    // Lot 2 wins 7 where lot 1 is, and nothing elsewhere.
    let with_1_first = [1, 3, 4, 5, 6, 7, 8, 9, 10, 11, 12, 13, 14, 15, 16, 0];
    let with_6_first = [6, 1, 3, 4, 5, 7, 8, 9, 10, 11, 12, 13, 14, 15, 16, 0];
    assert_eq!(rows(0)[1], with_1_first);
    assert_eq!(rows(1)[1], with_6_first);
    assert_eq!(rows(2)[1], with_1_first);
    // Lot 6 loses 3 by leaving lot 1, and lot 17 has no buyer.
    let out_of_6 = [1, 2, 3, 4, 5, 7, 8, 9, 10, 11, 12, 13, 14, 15, 16, 0];
    let out_of_1 = [2, 3, 4, 5, 6, 7, 8, 9, 10, 11, 12, 13, 14, 15, 16, 0];
    assert_eq!(rows(3)[5], out_of_6);
    assert_eq!(rows(3)[16], out_of_1);
    let of_eight = rows_after("walk-deep-in-row-of-eight", 0);
    assert_eq!(of_eight[0], [5, 8, 3, 6, 2, 4, 7, 0]);
}

#[test]
fn rows_after_each_kind_of_call() {
    let rows = |count| rows_after("choice-after-join-move-back-and-split", count);
    let first_two = |count| rows(count)[..2].to_vec();
    assert_eq!(first_two(0), [[2, 3, 4, 0], [3, 4, 2, 0]]);
    let joined = [[3, 4, 2, 0], [0, 0, 0, 0]];
    assert_eq!(first_two(1), joined, "J");
    assert_eq!(first_two(2), [[3, 4, 1, 0], [0, 0, 0, 0]], "M");
    assert_eq!(first_two(3), joined, "B");
    assert_eq!(first_two(4), [[4, 2, 1, 0], [0, 0, 0, 0]], "W");
    assert_eq!(first_two(5), [[2, 1, 4, 0], [4, 1, 2, 0]], "S");
    // Kept lots stand in the index as others do: lot 5 wins 4 in session 3.
    let end = [
        [3, 1, 4, 0],
        [4, 1, 2, 0],
        [1, 3, 4, 0],
        [2, 1, 4, 0],
        [3, 1, 2, 0],
    ];
    assert_eq!(rows(6), end, "P");
}
