//! Generated halls keep what M-112 says of every list of calls: no session over a cap or the limit, a
//! catalogue's calls alter and ask for no more than they may, A leaves no better move.
//! Rests on the hall's generator and on the machine, asked after every call.

use std::collections::{BTreeMap, BTreeSet};

use reference::catalogue::{Buyer, Lot};
use reference::hall_generator::{
    damaged_hall, hall_file, hall_of_kind, write_hall, HallKind, HALL_KINDS,
};
use reference::measure::{cap, View};
use reference::report::{answer_line, closing_lines};
use reference::{
    hall, hall_tables_after, parse_hall, run_calls, Answer, Beside, Call, Catalogue, Hall,
    HallMachine, LedCall, Machine,
};

#[test]
fn one_seed_gives_one_file() {
    for seed in 0..60 {
        assert_eq!(hall_file(seed), hall_file(seed));
        assert_eq!(damaged_hall(seed), damaged_hall(seed));
    }
    let different: BTreeSet<Vec<u8>> = (0..60).map(hall_file).collect();
    assert!(different.len() > 55);
}

#[test]
fn every_kind_is_accepted_and_written_as_read() {
    for (name, kind) in HALL_KINDS {
        let seeds = if kind == HallKind::Large { 2 } else { 20 };
        for seed in 0..seeds {
            let file = hall_of_kind(seed, kind);
            let read = parse_hall(&file).expect("a generated hall is accepted");
            assert_eq!(write_hall(&read), file, "{name} {seed}");
        }
    }
}

/// The others' part of a hall in another shape: one catalogue of sixteen sessions with as many lots,
/// bales in each session and marks, but other lots, other buyers and no joins.
fn stand_in(beside: &Beside, others: &[&Machine]) -> Catalogue {
    let mut lots = Vec::new();
    for session in 1..=16 {
        let here = others.iter().map(|other| {
            let standing = other.standing();
            let lots = other.catalogue.lots_in_sale();
            lots.filter(|&lot| other.sessions[standing.stand(lot)] == session)
                .count()
        });
        let (count, bales) = (here.sum::<usize>() as u64, beside.bales_in(session));
        for place in 0..count {
            // All bales but one for each of the others are the first lot's.
            let own = if place == 0 { bales - (count - 1) } else { 1 };
            lots.push(Lot::free(own, session));
        }
    }
    let mut buyers = Vec::new();
    let mut left = beside.marks;
    while left > 0 {
        let count = left.min(lots.len());
        left -= count;
        buyers.push(Buyer {
            weight: 1,
            marks: (1..=count).collect(),
        });
    }
    Catalogue {
        estimated: false,
        sessions: 16,
        slack: 1_000,
        lots,
        buyers,
    }
}

/// The call on a hall of two in which all other catalogues are one of another shape: the answer and
/// the state of the catalogue are the same.
fn check_dependence(before: &HallMachine, led: &LedCall, answer: &Answered, after: &Machine) {
    let beside = before.beside(led.catalogue);
    let numbered = before.machines.iter().enumerate();
    let others: Vec<&Machine> = numbered
        .filter_map(|(place, other)| (place + 1 != led.catalogue).then_some(other))
        .collect();
    let others = stand_in(&beside, &others);
    let own = before.machines[led.catalogue - 1].clone();
    let mut hall = HallMachine {
        limit: before.limit,
        machines: vec![Machine::fresh(&others), own],
    };
    assert_eq!(hall.beside(2), beside);
    let found = hall.call(&LedCall {
        catalogue: 2,
        call: led.call.clone(),
    });
    assert_eq!(found, *answer);
    assert_eq!(hall.machines[1], *after);
}

type Answered = Result<Answer, u32>;

/// No session is above its catalogue's cap, none above the limit over the hall.
fn check_bales(hall: &HallMachine) {
    for machine in &hall.machines {
        let most = cap(machine.loaded);
        assert!(machine.session_bales().iter().all(|&bales| bales <= most));
    }
    assert!(hall
        .session_bales()
        .iter()
        .all(|&bales| bales <= hall.limit));
}

/// No single move of a lot not kept, with space under both limits, lowers the total.
fn check_no_better_move(machine: &Machine, beside: &Beside) {
    let standing = machine.standing();
    let view = View::of(&standing, &machine.sessions);
    for lot in standing.board() {
        if standing.kept(lot) {
            continue;
        }
        for session in machine.catalogue.session_numbers() {
            let bales = view.session_bales(session) + standing.bales(lot);
            let limit = beside.limit.expect("a hall has a limit");
            let space = bales <= cap(machine.loaded) && beside.bales_in(session) + bales <= limit;
            if session == machine.sessions[lot] || !space {
                continue;
            }
            let mut sessions = machine.sessions.clone();
            sessions[lot] = session;
            let moved = View::of(&standing, &sessions).total();
            assert!(moved >= view.total());
        }
    }
}

/// What refused or shaped the calls of a list.
#[derive(Default)]
struct Seen {
    refused: BTreeMap<(char, u32), usize>,
    /// Calls of W, P and A that answer otherwise without the limit.
    shaped: BTreeMap<char, usize>,
    /// B accepted after a B of the same catalogue that was 25, with no other accepted call of it between.
    returned: usize,
}

fn letter(call: &Call) -> char {
    match call {
        Call::J { .. } => 'J',
        Call::S => 'S',
        Call::M { .. } => 'M',
        Call::B => 'B',
        Call::W { .. } => 'W',
        Call::P => 'P',
        Call::A => 'A',
        Call::X { .. } => 'X',
        Call::N { .. } => 'N',
    }
}

/// Runs a hall's calls and checks every statement after each of them.
fn check_hall(file: &Hall, seen: &mut Seen) {
    let mut hall = HallMachine::fresh(&file.catalogues, file.limit);
    let mut barred = vec![false; file.catalogues.len()];
    check_bales(&hall);
    for led in &file.calls {
        let before = hall.clone();
        let own = led.catalogue - 1;
        let answer = hall.call(led);
        check_bales(&hall);
        for (place, machine) in hall.machines.iter().enumerate() {
            assert!(place == own || *machine == before.machines[place]);
        }
        check_dependence(&before, led, &answer, &hall.machines[own]);
        let name = letter(&led.call);
        if let Err(number) = answer {
            assert!(hall == before, "a refused call changed something");
            *seen.refused.entry((name, number)).or_default() += 1;
            barred[own] |= (name, number) == ('B', 25);
            continue;
        }
        if name == 'B' && std::mem::take(&mut barred[own]) {
            seen.returned += 1;
        }
        barred[own] = false;
        if name == 'A' {
            check_no_better_move(&hall.machines[own], &before.beside(led.catalogue));
        }
        if "WPA".contains(name) {
            let mut alone = before.machines[own].clone();
            let unlimited = alone.call(&led.call);
            let other = unlimited != answer || alone != hall.machines[own];
            *seen.shaped.entry(name).or_default() += usize::from(other);
        }
    }
}

#[test]
fn generated_halls_keep_every_statement() {
    let mut seen = Seen::default();
    for seed in 0..500 {
        let file = parse_hall(&hall_file(seed)).expect("a generated hall is accepted");
        check_hall(&file, &mut seen);
    }
    for (call, number) in [
        ('M', 14),
        ('M', 20),
        ('M', 25),
        ('N', 14),
        ('N', 22),
        ('N', 25),
        ('B', 15),
        ('B', 25),
        ('X', 10),
        ('A', 16),
    ] {
        let count = seen.refused.get(&(call, number)).copied().unwrap_or(0);
        assert!(count > 10, "{call} was {number} only {count} times");
    }
    for call in ['W', 'P', 'A'] {
        assert!(seen.shaped[&call] > 20, "{call}: {}", seen.shaped[&call]);
    }
    assert!(seen.returned > 20, "{}", seen.returned);
}

#[test]
fn halls_with_full_tables_keep_every_statement() {
    let mut seen = Seen::default();
    for seed in 0..12 {
        let file = hall_of_kind(seed, HallKind::Full);
        check_hall(&parse_hall(&file).expect("accepted"), &mut seen);
    }
    let count = seen.refused.get(&('N', 23)).copied().unwrap_or(0);
    assert!(count > 5, "N was 23 only {count} times");
}

#[test]
fn under_a_limit_that_bars_nothing_each_catalogue_runs_as_alone() {
    for seed in 0..80 {
        let file = parse_hall(&hall_of_kind(seed, HallKind::HighLimit)).expect("accepted");
        let mut hall = HallMachine::fresh(&file.catalogues, file.limit);
        let mut answers = vec![String::new(); file.catalogues.len()];
        for led in &file.calls {
            answers[led.catalogue - 1] += &answer_line(&hall.call(led));
        }
        for (place, catalogue) in file.catalogues.iter().enumerate() {
            let calls: Vec<Call> = file
                .calls
                .iter()
                .filter(|led| led.catalogue == place + 1)
                .map(|led| led.call.clone())
                .collect();
            let alone = run_calls(catalogue, &calls).report;
            let machine = &hall.machines[place];
            let wanted = answers[place].clone() + &closing_lines(machine);
            assert_eq!(alone, wanted.into_bytes(), "{seed}");
        }
    }
}

#[test]
fn damaged_halls_are_refused_on_a_line_there_is_or_the_next() {
    let mut numbers: BTreeMap<u32, usize> = BTreeMap::new();
    for seed in 0..3_000 {
        let file = damaged_hall(seed);
        let lines = file.split_inclusive(|&byte| byte == b'\n').count();
        let read = parse_hall(&file);
        let number = read.as_ref().map_or_else(|refusal| refusal.number, |_| 0);
        *numbers.entry(number).or_default() += 1;
        if let Err(refusal) = read {
            let known = (1..=7).chain([21, 24]).any(|known| known == number);
            assert!(known, "{seed}");
            assert_eq!(refusal.line == 0, number == 1, "{seed}");
            assert!(refusal.line <= lines + 1, "{seed}");
            let line = format!("NO,{number},{}\n", refusal.line).into_bytes();
            let outcome = hall(&file);
            assert_eq!((outcome.code, outcome.report), (number, line), "{seed}");
            assert_eq!(hall_tables_after(&file), None, "{seed}");
        }
    }
    for number in [0, 1, 2, 3, 4, 5, 6, 7, 21, 24] {
        let count = numbers.get(&number).copied().unwrap_or(0);
        assert!(count > 5, "{number} only {count} times");
    }
}

#[test]
fn tables_of_each_catalogue_are_those_of_its_own_state() {
    for seed in 0..60 {
        let file = hall_file(seed);
        let read = parse_hall(&file).expect("accepted");
        let tables = hall_tables_after(&file).expect("accepted");
        assert_eq!(tables.len(), read.catalogues.len());
        for (tables, catalogue) in tables.iter().zip(&read.catalogues) {
            assert!(tables.lots.len() >= catalogue.lots.len());
            assert_eq!(tables.buyers.len(), catalogue.buyers.len());
            assert!(tables
                .gains
                .iter()
                .all(|row| row.len() == catalogue.sessions));
        }
        let lots = tables.iter().map(|tables| {
            let lots = tables.lots.iter();
            lots.filter(|lot| lot.bales > 0).count()
        });
        assert!(lots.sum::<usize>() <= 1_024, "{seed}");
        let marks = tables.iter().map(|tables| tables.loaded_marks.len());
        assert!(marks.sum::<usize>() <= 8_192, "{seed}");
    }
}
