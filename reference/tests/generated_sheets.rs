//! Sheets of generated sales and halls keep what M-113 says: every mark of a lot still in the sale once
//! and no other, by session and then lot, as many sessions as the report has visited.
//! Rests on the file, on the report's lines and on the printed ones; no machine is asked.

use std::collections::{BTreeMap, BTreeSet};

use reference::catalogue::Catalogue;
use reference::generator::{damaged, sale};
use reference::hall_generator::{damaged_hall, hall_file, hall_of_kind, HallKind};
use reference::{hall, parse, parse_hall, run, sheets, Call};

/// A catalogue's closing report: the session of each lot, and how many sessions each buyer visits.
#[derive(Default)]
struct Closing {
    sessions: BTreeMap<usize, usize>,
    visited: Vec<usize>,
}

fn numbers(line: &str) -> Vec<usize> {
    let fields = line.split(',').skip(1);
    fields
        .map(|field| field.parse().expect("a number"))
        .collect()
}

/// The closing reports of all catalogues, in turn.
fn closings<'a>(lines: impl Iterator<Item = &'a str>) -> Vec<Closing> {
    let mut found: Vec<Closing> = Vec::new();
    for line in lines {
        let values = numbers(line);
        match line.split(',').next() {
            Some("TOTAL") => found.push(Closing::default()),
            Some("LOT") => {
                let last = found.last_mut().expect("TOTAL comes first");
                last.sessions.insert(values[0], values[1]);
            }
            Some("BUY") => {
                let last = found.last_mut().expect("TOTAL comes first");
                last.visited.push(values[1]);
                assert_eq!(values[0], last.visited.len());
            }
            _ => panic!("{line}"),
        }
    }
    found
}

/// The marks that each buyer has at the end: those of loading, less the lots withdrawn by accepted X,
/// plus those added by accepted N, under the number that the answer has.
fn marks_left(catalogue: &Catalogue, answered: &[(Call, String)]) -> Vec<BTreeSet<usize>> {
    let mut marks: Vec<BTreeSet<usize>> = catalogue
        .buyers
        .iter()
        .map(|buyer| buyer.marks.iter().copied().collect())
        .collect();
    for (call, answer) in answered {
        match call {
            Call::X { lot } if answer.starts_with("X,") => {
                for set in &mut marks {
                    set.remove(&(*lot as usize));
                }
            }
            Call::N { buyers, .. } if answer.starts_with("N,") => {
                let lot = numbers(answer)[0];
                for &buyer in buyers {
                    marks[buyer as usize - 1].insert(lot);
                }
            }
            _ => {}
        }
    }
    marks
}

/// The sheets that a catalogue's marks and closing report ask for.
fn wanted(lead: &str, marks: &[BTreeSet<usize>], closing: &Closing) -> String {
    let mut text = String::new();
    assert_eq!(marks.len(), closing.visited.len());
    for (place, set) in marks.iter().enumerate() {
        let visited = closing.visited[place];
        text += &format!("{lead}SHEET,{},{visited}\n", place + 1);
        let places: BTreeSet<(usize, usize)> = set
            .iter()
            .map(|lot| (closing.sessions[lot], *lot))
            .collect();
        assert_eq!(places.len(), set.len());
        let sessions: BTreeSet<usize> = places.iter().map(|&(session, _)| session).collect();
        assert_eq!(sessions.len(), visited);
        for (session, lot) in places {
            text += &format!("{lead}AT,{session},{lot}\n");
        }
    }
    text
}

fn check_sale(file: &[u8]) {
    let read = parse(file).expect("accepted");
    let report = String::from_utf8(run(file).report).expect("plain text");
    let mut lines = report.lines();
    let answers = lines.by_ref().take(read.calls.len()).map(str::to_owned);
    let answered: Vec<(Call, String)> = read.calls.iter().cloned().zip(answers).collect();
    let closing = closings(lines);
    let marks = marks_left(&read.catalogue, &answered);
    let printed = sheets(file);
    assert_eq!(printed.code, 0);
    assert!(printed.report.len() <= 122_880);
    assert_eq!(
        String::from_utf8(printed.report).expect("plain text"),
        wanted("", &marks, &closing[0])
    );
}

fn check_hall(file: &[u8]) {
    let read = parse_hall(file).expect("accepted");
    let report = String::from_utf8(hall(file).report).expect("plain text");
    let mut lines = report.lines();
    let mut answered = vec![Vec::new(); read.catalogues.len()];
    for led in &read.calls {
        let answer = lines.next().expect("an answer for each call");
        let (lead, answer) = answer.split_once(',').expect("a led answer");
        assert_eq!(lead, led.catalogue.to_string());
        answered[led.catalogue - 1].push((led.call.clone(), answer.to_owned()));
    }
    let closing = closings(lines);
    assert_eq!(closing.len(), read.catalogues.len());
    let mut text = String::new();
    for (place, catalogue) in read.catalogues.iter().enumerate() {
        let marks = marks_left(catalogue, &answered[place]);
        text += &wanted(&format!("{},", place + 1), &marks, &closing[place]);
    }
    let printed = sheets(file);
    assert_eq!(printed.code, 0);
    assert!(printed.report.len() <= 122_880);
    assert_eq!(String::from_utf8(printed.report).expect("plain text"), text);
}

#[test]
fn sheets_of_generated_sales() {
    for seed in 0..500 {
        check_sale(&sale(seed));
    }
}

#[test]
fn sheets_of_generated_halls() {
    for seed in 0..300 {
        check_hall(&hall_file(seed));
    }
    for seed in 0..4 {
        check_hall(&hall_of_kind(seed, HallKind::Full));
    }
}

#[test]
fn a_file_turned_down_prints_the_engines_line_and_gives_its_number() {
    let mut turned_down = 0;
    for seed in 0..1_000 {
        let file = damaged(seed);
        // A damaged first line may begin with `HALL`: it is no hall's and no sale's either.
        let outcome = run(&file);
        if outcome.code == 0 {
            check_sale(&file);
        } else {
            assert_eq!(sheets(&file), outcome, "{seed}");
            turned_down += 1;
        }
        let file = damaged_hall(seed);
        let outcome = hall(&file);
        if outcome.code == 0 {
            check_hall(&file);
        } else if file.starts_with(b"HALL") {
            assert_eq!(sheets(&file), outcome, "{seed}");
            turned_down += 1;
        }
    }
    assert!(turned_down > 1_000, "{turned_down}");
}
