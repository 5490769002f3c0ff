//! The tuned splitter gives the reference's report: on the sales on file, on generated and on
//! damaged ones. With its index it gives the same, and each call leaves the index right. The
//! workloads are sales that the reference accepts; that of a hall gives the answers of its sales.

use std::path::Path;

use bench::plot::{picture, Bar, Over, Part};
use bench::tuned::Splitter;
use bench::workloads::{hall, largest, workloads};
use reference::generator::{damaged, sale, sale_of_kind, write_sale, Kind};
use reference::{parse, parse_hall, Outcome, Sale};

#[test]
fn sales_on_file_give_their_reports() {
    let folder = Path::new(env!("CARGO_MANIFEST_DIR")).join("../sales");
    let mut splitter = Splitter::default();
    let mut sales = 0;
    for entry in std::fs::read_dir(folder).expect("the folder of sales is there") {
        let path = entry.expect("the folder can be read").path();
        if path.extension().is_some_and(|ending| ending == "sale") {
            let file = std::fs::read(&path).expect("a sale can be read");
            let report = path.with_extension("report");
            let report = std::fs::read(report).expect("every sale has a report");
            assert!(splitter.run(&file).1 == report, "{}", path.display());
            sales += 1;
        }
    }
    assert!(sales >= 150);
}

#[test]
fn generated_sales_give_the_references_reports() {
    let mut splitter = Splitter::default();
    for seed in 500_000..503_000 {
        for file in [sale(seed), damaged(seed)] {
            let wanted = reference::run(&file);
            let found = splitter.run(&file);
            assert!(found == (wanted.code, &wanted.report[..]), "seed {seed}");
            let wanted = reference::run_fine(&file);
            let found = splitter.run_fine(&file);
            assert!(found == (wanted.code, &wanted.report[..]), "seed {seed}");
        }
    }
}

/// Whether a splitter with an index has the reference's index after a sale, if that is accepted.
fn index_is_right(splitter: &mut Splitter, file: &[u8]) -> bool {
    match reference::tables_after(file) {
        None => true,
        Some(tables) => {
            splitter.run(file);
            splitter.index() == Some(tables.index)
        }
    }
}

#[test]
fn with_an_index_the_reports_are_the_same() {
    let (mut plain, mut indexed) = (Splitter::default(), Splitter::with_index());
    let withdrawn = (0..1_000).map(|seed| sale_of_kind(seed, Kind::Withdrawn));
    for file in (600_000..603_000).map(sale).chain(withdrawn) {
        assert!(plain.run(&file) == indexed.run(&file));
        assert!(plain.run_fine(&file) == indexed.run_fine(&file));
    }
    assert!(plain.index().is_none());
}

#[test]
fn every_call_leaves_the_index_right() {
    let mut splitter = Splitter::with_index();
    let withdrawn = (0..100).map(|seed| sale_of_kind(seed, Kind::Withdrawn));
    for file in (600_000..600_300).map(sale).chain(withdrawn) {
        let Ok(sale) = parse(&file) else {
            continue;
        };
        // after each call, by the file with the calls up to it
        for count in 0..=sale.calls.len() {
            let part = Sale {
                catalogue: sale.catalogue.clone(),
                calls: sale.calls[..count].to_vec(),
            };
            assert!(index_is_right(&mut splitter, &write_sale(&part)));
        }
    }
}

#[test]
fn workloads_are_accepted() {
    for workload in workloads().into_iter().chain(largest()) {
        assert!(parse(&workload.file).is_ok(), "{}", workload.name);
    }
}

#[test]
fn the_hall_has_four_full_catalogues_and_the_work_of_its_sales() {
    let workload = hall();
    let read = parse_hall(&workload.hall).expect("the hall is accepted");
    let catalogues = &read.catalogues;
    assert!(catalogues.len() == 4 && catalogues.iter().all(|one| one.lots.len() == 256));
    let marks = catalogues.iter().map(|one| one.mark_count());
    assert_eq!(marks.sum::<usize>(), 8_192);

    let report = reference::hall(&workload.hall).report;
    let report = String::from_utf8(report).expect("text");
    let mut led = String::new();
    let mut closing = String::new();
    for (number, sale) in (1..).zip(&workload.sales) {
        let report = String::from_utf8(reference::run(sale).report).expect("text");
        let (answer, rest) = report.split_once('\n').expect("an answer");
        assert!(answer.starts_with("A,"));
        led += &format!("{number},{answer}\n");
        closing += rest;
    }
    assert_eq!(report, led + &closing);
}

#[test]
fn every_bar_stands_under_its_heading_with_its_own_limit() {
    let part = |title, bars: &[(&str, f64, Over)]| Part {
        title,
        bars: bars
            .iter()
            .map(|&(name, ratio, over)| Bar {
                name: name.to_string(),
                ratio,
                over,
            })
            .collect(),
    };
    let svg = picture(&[
        part("first", &[("one", 0.5, Over::Tuned)]),
        part(
            "second",
            &[("hall", 1.1, Over::Sales), ("far", 70.0, Over::Tuned)],
        ),
    ]);
    // the ground and a bar each, and a limit each
    assert_eq!(svg.matches("<rect").count(), 4);
    assert_eq!(svg.matches("<line").count(), 3);
    let places = ["first", "one", "second", "hall", "far"].map(|name| {
        let place = svg.find(&format!(">{name}<"));
        place.unwrap_or_else(|| panic!("{name}"))
    });
    assert!(places.is_sorted());
    for words in [">0.50<", ">1.10<", ">70.00<", ">1/2<", ">128<"] {
        assert!(svg.contains(words), "{words}");
    }
    // powers of two from 1/2 to 128 over 400 units of width, 1 an eighth of the way
    assert!(svg.contains("<rect x=\"430.0\" y=\"154\" width=\"50.0\""));
}

#[test]
fn withdrawn_and_late_lots_give_the_references_reports() {
    let mut splitter = Splitter::default();
    let mut agree = |file: &[u8], name: &str| {
        let same = |wanted: Outcome, found: (u32, &[u8])| found == (wanted.code, &wanted.report);
        assert!(same(reference::run(file), splitter.run(file)), "{name}");
        let fine = same(reference::run_fine(file), splitter.run_fine(file));
        assert!(fine, "{name}, superfine");
    };
    for seed in 0..1_500 {
        agree(
            &sale_of_kind(seed, Kind::Withdrawn),
            &format!("withdrawn {seed}"),
        );
    }
    for seed in 0..24 {
        agree(&sale_of_kind(seed, Kind::Full), &format!("full {seed}"));
    }
}

#[test]
fn workloads_of_calls_by_turns_have_none_refused() {
    let mut splitter = Splitter::default();
    let mut seen = 0;
    for workload in workloads() {
        let counts = match workload.name {
            "J and S by turns on 8 lists of 1,024" => [256, 256, 0, 0, 0, 0],
            "512 X and N by turns, 8,192 marks" => [0, 0, 256, 256, 0, 0],
            "X, N, M, W mixed, 8,192 marks" => [0, 0, 128, 128, 128, 128],
            "J and S by turns, 800 lots in clusters" => [256, 256, 0, 0, 0, 0],
            "512 W, 800 lots in clusters" => [0, 0, 0, 0, 0, 512],
            name if name.starts_with("512 M, ") => [0, 0, 0, 0, 512, 0],
            _ => continue,
        };
        let wanted = reference::run(&workload.file);
        for (letter, count) in b"JSXNMW".iter().zip(counts) {
            let lines = wanted.report.split(|&byte| byte == b'\n');
            let found = lines.filter(|line| line.starts_with(&[*letter, b',']));
            assert_eq!(found.count(), count, "{}", workload.name);
        }
        let found = splitter.run(&workload.file);
        assert!(
            found == (wanted.code, &wanted.report[..]),
            "{}",
            workload.name
        );
        seen += 1;
    }
    assert_eq!(seen, 9);
}
