//! The converter: every input on file gives its output, what it writes loads as the input defines,
//! and generated and damaged inputs give every refusal.
//! Rests on the pairs `hgr/NAME.hgr` and `hgr/NAME.out` beside this package and on the generator.

use std::collections::{BTreeMap, BTreeSet};
use std::fs;
use std::path::{Path, PathBuf};

use reference::converter::{convert, read, Input};
use reference::hgr_generator::{damaged_hgr, hgr};
use reference::{parse, Machine};

fn folder() -> PathBuf {
    Path::new(env!("CARGO_MANIFEST_DIR")).join("../hgr")
}

/// The paths of all inputs on file, by name.
fn inputs() -> Vec<PathBuf> {
    let mut paths: Vec<PathBuf> = fs::read_dir(folder())
        .expect("the folder of inputs is there")
        .map(|item| item.expect("the folder can be read").path())
        .filter(|path| path.extension().is_some_and(|ending| ending == "hgr"))
        .collect();
    paths.sort();
    paths
}

/// The number that an output stands for: `NO,number` alone is a refused input.
fn code_of(output: &[u8]) -> u32 {
    let text = std::str::from_utf8(output).expect("an output is plain text");
    let number = text
        .strip_prefix("NO,")
        .and_then(|rest| rest.strip_suffix('\n'));
    number.map_or(0, |number| number.parse().expect("a refusal has a number"))
}

/// The connectivity measure of the input's own partition: over edges, the weight times the number
/// of blocks that the edge's vertices lie in, less one.
fn total_of(input: &Input) -> u64 {
    let mut total = 0;
    for edge in &input.edges {
        let blocks: BTreeSet<u64> = edge.vertices.iter().map(|&v| input.block(v)).collect();
        total += edge.weight * (blocks.len() as u64 - 1);
    }
    total
}

/// What was written loads, as a catalogue without calls, and says what the input says.
fn check_loads(input: &[u8], output: &[u8]) {
    let input = read(input).expect("a converted input is well written");
    let sale = parse(output).expect("what the converter writes loads");
    let catalogue = &sale.catalogue;
    assert!(sale.calls.is_empty());
    assert_eq!(catalogue.sessions as u64, input.sessions);
    assert_eq!(catalogue.slack, input.slack);
    assert_eq!(catalogue.lots.len() as u64, input.vertices);
    for (vertex, lot) in (1..).zip(&catalogue.lots) {
        assert_eq!(lot.bales, input.vertex_weight(vertex));
        assert_eq!(lot.session as u64, input.block(vertex) + 1);
    }
    assert_eq!(catalogue.buyers.len(), input.edges.len());
    for (buyer, edge) in catalogue.buyers.iter().zip(&input.edges) {
        assert_eq!(buyer.weight, edge.weight);
        let marks: Vec<u64> = buyer.marks.iter().map(|&mark| mark as u64).collect();
        assert_eq!(marks, edge.vertices);
    }
    assert_eq!(Machine::fresh(catalogue).total(), total_of(&input));
}

#[test]
fn every_input_on_file_gives_its_output_and_code() {
    let paths = inputs();
    assert!(paths.len() >= 90, "only {} inputs found", paths.len());
    let mut different = Vec::new();
    let mut codes = BTreeSet::new();
    for path in &paths {
        let input = fs::read(path).expect("an input can be read");
        let output = fs::read(path.with_extension("out")).expect("every input has an output");
        let outcome = convert(&input);
        if outcome.report != output || outcome.code != code_of(&output) {
            different.push(path.file_stem().expect("an input has a name").to_owned());
            continue;
        }
        if outcome.code == 0 {
            check_loads(&input, &output);
        }
        codes.insert(outcome.code);
    }
    assert!(different.is_empty(), "other outputs: {different:?}");
    assert_eq!(codes, BTreeSet::from([0, 17, 18, 19]));
}

#[test]
fn every_input_is_listed_and_every_output_has_one() {
    let readme = fs::read_to_string(folder().join("README.md")).expect("the folder has a list");
    for path in inputs() {
        let name = path.file_stem().expect("a name").to_string_lossy();
        assert!(
            readme.contains(&format!("| `{name}` |")),
            "{name} is not listed"
        );
    }
    for item in fs::read_dir(folder()).expect("the folder of inputs is there") {
        let path = item.expect("the folder can be read").path();
        if path.extension().is_some_and(|ending| ending == "out") {
            assert!(path.with_extension("hgr").exists(), "{}", path.display());
        }
    }
}

#[test]
fn the_worked_sale_as_an_hmetis_file_is_its_catalogue() {
    let input = fs::read(folder().join("worked-sale.hgr")).expect("the worked sale is there");
    let sale = fs::read(folder().join("../sales/worked-sale.sale")).expect("so is its file");
    let outcome = convert(&input);
    assert_eq!(outcome.code, 0);
    assert!(sale.starts_with(&outcome.report));
    assert!(sale[outcome.report.len()..].starts_with(b"J,2,5\n"));
}

#[test]
fn limits_are_reached_on_file() {
    let length = |name: &str, ending: &str| {
        let path = folder().join(name).with_extension(ending);
        fs::read(path).expect("the limit is on file").len()
    };
    assert_eq!(length("limit-60000-bytes-in", "hgr"), 60_000);
    assert_eq!(length("limit-60000-bytes-out", "out"), 60_000);
    assert_eq!(length("refused-18-60001-bytes-in", "hgr"), 60_001);
    assert!(length("refused-18-60001-bytes-out", "hgr") <= 60_000);
}

/// Converts so many inputs and counts the refusals.
fn counted(count: u64, make: impl Fn(u64) -> Vec<u8>) -> BTreeMap<u32, u64> {
    let mut codes = BTreeMap::new();
    for seed in 0..count {
        let input = make(seed);
        assert_eq!(input, make(seed), "one seed gives one input");
        let outcome = convert(&input);
        if outcome.code == 0 {
            check_loads(&input, &outcome.report);
        } else {
            assert_eq!(outcome.report, format!("NO,{}\n", outcome.code).as_bytes());
        }
        *codes.entry(outcome.code).or_default() += 1;
    }
    codes
}

#[test]
fn generated_inputs_load_as_they_define() {
    let codes = counted(3_000, hgr);
    assert!(codes[&0] > 2_500, "{codes:?}");
    assert!(codes.keys().all(|code| [0, 18].contains(code)), "{codes:?}");
}

#[test]
fn damaged_inputs_give_every_refusal() {
    let codes = counted(3_000, damaged_hgr);
    for code in [0, 17, 18, 19] {
        assert!(
            codes.get(&code).is_some_and(|&count| count > 50),
            "{codes:?}"
        );
    }
}
