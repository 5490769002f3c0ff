//! The proved converter against the reference's: on the inputs on file, as a library and as the
//! program `converter`, on generated and damaged inputs, and on a short output; output past the
//! text keeps the random bytes that it held. The environment's SEED, a number, gives other inputs.

use kapokdrill::lent::{convert, Outcome, OUTPUT};
use reference::converter;
use reference::generator::Random;
use reference::hgr_generator::{damaged_hgr, hgr};
use std::fs::File;
use std::path::{Path, PathBuf};
use std::process::Command;

fn seed() -> u64 {
    match std::env::var("SEED") {
        Ok(text) => text.parse().expect("SEED is a number"),
        Err(_) => 0,
    }
}

/// The inputs of the folder `hgr`.
fn inputs_on_file() -> Vec<PathBuf> {
    let folder = Path::new(env!("CARGO_MANIFEST_DIR")).join("../hgr");
    let entries = std::fs::read_dir(folder).expect("the folder hgr");
    entries
        .map(|entry| entry.expect("an entry").path())
        .filter(|path| path.extension().is_some_and(|ending| ending == "hgr"))
        .collect()
}

/// Converts an input on an output of random bytes and compares all with the reference.
fn agree(input: &[u8], random: &mut Random) -> u32 {
    let length = OUTPUT + random.between(0, 3) as usize;
    let before: Vec<u8> = (0..length).map(|_| random.bits() as u8).collect();
    let mut found = before.clone();
    let outcome = convert(input, &mut found);
    let wanted = converter::convert(input);
    let written = wanted.report.len();
    let code = wanted.code;
    assert_eq!(outcome, Outcome { code, written });
    assert!(found[..written] == wanted.report[..], "the text differs");
    assert!(found[written..] == before[written..], "past the text");
    code
}

#[test]
fn inputs_on_file_agree() {
    let inputs = inputs_on_file();
    assert!(inputs.len() >= 100);
    let mut random = Random::new(seed());
    for path in inputs {
        let input = std::fs::read(&path).expect("an input");
        println!("{}", path.display());
        agree(&input, &mut random);
    }
}

#[test]
fn the_program_prints_the_outputs_on_file() {
    let program = concat!(env!("CARGO_MANIFEST_DIR"), "/../target/bin/converter");
    for path in inputs_on_file() {
        let input = File::open(&path).expect("an input");
        let end = Command::new(program).stdin(input).output();
        let end = end.expect("the program runs");
        let output = std::fs::read(path.with_extension("out")).expect("its output");
        assert!(end.stdout == output, "{}", path.display());
    }
}

#[test]
fn generated_and_damaged_inputs_agree() {
    let mut codes = [0; 20];
    let first = seed() * 1_000_000;
    for seed in first..first + 5_000 {
        for input in [hgr(seed), damaged_hgr(seed)] {
            println!("seed {seed}");
            codes[agree(&input, &mut Random::new(seed)) as usize] += 1;
        }
    }
    for code in [0, 17, 18, 19] {
        assert!(codes[code] > 0, "no input gave {code}");
    }
}

#[test]
fn a_short_output_is_told_first_and_not_touched() {
    for input in [&b""[..], &[b'\n'; 60_001], &hgr(seed())] {
        for length in [OUTPUT - 1, 0] {
            let mut output = vec![7; length];
            let outcome = convert(input, &mut output);
            assert_eq!((outcome.code, outcome.written), (8, 0));
            assert!(output.iter().all(|&byte| byte == 7));
        }
    }
}
