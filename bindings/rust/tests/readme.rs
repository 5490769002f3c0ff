//! The README's commands run as they stand there. Those that the gate itself is made of, the proofs
//! and the archives, are not run again: the gate's own file must name them. Rests on the archives.

use std::fs;
use std::path::{Path, PathBuf};
use std::process::Command;

fn top() -> PathBuf {
    Path::new(env!("CARGO_MANIFEST_DIR")).join("../..")
}

/// The indented lines outside of the blocks.
fn commands() -> Vec<String> {
    let readme = fs::read_to_string(top().join("README.md")).expect("the README can be read");
    let mut inside = false;
    let mut found = Vec::new();
    for line in readme.lines() {
        if line.starts_with("```") {
            inside = !inside;
        } else if !inside && line.starts_with("    ") {
            found.push(line.trim().to_owned());
        }
    }
    found
}

/// What is left of a command without the proofs and archives before it, which the gate has made.
fn left(command: &str) -> Option<String> {
    let gate = fs::read_to_string(top().join(".ci/run")).expect("the gate can be read");
    let crates =
        fs::read_to_string(top().join("crates.txt")).expect("the list of crates can be read");
    let mut parts = Vec::new();
    for part in command.split(" && ") {
        if let Some(name) = part.strip_prefix("rt check ") {
            assert!(
                crates
                    .lines()
                    .any(|line| line.starts_with(&format!("{name}:"))),
                "{part}"
            );
        } else if part.starts_with("rt ") || part == "bash tools/archives" {
            assert!(gate.contains(part), "{part}");
        } else if part != "bash .ci/run" {
            parts.push(part);
        }
    }
    (!parts.is_empty()).then(|| parts.join(" && "))
}

#[test]
fn the_commands_run() {
    let mut ran = 0;
    for command in commands() {
        let Some(rest) = left(&command) else { continue };
        // the benchmark takes minutes; the picture on file is drawn to another place
        let rest = rest.replace(
            "> ../../docs/worked-sale.svg",
            "> ../../target/worked-sale.svg",
        );
        if rest.contains("bench") {
            assert!(top().join("bench/src/main.rs").exists());
            continue;
        }
        // cargo holds the package's build folder while it runs these tests
        let rest = rest.replace("cargo run", "cargo run --target-dir ../../target/readme");
        let output = Command::new("bash")
            .args(["-c", &rest])
            .current_dir(top())
            .output()
            .expect("bash runs");
        assert!(
            output.status.success(),
            "{rest}\n{}",
            String::from_utf8_lossy(&output.stderr)
        );
        ran += 1;
    }
    assert_eq!(ran, 5);
    let drawn = fs::read(top().join("target/worked-sale.svg")).expect("the picture is drawn");
    let on_file = fs::read(top().join("docs/worked-sale.svg")).expect("the picture is on file");
    assert_eq!(drawn, on_file);
}
