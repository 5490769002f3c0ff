//! What the documents name exists: every word in back-quotes that has the form of a name is a word of
//! the code, a crate, a sale or an input on file, a must-fail edit or a path. Rests on the documents
//! and on the files of the repository around this package.

use std::collections::BTreeSet;
use std::fs;
use std::path::{Path, PathBuf};

const DOCUMENTS: [&str; 5] = [
    "README.md",
    "docs/ARCHITECTURE.md",
    "docs/CONFORMANCE.md",
    "docs/FORMATS.md",
    "docs/PROMISES.md",
];

/// Words that stand for a form of name, as the legends of the documents give them.
const FORMS: [&str; 1] = ["crate/name"];

fn top() -> PathBuf {
    Path::new(env!("CARGO_MANIFEST_DIR")).join("..")
}

fn in_name(letter: char) -> bool {
    letter.is_alphanumeric() || matches!(letter, '_' | '-' | '\'' | '′')
}

/// Every file below a folder that is not made by a build.
fn files(folder: &Path, found: &mut Vec<PathBuf>) {
    for item in fs::read_dir(folder).expect("the folder can be read") {
        let path = item.expect("the folder can be read").path();
        let name = path.file_name().expect("a name").to_string_lossy();
        if path.is_dir() && name != "target" && name != ".git" {
            files(&path, found);
        } else if path.is_file() {
            found.push(path);
        }
    }
}

/// The words of the code, and the names of files and folders.
fn words() -> BTreeSet<String> {
    let mut paths = Vec::new();
    files(&top(), &mut paths);
    let mut words = BTreeSet::new();
    for path in paths {
        let inside = path.strip_prefix(top()).expect("it lies in the repository");
        for part in inside.iter() {
            words.insert(part.to_string_lossy().into_owned());
        }
        words.insert(
            path.file_stem()
                .expect("a name")
                .to_string_lossy()
                .into_owned(),
        );
        let ending = path.extension().unwrap_or_default().to_string_lossy();
        if matches!(&*ending, "rt" | "antt" | "rs" | "h" | "c" | "toml") {
            let text = fs::read_to_string(&path).expect("the code is text");
            words.extend(text.split(|letter| !in_name(letter)).map(str::to_owned));
        }
    }
    words
}

/// A document without its blocks of shown text.
fn prose(document: &str) -> String {
    let text = fs::read_to_string(top().join(document)).expect("the document is there");
    text.split("```").step_by(2).collect()
}

fn is_missing(name: &str, words: &BTreeSet<String>) -> bool {
    let is_name = name.chars().count() > 2
        && name.starts_with(|letter: char| letter.is_alphabetic())
        && !name.ends_with('-');
    match name.split_once('/') {
        None => is_name && name.chars().all(in_name) && !words.contains(name),
        Some((folder, edit)) => {
            let edits = top().join("crates").join(folder).join("must-fail");
            is_name
                && name
                    .chars()
                    .all(|letter| letter == '_' || letter == '/' || letter.is_alphanumeric())
                && !FORMS.contains(&name)
                && !edits.join(edit).with_extension("edit").exists()
                && !top().join(name).exists()
        }
    }
}

#[test]
fn every_name_in_the_documents_exists() {
    let words = words();
    let mut missing = Vec::new();
    for document in DOCUMENTS {
        for line in prose(document).lines() {
            for name in line.split('`').skip(1).step_by(2) {
                if is_missing(name, &words) {
                    missing.push(format!("{document}: {name}"));
                }
            }
        }
    }
    assert!(missing.is_empty(), "named and not there: {missing:#?}");
}

#[test]
fn a_name_that_is_nowhere_is_found() {
    let words = BTreeSet::from(["walk".to_owned()]);
    assert!(!is_missing("walk", &words));
    assert!(is_missing("walked", &words));
    assert!(is_missing("walk/no_such_edit", &words));
    assert!(!is_missing("J,u,v", &words));
}
