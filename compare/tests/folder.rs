//! `soak --folder`: a folder of files through both desks; the first difference stops it and is named.

use compare::folder::{compare_files, files, Comparison, DESKS};
use compare::{compare, sales_on_file};
use std::path::{Path, PathBuf};
use std::process::Command;

/// A folder of the test's own with these files.
fn folder(name: &str, contents: &[(&str, &[u8])]) -> PathBuf {
    let folder = Path::new(env!("CARGO_TARGET_TMPDIR")).join(name);
    let _ = std::fs::remove_dir_all(&folder);
    std::fs::create_dir_all(&folder).expect("the folder is made");
    for (file, bytes) in contents {
        std::fs::write(folder.join(file), bytes).expect("the file is written");
    }
    folder
}

/// Whether the program ended well, and what it printed.
fn soak(folder: &Path) -> (bool, String) {
    let end = Command::new(env!("CARGO_BIN_EXE_soak"))
        .arg("--folder")
        .arg(folder)
        .output()
        .expect("the program runs");
    let text = String::from_utf8(end.stdout).expect("text");
    (end.status.success(), text)
}

#[test]
fn every_file_goes_through_both_desks() {
    let wide = b"SALE,1,0,9,0\nLOT,1,1\n";
    let own = folder("soak-both", &[("a", b"any bytes"), ("b.sale", wide)]);
    std::fs::create_dir(own.join("c")).expect("a folder in it");
    let wanted = "2 agree; by return: [(\"main\", {0: 1, 2: 1}), (\"superfine\", {2: 1, 3: 1})]\n";
    assert_eq!(soak(&own), (true, wanted.into()));
}

#[test]
fn a_hundred_files_show_progress() {
    let names: Vec<String> = (0..101).map(|place| format!("{place}.sale")).collect();
    let worked = std::fs::read(sales_on_file().pop().expect("a sale")).expect("its bytes");
    let contents: Vec<(&str, &[u8])> = names.iter().map(|name| (&**name, &*worked)).collect();
    let (agree, text) = soak(&folder("soak-progress", &contents));
    assert!(agree, "{text}");
    assert!(text.starts_with("100 of 101 agree\n101 agree; "), "{text}");
}

#[test]
fn the_first_difference_stops_and_names_its_file() {
    let own = folder("soak-differs", &[("a", b"1"), ("b", b"2"), ("c", b"3")]);
    let differs: Comparison = |file, _| match file {
        b"2" => Err("the output".into()),
        _ => Ok(0),
    };
    let mut done = Vec::new();
    let found = compare_files(
        &files(&own).expect("the files"),
        &[("main", compare), ("superfine", differs)],
        |count| done.push(count),
    );
    let wanted = format!("{}, superfine desk: the output", own.join("b").display());
    assert_eq!(found, Err(wanted));
    assert_eq!(done, [1]);
}

#[test]
fn what_cannot_be_read_is_named() {
    let missing = PathBuf::from("no-such-file");
    let found = compare_files(&[missing], &DESKS, |_| ());
    assert!(found.is_err_and(|what| what.starts_with("no-such-file: ")));
    let (agree, text) = soak(Path::new("no-such-folder"));
    assert!(!agree && text.starts_with("no-such-folder: "), "{text}");
    assert_eq!(soak(&folder("soak-empty", &[])).1.lines().count(), 1);
}
