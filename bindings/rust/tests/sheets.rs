//! Buyers' sheets through the bindings: those on file, one buyer's in words from the examples' programs in
//! Rust and in C, and the least length of the output.

use kapokdrill::lent::{self, Outcome, SHEETS_OUTPUT};
use kapokdrill::sheets;
use std::io::Write;
use std::path::{Path, PathBuf};
use std::process::{Command, Output, Stdio};

fn top() -> PathBuf {
    Path::new(env!("CARGO_MANIFEST_DIR")).join("../..")
}

fn on_file(name: &str) -> Vec<u8> {
    std::fs::read(top().join("sales").join(name)).expect("the sale is on file")
}

/// The example as cargo builds it before the tests run: beside the folder of the test programs.
fn example() -> PathBuf {
    let test = std::env::current_exe().expect("the test is a program");
    let folder = test.parent().and_then(Path::parent).expect("a folder");
    folder.join("examples/sheet")
}

/// The example in C, compiled and linked.
fn example_in_c() -> PathBuf {
    let program = Path::new(env!("CARGO_TARGET_TMPDIR")).join("sheet-in-c");
    let compiled = Command::new("cc")
        .current_dir(top())
        .args(["-std=c99", "-Wall", "-Wextra", "-pedantic", "-Werror"])
        .args(["-I", "bindings", "bindings/c/sheet.c"])
        .args(["target/staticlib/libsheets.a", "-o"])
        .arg(&program)
        .status()
        .expect("the C compiler starts");
    assert!(compiled.success());
    program
}

/// How a program ends that has a sale on its standard input and a buyer's number behind its name.
fn of_buyer(program: &Path, buyer: &str, sale: &[u8]) -> Output {
    let mut child = Command::new(program)
        .arg(buyer)
        .stdin(Stdio::piped())
        .stdout(Stdio::piped())
        .stderr(Stdio::piped())
        .spawn()
        .expect("the program starts");
    let mut input = child.stdin.take().expect("the input is a pipe");
    input.write_all(sale).expect("the program reads its input");
    drop(input);
    child.wait_with_output().expect("the program ends")
}

#[test]
fn sheets_on_file() {
    for name in [
        "sheets-worked-sale",
        "sheets-joined-lots",
        "sheets-withdrawn-and-late-lots",
        "sheets-by-session-then-lot",
    ] {
        let text = on_file(&format!("{name}.sheets"));
        assert_eq!(sheets(&on_file(&format!("{name}.sale"))), (0, text));
    }
    let text = on_file("sheets-refused-4.sheets");
    assert_eq!(sheets(&on_file("sheets-refused-4.sale")), (4, text));
    assert_eq!(sheets(b""), (2, b"NO,2,1\n".to_vec()));
}

#[test]
fn the_examples_print_one_buyers_sheet() {
    let sale = on_file("sheets-joined-lots.sale");
    let words = "buyer 2, sessions to sit in: 2\nsession 2: lots 4\nsession 3: lots 2, 3\n";
    for program in [example(), example_in_c()] {
        let end = of_buyer(&program, "2", &sale);
        assert_eq!(end.status.code(), Some(0));
        assert_eq!(end.stdout, words.as_bytes());

        let end = of_buyer(&program, "4", &sale);
        assert_eq!(end.status.code(), Some(64));
        assert!(end.stdout.is_empty());
        assert_eq!(end.stderr, b"no buyer 4\n");

        let end = of_buyer(&program, "1", &on_file("sheets-refused-4.sale"));
        assert_eq!(end.status.code(), Some(4));
        assert_eq!(end.stdout, on_file("sheets-refused-4.sheets"));

        // a buyer whose lots were all withdrawn
        let end = of_buyer(&program, "1", &on_file("sheets-all-lots-withdrawn.sale"));
        assert_eq!(end.stdout, b"buyer 1, sessions to sit in: 0\n");
    }
}

#[test]
fn the_output_at_its_least_length_and_one_below() {
    let sale = on_file("sheets-worked-sale.sale");
    let text = on_file("sheets-worked-sale.sheets");
    let mut output = vec![7; SHEETS_OUTPUT];
    let written = text.len();
    let outcome = lent::sheets(&sale, &mut output);
    assert_eq!(outcome, Outcome { code: 0, written });
    assert!(output.starts_with(&text));
    assert!(output[written..].iter().all(|&byte| byte == 7));
    for length in [SHEETS_OUTPUT - 1, 0] {
        let mut output = vec![7; length];
        let outcome = lent::sheets(&sale, &mut output);
        let (code, written) = (8, 0);
        assert_eq!(outcome, Outcome { code, written });
        assert!(output.iter().all(|&byte| byte == 7));
    }
}
