//! What the README shows is what runs: its sale gives its report here, and both are those that the
//! gate runs the proved program on; its Rust stands in the example, which the bindings' tests run.
//! Rests on `reference::run`.

const README: &str = include_str!("../../README.md");

/// The sale and the report of the block that has them beside each other.
fn shown() -> (String, String) {
    let block = README
        .split("```\n")
        .find(|block| block.starts_with("SALE,"))
        .expect("the README shows a sale");
    let (mut sale, mut report) = (String::new(), String::new());
    for line in block.lines() {
        let (left, right) = line.split_once(' ').expect("a line of each");
        sale += &format!("{left}\n");
        report += &format!("{}\n", right.trim_start());
    }
    (sale, report)
}

#[test]
fn shown_sale_gives_shown_report() {
    let (sale, report) = shown();
    let outcome = reference::run(sale.as_bytes());
    assert_eq!(outcome.code, 0);
    assert_eq!(outcome.report, report.as_bytes());
    assert_eq!(sale, include_str!("../../crates/splitter/stdin"));
    assert_eq!(report, include_str!("../../crates/splitter/stdout"));
}

#[test]
fn shown_rust_stands_in_the_example() {
    let shown = README
        .split_once("```rust\n")
        .and_then(|(_, rest)| rest.split_once("```\n"))
        .expect("the README shows some Rust")
        .0;
    assert!(include_str!("../../bindings/rust/examples/sale.rs").contains(shown));
}
