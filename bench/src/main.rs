//! Measures the engine and the tuned splitter by turns on each workload, the engine on a hall and on
//! its catalogues as sales, and the buyers' sheets of the largest sales and their loading; prints the
//! medians with their ratio, group by group, and draws the ratios into `bench/ratios.svg`; then the
//! converter and the loading of what it writes, likewise by turns.

use std::hint::black_box;
use std::time::Instant;

use bench::cleared::Cleared;
use bench::plot::{picture, Bar, Over, Part};
use bench::tuned::Splitter;
use bench::workloads::{hall, hmetis, largest, workloads, Group, HallWorkload, Workload};
use kapokdrill::lent::{convert, sheets, OUTPUT, SHEETS_OUTPUT};
use kapokdrill::{Hall, Memory};

/// The least time that a sample takes: short, so that few are broken off by other programs.
const SAMPLE_SECONDS: f64 = 0.001;

/// The time for all samples of two pieces of work, and how many of each are taken within it: the
/// shorter they are, the more.
const SECONDS: f64 = 1.5;
const SAMPLES: std::ops::RangeInclusive<usize> = 7..=501;

/// A piece of work, and how many runs of it fill a sample.
struct Sampled<F> {
    work: F,
    repeats: usize,
    samples: Vec<f64>,
}

impl<F: FnMut()> Sampled<F> {
    fn new(work: F, repeats: usize) -> Self {
        Sampled {
            work,
            repeats,
            samples: Vec::new(),
        }
    }

    /// Takes a sample. Other programs have their turn before it rather than within; and before one of
    /// many runs comes a run that finds the tables cold from the other's sample.
    fn sample(&mut self) {
        std::thread::yield_now();
        if self.repeats > 1 {
            (self.work)();
        }
        self.samples.push(seconds(self.repeats, &mut self.work));
    }

    fn median(mut self) -> f64 {
        self.samples.sort_by(f64::total_cmp);
        self.samples[self.samples.len() / 2]
    }
}

/// Seconds for each of `times` runs.
fn seconds(times: usize, mut work: impl FnMut()) -> f64 {
    let start = Instant::now();
    for _ in 0..times {
        work();
    }
    start.elapsed().as_secs_f64() / times as f64
}

/// The shortest of three runs, since the first finds its tables cold.
fn shortest(mut work: impl FnMut()) -> f64 {
    let runs = (0..3).map(|_| seconds(1, &mut work));
    runs.fold(f64::INFINITY, f64::min)
}

/// The medians of two pieces of work, sampled by turns, in seconds. Samples of both are of about the
/// same length, that of a run of the longer one at least, so that other programs break off both alike.
fn by_turns(mut one: impl FnMut(), mut other: impl FnMut()) -> (f64, f64) {
    let (of_one, of_other) = (shortest(&mut one), shortest(&mut other));
    let sample = SAMPLE_SECONDS.max(of_one).max(of_other);
    let mut one = Sampled::new(one, (sample / of_one).round() as usize);
    let mut other = Sampled::new(other, (sample / of_other).round() as usize);
    let start = Instant::now();
    for taken in 0..*SAMPLES.end() {
        if taken >= *SAMPLES.start() && start.elapsed().as_secs_f64() >= SECONDS {
            break;
        }
        one.sample();
        other.sample();
    }
    (one.median(), other.median())
}

/// The medians of the engine and of the tuned splitter.
fn measure(workload: &Workload, memory: &mut Memory, splitter: &mut Splitter) -> (f64, f64) {
    let file = &workload.file;
    let wanted = splitter.run(file);
    assert_eq!(wanted.0, 0, "{}: turned down", workload.name);
    assert!(memory.run(file) == wanted, "{}: two reports", workload.name);
    by_turns(
        || {
            black_box(memory.run(black_box(file)));
        },
        || {
            black_box(splitter.run(black_box(file)));
        },
    )
}

/// The medians of the engine on a hall and on its catalogues as sales, one after the other. The tuned
/// splitter has no hall.
fn measure_hall(workload: &HallWorkload, memory: &mut Memory) -> (f64, f64) {
    let mut hall = Hall::new();
    let (code, report) = hall.run(&workload.hall);
    assert_eq!(code, 0, "{}: turned down", workload.name);
    // the limit bars nothing: the same answers, behind their leads, and the same closing reports
    let (mut answers, mut closings): (Vec<u8>, Vec<u8>) = (Vec::new(), Vec::new());
    for (number, sale) in (1..).zip(&workload.sales) {
        let report = memory.run(sale).1;
        let end = report.iter().position(|&byte| byte == b'\n').unwrap_or(0) + 1;
        answers.extend(format!("{number},").into_bytes());
        answers.extend(&report[..end]);
        closings.extend(&report[end..]);
    }
    answers.extend(closings);
    assert!(report == answers, "{}: two reports", workload.name);
    by_turns(
        || {
            black_box(hall.run(black_box(&workload.hall)));
        },
        || {
            for sale in &workload.sales {
                black_box(memory.run(black_box(sale)));
            }
        },
    )
}

/// The medians of the converter on an input and of the engine on the catalogue that it writes.
fn measure_converter(memory: &mut Memory) -> (f64, f64) {
    let input = hmetis();
    let mut output = vec![0; OUTPUT];
    let outcome = convert(&input, &mut output);
    assert_eq!(outcome.code, 0, "the input is refused");
    let catalogue = output[..outcome.written].to_vec();
    by_turns(
        || {
            black_box(convert(black_box(&input), &mut output));
        },
        || {
            black_box(memory.run(black_box(&catalogue)));
        },
    )
}

/// The medians of the sheets of a sale and of the engine on it, which `load` runs. Both load it and write
/// a text.
fn measure_sheets(workload: &Workload, mut load: impl FnMut(&[u8])) -> (f64, f64) {
    let file = &workload.file;
    let mut output = vec![0; SHEETS_OUTPUT];
    let outcome = sheets(file, &mut output);
    let wanted = reference::sheets(file);
    assert_eq!(outcome.code, 0, "{}: turned down", workload.name);
    assert!(
        output[..outcome.written] == wanted.report,
        "{}: two texts",
        workload.name
    );
    by_turns(
        || {
            black_box(sheets(black_box(file), &mut output));
        },
        || load(black_box(file)),
    )
}

/// Prints a row of the table and gives its bar.
fn row(name: String, (one, other): (f64, f64), over: Over) -> Bar {
    let (one_ms, other_ms, ratio) = (one * 1e3, other * 1e3, one / other);
    println!("{name:<62} {one_ms:>10.3} {other_ms:>10.3} {ratio:>7.2}");
    Bar { name, ratio, over }
}

/// The rows of the workloads of a group over the tuned splitter, and over it with its index.
fn rows(workloads: &[Workload], group: Group, memory: &mut Memory) -> Vec<Bar> {
    let (mut plain, mut indexed) = (Splitter::default(), Splitter::with_index());
    let mut bars = Vec::new();
    for workload in workloads.iter().filter(|one| one.group == group) {
        let name = workload.name.to_string();
        let medians = measure(workload, memory, &mut plain);
        bars.push(row(name, medians, Over::Tuned));
        if workload.indexed {
            let name = format!("{}, tuned with index", workload.name);
            let medians = measure(workload, memory, &mut indexed);
            bars.push(row(name, medians, Over::Indexed));
        }
    }
    bars
}

/// The rows over the engine's own time: the hall's and the sheets'.
fn own_rows(memory: &mut Memory) -> Vec<Bar> {
    let hall = hall();
    let medians = measure_hall(&hall, memory);
    let mut bars = vec![row(hall.name.to_string(), medians, Over::Sales)];
    let mut cleared = Cleared::default();
    for workload in largest() {
        // sheets have tables of their own, which are cleared for every sale
        let medians = measure_sheets(&workload, |file| {
            black_box(cleared.run(file));
        });
        let name = format!("sheets of {}, over loading it", workload.name);
        bars.push(row(name, medians, Over::Loading));
        let medians = measure_sheets(&workload, |file| {
            black_box(memory.run(file));
        });
        let name = format!("sheets of {}, tables as left", workload.name);
        bars.push(row(name, medians, Over::Loading));
    }
    bars
}

fn main() -> std::io::Result<()> {
    let mut memory = Memory::default();
    let workloads = workloads();
    println!(
        "{:<62} {:>10} {:>10} {:>7}",
        "workload", "engine ms", "tuned ms", "ratio"
    );
    let mut parts = Vec::new();
    for group in Group::ALL {
        println!("{}:", group.title());
        let mut bars = rows(&workloads, group, &mut memory);
        if group == Group::HallsAndSheets {
            bars.extend(own_rows(&mut memory));
        }
        let title = group.title();
        parts.push(Part { title, bars });
    }
    for over in Over::ALL {
        let bars = parts.iter().flat_map(|part| &part.bars);
        let bars: Vec<_> = bars.filter(|bar| bar.over == over).collect();
        let limit = over.limit();
        let above = bars.iter().filter(|bar| bar.ratio > limit).count();
        println!("{}: {above} of {} above {limit}", over.words(), bars.len());
    }
    let (converter, loading) = measure_converter(&mut memory);
    let ratio = converter / loading;
    let (converter, loading) = (converter * 1e3, loading * 1e3);
    println!(
        "converter {converter:.3} ms, loading what it writes {loading:.3} ms, ratio {ratio:.2}"
    );
    println!(
        "medians of {} to {} samples by turns, the more the shorter; no memory was cleared between runs",
        SAMPLES.start(),
        SAMPLES.end()
    );
    std::fs::write(
        concat!(env!("CARGO_MANIFEST_DIR"), "/ratios.svg"),
        picture(&parts),
    )
}
