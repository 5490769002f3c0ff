//! A sale as SVG, draft beside result: weights of the blocks against the cap, the blocks that each net
//! visits, the vertices that changed; and a hall, each of its catalogues likewise. Rests on `Memory` and
//! `Hall` alone; the draft is the catalogue run without its calls. The text drawn is in the customer's
//! words: lots, buyers, sessions, bales.

mod hall;

use crate::command::refusal;
use crate::lent::Lot;
use crate::Memory;
use hall::SalesHall;
use std::collections::{BTreeMap, BTreeSet};
use std::fmt::Write;
use std::ops::RangeInclusive;

/// Vertices up to here are drawn one by one in the bars.
const SINGLE_VERTICES: usize = 64;
/// Nets up to here have a row each; more are put into bands.
pub const SINGLE_NETS: usize = 64;
/// The most bands that there are.
pub const BANDS: usize = 32;
/// Changed vertices up to here are listed; more are shown by number and from block to block.
const LISTED: usize = 48;

/// What became of a vertex between draft and result.
#[derive(Clone, Copy, Debug, PartialEq, Eq, PartialOrd, Ord)]
enum Change {
    Stayed,
    Moved,
    Withdrawn,
    Added,
}

impl Change {
    const ALL: [Change; 4] = [
        Change::Stayed,
        Change::Moved,
        Change::Withdrawn,
        Change::Added,
    ];

    fn color(self) -> &'static str {
        match self {
            Change::Stayed => "#9dbfe0",
            Change::Moved => "#f0a24a",
            Change::Withdrawn => "#c4c4c4",
            Change::Added => "#79bd83",
        }
    }

    fn words(self) -> &'static str {
        match self {
            Change::Stayed => "lot that stays",
            Change::Moved => "lot that moved",
            Change::Withdrawn => "lot withdrawn",
            Change::Added => "lot added",
        }
    }
}

/// A vertex with its blocks in the draft and in the result; an added one has none in the draft, a
/// withdrawn one none in the result.
struct Vertex {
    number: usize,
    weight: u64,
    before: Option<usize>,
    after: Option<usize>,
}

impl Vertex {
    fn change(&self) -> Change {
        match (self.before, self.after) {
            (None, _) => Change::Added,
            (_, None) => Change::Withdrawn,
            (before, after) if before == after => Change::Stayed,
            _ => Change::Moved,
        }
    }

    fn words(&self) -> String {
        let end = match (self.before, self.after) {
            (Some(s), Some(t)) if s == t => format!("stays in session {s}"),
            (Some(s), Some(t)) => format!("session {s} → {t}"),
            (Some(s), None) => format!("withdrawn from session {s}"),
            (None, Some(t)) => format!("added to session {t}"),
            (None, None) => "not in the sale".into(),
        };
        let bales = if self.weight == 1 { "bale" } else { "bales" };
        format!(
            "lot {}, {} {bales}: {end}",
            self.number,
            grouped(self.weight)
        )
    }
}

/// The draft or the result.
#[derive(Clone, Copy, PartialEq, Eq)]
enum Side {
    Draft,
    Result,
}

/// What is drawn of an accepted catalogue.
struct Sale {
    estimate: bool,
    loaded: usize,
    blocks: usize,
    cap: u64,
    vertices: Vec<Vertex>,
    /// The weight of each net.
    nets: Vec<u64>,
    /// The blocks that each net visits, one bit each, in the draft and in the result.
    visited: [Vec<u16>; 2],
    totals: [u64; 2],
}

/// The numbers of a line behind its first field; the K of a kept vertex is none.
fn numbers(line: &str) -> Vec<u64> {
    line.split(',')
        .skip(1)
        .filter_map(|field| field.parse().ok())
        .collect()
}

/// (1,000 + slack) × share / 1,000 to the nearest number, an exact half to the even one.
fn cap(slack: u64, share: u64) -> u64 {
    let thousandths = (1_000 + slack) * share;
    let (low, rest) = (thousandths / 1_000, thousandths % 1_000);
    let up = rest > 500 || (rest == 500 && low % 2 == 1);
    low + u64::from(up)
}

/// What a run left of one catalogue.
struct Run<'a> {
    catalogue: &'a [&'a str],
    /// Its calls with their answers, both without a lead.
    calls: Vec<(&'a str, &'a str)>,
    /// Its closing report.
    closing: &'a [&'a str],
    /// The records of its lots in the draft.
    draft: &'a [Lot],
    /// The blocks that each net visits in the draft and in the result.
    visited: [Vec<u16>; 2],
}

/// The code and the report of a file that is turned down.
type Refused = (u32, Vec<u8>);

/// Lines as a file.
fn file_of(lines: &[&str]) -> Vec<u8> {
    let mut file = lines.join("\n");
    file.push('\n');
    file.into_bytes()
}

/// How many lines the catalogue has that begins with this one, and how many nets.
fn extent(header: &str) -> (usize, usize) {
    let header = numbers(header);
    let (loaded, nets) = (header[0] as usize, header[1] as usize);
    (1 + loaded + nets, nets)
}

impl Sale {
    /// Runs a file and its catalogue alone; an error is the code and the report of a refused file. An
    /// accepted file has the form of a sale file, so its lines are taken apart without tests.
    fn read(file: &[u8]) -> Result<Sale, Refused> {
        let mut memory = Memory::default();
        let (code, report) = memory.run(file);
        if code != 0 {
            return Err((code, report.to_vec()));
        }
        let report = String::from_utf8_lossy(report).into_owned();
        let text = String::from_utf8_lossy(file);
        let lines: Vec<&str> = text.lines().collect();
        let (length, nets) = extent(lines[0]);
        let (catalogue, calls) = lines.split_at(length);
        let result_visited = memory.visited()[..nets].to_vec();

        let (code, draft_report) = memory.run(&file_of(catalogue));
        if code != 0 {
            return Err((code, draft_report.to_vec()));
        }
        let draft_visited = memory.visited()[..nets].to_vec();

        let report: Vec<&str> = report.lines().collect();
        let (answers, closing) = report.split_at(calls.len());
        Ok(Sale::of(Run {
            catalogue,
            calls: calls.iter().copied().zip(answers.iter().copied()).collect(),
            closing,
            draft: memory.lots(),
            visited: [draft_visited, result_visited],
        }))
    }

    fn of(run: Run<'_>) -> Sale {
        let header = numbers(run.catalogue[0]);
        let (loaded, blocks, slack) = (header[0] as usize, header[2], header[3]);
        let mut late = BTreeMap::new();
        let mut withdrawn = BTreeSet::new();
        for (call, answer) in run.calls {
            let operands = numbers(call);
            if answer.starts_with("X,") {
                // a number may be withdrawn, used again and withdrawn again
                if late.remove(&operands[0]).is_none() {
                    withdrawn.insert(operands[0]);
                }
            } else if answer.starts_with("N,") {
                late.insert(numbers(answer)[0], operands[0]);
            }
        }
        // the line of the totals, then the vertices
        let totals = numbers(run.closing[0]);
        let after: BTreeMap<u64, usize> = run
            .closing
            .iter()
            .filter(|line| line.starts_with("LOT,"))
            .map(|line| numbers(line))
            .map(|fields| (fields[0], fields[1] as usize))
            .collect();

        let mut vertices = Vec::new();
        for (number, lot) in (1..).zip(&run.draft[..loaded]) {
            let here = !withdrawn.contains(&(number as u64));
            vertices.push(Vertex {
                number,
                weight: u64::from(lot.bales),
                before: Some(usize::from(lot.session)),
                after: after.get(&(number as u64)).copied().filter(|_| here),
            });
        }
        for (number, weight) in late {
            vertices.push(Vertex {
                number: number as usize,
                weight,
                before: None,
                after: after.get(&number).copied(),
            });
        }
        let first_numbers = |lines: &[&str]| -> Vec<u64> {
            let first = |line: &&str| numbers(line)[0];
            lines.iter().map(first).collect()
        };
        let counted: u64 = first_numbers(&run.catalogue[1..=loaded]).iter().sum();
        Sale {
            estimate: run.catalogue[0].starts_with("EST"),
            loaded,
            blocks: blocks as usize,
            cap: cap(slack, counted.div_ceil(blocks)),
            vertices,
            nets: first_numbers(&run.catalogue[1 + loaded..]),
            visited: run.visited,
            totals: [totals[0], totals[1]],
        }
    }

    fn of_block(&self, side: Side, block: usize) -> Vec<&Vertex> {
        let place = |vertex: &&Vertex| match side {
            Side::Draft => vertex.before == Some(block),
            Side::Result => vertex.after == Some(block),
        };
        let mut found: Vec<&Vertex> = self.vertices.iter().filter(place).collect();
        found.sort_by_key(|vertex| (vertex.change(), vertex.number));
        found
    }

    /// The weight of a block, 0 for one that the catalogue has not.
    fn weight(&self, side: Side, block: usize) -> u64 {
        let vertices = self.of_block(side, block);
        vertices.iter().map(|vertex| vertex.weight).sum()
    }

    fn changed(&self) -> Vec<&Vertex> {
        let changed = |vertex: &&Vertex| vertex.change() != Change::Stayed;
        let mut found: Vec<&Vertex> = self.vertices.iter().filter(changed).collect();
        found.sort_by_key(|vertex| (vertex.number, vertex.change()));
        found
    }

    fn how_many(&self, change: Change) -> usize {
        let same = |vertex: &&Vertex| vertex.change() == change;
        self.vertices.iter().filter(same).count()
    }

    fn visits(&self, side: Side, net: usize, block: usize) -> bool {
        self.visited[side as usize][net] & 1 << (block - 1) != 0
    }

    /// How many blocks a run of nets visits.
    fn visit_count(&self, side: Side, nets: RangeInclusive<usize>) -> u64 {
        let masks = &self.visited[side as usize][nets];
        masks.iter().map(|mask| u64::from(mask.count_ones())).sum()
    }

    /// What a run of nets adds to the total.
    fn added(&self, side: Side, nets: RangeInclusive<usize>) -> u64 {
        let masks = &self.visited[side as usize][nets.clone()];
        let of =
            |(weight, mask): (&u64, &u16)| weight * u64::from(mask.count_ones()).saturating_sub(1);
        self.nets[nets].iter().zip(masks).map(of).sum()
    }
}

/// A number with commas between its thousands.
fn grouped(number: u64) -> String {
    let digits = number.to_string();
    let mut text = String::new();
    for (place, digit) in digits.chars().enumerate() {
        if place > 0 && (digits.len() - place).is_multiple_of(3) {
            text.push(',');
        }
        text.push(digit);
    }
    text
}

/// So many of a thing, with its plural.
fn many(count: usize, thing: &str) -> String {
    let end = if count == 1 { "" } else { "s" };
    format!("{} {thing}{end}", grouped(count as u64))
}

fn escaped(text: &str) -> String {
    text.replace('&', "&amp;")
        .replace('<', "&lt;")
        .replace('>', "&gt;")
        .replace('"', "&quot;")
}

const WIDTH: f64 = 1_080.0;
const MARGIN: f64 = 24.0;
/// Where the labels of rows end.
const LABELS: f64 = 160.0;
/// Where the columns of draft and result begin, and how wide they are.
const COLUMNS: [f64; 2] = [170.0, 510.0];
const COLUMN: f64 = 320.0;
/// How long a bar at the cap is; the number of bales is written behind it.
const AT_CAP: f64 = 195.0;
/// Where these numbers end, from the column's beginning.
const WEIGHTS: f64 = 320.0;
/// The middles of the two columns of numbers on the right.
const VISITS: f64 = 875.0;
const SHARES: f64 = 995.0;

const INK: &str = "#222222";
const FAINT: &str = "#666666";
const CAP: &str = "#b03030";
const VISIT: &str = "#2f5f8f";
const NEW_VISIT: &str = "#d9730d";

/// An SVG that grows downwards.
struct Canvas {
    body: String,
    y: f64,
}

#[derive(Clone, Copy)]
enum Anchor {
    Start,
    Middle,
    End,
}

impl Canvas {
    fn new() -> Self {
        Canvas {
            body: String::new(),
            y: 0.0,
        }
    }

    fn line(&mut self, line: &str) {
        writeln!(self.body, "{line}").expect("a string takes any text");
    }

    fn text(&mut self, (x, y): (f64, f64), anchor: Anchor, size: u32, color: &str, words: &str) {
        let anchor = match anchor {
            Anchor::Start => "start",
            Anchor::Middle => "middle",
            Anchor::End => "end",
        };
        let words = escaped(words);
        self.line(&format!(
            "<text x=\"{x:.1}\" y=\"{y:.1}\" text-anchor=\"{anchor}\" font-size=\"{size}\" \
             fill=\"{color}\">{words}</text>"
        ));
    }

    fn heading(&mut self, words: &str) {
        let (y, words) = (self.y, escaped(words));
        self.line(&format!(
            "<text x=\"{MARGIN}\" y=\"{y:.1}\" font-size=\"15\" font-weight=\"bold\" \
             fill=\"{INK}\">{words}</text>"
        ));
    }

    /// A rectangle of a class, with words that show where the pointer rests on it.
    fn rect(&mut self, class: &str, at: [f64; 4], fill: &str, words: &str) {
        let [x, y, width, height] = at;
        let shape = format!(
            "<rect class=\"{class}\" x=\"{x:.1}\" y=\"{y:.1}\" width=\"{width:.1}\" \
             height=\"{height:.1}\" fill=\"{fill}\" stroke=\"#ffffff\" stroke-width=\"0.8\""
        );
        if words.is_empty() {
            self.line(&format!("{shape}/>"));
        } else {
            self.line(&format!("{shape}><title>{}</title></rect>", escaped(words)));
        }
    }

    fn circle(&mut self, class: &str, (x, y): (f64, f64), radius: f64, paint: &str) {
        self.line(&format!(
            "<circle class=\"{class}\" cx=\"{x:.1}\" cy=\"{y:.1}\" r=\"{radius:.1}\" {paint}/>"
        ));
    }

    fn rule(&mut self, from: (f64, f64), to: (f64, f64), paint: &str) {
        self.line(&format!(
            "<line x1=\"{:.1}\" y1=\"{:.1}\" x2=\"{:.1}\" y2=\"{:.1}\" {paint}/>",
            from.0, from.1, to.0, to.1
        ));
    }

    fn finish(self, width: f64) -> String {
        let height = self.y;
        format!(
            "<svg xmlns=\"http://www.w3.org/2000/svg\" viewBox=\"0 0 {width:.0} {height:.0}\" \
             width=\"{width:.0}\" height=\"{height:.0}\" font-family=\"sans-serif\">\n\
             <rect width=\"{width:.0}\" height=\"{height:.0}\" fill=\"#ffffff\"/>\n{}</svg>\n",
            self.body
        )
    }
}

/// The SVG of a sale file, or of a hall's, which begins with `HALL`, with its code: 0, or that of a file
/// turned down, whose SVG is one line of text with the refusal in words.
pub fn picture(file: &[u8]) -> (u32, String) {
    let mut canvas = Canvas::new();
    let drawn = if file.starts_with(b"HALL") {
        SalesHall::read(file).map(|hall| hall.draw(&mut canvas))
    } else {
        Sale::read(file).map(|sale| draw(&mut canvas, &sale, None))
    };
    match drawn {
        Ok(()) => {
            canvas.y += 8.0;
            (0, canvas.finish(WIDTH))
        }
        Err((code, report)) => {
            let words = format!("This file is turned down: {}", refusal(code, &report));
            canvas.text((MARGIN, 38.0), Anchor::Start, 16, INK, &words);
            canvas.y = 62.0;
            (code, canvas.finish(720.0))
        }
    }
}

/// All of one catalogue, with its number if it is one of a hall.
fn draw(canvas: &mut Canvas, sale: &Sale, number: Option<usize>) {
    title(canvas, sale, number);
    bars(canvas, sale);
    if sale.nets.len() > SINGLE_NETS {
        bands(canvas, sale);
    } else {
        single_nets(canvas, sale);
    }
    changes(canvas, sale);
}

fn title(canvas: &mut Canvas, sale: &Sale, number: Option<usize>) {
    let top = canvas.y;
    let (kind, bales) = if sale.estimate {
        (
            "Estimate",
            ", worked out from the lows; bales are the highs",
        )
    } else {
        ("Sale", "")
    };
    let kind = match number {
        Some(number) => format!("Catalogue {number}: {}", kind.to_lowercase()),
        None => kind.into(),
    };
    let words = format!(
        "{kind} with {}, {} and {}",
        many(sale.loaded, "lot"),
        many(sale.nets.len(), "buyer"),
        many(sale.blocks, "session")
    );
    canvas.text((MARGIN, top + 36.0), Anchor::Start, 20, INK, &words);
    let [draft, result] = sale.totals.map(grouped);
    let words = format!(
        "Total {draft} in the draft, {result} in the result: over all buyers, weight × (sessions \
         visited − 1)"
    );
    canvas.text((MARGIN, top + 60.0), Anchor::Start, 13, FAINT, &words);
    let words = format!("Cap {} bales a session{bales}", grouped(sale.cap));
    canvas.text((MARGIN, top + 80.0), Anchor::Start, 13, FAINT, &words);

    let mut x = MARGIN;
    let y = top + 108.0;
    for change in Change::ALL {
        let words = format!(
            "{} ({})",
            change.words(),
            grouped(sale.how_many(change) as u64)
        );
        canvas.rect("key", [x, y - 11.0, 16.0, 14.0], change.color(), "");
        canvas.text((x + 22.0, y), Anchor::Start, 12, INK, &words);
        x += 172.0;
    }
    canvas.rule((x, y - 4.0), (x + 20.0, y - 4.0), &dashes());
    canvas.text((x + 26.0, y), Anchor::Start, 12, INK, "cap");
    canvas.y = top + 148.0;
    column_titles(canvas, sale.totals);
}

/// What the two columns are, with their totals.
fn column_titles(canvas: &mut Canvas, totals: [u64; 2]) {
    for (side, words) in [(0, "Draft, total "), (1, "Result, total ")] {
        let words = format!("{words}{}", grouped(totals[side]));
        let y = canvas.y;
        canvas.text((COLUMNS[side], y), Anchor::Start, 17, INK, &words);
    }
}

fn dashes() -> String {
    format!("stroke=\"{CAP}\" stroke-width=\"1.5\" stroke-dasharray=\"5 4\"")
}

/// A bar for each block in draft and result, its vertices one by one or what became of them together.
fn bars(canvas: &mut Canvas, sale: &Sale) {
    const ROW: f64 = 26.0;
    canvas.y += 34.0;
    canvas.heading("Bales of each session");
    for left in COLUMNS {
        let words = format!("cap {}", grouped(sale.cap));
        let at = (left + AT_CAP, canvas.y);
        canvas.text(at, Anchor::End, 11, CAP, &words);
        let at = (left + WEIGHTS, canvas.y);
        canvas.text(at, Anchor::End, 11, FAINT, "bales, % of cap");
    }
    canvas.y += 8.0;
    let top = canvas.y;
    let single = sale.vertices.len() <= SINGLE_VERTICES;
    for block in 1..=sale.blocks {
        let y = canvas.y;
        let middle = y + ROW / 2.0 + 4.0;
        canvas.text(
            (LABELS, middle),
            Anchor::End,
            12,
            INK,
            &format!("session {block}"),
        );
        for side in [Side::Draft, Side::Result] {
            let vertices = sale.of_block(side, block);
            let left = COLUMNS[side as usize];
            let weight = sale.weight(side, block);
            let scale = AT_CAP / sale.cap.max(1) as f64;
            canvas.line("<g class=\"bar\">");
            // the room under the cap, so that an empty session has a bar too
            canvas.rect("room", [left, y + 3.0, AT_CAP, ROW - 6.0], "#f1f1f1", "");
            let mut x = left;
            if single {
                for vertex in &vertices {
                    let width = vertex.weight as f64 * scale;
                    let at = [x, y + 3.0, width, ROW - 6.0];
                    canvas.rect("lot", at, vertex.change().color(), &vertex.words());
                    let number = vertex.number.to_string();
                    if width >= 8.0 * number.len() as f64 + 4.0 {
                        let at = (x + width / 2.0, middle);
                        canvas.text(at, Anchor::Middle, 11, INK, &number);
                    }
                    x += width;
                }
            } else {
                for change in Change::ALL {
                    let alike = || vertices.iter().filter(|v| v.change() == change);
                    let part: u64 = alike().map(|vertex| vertex.weight).sum();
                    if part == 0 {
                        continue;
                    }
                    let width = part as f64 * scale;
                    let words = many(alike().count(), "lot");
                    let title = format!("{}: {words}, {} bales", change.words(), grouped(part));
                    let at = [x, y + 3.0, width, ROW - 6.0];
                    canvas.rect("lots", at, change.color(), &title);
                    if width >= 7.5 * words.len() as f64 + 4.0 {
                        let at = (x + width / 2.0, middle);
                        canvas.text(at, Anchor::Middle, 11, INK, &words);
                    }
                    x += width;
                }
            }
            canvas.line("</g>");
            // rounded down, so that 100 % is the cap itself
            let share = weight * 100 / sale.cap.max(1);
            let words = format!("{}, {share} %", grouped(weight));
            let at = (left + WEIGHTS, middle);
            canvas.text(at, Anchor::End, 12, INK, &words);
        }
        canvas.y += ROW;
    }
    for left in COLUMNS {
        let (x, bottom) = (left + AT_CAP, canvas.y);
        canvas.rule((x, top), (x, bottom), &dashes());
    }
}

/// The headings of the nets' part: its columns are the blocks, and on the right two of numbers.
fn net_headings(canvas: &mut Canvas, sale: &Sale, words: &str) -> f64 {
    let cell = (COLUMN / sale.blocks as f64).min(48.0);
    canvas.y += 40.0;
    canvas.heading(words);
    let y = canvas.y;
    for x in [VISITS, SHARES] {
        canvas.text((x, y), Anchor::Middle, 11, FAINT, "draft → result");
    }
    canvas.y += 18.0;
    let y = canvas.y;
    canvas.text((LABELS, y), Anchor::End, 11, FAINT, "session");
    for left in COLUMNS {
        for block in 1..=sale.blocks {
            let x = left + cell * (block as f64 - 0.5);
            canvas.text((x, y), Anchor::Middle, 11, FAINT, &block.to_string());
        }
    }
    canvas.text((VISITS, y), Anchor::Middle, 11, FAINT, "visits");
    canvas.text((SHARES, y), Anchor::Middle, 11, FAINT, "share of total");
    canvas.y += 6.0;
    cell
}

/// The numbers on the right of a row: how many visits, and what they add to the total.
fn net_numbers(canvas: &mut Canvas, sale: &Sale, nets: RangeInclusive<usize>, middle: f64) {
    let both = |of: &dyn Fn(Side) -> u64| {
        format!(
            "{} → {}",
            grouped(of(Side::Draft)),
            grouped(of(Side::Result))
        )
    };
    let visits = both(&|side| sale.visit_count(side, nets.clone()));
    let shares = both(&|side| sale.added(side, nets.clone()));
    // the longest numbers are those of all nets together
    let size = if shares.len() > 20 { 10 } else { 11 };
    canvas.text((VISITS, middle), Anchor::Middle, size, INK, &visits);
    canvas.text((SHARES, middle), Anchor::Middle, size, INK, &shares);
}

/// The last row of the nets' part: the numbers of all of them.
fn all_nets(canvas: &mut Canvas, sale: &Sale) {
    let y = canvas.y + 2.0;
    let paint = "stroke=\"#999999\" stroke-width=\"0.8\"";
    canvas.rule((MARGIN, y), (WIDTH - MARGIN, y), paint);
    canvas.text((LABELS, y + 14.0), Anchor::End, 11, INK, "all buyers");
    net_numbers(canvas, sale, 0..=sale.nets.len() - 1, y + 14.0);
    canvas.y += 20.0;
}

/// A row for each net, with a mark for each visit.
fn single_nets(canvas: &mut Canvas, sale: &Sale) {
    const ROW: f64 = 18.0;
    if sale.nets.is_empty() {
        canvas.y += 40.0;
        canvas.heading("No buyers");
        return;
    }
    let cell = net_headings(canvas, sale, "Sessions visited by each buyer");
    for (net, &weight) in sale.nets.iter().enumerate() {
        let y = canvas.y;
        let middle = y + ROW / 2.0;
        if net % 2 == 0 {
            let at = [MARGIN, y, WIDTH - 2.0 * MARGIN, ROW];
            canvas.rect("stripe", at, "#f7f7f7", "");
        }
        let words = format!("buyer {}, weight {}", net + 1, grouped(weight));
        canvas.text((LABELS, middle + 4.0), Anchor::End, 11, INK, &words);
        for side in [Side::Draft, Side::Result] {
            for block in 1..=sale.blocks {
                let x = COLUMNS[side as usize] + cell * (block as f64 - 0.5);
                let here = sale.visits(side, net, block);
                let before = sale.visits(Side::Draft, net, block);
                if here {
                    let color = if before { VISIT } else { NEW_VISIT };
                    let paint = format!("fill=\"{color}\"");
                    canvas.circle("visit", (x, middle), 6.0, &paint);
                } else if before {
                    let paint = format!("fill=\"none\" stroke=\"{VISIT}\" stroke-width=\"1.2\"");
                    canvas.circle("saved", (x, middle), 5.4, &paint);
                } else {
                    canvas.circle("none", (x, middle), 1.2, "fill=\"#bbbbbb\"");
                }
            }
        }
        net_numbers(canvas, sale, net..=net, middle + 4.0);
        canvas.y += ROW;
    }
    all_nets(canvas, sale);
    let y = canvas.y + 20.0;
    let keys = [
        ("fill", VISIT, "visited"),
        ("fill", NEW_VISIT, "visited in the result only"),
        ("stroke", VISIT, "visited in the draft only"),
    ];
    let mut x = COLUMNS[0] + 6.0;
    for (how, color, words) in keys {
        let paint = match how {
            "fill" => format!("fill=\"{color}\""),
            _ => format!("fill=\"none\" stroke=\"{color}\" stroke-width=\"1.2\""),
        };
        canvas.circle("key", (x, y - 4.0), 5.4, &paint);
        canvas.text((x + 12.0, y), Anchor::Start, 11, FAINT, words);
        x += 40.0 + 7.0 * words.len() as f64;
    }
    canvas.y += 20.0;
}

/// A shade from white to the color of a visit, and the ink that reads on it.
fn shade(part: f64) -> (String, &'static str) {
    let mix = |white: f64, full: f64| (white + (full - white) * part).round() as u8;
    let (red, green, blue) = (mix(246.0, 47.0), mix(249.0, 95.0), mix(252.0, 143.0));
    let ink = if part > 0.5 { "#ffffff" } else { INK };
    (format!("#{red:02x}{green:02x}{blue:02x}"), ink)
}

/// A row for each band of nets: how many of them visit a block, as a number and a shade.
fn bands(canvas: &mut Canvas, sale: &Sale) {
    const ROW: f64 = 18.0;
    let size = sale.nets.len().div_ceil(BANDS);
    let words = format!("Sessions visited, by bands of {size} buyers");
    let cell = net_headings(canvas, sale, &words);
    for first in (0..sale.nets.len()).step_by(size) {
        let last = (first + size).min(sale.nets.len()) - 1;
        let y = canvas.y;
        let middle = y + ROW / 2.0 + 4.0;
        let words = if first == last {
            format!("buyer {}", first + 1)
        } else {
            format!("buyers {} to {}", first + 1, last + 1)
        };
        canvas.text((LABELS, middle), Anchor::End, 11, INK, &words);
        for side in [Side::Draft, Side::Result] {
            for block in 1..=sale.blocks {
                let visits = (first..=last)
                    .filter(|&net| sale.visits(side, net, block))
                    .count();
                let (fill, ink) = shade(visits as f64 / (last - first + 1) as f64);
                let x = COLUMNS[side as usize] + cell * (block as f64 - 1.0);
                canvas.rect("band", [x, y, cell, ROW], &fill, "");
                let at = (x + cell / 2.0, middle);
                canvas.text(at, Anchor::Middle, 10, ink, &visits.to_string());
            }
        }
        net_numbers(canvas, sale, first..=last, middle);
        canvas.y += ROW;
    }
    all_nets(canvas, sale);
    let y = canvas.y + 22.0;
    let left = COLUMNS[0];
    for step in 0..=10 {
        let (fill, _) = shade(f64::from(step) / 10.0);
        let at = [left + 14.0 * f64::from(step), y - 12.0, 14.0, 14.0];
        canvas.rect("key", at, &fill, "");
    }
    canvas.text(
        (left + 164.0, y),
        Anchor::Start,
        11,
        FAINT,
        "none to all of the band's buyers visit the session; the number says how many",
    );
    canvas.y += 22.0;
}

/// The vertices that changed: a list of them, or where they are many, all numbers and a table from
/// block to block.
fn changes(canvas: &mut Canvas, sale: &Sale) {
    canvas.y += 40.0;
    let counts = [Change::Moved, Change::Withdrawn, Change::Added]
        .map(|change| grouped(sale.how_many(change) as u64));
    let [moved, withdrawn, added] = counts;
    canvas.heading(&format!(
        "Lots: {moved} moved, {withdrawn} withdrawn, {added} added"
    ));
    let changed = sale.changed();
    if changed.len() <= LISTED {
        list(canvas, &changed);
    } else {
        let top = canvas.y;
        numbers_grid(canvas, sale);
        let below = canvas.y;
        canvas.y = top;
        table(canvas, sale);
        canvas.y = canvas.y.max(below);
    }
}

fn list(canvas: &mut Canvas, changed: &[&Vertex]) {
    const ROW: f64 = 19.0;
    const ACROSS: usize = 3;
    canvas.y += 12.0;
    let rows = changed.len().div_ceil(ACROSS);
    for (place, vertex) in changed.iter().enumerate() {
        // down the columns, so that numbers follow each other
        let x = MARGIN + 345.0 * (place / rows) as f64;
        let y = canvas.y + ROW * (place % rows) as f64;
        let at = [x, y + 2.0, 14.0, 13.0];
        canvas.rect("change", at, vertex.change().color(), "");
        let at = (x + 20.0, y + 13.0);
        canvas.text(at, Anchor::Start, 11, INK, &vertex.words());
    }
    canvas.y += ROW * rows as f64 + 8.0;
}

/// A square for each number, 32 to a row; one that was withdrawn and used again is parted in two.
fn numbers_grid(canvas: &mut Canvas, sale: &Sale) {
    const ACROSS: usize = 32;
    const CELL: f64 = 11.0;
    canvas.y += 24.0;
    let left = MARGIN + 44.0;
    let words = "A square for each lot, by number";
    canvas.text((left, canvas.y), Anchor::Start, 11, FAINT, words);
    canvas.y += 10.0;
    let mut by_number: BTreeMap<usize, Vec<&Vertex>> = BTreeMap::new();
    for vertex in &sale.vertices {
        by_number.entry(vertex.number).or_default().push(vertex);
    }
    let rows = by_number
        .keys()
        .max()
        .copied()
        .unwrap_or(0)
        .div_ceil(ACROSS);
    for row in 0..rows {
        let at = (left - 6.0, canvas.y + (CELL + 1.0) * row as f64 + 9.0);
        let words = (row * ACROSS + 1).to_string();
        canvas.text(at, Anchor::End, 10, FAINT, &words);
    }
    for (number, vertices) in by_number {
        let (row, column) = ((number - 1) / ACROSS, (number - 1) % ACROSS);
        let width = CELL / vertices.len() as f64;
        for (part, vertex) in vertices.iter().enumerate() {
            let x = left + CELL * column as f64 + width * part as f64;
            let y = canvas.y + (CELL + 1.0) * row as f64;
            let at = [x, y, width, CELL];
            canvas.rect("change", at, vertex.change().color(), &vertex.words());
        }
    }
    canvas.y += (CELL + 1.0) * rows as f64 + 8.0;
}

/// How many vertices went from each block of the draft to each of the result.
fn table(canvas: &mut Canvas, sale: &Sale) {
    const ROW: f64 = 16.0;
    let places: Vec<Option<usize>> = (1..=sale.blocks).map(Some).chain([None]).collect();
    let left = 540.0;
    let cell = ((WIDTH - MARGIN - left) / places.len() as f64).min(48.0);
    canvas.y += 24.0;
    let words = "Lots from a session of the draft (rows) to one of the result (columns)";
    canvas.text((left - 40.0, canvas.y), Anchor::Start, 11, FAINT, words);
    canvas.y += 18.0;
    for (column, place) in places.iter().enumerate() {
        let x = left + cell * (column as f64 + 0.5);
        let words = place.map_or("out".into(), |block| block.to_string());
        canvas.text((x, canvas.y), Anchor::Middle, 10, FAINT, &words);
    }
    canvas.y += 5.0;
    for &before in &places {
        let y = canvas.y;
        let words = before.map_or("added".into(), |block| block.to_string());
        canvas.text((left - 6.0, y + 12.0), Anchor::End, 10, FAINT, &words);
        for (column, &after) in places.iter().enumerate() {
            let here = |v: &&Vertex| v.before == before && v.after == after;
            let vertices: Vec<&Vertex> = sale.vertices.iter().filter(here).collect();
            let at = [left + cell * column as f64, y, cell, ROW];
            let fill = vertices.first().map_or("#f7f7f7", |v| v.change().color());
            canvas.rect("from-to", at, fill, "");
            if !vertices.is_empty() {
                let at = (at[0] + cell / 2.0, y + 12.0);
                let count = vertices.len().to_string();
                canvas.text(at, Anchor::Middle, 9, INK, &count);
            }
        }
        canvas.y += ROW;
    }
    canvas.y += 8.0;
}
