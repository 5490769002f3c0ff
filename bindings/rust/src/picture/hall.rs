//! A hall as SVG: the weights of its blocks over all catalogues against the hall's limit, then each
//! catalogue as a sale is drawn. Rests on `Hall` for the run and on the drawing of one catalogue.

use super::{
    column_titles, dashes, draw, extent, file_of, grouped, many, numbers, Anchor, Canvas, Refused,
    Run, Sale, Side, AT_CAP, CAP, COLUMNS, FAINT, INK, LABELS, MARGIN, WEIGHTS, WIDTH,
};
use crate::Hall;

/// A color for each catalogue, none of which means a change of a lot.
const CATALOGUES: [&str; 4] = ["#5b8db8", "#b98ac0", "#6fb0a5", "#c9b458"];

/// A limit of more than so many times the heaviest block lies outside the frame, so that the bars of
/// blocks far below it can still be read.
const FRAME: u64 = 4;

/// What is drawn of an accepted hall.
pub(super) struct SalesHall {
    limit: u64,
    sales: Vec<Sale>,
}

impl SalesHall {
    /// Runs a file and its catalogues alone; an error is the code and the report of a refused file. An
    /// accepted file has the form of a hall's, so its lines are taken apart without tests.
    pub(super) fn read(file: &[u8]) -> Result<SalesHall, Refused> {
        let mut hall = Hall::new();
        let (code, report) = hall.run(file);
        if code != 0 {
            return Err((code, report.to_vec()));
        }
        let report = String::from_utf8_lossy(report).into_owned();
        let text = String::from_utf8_lossy(file);
        let lines: Vec<&str> = text.lines().collect();
        let header = numbers(lines[0]);
        let mut rest = &lines[1..];
        let mut catalogues = Vec::new();
        for _ in 0..header[0] {
            let (catalogue, behind) = rest.split_at(extent(rest[0]).0);
            catalogues.push(catalogue);
            rest = behind;
        }
        let calls = rest;
        let result_visited: Vec<Vec<u16>> = (1..)
            .zip(&catalogues)
            .map(|(number, catalogue)| hall.visited(number)[..extent(catalogue[0]).1].to_vec())
            .collect();

        let drafts = &lines[..lines.len() - calls.len()];
        let (code, draft_report) = hall.run(&file_of(drafts));
        if code != 0 {
            return Err((code, draft_report.to_vec()));
        }

        let report: Vec<&str> = report.lines().collect();
        let (answers, closing) = report.split_at(calls.len());
        // each closing report begins with its totals
        let closings: Vec<&[&str]> = closing
            .chunk_by(|_, next| !next.starts_with("TOTAL,"))
            .collect();
        let mut sales = Vec::new();
        for (place, visited) in result_visited.into_iter().enumerate() {
            let number = place + 1;
            let lead = format!("{number},");
            let led = calls.iter().zip(answers);
            let own = led.filter_map(|(call, answer)| {
                Some((call.strip_prefix(&lead)?, answer.strip_prefix(&lead)?))
            });
            sales.push(Sale::of(Run {
                catalogue: catalogues[place],
                calls: own.collect(),
                closing: closings[place],
                draft: hall.lots(number),
                visited: [hall.visited(number)[..visited.len()].to_vec(), visited],
            }));
        }
        Ok(SalesHall {
            limit: header[1],
            sales,
        })
    }

    pub(super) fn draw(&self, canvas: &mut Canvas) {
        self.title(canvas);
        self.bars(canvas);
        for (number, sale) in (1..).zip(&self.sales) {
            canvas.y += 40.0;
            let y = canvas.y;
            let paint = format!("stroke=\"{FAINT}\" stroke-width=\"1\"");
            canvas.rule((MARGIN, y), (WIDTH - MARGIN, y), &paint);
            canvas.line("<g class=\"catalogue\">");
            draw(canvas, sale, Some(number));
            canvas.line("</g>");
        }
    }

    fn blocks(&self) -> usize {
        let blocks = self.sales.iter().map(|sale| sale.blocks);
        blocks.max().unwrap_or(0)
    }

    fn weight(&self, side: Side, block: usize) -> u64 {
        let weights = self.sales.iter().map(|sale| sale.weight(side, block));
        weights.sum()
    }

    /// What a bar of full length stands for: the limit, or less where it is far off.
    fn full(&self) -> u64 {
        let blocks = 1..=self.blocks();
        let heaviest = blocks
            .flat_map(|block| [Side::Draft, Side::Result].map(|side| self.weight(side, block)))
            .max();
        self.limit.min(FRAME * heaviest.unwrap_or(0)).max(1)
    }

    fn totals(&self) -> [u64; 2] {
        [0, 1].map(|side| self.sales.iter().map(|sale| sale.totals[side]).sum())
    }

    fn title(&self, canvas: &mut Canvas) {
        let words = format!("Hall of {}", many(self.sales.len(), "catalogue"));
        canvas.text((MARGIN, 36.0), Anchor::Start, 20, INK, &words);
        let words = format!(
            "Limit {} bales a session over all catalogues; a session that a catalogue has not counts \
             as empty there",
            grouped(self.limit)
        );
        canvas.text((MARGIN, 60.0), Anchor::Start, 13, FAINT, &words);
        let mut x = MARGIN;
        let y = 88.0;
        for (number, (sale, color)) in (1..).zip(self.sales.iter().zip(CATALOGUES)) {
            let words = format!("catalogue {number} ({})", many(sale.loaded, "lot"));
            canvas.rect("key", [x, y - 11.0, 16.0, 14.0], color, "");
            canvas.text((x + 22.0, y), Anchor::Start, 12, INK, &words);
            x += 190.0;
        }
        canvas.rule((x, y - 4.0), (x + 20.0, y - 4.0), &dashes());
        canvas.text((x + 26.0, y), Anchor::Start, 12, INK, "limit");
        canvas.y = 128.0;
        column_titles(canvas, self.totals());
    }

    /// A bar for each block in draft and result, with a part for each catalogue that has weight there.
    fn bars(&self, canvas: &mut Canvas) {
        const ROW: f64 = 26.0;
        let full = self.full();
        canvas.y += 34.0;
        canvas.heading("Bales over all catalogues");
        for left in COLUMNS {
            let outside = if full < self.limit { " →" } else { "" };
            let words = format!("limit {}{outside}", grouped(self.limit));
            let at = (left + AT_CAP, canvas.y);
            canvas.text(at, Anchor::End, 11, CAP, &words);
            let at = (left + WEIGHTS, canvas.y);
            canvas.text(at, Anchor::End, 11, FAINT, "bales, % of limit");
        }
        canvas.y += 8.0;
        let top = canvas.y;
        for block in 1..=self.blocks() {
            let middle = canvas.y + ROW / 2.0 + 4.0;
            let words = format!("session {block}");
            canvas.text((LABELS, middle), Anchor::End, 12, INK, &words);
            for side in [Side::Draft, Side::Result] {
                self.bar(canvas, side, block, ROW - 6.0);
                let weight = self.weight(side, block);
                // rounded down, so that 100 % is the limit itself
                let share = weight * 100 / self.limit.max(1);
                let words = format!("{}, {share} %", grouped(weight));
                let at = (COLUMNS[side as usize] + WEIGHTS, middle);
                canvas.text(at, Anchor::End, 12, INK, &words);
            }
            canvas.y += ROW;
        }
        if full == self.limit {
            for left in COLUMNS {
                let (x, bottom) = (left + AT_CAP, canvas.y);
                canvas.rule((x, top), (x, bottom), &dashes());
            }
        }
    }

    fn bar(&self, canvas: &mut Canvas, side: Side, block: usize, height: f64) {
        let (left, y) = (COLUMNS[side as usize], canvas.y + 3.0);
        let scale = AT_CAP / self.full() as f64;
        canvas.line("<g class=\"hall-bar\">");
        // the room under the limit, so that an empty session has a bar too
        canvas.rect("room", [left, y, AT_CAP, height], "#f1f1f1", "");
        let mut x = left;
        for (number, (sale, color)) in (1..).zip(self.sales.iter().zip(CATALOGUES)) {
            let weight = sale.weight(side, block);
            if weight == 0 {
                continue;
            }
            let width = weight as f64 * scale;
            let words = format!("catalogue {number}: {} bales", grouped(weight));
            canvas.rect("part", [x, y, width, height], color, &words);
            let shown = grouped(weight);
            if width >= 8.0 * shown.len() as f64 + 4.0 {
                let at = (x + width / 2.0, y + height / 2.0 + 4.0);
                canvas.text(at, Anchor::Middle, 11, INK, &shown);
            }
            x += width;
        }
        canvas.line("</g>");
    }
}
