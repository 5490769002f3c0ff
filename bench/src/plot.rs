//! A bar for each ratio, as SVG, in parts with a heading. The scale doubles from line to line, so that a
//! ratio of 1/2 and one of 50 can both be read: bars start at 1, to the left where the engine is faster.

use std::fmt::Write;

const WIDTH: f64 = 900.0;
const LABELS: f64 = 430.0;
const RATIOS: f64 = 70.0;
const ROW: f64 = 24.0;
const HEADING: f64 = 34.0;
const TOP: f64 = 116.0;

/// A ratio with its label, and what it is a ratio to.
pub struct Bar {
    pub name: String,
    pub ratio: f64,
    pub over: Over,
}

/// Bars under a heading.
pub struct Part {
    pub title: &'static str,
    pub bars: Vec<Bar>,
}

/// What a time is divided by; the engine's but for sheets.
#[derive(Clone, Copy, Debug, PartialEq, Eq)]
pub enum Over {
    /// That of the tuned splitter.
    Tuned,
    /// That of the tuned splitter with its index.
    Indexed,
    /// Its own, on the catalogues of a hall as sales.
    Sales,
    /// The engine's on a sale, where the time is that of its sheets.
    Loading,
}

impl Over {
    pub const ALL: [Over; 4] = [Over::Tuned, Over::Indexed, Over::Sales, Over::Loading];

    /// The ratio to stay under.
    pub fn limit(self) -> f64 {
        match self {
            Over::Tuned | Over::Indexed => 1.5,
            Over::Sales => 1.15,
            Over::Loading => 2.0,
        }
    }

    fn color(self) -> &'static str {
        match self {
            Over::Tuned => "#4a7ba6",
            Over::Indexed => "#3f9c8f",
            Over::Sales => "#8a6bb0",
            Over::Loading => "#b08a4a",
        }
    }

    pub fn words(self) -> &'static str {
        match self {
            Over::Tuned => "over the tuned splitter",
            Over::Indexed => "over the tuned splitter with its index",
            Over::Sales => "a hall over its sales",
            Over::Loading => "sheets over loading",
        }
    }
}

/// Where a ratio stands: powers of two at even distances, from the one below all bars to the one above.
struct Scale {
    lowest: i32,
    highest: i32,
}

impl Scale {
    fn of(parts: &[Part]) -> Self {
        let ratios = parts
            .iter()
            .flat_map(|part| &part.bars)
            .map(|bar| bar.ratio);
        let (mut low, mut high) = (0.5f64, 2.0f64);
        for ratio in ratios {
            (low, high) = (low.min(ratio), high.max(ratio));
        }
        Scale {
            lowest: low.log2().floor() as i32,
            highest: high.log2().ceil() as i32,
        }
    }

    fn x(&self, ratio: f64) -> f64 {
        let all = f64::from(self.highest - self.lowest);
        LABELS + (ratio.log2() - f64::from(self.lowest)) / all * (WIDTH - LABELS - RATIOS)
    }
}

/// The whole picture: a line at each power of two, a dashed one at each bar's limit, the ratio behind.
pub fn picture(parts: &[Part]) -> String {
    let rows: usize = parts.iter().map(|part| part.bars.len()).sum();
    let bottom = TOP + HEADING * parts.len() as f64 + ROW * rows as f64;
    let height = bottom + 16.0;
    let mut svg = format!(
        "<svg xmlns=\"http://www.w3.org/2000/svg\" viewBox=\"0 0 {WIDTH} {height}\" \
         font-family=\"sans-serif\" font-size=\"13\">\n\
         <rect width=\"{WIDTH}\" height=\"{height}\" fill=\"white\"/>\n\
         <text x=\"16\" y=\"26\" font-size=\"16\">Time of the proved engine over that of a tuned \
         Rust splitter</text>\n\
         <text x=\"16\" y=\"46\" fill=\"#555\">Medians of one run, lent memory not cleared; further \
         left is faster; dashed: the limit</text>\n"
    );
    let scale = Scale::of(parts);
    legend(&mut svg);
    grid(&mut svg, &scale, bottom);
    let mut y = TOP;
    for part in parts {
        let middle = y + 23.0;
        let title = part.title;
        line(
            &mut svg,
            format!("<text x=\"16\" y=\"{middle}\" font-weight=\"bold\">{title}</text>"),
        );
        y += HEADING;
        for one in &part.bars {
            bar(&mut svg, &scale, y, one);
            y += ROW;
        }
    }
    svg.push_str("</svg>\n");
    svg
}

fn line(svg: &mut String, text: String) {
    writeln!(svg, "{text}").expect("a string takes any text");
}

/// What each color is over, with its limit.
fn legend(svg: &mut String) {
    for (place, over) in Over::ALL.into_iter().enumerate() {
        let x = 16.0 + 330.0 * (place % 2) as f64;
        let y = 66.0 + 18.0 * (place / 2) as f64;
        let (color, words, limit) = (over.color(), over.words(), over.limit());
        line(
            svg,
            format!(
                "<circle cx=\"{}\" cy=\"{y}\" r=\"5\" fill=\"{color}\"/><text x=\"{}\" y=\"{}\" \
                 font-size=\"11\">{words}, at most {limit}</text>",
                x + 5.0,
                x + 15.0,
                y + 4.0
            ),
        );
    }
}

fn grid(svg: &mut String, scale: &Scale, bottom: f64) {
    for power in scale.lowest..=scale.highest {
        let x = scale.x(f64::from(power).exp2());
        let name = if power < 0 {
            format!("1/{}", 1 << -power)
        } else {
            format!("{}", 1 << power)
        };
        let color = if power == 0 { "#333" } else { "#ddd" };
        line(
            svg,
            format!(
                "<path d=\"M{x:.1} {:.0}V{bottom:.0}\" stroke=\"{color}\"/><text x=\"{x:.1}\" \
                 y=\"{:.0}\" text-anchor=\"middle\" fill=\"#555\">{name}</text>",
                TOP - 4.0,
                TOP - 10.0
            ),
        );
    }
}

fn bar(svg: &mut String, scale: &Scale, y: f64, bar: &Bar) {
    let Bar { name, ratio, over } = bar;
    let middle = y + 16.0;
    let (one, end) = (scale.x(1.0), scale.x(*ratio));
    line(
        svg,
        format!(
            "<text x=\"{:.0}\" y=\"{middle}\" text-anchor=\"end\">{name}</text>",
            LABELS - 8.0
        ),
    );
    line(
        svg,
        format!(
            "<rect x=\"{:.1}\" y=\"{:.0}\" width=\"{:.1}\" height=\"16\" fill=\"{}\"/>",
            one.min(end),
            y + 4.0,
            (end - one).abs(),
            over.color()
        ),
    );
    line(
        svg,
        format!(
            "<text x=\"{:.0}\" y=\"{middle}\" text-anchor=\"end\">{ratio:.2}</text>",
            WIDTH - 16.0
        ),
    );
    let limit = scale.x(over.limit());
    line(
        svg,
        format!(
            "<line x1=\"{limit:.1}\" y1=\"{y:.0}\" x2=\"{limit:.1}\" y2=\"{:.0}\" stroke=\"#b03030\" \
             stroke-dasharray=\"5 3\"/>",
            y + ROW
        ),
    );
}
