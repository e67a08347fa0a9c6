//! A small chart as SVG text: lines with marks over a logarithmic height.

use std::fmt::Write;

/// One line: its name and its points.
pub type Series = (String, Vec<(f64, f64)>);

pub struct Chart<'a> {
    pub title: &'a str,
    pub across: &'a str,
    pub up: &'a str,
    /// Whether the x axis is logarithmic too.
    pub doubling: bool,
    pub caption: &'a [String],
    pub series: Vec<Series>,
}

/// The drawn area, within a picture of this size; the legend stands beside.
const SIZE: (f64, f64) = (760.0, 450.0);
const LEFT: f64 = 70.0;
const RIGHT: f64 = 560.0;
const TOP: f64 = 40.0;
const BOTTOM: f64 = 340.0;

/// Colours that colour-blind readers can tell apart, and dashes.
const INKS: [(&str, &str); 4] = [
    ("#0072b2", "none"),
    ("#d55e00", "7 4"),
    ("#009e73", "2 3"),
    ("#cc79a7", "9 3 2 3"),
];

/// Numbers 1, 2 and 5 times powers of ten, from the last not above `low` to
/// the first not below `high`, with their labels.
fn ticks(low: f64, high: f64) -> Vec<(f64, String)> {
    let mut all = Vec::new();
    for power in -9i32..9 {
        for lead in [1.0, 2.0, 5.0] {
            let places = (-power).max(0) as usize;
            let value = lead * 10f64.powi(power);
            all.push((value, format!("{value:.places$}")));
        }
    }
    let first = all.iter().rposition(|(value, _)| *value <= low * 1.000_001);
    let last = all.iter().position(|(value, _)| *value >= high * 0.999_999);
    all[first.unwrap_or(0)..=last.unwrap_or(all.len() - 1)].to_vec()
}

impl Chart<'_> {
    fn points(&self) -> impl Iterator<Item = (f64, f64)> + '_ {
        self.series
            .iter()
            .flat_map(|(_, points)| points.iter().copied())
    }

    /// The numbers met along x, rising.
    fn stops(&self) -> Vec<f64> {
        let mut stops: Vec<f64> = self.points().map(|(x, _)| x).collect();
        stops.sort_by(f64::total_cmp);
        stops.dedup();
        stops
    }

    /// The whole picture.
    pub fn draw(&self) -> String {
        let stops = self.stops();
        let heights = || self.points().map(|(_, y)| y);
        let marks = ticks(
            heights().fold(f64::MAX, f64::min),
            heights().fold(0.0, f64::max),
        );
        let scale = |x: f64| if self.doubling { x.log2() } else { x };
        let (from, to) = (scale(stops[0]), scale(stops[stops.len() - 1]));
        let (low, high) = (marks[0].0.ln(), marks[marks.len() - 1].0.ln());
        let x_of = |x: f64| LEFT + 15.0 + (scale(x) - from) / (to - from) * (RIGHT - LEFT - 30.0);
        let y_of = |y: f64| BOTTOM - (y.ln() - low) / (high - low) * (BOTTOM - TOP);

        let mut out = format!(
            "<svg xmlns=\"http://www.w3.org/2000/svg\" viewBox=\"0 0 {} {}\" font-family=\"sans-serif\" font-size=\"12\">\n\
             <rect width=\"100%\" height=\"100%\" fill=\"white\"/>\n\
             <text x=\"{LEFT}\" y=\"24\" font-size=\"15\" font-weight=\"bold\">{}</text>\n",
            SIZE.0, SIZE.1, self.title
        );
        let mut put = |line: String| writeln!(out, "{line}").expect("text grows");
        for (value, label) in &marks {
            let y = y_of(*value);
            put(format!(
                "<path d=\"M{LEFT} {y:.1}H{RIGHT}\" stroke=\"#ddd\"/>"
            ));
            put(format!(
                "<text x=\"{}\" y=\"{:.1}\" text-anchor=\"end\">{label}</text>",
                LEFT - 7.0,
                y + 4.0
            ));
        }
        for &stop in &stops {
            let x = x_of(stop);
            put(format!("<path d=\"M{x:.1} {BOTTOM}v5\" stroke=\"black\"/>"));
            put(format!(
                "<text x=\"{x:.1}\" y=\"{}\" text-anchor=\"middle\">{stop}</text>",
                BOTTOM + 19.0
            ));
        }
        put(format!(
            "<path d=\"M{LEFT} {TOP}V{BOTTOM}H{RIGHT}\" fill=\"none\" stroke=\"black\"/>"
        ));
        let (middle, half) = ((LEFT + RIGHT) / 2.0, (TOP + BOTTOM) / 2.0);
        put(format!(
            "<text x=\"{middle}\" y=\"{}\" text-anchor=\"middle\">{}</text>",
            BOTTOM + 40.0,
            self.across
        ));
        put(format!(
            "<text transform=\"translate(18 {half}) rotate(-90)\" text-anchor=\"middle\">{}</text>",
            self.up
        ));
        for (i, (name, points)) in self.series.iter().enumerate() {
            let (ink, dash) = INKS[i % INKS.len()];
            let places = points
                .iter()
                .map(|&(x, y)| format!("{:.1},{:.1}", x_of(x), y_of(y)));
            let places = places.collect::<Vec<_>>().join(" ");
            let line = format!(
                "fill=\"none\" stroke=\"{ink}\" stroke-width=\"2\" stroke-dasharray=\"{dash}\""
            );
            put(format!("<polyline points=\"{places}\" {line}/>"));
            for &(x, y) in points {
                put(format!(
                    "<circle cx=\"{:.1}\" cy=\"{:.1}\" r=\"3\" fill=\"{ink}\"/>",
                    x_of(x),
                    y_of(y)
                ));
            }
            let (x, y) = (RIGHT + 15.0, TOP + 12.0 + 22.0 * i as f64);
            put(format!("<path d=\"M{x} {y}h34\" {line}/>"));
            put(format!(
                "<text x=\"{}\" y=\"{}\">{name}</text>",
                x + 42.0,
                y + 4.0
            ));
        }
        for (i, line) in self.caption.iter().enumerate() {
            let y = BOTTOM + 65.0 + 16.0 * i as f64;
            put(format!(
                "<text x=\"{LEFT}\" y=\"{y}\" fill=\"#444\">{line}</text>"
            ));
        }
        out + "</svg>\n"
    }
}
