//! The chart of the report page, as SVG: means, differences and runs of each term, one above the other. Kinds are told apart by shape and pattern as well
//! as by colour.

use std::fmt::Write as _;

use linenhatch::{FeedReport, Term};

use crate::page::{decimal, escaped, grouped, label};

const WIDTH: f64 = 960.0;
const RIGHT: f64 = 12.0;
/// About how wide a digit is.
const DIGIT: f64 = 7.4;

/// A part of the chart with an axis of its own.
struct Panel {
    top: f64,
    height: f64,
    scale: Scale,
    places: usize,
    signed: bool,
}

/// An axis from one round number to another.
#[derive(Clone, Debug, PartialEq)]
struct Scale {
    low: f64,
    high: f64,
    step: f64,
}

impl Scale {
    /// Round numbers around some values, about four steps of 1, 2 or 5 of a power of ten; none where there are no values.
    fn around(values: impl Iterator<Item = f64>, least_step: f64) -> Option<Scale> {
        let (low, high) = values.fold((f64::INFINITY, f64::NEG_INFINITY), |(low, high), value| (low.min(value), high.max(value)));
        if low > high {
            return None;
        }
        let rough = ((high - low) / 4.0).max(least_step).max(high.abs().max(low.abs()) * 1e-9);
        let power = 10f64.powf(rough.log10().floor());
        let step = [1.0, 2.0, 5.0, 10.0].into_iter().map(|times| times * power).find(|step| *step >= rough * 0.999).unwrap_or(10.0 * power);
        let (below, above) = ((low / step).floor() * step, (high / step).ceil() * step);
        let above = if above > below { above } else { below + step };
        Some(Scale { low: below, high: above, step })
    }

    fn ticks(&self) -> Vec<f64> {
        let count = ((self.high - self.low) / self.step).round() as usize;
        (0..=count).map(|n| self.low + n as f64 * self.step).collect()
    }

    /// How many places the numbers of the axis need.
    fn places(&self) -> usize {
        (-(self.step.log10() + 1e-9).floor()).clamp(0.0, 6.0) as usize
    }
}

impl Panel {
    fn y(&self, value: f64) -> f64 {
        self.top + self.height * (self.scale.high - value) / (self.scale.high - self.scale.low)
    }

    fn bottom(&self) -> f64 {
        self.top + self.height
    }

    fn tick_text(&self, tick: f64) -> String {
        decimal(tick, self.places, self.signed)
    }
}

/// Where the columns stand.
struct Columns {
    left: f64,
    width: f64,
}

impl Columns {
    fn middle(&self, n: usize) -> f64 {
        self.left + (n as f64 + 0.5) * self.width
    }

    fn bar(&self) -> f64 {
        (0.52 * self.width).min(48.0)
    }

    /// Whether texts of so many characters fit side by side.
    fn fit(&self, texts: impl Iterator<Item = String>) -> bool {
        self.width >= DIGIT * longest(texts) + 6.0
    }
}

fn longest(texts: impl Iterator<Item = String>) -> f64 {
    texts.map(|text| text.chars().count()).max().unwrap_or(0) as f64
}

/// The chart of some terms, of which there is one at least.
pub fn chart(terms: &[(Term, FeedReport)]) -> String {
    let reports: Vec<&FeedReport> = terms.iter().map(|(_, report)| report).collect();
    let panels = panels(&reports);
    let tick_width =
        panels.iter().map(|(_, panel)| longest(panel.scale.ticks().into_iter().map(|tick| panel.tick_text(tick)))).fold(0.0, f64::max);
    let left = DIGIT * tick_width + 14.0;
    let columns = Columns { left, width: (WIDTH - RIGHT - left) / terms.len() as f64 };
    let mut out = String::new();
    for (kind, panel) in &panels {
        frame(&mut out, panel, &columns);
        match kind {
            Kind::Means => means(&mut out, panel, &columns, &reports),
            Kind::Differences => differences(&mut out, panel, &columns, &reports),
            Kind::Runs => runs(&mut out, panel, &columns, &reports),
        }
    }
    let bottom = panels.last().map_or(0.0, |(_, panel)| panel.bottom());
    let height = names(&mut out, bottom, &columns, terms);
    format!(
        "<svg viewBox=\"0 0 {WIDTH} {height:.0}\" role=\"img\" aria-labelledby=\"chart-title chart-text\">\n\
         <title id=\"chart-title\">Feeds and runs of each term</title>\n\
         <desc id=\"chart-text\">Mean cone and bed feed in millimetres, the mean of cone less bed in millimetres, and the number of runs, term by term. The table has the \
         same numbers.</desc>\n\
         <defs><pattern id=\"stripes\" width=\"6\" height=\"6\" patternUnits=\"userSpaceOnUse\" patternTransform=\"rotate(45)\">\
         <rect class=\"ground\" width=\"6\" height=\"6\"/><line class=\"stripe\" x1=\"1.5\" y1=\"0\" x2=\"1.5\" y2=\"6\"/></pattern></defs>\n{out}</svg>\n"
    )
}

#[derive(Clone, Copy)]
enum Kind {
    Means,
    Differences,
    Runs,
}

/// The panels that have something to show, from above.
fn panels(reports: &[&FeedReport]) -> Vec<(Kind, Panel)> {
    let means = || reports.iter().flat_map(|report| [report.cone_mean(), report.bed_mean()]).flatten();
    let differences = || reports.iter().filter_map(|report| report.difference_mean()).chain([0.0]);
    let room = |scale: Option<Scale>| scale.map(|scale| (scale.high - scale.low) * 0.1);
    // Some room above and below, where the values are written.
    let pad = room(Scale::around(means(), 0.1)).unwrap_or(0.0);
    let wide = means().flat_map(|mean| [(mean - pad).max(0.0), mean + pad]);
    let some = reports.iter().any(|report| report.both > 0);
    let more = room(Scale::around(differences(), 0.1)).unwrap_or(0.0);
    let widest = differences().flat_map(|mean| [mean, mean + 1.4 * more * if mean < 0.0 { -1.0 } else { f64::from(u8::from(mean > 0.0)) }]);
    let most = reports.iter().map(|report| report.commits() as f64 * 1.08).chain([0.0]);
    let scales = [
        (Kind::Means, Scale::around(wide, 0.1), 176.0),
        (Kind::Differences, Scale::around(widest, 0.1).filter(|_| some), 106.0),
        (Kind::Runs, Scale::around(most, 1.0), 106.0),
    ];
    let mut top = 0.0;
    let mut panels = Vec::new();
    for (kind, scale, height) in scales {
        let Some(scale) = scale else { continue };
        top += 38.0;
        let places = scale.places();
        panels.push((kind, Panel { top, height, scale, places, signed: matches!(kind, Kind::Differences) }));
        top += height + 14.0;
    }
    panels
}

/// The lines of a panel, and the numbers beside them.
fn frame(out: &mut String, panel: &Panel, columns: &Columns) {
    for tick in panel.scale.ticks() {
        let y = panel.y(tick);
        put(out, format_args!("<line class=\"rule\" x1=\"{:.1}\" x2=\"{:.1}\" y1=\"{y:.1}\" y2=\"{y:.1}\"/>", columns.left, WIDTH - RIGHT));
        put(
            out,
            format_args!(
                "<text class=\"quiet\" x=\"{:.1}\" y=\"{:.1}\" text-anchor=\"end\">{}</text>",
                columns.left - 8.0,
                y + 4.5,
                panel.tick_text(tick)
            ),
        );
    }
}

/// A panel's name, and what its marks mean, from the right.
fn head(out: &mut String, panel: &Panel, what: &str, legend: &[(&str, Mark)]) {
    let y = panel.top - 16.0;
    put(out, format_args!("<text class=\"head\" x=\"0\" y=\"{y:.1}\">{what}</text>"));
    let mut x = WIDTH - RIGHT;
    for (text, mark) in legend.iter().rev() {
        x -= 7.0 * text.chars().count() as f64;
        put(out, format_args!("<text x=\"{x:.1}\" y=\"{y:.1}\">{text}</text>"));
        x -= if matches!(mark, Mark::Run(_)) { 24.0 } else { 38.0 };
        mark.put(out, x, y - 4.5);
        x -= 22.0;
    }
}

#[derive(Clone, Copy)]
enum Mark {
    Cone,
    Bed,
    Run(&'static str),
}

impl Mark {
    /// The mark as it stands in a legend, from a place on.
    fn put(self, out: &mut String, x: f64, y: f64) {
        match self {
            Mark::Cone | Mark::Bed => {
                let kind = if matches!(self, Mark::Cone) { "cone" } else { "bed" };
                put(out, format_args!("<line class=\"trend {kind}\" x1=\"{:.1}\" x2=\"{:.1}\" y1=\"{y:.1}\" y2=\"{y:.1}\"/>", x, x + 30.0));
                self.at(out, x + 15.0, y);
            }
            Mark::Run(kind) => {
                put(out, format_args!("<rect class=\"run {kind}\" x=\"{:.1}\" y=\"{:.1}\" width=\"16\" height=\"12\"/>", x + 2.0, y - 6.0))
            }
        }
    }

    /// The mark of a mean: a full circle for the cone, an empty square for the bed.
    fn at(self, out: &mut String, x: f64, y: f64) {
        match self {
            Mark::Cone => put(out, format_args!("<circle class=\"mark cone\" cx=\"{x:.1}\" cy=\"{y:.1}\" r=\"4.5\"/>")),
            _ => put(out, format_args!("<rect class=\"mark bed\" x=\"{:.1}\" y=\"{:.1}\" width=\"9\" height=\"9\"/>", x - 4.5, y - 4.5)),
        }
    }
}

fn means(out: &mut String, panel: &Panel, columns: &Columns, reports: &[&FeedReport]) {
    head(out, panel, "Mean feed, mm", &[("cone", Mark::Cone), ("bed", Mark::Bed)]);
    let cones: Vec<Option<f64>> = reports.iter().map(|report| report.cone_mean()).collect();
    let beds: Vec<Option<f64>> = reports.iter().map(|report| report.bed_mean()).collect();
    for (kind, means) in [("cone", &cones), ("bed", &beds)] {
        for part in means.iter().enumerate().collect::<Vec<_>>().split(|(_, mean)| mean.is_none()).filter(|part| part.len() > 1) {
            let points: Vec<String> =
                part.iter().filter_map(|(n, mean)| Some(format!("{:.1},{:.1}", columns.middle(*n), panel.y((**mean)?)))).collect();
            put(out, format_args!("<polyline class=\"trend {kind}\" points=\"{}\"/>", points.join(" ")));
        }
    }
    let written = columns.fit(cones.iter().chain(&beds).flatten().map(|&mean| decimal(mean, 1, false)));
    for (n, (cone, bed)) in cones.iter().zip(&beds).enumerate() {
        for (mark, mean, other) in [(Mark::Bed, bed, cone), (Mark::Cone, cone, bed)] {
            let Some(mean) = *mean else { continue };
            let (x, y) = (columns.middle(n), panel.y(mean));
            mark.at(out, x, y);
            if written {
                let is_upper = other.is_none_or(|other| mean > other || (mean == other && matches!(mark, Mark::Cone)));
                value(out, x, if is_upper { y - 11.0 } else { y + 20.0 }, &decimal(mean, 1, false));
            }
        }
    }
}

fn differences(out: &mut String, panel: &Panel, columns: &Columns, reports: &[&FeedReport]) {
    head(out, panel, "Mean of cone less bed, mm", &[]);
    let written = columns.fit(reports.iter().filter_map(|report| report.difference_mean()).map(|mean| decimal(mean, 1, true)));
    let (zero, bar) = (panel.y(0.0), columns.bar());
    for (n, mean) in reports.iter().enumerate().filter_map(|(n, report)| Some((n, report.difference_mean()?))) {
        let (x, y) = (columns.middle(n), panel.y(mean));
        put(
            out,
            format_args!(
                "<rect class=\"difference\" x=\"{:.1}\" y=\"{:.1}\" width=\"{bar:.1}\" height=\"{:.1}\"/>",
                x - bar / 2.0,
                y.min(zero),
                (y - zero).abs()
            ),
        );
        if written {
            value(out, x, if mean < 0.0 { y + 16.0 } else { y - 6.0 }, &decimal(mean, 1, true));
        }
    }
    put(
        out,
        format_args!("<line class=\"axis\" x1=\"{:.1}\" x2=\"{:.1}\" y1=\"{zero:.1}\" y2=\"{zero:.1}\"/>", columns.left, WIDTH - RIGHT),
    );
}

fn runs(out: &mut String, panel: &Panel, columns: &Columns, reports: &[&FeedReport]) {
    const KINDS: [(&str, &str); 4] = [("both", "both"), ("cone alone", "cone"), ("bed alone", "bed"), ("neither", "neither")];
    head(out, panel, "Runs", &KINDS.map(|(text, kind)| (text, Mark::Run(kind))));
    let bar = columns.bar();
    let written = columns.fit(reports.iter().map(|report| grouped(report.commits())));
    for (n, report) in reports.iter().enumerate() {
        let x = columns.middle(n);
        let mut below = 0;
        for ((_, kind), count) in KINDS.iter().zip([report.both, report.cone_alone, report.bed_alone, report.neither]) {
            let (from, to) = (panel.y(below as f64), panel.y((below + count) as f64));
            below += count;
            if count > 0 {
                put(
                    out,
                    format_args!(
                        "<rect class=\"run {kind}\" x=\"{:.1}\" y=\"{to:.1}\" width=\"{bar:.1}\" height=\"{:.1}\"/>",
                        x - bar / 2.0,
                        from - to
                    ),
                );
            }
        }
        if written {
            value(out, x, panel.y(below as f64) - 6.0, &grouped(below));
        }
    }
    let zero = panel.y(0.0);
    put(
        out,
        format_args!("<line class=\"axis\" x1=\"{:.1}\" x2=\"{:.1}\" y1=\"{zero:.1}\" y2=\"{zero:.1}\"/>", columns.left, WIDTH - RIGHT),
    );
}

fn value(out: &mut String, x: f64, y: f64, text: &str) {
    put(out, format_args!("<text class=\"value\" x=\"{x:.1}\" y=\"{y:.1}\" text-anchor=\"middle\">{text}</text>"));
}

/// The terms under their columns, upright where they do not fit side by side; and how high the chart is.
fn names(out: &mut String, bottom: f64, columns: &Columns, terms: &[(Term, FeedReport)]) -> f64 {
    let labels: Vec<String> = terms.iter().map(|(term, _)| escaped(&label(term))).collect();
    let halves = |label: &String| label.split(" – ").map(String::from).collect::<Vec<_>>();
    if columns.fit(labels.iter().cloned()) {
        for (n, label) in labels.iter().enumerate() {
            put(out, format_args!("<text x=\"{:.1}\" y=\"{:.1}\" text-anchor=\"middle\">{label}</text>", columns.middle(n), bottom + 20.0));
        }
        return bottom + 28.0;
    }
    if columns.fit(labels.iter().flat_map(halves).map(|half| half + " –")) {
        for (n, label) in labels.iter().enumerate() {
            for (line, half) in halves(label).iter().enumerate() {
                let dash = if line == 0 && label.contains('–') { " –" } else { "" };
                let y = bottom + 20.0 + 17.0 * line as f64;
                put(out, format_args!("<text x=\"{:.1}\" y=\"{y:.1}\" text-anchor=\"middle\">{half}{dash}</text>", columns.middle(n)));
            }
        }
        return bottom + 45.0;
    }
    for (n, label) in labels.iter().enumerate() {
        let (x, y) = (columns.middle(n) + 4.5, bottom + 10.0);
        put(
            out,
            format_args!("<text x=\"{x:.1}\" y=\"{y:.1}\" text-anchor=\"end\" transform=\"rotate(-90 {x:.1} {y:.1})\">{label}</text>"),
        );
    }
    bottom + 18.0 + DIGIT * longest(labels.into_iter())
}

fn put(out: &mut String, text: std::fmt::Arguments<'_>) {
    writeln!(out, "{text}").expect("a string takes all");
}

#[cfg(test)]
mod tests {
    use super::*;

    #[test]
    fn round_numbers() {
        let scale = |values: &[f64]| Scale::around(values.iter().copied(), 0.1).unwrap();
        assert_eq!(scale(&[1203.0, 1251.0]), Scale { low: 1200.0, high: 1260.0, step: 20.0 });
        assert_eq!(scale(&[1203.0, 1251.0]).ticks(), [1200.0, 1220.0, 1240.0, 1260.0]);
        assert_eq!((scale(&[0.0, 1.3]).places(), scale(&[0.0, 4.0]).places(), scale(&[0.0, 0.1]).places()), (1, 0, 1));
        assert_eq!(Scale::around([].into_iter(), 0.1), None);
        for values in [[0.0, 0.0], [7.0, 7.0], [-3.0, 3.0], [0.0, 1e9], [1e9, 1e9], [-1e9, -1e9]] {
            let scale = scale(&values);
            assert!(scale.low < scale.high && scale.low <= values[0] && scale.high >= values[1], "{scale:?}");
            assert!((1..=9).contains(&scale.ticks().len().saturating_sub(1)), "{scale:?}");
        }
    }

    /// Any reports give a chart with numbers for places.
    #[test]
    fn any_reports() {
        let month = |n: u32| linenhatch::Month::new(2000 + n, 9).unwrap();
        let reports = [
            FeedReport::default(),
            FeedReport { neither: 5, ..FeedReport::default() },
            FeedReport { cone_alone: 1, cone_sum: 1_000_000_000, ..FeedReport::default() },
            FeedReport { both: 3, bed_sum: 7, difference: -7, ..FeedReport::default() },
        ];
        for count in [1, 2, 3, 24] {
            for start in 0..4 {
                let terms: Vec<_> =
                    (0..count).map(|n| (Term { first: month(n), last: month(n) }, reports[(start + n as usize) % 4])).collect();
                let text = chart(&terms);
                assert!(
                    text.starts_with("<svg ") && text.ends_with("</svg>\n") && !text.contains("NaN") && !text.contains("inf"),
                    "{text}"
                );
            }
        }
    }
}
