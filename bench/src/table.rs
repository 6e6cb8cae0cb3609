//! The tables, as Markdown.
use crate::{history::Walk, sample::Times};
use std::fmt::Write;

/// What was measured of one walk over one history.
pub struct Row {
    pub history: String,
    pub commits: usize,
    pub links: usize,
    pub walk: Walk,
    pub listed: usize,
    pub lent: usize,
    pub ours_opening: Times,
    pub ours_walking: Times,
    pub ours_both: Times,
    pub ours_new: Times,
    pub simple_opening: Times,
    pub simple_walking: Times,
    pub simple_both: Times,
    pub files: Times,
    pub git: Times,
    pub git_start: Times,
    /// git's limit in seconds, where git was stopped at it
    pub git_stopped: Option<f64>,
}

const ABSENT: &str = "–";

fn number(x: f64) -> String {
    let digits = format!("{x:.0}");
    let mut out = String::new();
    for (at, digit) in digits.chars().enumerate() {
        if at > 0 && (digits.len() - at) % 3 == 0 && digit.is_ascii_digit() && !out.ends_with('-') {
            out.push(',');
        }
        out.push(digit);
    }
    out
}

fn ratio(ours: f64, other: f64) -> String {
    let ratio = ours / other;
    if ratio < 0.095 { format!("{ratio:.3}") } else { format!("{ratio:.2}") }
}

impl Row {
    fn per_commit(&self, time: f64) -> f64 {
        time / self.listed as f64
    }

    fn median(&self, times: &Times) -> String {
        if times.is_empty() { ABSENT.into() } else { number(self.per_commit(times.median())) }
    }

    /// The median, and the least and the most.
    fn spread(&self, times: &Times) -> String {
        if times.is_empty() {
            return ABSENT.into();
        }
        let [least, most] = [times.least(), times.most()].map(|time| number(self.per_commit(time)));
        format!("{} ({least}–{most})", self.median(times))
    }

    fn against(&self, ours: &Times, other: &Times) -> String {
        if ours.is_empty() || other.is_empty() { ABSENT.into() } else { ratio(ours.median(), other.median()) }
    }

    fn stopped(&self, seconds: f64) -> String {
        format!("over {}", number(self.per_commit(1e9 * seconds)))
    }

    fn git(&self) -> String {
        match self.git_stopped {
            Some(seconds) => self.stopped(seconds),
            None => self.spread(&self.git),
        }
    }

    /// git's time less that of a run that lists nothing; none where the two do not stand apart.
    fn git_less_start(&self) -> Option<f64> {
        let apart = !self.git.is_empty() && self.git.least() > self.git_start.most();
        apart.then(|| self.git.median() - self.git_start.median())
    }

    fn git_walking(&self) -> String {
        match self.git_stopped {
            Some(seconds) => self.stopped(seconds),
            None => self.git_less_start().map_or(ABSENT.into(), |time| number(self.per_commit(time))),
        }
    }

    fn against_git(&self) -> String {
        if self.ours_both.is_empty() {
            return ABSENT.into();
        }
        match (self.git_stopped, self.git_less_start()) {
            (Some(seconds), _) => {
                format!("under {}", ratio(self.ours_both.median(), 1e9 * seconds))
            }
            (None, Some(time)) => ratio(self.ours_both.median(), time),
            (None, None) => ABSENT.into(),
        }
    }
}

fn with(graph: bool) -> &'static str {
    if graph { "yes" } else { "no" }
}

fn head(out: &mut String, columns: &[&str]) {
    let _ = writeln!(out, "| {} |", columns.join(" | "));
    let _ = writeln!(out, "|{}", "---|".repeat(columns.len()));
}

fn line(out: &mut String, cells: &[String]) {
    let _ = writeln!(out, "| {} |", cells.join(" | "));
}

/// Every row against both peers.
pub fn main_table(rows: &[Row]) -> String {
    let mut out = String::new();
    head(
        &mut out,
        &[
            "history",
            "commits",
            "walk",
            "graph",
            "listed",
            "ours: walk",
            "ours: opening + walk",
            "ours: all, new memory",
            "Simple: walk",
            "Simple: opening + walk",
            "git: process",
            "git: less start",
            "ours/Simple, walk",
            "ours/Simple, opening + walk",
            "ours/git",
        ],
    );
    for row in rows {
        let cells = [
            row.history.clone(),
            number(row.commits as f64),
            row.walk.name.into(),
            with(row.walk.graph).into(),
            number(row.listed as f64),
            row.spread(&row.ours_walking),
            row.median(&row.ours_both),
            row.median(&row.ours_new),
            row.spread(&row.simple_walking),
            row.median(&row.simple_both),
            row.git(),
            row.git_walking(),
            row.against(&row.ours_walking, &row.simple_walking),
            row.against(&row.ours_both, &row.simple_both),
            row.against_git(),
        ];
        line(&mut out, &cells);
    }
    out
}

/// Openings in microseconds, and lent memory; of the breadth walk, whose opening reads no tip.
pub fn opening_table(rows: &[Row]) -> String {
    let mut out = String::new();
    head(
        &mut out,
        &[
            "history",
            "commits",
            "links",
            "graph",
            "lent memory, KB",
            "ours: opening",
            "Simple: opening",
            "stand-ins: files read",
            "git: start",
        ],
    );
    let micro = |times: &Times| {
        if times.is_empty() { ABSENT.into() } else { number(times.median() / 1e3) }
    };
    for row in rows.iter().filter(|row| row.walk.name == "breadth") {
        let cells = [
            row.history.clone(),
            number(row.commits as f64),
            number(row.links as f64),
            with(row.walk.graph).into(),
            if row.lent == 0 { ABSENT.into() } else { number(row.lent as f64 / 1024.0) },
            micro(&row.ours_opening),
            if row.simple_opening.is_empty() { ABSENT.into() } else { format!("{:.1}", row.simple_opening.median() / 1e3) },
            micro(&row.files),
            micro(&row.git_start),
        ];
        line(&mut out, &cells);
    }
    out
}

/// Nanoseconds for each commit at each size.
pub fn growth_table(rows: &[Row]) -> String {
    let mut out = String::new();
    head(&mut out, &["history", "walk", "graph", "at commits", "ours: walk", "most/least", "Simple: walk", "most/least"]);
    let same = |a: &Row, b: &Row| a.history == b.history && a.walk.name == b.walk.name && a.walk.graph == b.walk.graph;
    for (at, row) in rows.iter().enumerate() {
        if rows[..at].iter().any(|before| same(before, row)) {
            continue;
        }
        let sizes: Vec<&Row> = rows.iter().filter(|other| same(other, row)).collect();
        if sizes.len() < 2 {
            continue;
        }
        let [ours, simple] = [|row: &Row| row.ours_walking.clone(), |row: &Row| row.simple_walking.clone()].map(|pick| {
            let times: Vec<String> = sizes.iter().map(|row| row.median(&pick(row))).collect();
            let (first, last) = (pick(sizes[0]), pick(sizes[sizes.len() - 1]));
            let last_row = sizes[sizes.len() - 1];
            let growth = if first.is_empty() {
                ABSENT.into()
            } else {
                format!("{:.2}", last_row.per_commit(last.median()) / sizes[0].per_commit(first.median()))
            };
            [times.join(", "), growth]
        });
        let [ours_times, ours_growth] = ours;
        let [simple_times, simple_growth] = simple;
        let commits: Vec<String> = sizes.iter().map(|row| number(row.commits as f64)).collect();
        let cells = [
            row.history.clone(),
            row.walk.name.into(),
            with(row.walk.graph).into(),
            commits.join("; "),
            ours_times.replace(", ", "; "),
            ours_growth,
            simple_times.replace(", ", "; "),
            simple_growth,
        ];
        line(&mut out, &cells);
    }
    out
}

/// Every sample in nanoseconds, tab between cells.
pub fn samples(rows: &[Row]) -> String {
    let mut out = String::from("history\tcommits\twalk\tgraph\tlisted\twhat\tnanoseconds...\n");
    for row in rows {
        let things = [
            ("ours opening", &row.ours_opening),
            ("ours walk", &row.ours_walking),
            ("ours opening + walk", &row.ours_both),
            ("ours new memory", &row.ours_new),
            ("Simple opening", &row.simple_opening),
            ("Simple walk", &row.simple_walking),
            ("Simple opening + walk", &row.simple_both),
            ("stand-ins files", &row.files),
            ("git", &row.git),
            ("git start", &row.git_start),
        ];
        for (what, times) in things {
            let _ = write!(out, "{}\t{}\t{}\t{}\t{}\t{what}", row.history, row.commits, row.walk.name, row.walk.graph, row.listed);
            for time in times.all() {
                let _ = write!(out, "\t{time:.0}");
            }
            out.push('\n');
        }
    }
    out
}
