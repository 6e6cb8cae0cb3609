//! The report page: feed and terms together as one file of HTML that needs no other, for a screen and for paper.

use std::io::{self, Write};

use linenhatch::{FeedReport, ObjectId, Term};

use crate::args::Page;
use crate::chart::chart;
use crate::embargo::Embargo;
use crate::history::History;
use crate::listing::written;
use crate::refused::counted;
use crate::replace;
use crate::repository::Repository;
use crate::split::{split, Parts};
use crate::table::day_of;

/// Writes the page; or says why there is none, and then no byte is written.
pub fn page(page: &Page) -> Result<(), String> {
    let args = &page.args;
    let history = History::read(args, |commits| {
        commits.whole.finish().map_err(|too_large| format!("the messages cannot be read at once: {too_large}"))
    })?;
    let embargo = Embargo::read(args)?;
    let parts = split(&history, args, &embargo, &page.terms)?;
    let text = html(page, &history, &parts);
    match &page.file {
        None => written(io::stdout().write_all(text.as_bytes()), "page"),
        Some(path) => replace(path, text.as_bytes()),
    }
}

const STYLE: &str = include_str!("page.css");

fn html(page: &Page, history: &History, parts: &Parts) -> String {
    let title = escaped(page.title.as_deref().unwrap_or("Feed report"));
    let chart = if parts.terms.is_empty() { String::new() } else { figure(parts) };
    format!(
        "<!DOCTYPE html>\n<html lang=\"en\">\n<head>\n<meta charset=\"utf-8\">\n<meta name=\"viewport\" content=\"width=device-width, initial-scale=1\">\n\
         <meta name=\"color-scheme\" content=\"light dark\">\n<meta name=\"generator\" content=\"linenhatch {}\">\n<title>{title}</title>\n\
         <style>\n{STYLE}</style>\n</head>\n<body>\n<header>\n<h1>{title}</h1>\n<p class=\"under\">{}</p>\n</header>\n{}{}{chart}{}</body>\n</html>\n",
        env!("CARGO_PKG_VERSION"),
        under(page, &history.repository, parts),
        figures(&parts.all),
        table(parts),
        notes(page, history),
    )
}

/// What the page is about: how many runs, of which repository and names, from when to when.
fn under(page: &Page, repository: &Repository, parts: &Parts) -> String {
    let runs = match parts.all.commits() {
        1 => "1 run".into(),
        count => format!("{} runs", grouped(count)),
    };
    let place = repository.folder().file_name().map_or(String::new(), |name| format!(" of {}", name.to_string_lossy()));
    let dates =
        parts.span.map_or(String::new(), |(from, to)| format!(", <span class=\"whole\">{} to {}</span> (UTC)", date(from), date(to)));
    escaped(&format!("{runs}{place}, from {}", listed_from(page))) + &dates
}

fn listed_from(page: &Page) -> String {
    let args = &page.args;
    let all = |option: &&str| match *option {
        "--branches" => "all branches".to_string(),
        "--tags" => "all tags".into(),
        _ => "all references".into(),
    };
    let names = args.refs.iter().map(all).chain(args.revs.iter().map(|name| name.to_string_lossy().into_owned()));
    let names = names.collect::<Vec<_>>().join(", ");
    let hidden: Vec<_> = args.hide.iter().map(|name| name.to_string_lossy()).collect();
    if hidden.is_empty() {
        names
    } else {
        format!("{names} without {}", hidden.join(", "))
    }
}

/// The numbers of all runs at a glance.
fn figures(all: &FeedReport) -> String {
    let share = match (100 * all.both).checked_div(all.commits()) {
        Some(percent) => format!(" <small>{percent} %</small>"),
        None => String::new(),
    };
    let mm = |mean: Option<f64>, signed| match mean {
        Some(mean) => format!("{} <small>mm</small>", decimal(mean, 1, signed)),
        None => "–".into(),
    };
    let figures = [
        ("Runs", grouped(all.commits())),
        ("With both readings", format!("{}{share}", grouped(all.both))),
        ("Mean cone feed", mm(all.cone_mean(), false)),
        ("Mean bed feed", mm(all.bed_mean(), false)),
        ("Mean of cone less bed", mm(all.difference_mean(), true)),
    ];
    let figures: String = figures.iter().map(|(what, value)| format!("<div><dt>{what}</dt><dd>{value}</dd></div>\n")).collect();
    format!("<dl class=\"figures\">\n{figures}</dl>\n")
}

fn table(parts: &Parts) -> String {
    let terms: String = parts.terms.iter().map(|(term, report)| row(&label(term), report)).collect();
    format!(
        "<section>\n<h2>By term</h2>\n<p class=\"about\" id=\"about\">Runs, and means of their feeds in millimetres. A mean is over all readings of its kind; the \
         difference is the mean of cone less bed over the runs with both.</p>\n<div class=\"wide\">\n<table aria-describedby=\"about\">\n<thead>\n\
         <tr><td></td><th colspan=\"5\" scope=\"colgroup\"><span>Runs</span></th><th colspan=\"3\" scope=\"colgroup\" class=\"apart\"><span>Mean feed, mm</span></th></tr>\n\
         <tr><th scope=\"col\" style=\"text-align:left\">Term</th><th scope=\"col\">all</th><th scope=\"col\">both</th><th scope=\"col\">cone alone</th>\
         <th scope=\"col\">bed alone</th><th scope=\"col\">neither</th><th scope=\"col\" class=\"apart\">cone</th><th scope=\"col\">bed</th>\
         <th scope=\"col\">cone less bed</th></tr>\n</thead>\n<tbody>\n{terms}</tbody>\n<tfoot>\n{}{}</tfoot>\n</table>\n</div>\n</section>\n",
        row("outside all terms", &parts.outside),
        row("all runs", &parts.all),
    )
}

fn row(what: &str, report: &FeedReport) -> String {
    let counts = [report.commits(), report.both, report.cone_alone, report.bed_alone, report.neither];
    let counts: String = counts.iter().map(|&count| format!("<td>{}</td>", grouped(count))).collect();
    let mean = |mean: Option<f64>, signed| mean.map_or("–".into(), |mean| decimal(mean, 3, signed));
    format!(
        "<tr><th scope=\"row\">{what}</th>{counts}<td class=\"apart\">{}</td><td>{}</td><td>{}</td></tr>\n",
        mean(report.cone_mean(), false),
        mean(report.bed_mean(), false),
        mean(report.difference_mean(), true)
    )
}

fn figure(parts: &Parts) -> String {
    format!("<section>\n<h2>From term to term</h2>\n<figure class=\"wide\">\n{}</figure>\n</section>\n", chart(&parts.terms))
}

fn notes(page: &Page, history: &History) -> String {
    let ids = |ids: &[ObjectId]| {
        let some: Vec<String> = ids.iter().take(4).map(|id| format!("<code>{id}</code>")).collect();
        let more = if ids.len() > 4 { format!(" and {} more", ids.len() - 4) } else { String::new() };
        some.join(", ") + &more
    };
    let mut from = format!("Listed from {}: {}", escaped(&listed_from(page)), ids(&history.tips));
    if !history.hidden.is_empty() {
        from += &format!("; without what {} reach", ids(&history.hidden));
    }
    if !history.excluded.is_empty() {
        from += &format!("; {} left out ({})", counted(history.excluded.len(), "commit"), ids(&history.excluded));
    }
    let test = match page.args.untested {
        true => "The commits were listed without a test, as was asked for.",
        false => "The commits were tested first, so that exactly those that can be reached and are not hidden are counted, each once.",
    };
    let outside = match page.args.outside {
        true => "\n<p>For readers outside the shop: the readings of embargoed runs are withheld, and each such run counts as one with neither.</p>",
        false => "",
    };
    format!(
        "<footer class=\"notes\">\n<p>The numbers of all runs, and how many runs each term has, are those of functions that are proved to count and add them up right over the whole list. {test} The \
         readings of each term were added up by this tool, from the same commits' messages; the parts together are equal to the proved report in every number, and without \
         that there is no page. Means are quotients of these sums, rounded.</p>{outside}\n\
         <p>A term runs from the first second of its first month to the last second of its last, in UTC.</p>\n<p>{from}.</p>\n</footer>\n"
    )
}

/// A term for people: a year, a month, or from one month to another.
pub fn label(term: &Term) -> String {
    let (first, last) = (term.first.to_string(), term.last.to_string());
    match (first.strip_suffix("-01"), last.strip_suffix("-12")) {
        (Some(year), Some(other)) if year == other => year.into(),
        _ if first == last => first,
        _ => format!("{first} – {last}"),
    }
}

/// A number with a comma between each three digits.
pub fn grouped(number: u64) -> String {
    let digits = number.to_string();
    let first = digits.len() % 3;
    let groups = digits.as_bytes()[first..].chunks(3).map(|group| String::from_utf8_lossy(group).into_owned());
    let groups: Vec<String> = (first > 0).then(|| digits[..first].into()).into_iter().chain(groups).collect();
    groups.join(",")
}

/// A number with some places, grouped, with a true minus sign; a plus sign too where it is signed.
pub fn decimal(number: f64, places: usize, signed: bool) -> String {
    let text = format!("{:.places$}", number.abs());
    let (whole, rest) = text.split_once('.').map_or((&text[..], String::new()), |(whole, rest)| (whole, format!(".{rest}")));
    let is_zero = text.bytes().all(|byte| matches!(byte, b'0' | b'.'));
    let sign = match (is_zero, number < 0.0, signed) {
        (true, ..) | (_, false, false) => "",
        (_, true, _) => "\u{2212}",
        (_, false, true) => "+",
    };
    format!("{sign}{}{rest}", grouped(whole.parse().unwrap_or(u64::MAX)))
}

fn date(seconds: i64) -> String {
    let (year, month, day) = day_of(seconds.div_euclid(86_400));
    format!("{year:04}-{month:02}-{day:02}")
}

/// Text as it stands in HTML.
pub fn escaped(text: &str) -> String {
    text.replace('&', "&amp;").replace('<', "&lt;").replace('>', "&gt;").replace('"', "&quot;")
}

#[cfg(test)]
mod tests {
    use super::*;

    #[test]
    fn numbers() {
        assert_eq!([0, 7, 999, 1000, 1_234_567].map(grouped), ["0", "7", "999", "1,000", "1,234,567"]);
        assert_eq!([1234.5678, -0.0004, -50.0].map(|mean| decimal(mean, 3, false)), ["1,234.568", "0.000", "\u{2212}50.000"]);
        assert_eq!([12.0, 0.0, -1000.25].map(|mean| decimal(mean, 1, true)), ["+12.0", "0.0", "\u{2212}1,000.2"]);
        assert_eq!(decimal(1200.0, 0, false), "1,200");
    }

    #[test]
    fn labels() {
        let label = |text: &str| label(&text.parse().unwrap());
        assert_eq!(
            ["2024-01..2024-12", "2024-09", "2024-09..2025-01", "2023-01..2024-12"].map(label),
            ["2024", "2024-09", "2024-09 – 2025-01", "2023-01 – 2024-12"]
        );
    }

    #[test]
    fn text_in_html() {
        assert_eq!(escaped("<a & \"b\">"), "&lt;a &amp; &quot;b&quot;&gt;");
    }

    /// The page asks for nothing from elsewhere.
    #[test]
    fn one_file() {
        assert!(!STYLE.contains("@import") && !STYLE.contains("http") && STYLE.matches("url(").count() == 1);
    }
}
