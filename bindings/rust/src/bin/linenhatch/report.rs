//! Reports over a whole walk, as text and as fields parted by commas.

use std::io::{self, Write};

use linenhatch::{FeedReport, Lister, Refusal, Term, TermsReport};

use crate::args::{Args, Report};
use crate::embargo::Embargo;
use crate::history::{self, History};
use crate::listing::written;
use crate::repository::Commits;

/// Prints a report over all commits that would be listed, exact as a list is; or says why there is none.
pub fn report(args: &Args) -> Result<(), String> {
    let embargo = Embargo::read(args)?;
    let history = History::read(args, |commits| store(args, commits))?;
    // A report opens a walk of its own over the same files, so what holds after this test holds of it.
    history.open(args)?;
    let lister = history.lister(args);
    let text = text(args, &lister, &embargo).map_err(|refusal| embargo.not_reported(refusal, &history, args))?;
    written(io::stdout().write_all(text.as_bytes()), "report")
}

/// The commit store that a report needs: a feed report reads messages, so the commits have to fit whole; seconds stand in the header.
fn store(args: &Args, commits: Commits) -> Result<Vec<u8>, String> {
    match args.report {
        Some(Report::Feed) => commits.whole.finish().map_err(|too_large| format!("the messages cannot be read at once: {too_large}")),
        Some(Report::Terms | Report::Page) | None => history::store(commits),
    }
}

/// What is printed.
fn text(args: &Args, lister: &Lister<'_>, embargo: &Embargo) -> Result<String, Refusal> {
    match args.report {
        Some(Report::Feed) => {
            let report = embargo.feed_report(lister)?;
            Ok(if args.csv { feed_fields(&report) } else { feed_lines(&report) })
        }
        Some(Report::Terms) => {
            let report = lister.terms_report(&args.terms)?;
            Ok(if args.csv { term_fields(&args.terms, &report) } else { term_lines(&args.terms, &report) })
        }
        Some(Report::Page) | None => Ok(String::new()),
    }
}

fn feed_lines(report: &FeedReport) -> String {
    let counts = [
        ("commits", report.commits()),
        ("both readings", report.both),
        ("cone alone", report.cone_alone),
        ("bed alone", report.bed_alone),
        ("neither", report.neither),
    ];
    let sums = [
        ("cone", report.cone_sum.to_string(), report.cone_mean()),
        ("bed", report.bed_sum.to_string(), report.bed_mean()),
        ("cone less bed, of both", report.difference.to_string(), report.difference_mean()),
    ];
    let counts = counts.iter().map(|(what, count)| format!("{what:<24}{count:>16}\n"));
    let sums = sums.iter().map(|(what, sum, mean)| format!("{what:<24}{sum:>16} mm, mean {}\n", mean.map_or("-".into(), decimal)));
    counts.chain(sums).collect()
}

fn feed_fields(report: &FeedReport) -> String {
    let means = [report.cone_mean(), report.bed_mean(), report.difference_mean()].map(|mean| mean.map_or(String::new(), decimal)).join(",");
    let FeedReport { both, cone_alone, bed_alone, neither, cone_sum, bed_sum, difference } = report;
    format!(
        "commits,both,cone_alone,bed_alone,neither,cone_mm,bed_mm,difference_mm,cone_mean,bed_mean,difference_mean\n\
         {},{both},{cone_alone},{bed_alone},{neither},{cone_sum},{bed_sum},{difference},{means}\n",
        report.commits()
    )
}

fn term_lines(terms: &[Term], report: &TermsReport) -> String {
    let counts = terms.iter().zip(&report.counts);
    let counts = counts.map(|(term, &count)| format!("{:<24}{count:>16}, a month {}\n", term.to_string(), decimal(a_month(term, count))));
    let totals = [("outside", report.outside), ("commits", report.commits())];
    counts.chain(totals.iter().map(|(what, count)| format!("{what:<24}{count:>16}\n"))).collect()
}

fn term_fields(terms: &[Term], report: &TermsReport) -> String {
    let counts = terms.iter().zip(&report.counts);
    let counts: String =
        counts.map(|(term, &count)| format!("term,{},{},{count},{}\n", term.first, term.last, decimal(a_month(term, count)))).collect();
    format!("what,first,last,commits,a_month\n{counts}outside,,,{},\ntotal,,,{},\n", report.outside, report.commits())
}

/// How many commits there are a month. A term that was counted has one at least.
fn a_month(term: &Term, count: u64) -> f64 {
    count as f64 / f64::from(term.months())
}

fn decimal(mean: f64) -> String {
    format!("{mean:.3}")
}
