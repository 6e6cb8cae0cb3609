//! A feed report parted by terms. The whole of it is the library's own report, and so is how many commits each term has; the other numbers of the parts are
//! made here, of the commits' messages and committer times, and held to both: together they must be the same in every number.

use std::collections::HashMap;

use linenhatch::{entries, FeedReport, Info, Month, ObjectId, Term, TermsReport, MAX_TERMS};

use crate::args::Args;
use crate::embargo::Embargo;
use crate::history::History;
use crate::survey::survey;
use crate::table::day_of;

/// The report of each term, of what is outside all of them, and of all.
#[derive(Debug, Default, PartialEq)]
pub struct Parts {
    pub terms: Vec<(Term, FeedReport)>,
    pub outside: FeedReport,
    /// What the library says of the whole walk.
    pub all: FeedReport,
    /// The first and the last second of the runs.
    pub span: Option<(i64, i64)>,
}

/// Parts a history's report by terms, or by years where none are given; or says why there is none.
pub fn split(history: &History, args: &Args, embargo: &Embargo, terms: &[Term]) -> Result<Parts, String> {
    // A report opens a walk of its own over the same files, so what holds after this test holds of it.
    let walk = history.open(args)?;
    let lister = history.lister(args);
    let refused = |refusal| embargo.not_reported(refusal, history, args);
    let all = embargo.feed_report(&lister).map_err(refused)?;
    let stored = survey(&history.store, &[], &history.tips);
    let listed: Vec<Info> = walk.collect::<Result<_, _>>().map_err(refused)?;
    let seconds = |info: &Info| stored.get(&info.id).and_then(|info| info.time);
    let span = listed.iter().filter_map(seconds).fold(None, wider);
    let terms = if terms.is_empty() { years(span) } else { terms.to_vec() };
    let bodies: HashMap<ObjectId, &[u8]> = entries(&history.store).collect();
    let mut parts = Parts { terms: terms.iter().map(|&term| (term, FeedReport::default())).collect(), all, span, ..Parts::default() };
    for info in &listed {
        let seen = bodies.get(&info.id).filter(|_| !embargo.withholds(&info.id));
        let readings = seen.map_or(Some([None; 2]), |body| readings(body));
        let readings = readings.ok_or_else(|| format!("the readings of {} are read otherwise by the report: {FAULT}", info.id))?;
        add(parts.of(seconds(info)), readings);
    }
    let counts = lister.terms_report(&terms).map_err(refused)?;
    parts.checked(&counts)
}

const FAULT: &str = "this is a fault of the tool, and there is no page";

impl Parts {
    /// The report that a run at these seconds belongs to.
    fn of(&mut self, seconds: Option<i64>) -> &mut FeedReport {
        let month = seconds.and_then(month_of);
        let within = |term: &Term| month.is_some_and(|month| (term.first..=term.last).contains(&month));
        self.terms.iter_mut().find(|(term, _)| within(term)).map_or(&mut self.outside, |(_, report)| report)
    }

    /// The parts, if each has as many commits as the library counts there, and together they are the whole.
    fn checked(self, counts: &TermsReport) -> Result<Parts, String> {
        let commits: Vec<u64> = self.terms.iter().map(|(_, report)| report.commits()).collect();
        if (&commits, self.outside.commits()) != (&counts.counts, counts.outside) {
            return Err(format!("the terms have {commits:?} commits, and the report by terms says {counts:?}: {FAULT}"));
        }
        let sum = self.terms.iter().map(|(_, report)| report).chain([&self.outside]).fold(FeedReport::default(), plus);
        if sum != self.all {
            return Err(format!("the reports of the terms add up to {sum:?}, and the report of the whole is {:?}: {FAULT}", self.all));
        }
        Ok(self)
    }
}

fn wider(span: Option<(i64, i64)>, seconds: i64) -> Option<(i64, i64)> {
    span.map_or(Some((seconds, seconds)), |(from, to)| Some((from.min(seconds), to.max(seconds))))
}

/// The month that a second lies in, in UTC.
pub fn month_of(seconds: i64) -> Option<Month> {
    let (year, month, _) = day_of(seconds.div_euclid(86_400));
    Month::new(year.try_into().ok()?, month.try_into().ok()?)
}

/// The years of a span of seconds, the last 24 of them, each a term.
fn years(span: Option<(i64, i64)>) -> Vec<Term> {
    let Some((from, to)) = span else { return Vec::new() };
    let year = |seconds: i64| day_of(seconds.div_euclid(86_400)).0.clamp(1970, 2099) as u32;
    let first = year(from).max(year(to).saturating_sub(MAX_TERMS as u32 - 1));
    (first..=year(to)).filter_map(|year| Some(Term { first: Month::new(year, 1)?, last: Month::new(year, 12)? })).collect()
}

/// The cone and the bed reading of a commit; none where a line cannot be read or stands twice.
fn readings(body: &[u8]) -> Option<[Option<u64>; 2]> {
    let mut found = [None; 2];
    for line in body.split(|&byte| byte == b'\n').skip_while(|line| !line.is_empty()) {
        for (kind, start) in [&b"Cone-feed: "[..], b"Bed-feed: "].into_iter().enumerate() {
            let Some(digits) = line.strip_prefix(start) else { continue };
            if found[kind].is_some() {
                return None;
            }
            found[kind] = Some(millimetres(digits)?);
        }
    }
    Some(found)
}

/// 1 to 10 digits, at most 1,000,000,000.
fn millimetres(digits: &[u8]) -> Option<u64> {
    if !(1..=10).contains(&digits.len()) || !digits.iter().all(u8::is_ascii_digit) {
        return None;
    }
    let number = digits.iter().fold(0, |number, digit| 10 * number + u64::from(digit - b'0'));
    (number <= 1_000_000_000).then_some(number)
}

/// Adds a run to a report.
fn add(report: &mut FeedReport, [cone, bed]: [Option<u64>; 2]) {
    match (cone, bed) {
        (Some(cone), Some(bed)) => {
            report.both += 1;
            report.difference += cone as i64 - bed as i64;
        }
        (Some(_), None) => report.cone_alone += 1,
        (None, Some(_)) => report.bed_alone += 1,
        (None, None) => report.neither += 1,
    }
    report.cone_sum += cone.unwrap_or(0);
    report.bed_sum += bed.unwrap_or(0);
}

fn plus(one: FeedReport, other: &FeedReport) -> FeedReport {
    FeedReport {
        both: one.both + other.both,
        cone_alone: one.cone_alone + other.cone_alone,
        bed_alone: one.bed_alone + other.bed_alone,
        neither: one.neither + other.neither,
        cone_sum: one.cone_sum + other.cone_sum,
        bed_sum: one.bed_sum + other.bed_sum,
        difference: one.difference + other.difference,
    }
}

#[cfg(test)]
mod tests {
    use super::*;

    #[test]
    fn readings_of_messages() {
        let read = |message: &str| readings(format!("tree t\nauthor A\n\n{message}").as_bytes());
        assert_eq!(read("run\n\nCone-feed: 1200\nBed-feed: 0800"), Some([Some(1200), Some(800)]));
        assert_eq!(read("Bed-feed: 1000000000\n"), Some([None, Some(1_000_000_000)]));
        assert_eq!(read("a Cone-feed: 5\n cone-feed: 5\nCone-feed:5\n"), Some([None, None]));
        for bad in [
            "Cone-feed: \n",
            "Cone-feed: 5 \n",
            "Cone-feed: 1000000001",
            "Cone-feed: 00000000005",
            "Bed-feed: 5\nBed-feed: x",
            "Bed-feed: 1\nBed-feed: 1",
        ] {
            assert_eq!(read(bad), None, "{bad}");
        }
        assert_eq!(readings(b"Cone-feed: 5"), Some([None, None]));
    }

    /// The library is asked of each message too: both must say the same.
    #[test]
    fn readings_as_the_library_has_them() {
        let id = ObjectId([1; 20]);
        let pieces = ["Cone-feed: ", "Bed-feed: ", "7", "0000000012", "1000000000", "1000000001", "\n", "\n\n", " ", "x", "\r"];
        let mut state = 7u64;
        let mut random = |below: usize| {
            state = state.wrapping_mul(6_364_136_223_846_793_005).wrapping_add(1_442_695_040_888_963_407);
            (state >> 33) as usize % below
        };
        for _ in 0..20_000 {
            let message: String = (0..random(9)).map(|_| pieces[random(pieces.len())]).collect();
            let body = format!("tree {}\nauthor A <a> 5 +0000\ncommitter A <a> 5 +0000\n\n{message}", "0".repeat(40));
            let store = linenhatch::store_from_commits([(id, &body)]).unwrap();
            let ours = readings(body.as_bytes()).map(|readings| {
                let mut report = FeedReport::default();
                add(&mut report, readings);
                report
            });
            assert_eq!(linenhatch::Lister::new(&store).tips(&[id]).feed_report().ok(), ours, "{message:?}");
        }
    }

    #[test]
    fn months_of_seconds() {
        let month = |seconds| month_of(seconds).map(|month| month.to_string());
        assert_eq!(
            (month(0), month(2_678_399), month(2_678_400)),
            (Some("1970-01".into()), Some("1970-01".into()), Some("1970-02".into()))
        );
        assert_eq!((month(-1), month(4_102_444_799), month(4_102_444_800)), (None, Some("2099-12".into()), None));
        assert_eq!((month(i64::MAX), month(i64::MIN)), (None, None));
    }

    #[test]
    fn terms_where_none_are_given() {
        let text = |span| years(span).iter().map(Term::to_string).collect::<Vec<_>>();
        assert_eq!(text(None), [""; 0]);
        assert_eq!(text(Some((1_700_000_000, 1_710_000_000))), ["2023-01..2023-12", "2024-01..2024-12"]);
        assert_eq!(text(Some((-5, i64::MAX))).len(), MAX_TERMS);
        assert_eq!(text(Some((-5, 5))), ["1970-01..1970-12"]);
    }

    #[test]
    fn parts_that_are_not_the_whole() {
        let term: Term = "2024-09..2025-01".parse().unwrap();
        let report = FeedReport { both: 1, cone_sum: 5, bed_sum: 7, difference: -2, ..FeedReport::default() };
        let parts = |all| Parts { terms: vec![(term, report)], all, ..Parts::default() };
        let counts = TermsReport { counts: vec![1], outside: 0 };
        assert_eq!(parts(report).checked(&counts), Ok(parts(report)));
        let elsewhere = parts(report).checked(&TermsReport { counts: vec![0], outside: 1 }).unwrap_err();
        assert!(elsewhere.contains("outside: 1") && elsewhere.contains("fault of the tool"), "{elsewhere}");
        let said = parts(FeedReport { bed_sum: 8, ..report }).checked(&counts).unwrap_err();
        assert!(said.contains("bed_sum: 7") && said.contains("bed_sum: 8") && said.contains("fault of the tool"), "{said}");
    }
}
