//! Reports over a whole walk: small histories, and what is refused.

#![cfg(feature = "walk")]

use linenhatch::{store_from_commits, FeedReport, Lister, Month, ObjectId, Order, Reader, Refusal, Term, TermsReport, MAX_IDS, MAX_TERMS};

fn id(n: u8) -> ObjectId {
    ObjectId([n; 20])
}

/// A chain of commits: number 1 is the tip, and each has the next for its parent. Each is its seconds and its message.
fn chain(commits: &[(i64, &str)]) -> Vec<u8> {
    let bodies = commits.iter().enumerate().map(|(k, (seconds, message))| {
        let parent = if k + 1 < commits.len() { format!("parent {}\n", id(k as u8 + 2)) } else { String::new() };
        let who = format!("A <a> {seconds} +0000");
        (id(k as u8 + 1), format!("tree {}\n{parent}author {who}\ncommitter {who}\n\n{message}", "0".repeat(40)))
    });
    store_from_commits(bodies).unwrap()
}

fn fed(messages: &[&str]) -> Result<FeedReport, Refusal> {
    let commits: Vec<_> = messages.iter().enumerate().map(|(k, &message)| (100 - k as i64, message)).collect();
    let store = chain(&commits);
    let reports = [Order::Breadth, Order::Newest, Order::Oldest].map(|order| Lister::new(&store).tips(&[id(1)]).order(order).feed_report());
    assert!(reports.iter().all(|report| *report == reports[0]));
    reports[0]
}

#[test]
fn the_numbers_of_a_feed_report() {
    let report = fed(&[
        "Cone-feed: 5\nBed-feed: 3\n",
        "words\nBed-feed: 10\n\nCone-feed: 2",
        "Cone-feed: 0007\n",
        "Bed-feed: 9",
        "",
        "cone-feed: 4",
    ])
    .unwrap();
    assert_eq!(report, FeedReport { both: 2, cone_alone: 1, bed_alone: 1, neither: 2, cone_sum: 14, bed_sum: 22, difference: -6 });
    assert_eq!((report.commits(), report.cone_mean(), report.difference_mean()), (6, Some(14.0 / 3.0), Some(-3.0)));
}

#[test]
fn no_commits_and_no_readings() {
    let report = Lister::new(&[0; 8]).feed_report().unwrap();
    assert_eq!((report, report.cone_mean(), report.bed_mean(), report.difference_mean()), (FeedReport::default(), None, None, None));
    assert_eq!(fed(&["Cone-feed:5", " Cone-feed: 5", "Bed-feed : 5"]).map(|report| report.neither), Ok(3));
}

/// The largest readings, so many that no number of 32 bits holds their sum.
#[test]
fn large_sums() {
    let report = fed(&["Cone-feed: 1000000000\nBed-feed: 0"; 100]).unwrap();
    assert_eq!((report.cone_sum, report.difference), (100_000_000_000, 100_000_000_000));
    let report = fed(&["Cone-feed: 0\nBed-feed: 1000000000"; 100]).unwrap();
    assert_eq!((report.bed_sum, report.difference), (100_000_000_000, -100_000_000_000));
}

#[test]
fn readings_at_fault() {
    let good = "Cone-feed: 5\n";
    for bad in [
        "Cone-feed: ",
        "Cone-feed: 5 ",
        "Cone-feed: 5\r\n",
        "Bed-feed: 1000000001",
        "Bed-feed: 00000000001",
        "Bed-feed: -1",
        "Cone-feed: x\nBed-feed: y",
    ] {
        assert_eq!(fed(&[good, bad]), Err(Refusal::ReadingUnreadable), "{bad:?}");
    }
    for bad in ["Cone-feed: 5\nCone-feed: 5", "Bed-feed: x\nBed-feed: y", "Cone-feed: x\nBed-feed: 1\nBed-feed: 1"] {
        assert_eq!(fed(&[good, bad]), Err(Refusal::ReadingTwice), "{bad:?}");
        assert_eq!(fed(&[bad, "Cone-feed: x"]), Err(Refusal::ReadingTwice), "{bad:?}");
        assert_eq!(fed(&["Cone-feed: x", bad]), Err(Refusal::ReadingUnreadable), "{bad:?}");
    }
}

#[test]
fn refusals_of_the_walk() {
    let store = chain(&[(9, "Cone-feed: 5"), (8, "Bed-feed: x")]);
    let tip = |n| Lister::new(&store).tips(&[id(n)]);
    assert_eq!(tip(9).feed_report(), Err(Refusal::CommitNotFound));
    assert_eq!(tip(9).order(Order::Newest).feed_report(), Err(Refusal::TipNotFound));
    assert_eq!(tip(1).graph(b"CGPH").feed_report(), Err(Refusal::UnknownGraph));
    assert_eq!(Lister::new(&store[1..]).feed_report(), Err(Refusal::CorruptStore));
    assert_eq!(tip(1).feed_report(), Err(Refusal::ReadingUnreadable));
    assert_eq!(tip(1).hide(&[id(2)]).feed_report().map(|report| (report.commits(), report.cone_sum)), Ok((1, 5)));
    assert_eq!(tip(1).exclude(&[id(2)]).feed_report().map(|report| report.commits()), Ok(1));
    assert_eq!(tip(1).order(Order::Newest).cutoff(9).feed_report().map(|report| report.commits()), Ok(1));
}

fn terms(text: &str) -> Vec<Term> {
    text.split_whitespace().map(|term| term.parse().unwrap()).collect()
}

/// A chain of commits at these seconds, by these terms.
fn by_terms(seconds: &[i64], text: &str) -> Result<TermsReport, Refusal> {
    let commits: Vec<_> = seconds.iter().map(|&second| (second, "")).collect();
    let store = chain(&commits);
    Lister::new(&store).tips(&[id(1)]).terms_report(&terms(text))
}

fn counted(counts: &[u64], outside: u64) -> Result<TermsReport, Refusal> {
    Ok(TermsReport { counts: counts.to_vec(), outside })
}

/// The first and the last second of a month.
fn edges(year: u32, month: u32) -> [i64; 2] {
    let days = |year: u32, month: u32| match month {
        2 if year % 4 == 0 && (year % 100 != 0 || year % 400 == 0) => 29,
        2 => 28,
        4 | 6 | 9 | 11 => 30,
        _ => 31,
    };
    let before: i64 = (1970..year).map(|year| (1..=12).map(|month| days(year, month)).sum::<i64>()).sum::<i64>();
    let first = 86400 * (before + (1..month).map(|month| days(year, month)).sum::<i64>());
    [first, first + 86400 * days(year, month) - 1]
}

#[test]
fn every_month_from_its_first_second_to_its_last() {
    for number in 0..1560 {
        let (year, month) = (1970 + number / 12, 1 + number % 12);
        let [first, last] = edges(year, month);
        let month = Month::new(year, month).unwrap();
        assert_eq!(by_terms(&[first - 1, first, last, last + 1], &format!("{month}")), counted(&[2], 2), "{month}");
    }
    assert_eq!(edges(2099, 12)[1], 4_102_444_799);
}

#[test]
fn terms_that_touch_and_many_of_them() {
    let [january, february] = [edges(1970, 1), edges(1970, 2)];
    let seconds = [january[1], february[0], february[1], february[1] + 1, -1, 0];
    assert_eq!(by_terms(&seconds, "1970-01 1970-02"), counted(&[2, 2], 2));
    assert_eq!(by_terms(&seconds, "1970-01..1970-02"), counted(&[4], 2));
    assert_eq!(by_terms(&seconds, ""), counted(&[], 6));
    let every_fifth: Vec<_> = (0..MAX_TERMS as u32).map(|k| format!("{0}-03..{0}-06", 1970 + 5 * k)).collect();
    let counts: Vec<u64> = (0..MAX_TERMS as u64).map(|k| u64::from(k == 7) * 2).collect();
    let seconds = [edges(2005, 3)[0], edges(2005, 6)[1], edges(2005, 7)[0], edges(2005, 2)[1]];
    assert_eq!(by_terms(&seconds, &every_fifth.join(" ")), counted(&counts, 2));
}

#[test]
fn bad_lists_of_terms() {
    let many: Vec<_> = (0..=MAX_TERMS).map(|k| format!("{}-01", 1970 + k)).collect();
    for text in ["1970-02..1970-01", "1970-01..1970-02 1970-02", "1971-01 1970-01", "1970-01 1970-01", &many.join(" ")] {
        assert_eq!(by_terms(&[0], text), Err(Refusal::BadTerms), "{text}");
        assert_eq!(Lister::new(b"no store").terms_report(&terms(text)), Err(Refusal::BadTerms), "{text}");
    }
    for text in
        ["1969-12", "2100-01", "2024-00", "2024-13", "2024-9", "24-09", "2024-09..", "..2024-09", "", "2024-09...2024-10", "2024-+9"]
    {
        assert!(text.parse::<Term>().is_err(), "{text:?}");
    }
}

/// What an outside reader is given, and the shop's, with a list of embargoed commits.
fn for_both(messages: &[&str], embargoed: &[u8]) -> [Result<FeedReport, Refusal>; 2] {
    let commits: Vec<_> = messages.iter().enumerate().map(|(k, &message)| (100 - k as i64, message)).collect();
    let (store, listed) = (chain(&commits), embargoed.iter().map(|&n| id(n)).collect::<Vec<_>>());
    [Reader::Outside, Reader::Shop].map(|reader| Lister::new(&store).tips(&[id(1)]).feed_report_for(reader, &listed))
}

#[test]
fn embargoed_readings() {
    let messages = ["Cone-feed: 5\nBed-feed: 3", "Cone-feed: 7", "Bed-feed: 9"];
    let all = FeedReport { both: 1, cone_alone: 1, bed_alone: 1, neither: 0, cone_sum: 12, bed_sum: 12, difference: 2 };
    assert_eq!(for_both(&messages, &[]), [Ok(all), Ok(all)]);
    let without_two = FeedReport { cone_alone: 0, neither: 1, cone_sum: 5, ..all };
    assert_eq!(for_both(&messages, &[2]), [Ok(without_two), Ok(all)]);
    assert_eq!(for_both(&messages, &[9, 2, 2]), [Ok(without_two), Ok(all)]);
    let nothing = FeedReport { neither: 3, ..FeedReport::default() };
    assert_eq!(for_both(&messages, &[3, 2, 1]), [Ok(nothing), Ok(all)]);
}

#[test]
fn embargoed_faults_are_not_met() {
    for (text, refusal) in [("Cone-feed: x", Refusal::ReadingUnreadable), ("Bed-feed: 1\nBed-feed: 1", Refusal::ReadingTwice)] {
        let messages = ["Cone-feed: 5", text];
        let seen = FeedReport { cone_alone: 1, neither: 1, cone_sum: 5, ..FeedReport::default() };
        assert_eq!(for_both(&messages, &[2]), [Ok(seen), Err(refusal)]);
        assert_eq!(for_both(&messages, &[1]), [Err(refusal), Err(refusal)]);
    }
}

#[test]
fn refusals_of_the_walk_by_terms() {
    let store = chain(&[(9, "Cone-feed: x"), (8, "")]);
    let january = terms("1970-01");
    let tip = |n| Lister::new(&store).tips(&[id(n)]);
    assert_eq!(tip(1).terms_report(&january), counted(&[2], 0));
    assert_eq!(tip(9).terms_report(&january), Err(Refusal::CommitNotFound));
    assert_eq!(tip(9).order(Order::Oldest).terms_report(&january), Err(Refusal::TipNotFound));
    assert_eq!(Lister::new(&store[1..]).terms_report(&january), Err(Refusal::CorruptStore));
}

#[test]
fn other_digits_of_embargoed_commits() {
    let reports = ["0", "7", "9"]
        .map(|digit| for_both(&[&format!("Cone-feed: 1{digit}"), &format!("Bed-feed: {digit}x\nBed-feed: {digit}")], &[1, 2]));
    assert!(reports.iter().all(|[outside, _]| *outside == reports[0][0] && outside.is_ok()));
    let shop = ["0", "7", "9"].map(|digit| for_both(&[&format!("Cone-feed: 1{digit}")], &[1])[1].map(|report| report.cone_sum));
    assert_eq!(shop, [Ok(10), Ok(17), Ok(19)]);
}

#[test]
fn too_many_embargoed_ids() {
    let store = chain(&[(5, "Cone-feed: 5")]);
    let lister = Lister::new(&store).tips(&[id(1)]);
    for reader in [Reader::Shop, Reader::Outside] {
        assert!(lister.feed_report_for(reader, &vec![id(9); MAX_IDS]).is_ok());
        assert_eq!(lister.feed_report_for(reader, &vec![id(9); MAX_IDS + 1]), Err(Refusal::InputTooLarge));
        assert_eq!(Lister::new(&store[..9]).feed_report_for(reader, &vec![id(9); MAX_IDS + 1]), Err(Refusal::InputTooLarge));
    }
}
