//! Reports over a whole walk.

use crate::ffi::{self, Input, Memory};
use crate::id::{Kind, ObjectId};
use crate::refusal::Refusal;
use crate::terms::Term;
use crate::walk::{joined, refusal, Lister};

/// Who a report is for.
#[derive(Clone, Copy, Debug, Default, PartialEq, Eq, Hash)]
pub enum Reader {
    /// The shop's reader, who sees all.
    #[default]
    Shop,
    /// An outside reader, from whom the readings of embargoed commits are withheld.
    Outside,
}

/// What the messages of a whole walk's commits say of feeds, in millimetres.
///
/// A message is what follows the first empty line of a commit. It gives a reading by a line that starts with `Cone-feed: ` or `Bed-feed: ` and goes on
/// to its end with 1 to 10 digits, at most 1,000,000,000.
#[derive(Clone, Copy, Debug, Default, PartialEq, Eq, Hash)]
pub struct FeedReport {
    /// The commits with both readings.
    pub both: u64,
    /// Those with a cone reading alone.
    pub cone_alone: u64,
    /// Those with a bed reading alone.
    pub bed_alone: u64,
    /// Those with neither; also those that the commit-graph file alone has, which holds no messages.
    pub neither: u64,
    /// The sum of all cone readings.
    pub cone_sum: u64,
    /// The sum of all bed readings.
    pub bed_sum: u64,
    /// The sum of cone less bed, over the commits with both.
    pub difference: i64,
}

impl FeedReport {
    /// How many commits the walk handed out: the sum of the first four numbers.
    ///
    /// ```
    /// use linenhatch::FeedReport;
    ///
    /// assert_eq!(FeedReport { both: 2, neither: 1, ..FeedReport::default() }.commits(), 3);
    /// ```
    pub fn commits(&self) -> u64 {
        self.both + self.cone_alone + self.bed_alone + self.neither
    }

    /// The mean of all cone readings, if there is one.
    ///
    /// ```
    /// use linenhatch::FeedReport;
    ///
    /// assert_eq!(FeedReport { both: 1, cone_alone: 1, cone_sum: 2401, ..FeedReport::default() }.cone_mean(), Some(1200.5));
    /// assert_eq!(FeedReport::default().cone_mean(), None);
    /// ```
    pub fn cone_mean(&self) -> Option<f64> {
        mean(self.cone_sum as f64, self.both + self.cone_alone)
    }

    /// The mean of all bed readings, if there is one.
    ///
    /// ```
    /// use linenhatch::FeedReport;
    ///
    /// assert_eq!(FeedReport { both: 1, bed_alone: 1, bed_sum: 2500, ..FeedReport::default() }.bed_mean(), Some(1250.0));
    /// ```
    pub fn bed_mean(&self) -> Option<f64> {
        mean(self.bed_sum as f64, self.both + self.bed_alone)
    }

    /// The mean of cone less bed, if a commit has both.
    ///
    /// ```
    /// use linenhatch::FeedReport;
    ///
    /// assert_eq!(FeedReport { both: 2, difference: -99, ..FeedReport::default() }.difference_mean(), Some(-49.5));
    /// ```
    pub fn difference_mean(&self) -> Option<f64> {
        mean(self.difference as f64, self.both)
    }
}

fn mean(sum: f64, count: u64) -> Option<f64> {
    (count > 0).then(|| sum / count as f64)
}

impl Lister<'_> {
    /// Walks to the end, and reports what the commits' messages say of feeds.
    ///
    /// Refused as [`open`](Lister::open) is; with the walk's own first refusal (9 to 11); with 21 where a message has two lines that start with the same
    /// reading; or with 22 where a line that starts with a reading goes on otherwise than with its number. Of these the earlier commit in the
    /// walk decides, and of 21 and 22 in one message 21. There is no report of a part of a walk.
    ///
    /// ```
    /// use linenhatch::{store_from_commits, FeedReport, Lister, ObjectId};
    ///
    /// let head = "tree 0000000000000000000000000000000000000000\nauthor A <a> 5 +0000\ncommitter A <a> 5 +0000\n\n";
    /// let [one, two] = [1, 2].map(|n| ObjectId([n; 20]));
    /// let store = store_from_commits([(one, format!("{head}Cone-feed: 1200\nBed-feed: 1250\n")), (two, format!("{head}Cone-feed: 0800"))])?;
    ///
    /// let report = Lister::new(&store).tips(&[one, two]).feed_report()?;
    /// assert_eq!(report, FeedReport { both: 1, cone_alone: 1, cone_sum: 2000, bed_sum: 1250, difference: -50, ..FeedReport::default() });
    /// assert_eq!((report.commits(), report.cone_mean(), report.bed_mean()), (2, Some(1000.0), Some(1250.0)));
    /// # Ok::<(), Box<dyn std::error::Error>>(())
    /// ```
    pub fn feed_report(&self) -> Result<FeedReport, Refusal> {
        self.feed_report_for(Reader::Shop, &[])
    }

    /// The same for a reader, with a list of embargoed commits.
    ///
    /// For an outside reader a commit on the list counts as one with neither reading, and its message causes no 21 or 22. The shop's reader sees all. The
    /// list is refused with 2 where it has over [`MAX_IDS`](crate::MAX_IDS) ids, and with 3 where one is of another kind than the tips, whoever the report is for.
    ///
    /// Where two stores differ only in the digits of readings of commits on the list, by as many, their reports for an outside reader are the same, and so
    /// are the lists of a walk. That is no promise about [`check_names`](crate::check_names), which depends on every byte, nor about the time that a call
    /// takes.
    ///
    /// ```
    /// use linenhatch::{store_from_commits, FeedReport, Lister, ObjectId, Reader};
    ///
    /// let head = "tree 0000000000000000000000000000000000000000\nauthor A <a> 5 +0000\ncommitter A <a> 5 +0000\n\n";
    /// let [one, two] = [1, 2].map(|n| ObjectId([n; 20]));
    /// let with = |reading| store_from_commits([(one, format!("{head}Cone-feed: 1200\n")), (two, format!("{head}Cone-feed: {reading}\n"))]);
    /// let (before, after) = (with("0800")?, with("0799")?);
    ///
    /// let report = |store, reader| Lister::new(store).tips(&[one, two]).feed_report_for(reader, &[two]);
    /// let seen = FeedReport { cone_alone: 1, neither: 1, cone_sum: 1200, ..FeedReport::default() };
    /// assert_eq!(report(&before, Reader::Outside)?, seen);
    /// assert_eq!(report(&after, Reader::Outside)?, seen);
    /// assert_eq!(report(&before, Reader::Shop)?.cone_sum, 2000);
    /// assert_eq!(report(&after, Reader::Shop)?.cone_sum, 1999);
    /// # Ok::<(), Box<dyn std::error::Error>>(())
    /// ```
    pub fn feed_report_for(&self, reader: Reader, embargoed: &[ObjectId]) -> Result<FeedReport, Refusal> {
        let (input, tips) = self.lent();
        let (embargoed, outside) = (joined(self.own_kind(), embargoed), u32::from(reader == Reader::Outside));
        let (mut numbers, mut difference) = ([0; ffi::FEED_NUMBERS], [0; ffi::FEED_DIFFERENCES]);
        with_memory(self.own_kind(), &input, &tips, |memory| {
            ffi::feed(&input, &tips, &embargoed, outside, memory, &mut numbers, &mut difference)
        })?;
        let ([both, cone_alone, bed_alone, neither, cone_sum, bed_sum], [difference]) = (numbers, difference);
        Ok(FeedReport { both, cone_alone, bed_alone, neither, cone_sum, bed_sum, difference })
    }
}

/// How many commits of a whole walk lie in each term, by their committer time in the commit store.
#[derive(Clone, Debug, Default, PartialEq, Eq, Hash)]
pub struct TermsReport {
    /// A number for each term, in their order.
    pub counts: Vec<u64>,
    /// The commits outside all of them; also those before 1970 or after 2099, and those whose time cannot be read in the store.
    pub outside: u64,
}

impl TermsReport {
    /// How many commits the walk handed out.
    pub fn commits(&self) -> u64 {
        self.counts.iter().sum::<u64>() + self.outside
    }
}

impl Lister<'_> {
    /// Walks to the end, and reports how many of the commits lie in each term. Terms rise without overlap, at most [`MAX_TERMS`](crate::MAX_TERMS); two may
    /// touch, and there may be none.
    ///
    /// Refused with 24 where the list of terms is not so, before anything else; then as [`open`](Lister::open) is; then with the walk's own first refusal
    /// (9 to 11).
    ///
    /// ```
    /// use linenhatch::{store_from_commits, Lister, ObjectId, Refusal};
    ///
    /// let body = |second: i64| format!("tree {}\nauthor A <a> 5 +0000\ncommitter A <a> {second} +0000\n\n", "0".repeat(40));
    /// let ids = [1, 2, 3].map(|n| ObjectId([n; 20]));
    /// // the last second of January 1970, the first of February, and a second before 1970
    /// let store = store_from_commits([(ids[0], body(2_678_399)), (ids[1], body(2_678_400)), (ids[2], body(-1))])?;
    ///
    /// let report = Lister::new(&store).tips(&ids).terms_report(&["1970-01".parse()?, "1970-02..1970-03".parse()?])?;
    /// assert_eq!((report.commits(), report.counts, report.outside), (3, vec![1, 1], 1));
    ///
    /// let shared = Lister::new(&store).tips(&ids).terms_report(&["1970-01..1970-02".parse()?, "1970-02..1970-03".parse()?]);
    /// assert_eq!(shared, Err(Refusal::BadTerms));
    /// # Ok::<(), Box<dyn std::error::Error>>(())
    /// ```
    pub fn terms_report(&self, terms: &[Term]) -> Result<TermsReport, Refusal> {
        let (input, tips) = self.lent();
        let months: Vec<u32> = terms.iter().flat_map(|term| [term.first.number(), term.last.number()]).collect();
        let (mut counts, mut numbers) = (vec![0; terms.len()], [0; ffi::TERMS_NUMBERS]);
        with_memory(self.own_kind(), &input, &tips, |memory| ffi::terms(&input, &tips, &months, memory, &mut counts, &mut numbers))?;
        let [outside] = numbers;
        Ok(TermsReport { counts, outside })
    }
}

/// Files and lists are tested before memory, so a first try without memory finds their faults, and memory is made for good files alone.
fn with_memory(kind: Kind, input: &Input<'_>, tips: &[u8], mut call: impl FnMut(&mut Memory) -> u32) -> Result<(), Refusal> {
    let mut result = call(&mut Memory::with_places(kind, 0));
    if result == Refusal::BufferTooSmall.number() {
        result = call(&mut Memory::with_places(kind, ffi::places(input, tips)));
    }
    match result {
        0 => Ok(()),
        number => Err(refusal(number)),
    }
}
