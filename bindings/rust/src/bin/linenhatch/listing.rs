//! The list itself: which of the walk's commits are printed, and how.

use std::collections::HashMap;
use std::io::{self, BufWriter, IsTerminal, Write};

use linenhatch::{Info, ObjectId, Refusal, Walk};

use crate::args::{Args, Format, Graph};
use crate::history::{store, History};
use crate::progress::Progress;
use crate::refused::{counted, named, Refused};
use crate::{say, survey, table};

/// Prints the list; or says why there is none, or why it is not whole.
pub fn list(args: &Args) -> Result<(), String> {
    let history = History::read(args, store)?;
    let (since, until) = (seconds(&history, args, true)?, seconds(&history, args, false)?);
    let walk = history.open(args)?;
    let stored = if args.needs_stored() { survey::survey(&history.store, &[], &history.tips) } else { HashMap::new() };
    let lines = Lines {
        args,
        out: BufWriter::new(io::stdout().lock()),
        history: &history,
        stored,
        since,
        until,
        kept: Vec::new(),
        count: 0,
        printed: 0,
    };
    let refused = lines.print_all(walk)?;
    if !history.absent.is_empty() && !refused.any(Refusal::CommitNotFound) {
        warn_of(&history.absent);
    }
    if refused.refusals.is_empty() {
        return Ok(());
    }
    Err(refused.message(&history.store, &history.absent))
}

/// The seconds of `--since`, or of `--until`.
fn seconds(history: &History, args: &Args, since: bool) -> Result<Option<i64>, String> {
    let date = if since { &args.since } else { &args.until };
    date.as_ref().map(|date| history.repository.seconds(date).map_err(|error| error.to_string())).transpose()
}

/// Commits that are not there, and that the walk did not come to.
fn warn_of(absent: &[ObjectId]) {
    let missing = counted(absent.len(), "commit");
    say("warning", &format!("not in the repository, and the list did not come to them: {missing} ({})", named(absent)));
}

impl Args {
    /// Whether times or zones are asked for that the walk itself does not hand out.
    fn needs_stored(&self) -> bool {
        let shown = self.format.is_table() || (self.graph == Graph::Own && (self.time || self.zone));
        self.since.is_some() || self.until.is_some() || (shown && !self.count)
    }

    /// Whether the line of a commit has the time and zone of the store, whatever the walk read it from.
    fn shows_stored(&self) -> bool {
        self.format.is_table() || self.graph == Graph::Own
    }
}

/// Where the lines of a list go: out at once, or kept to be turned around, or only counted.
struct Lines<'a> {
    args: &'a Args,
    out: BufWriter<io::StdoutLock<'static>>,
    history: &'a History,
    /// The commits as they stand in the store.
    stored: HashMap<ObjectId, Info>,
    since: Option<i64>,
    until: Option<i64>,
    kept: Vec<Info>,
    count: u64,
    printed: u64,
}

impl Lines<'_> {
    /// Prints a line for each commit, as many as are wanted. What was refused on the way.
    fn print_all(mut self, mut walk: Walk<'_>) -> Result<Refused, String> {
        let mut refused = Refused::default();
        let shown = self.args.progress || (io::stderr().is_terminal() && !io::stdout().is_terminal());
        let mut progress = Progress::new(shown, "commits listed");
        while self.count < self.args.max_count.unwrap_or(u64::MAX) {
            match walk.next() {
                Some(Ok(commit)) => {
                    progress.step();
                    if let Err(error) = self.take(commit) {
                        return written(Err(error), "list").map(|()| refused);
                    }
                }
                Some(Err(refusal)) => {
                    // The refusal of hiding itself takes away all that waited, and is no commit's.
                    let numbers = walk.numbers();
                    refused.hiding |= numbers.struck == numbers.admitted;
                    refused.refusals.push(refusal);
                }
                None => break,
            }
        }
        progress.make_way();
        written(self.finish(), "list").map(|()| refused)
    }

    fn take(&mut self, mut commit: Info) -> io::Result<()> {
        if let Some(stored) = self.stored.get(&commit.id) {
            if !self.passes(stored.time) {
                return Ok(());
            }
            if self.args.shows_stored() {
                (commit.time, commit.zone) = (stored.time, stored.zone);
            }
        } else if !self.passes(commit.time) {
            return Ok(());
        }
        self.count += 1;
        match (self.args.count, self.args.reverse) {
            (true, _) => Ok(()),
            (false, true) => {
                self.kept.push(commit);
                Ok(())
            }
            (false, false) => self.print(&commit),
        }
    }

    /// Whether a time is within the dates. Where no time can be read no date fits.
    fn passes(&self, time: Option<i64>) -> bool {
        let (from, to) = (self.since.unwrap_or(i64::MIN), self.until.unwrap_or(i64::MAX));
        (self.since, self.until) == (None, None) || time.is_some_and(|time| (from..=to).contains(&time))
    }

    fn finish(&mut self) -> io::Result<()> {
        for commit in std::mem::take(&mut self.kept).iter().rev() {
            self.print(commit)?;
        }
        match (self.args.count, self.args.format, self.printed) {
            (true, ..) => writeln!(self.out, "{}", self.count)?,
            (_, Format::Csv, 0) => table::csv_names(&mut self.out)?,
            (_, Format::Json, 0) => writeln!(self.out, "[]")?,
            (_, Format::Json, _) => writeln!(self.out, "\n]")?,
            _ => {}
        }
        self.out.flush()
    }

    fn print(&mut self, commit: &Info) -> io::Result<()> {
        let subject = self.history.subjects.get(&commit.id).map_or("", String::as_str);
        let first = self.printed == 0;
        self.printed += 1;
        match self.args.format {
            Format::Csv => {
                if first {
                    table::csv_names(&mut self.out)?;
                }
                table::csv(commit, subject, &mut self.out)
            }
            Format::Json => {
                self.out.write_all(if first { b"[\n" } else { b",\n" })?;
                table::json(commit, subject, &mut self.out)
            }
            Format::Ids | Format::Parents => print_ids(commit, self.args, &mut self.out),
        }
    }
}

fn print_ids(commit: &Info, args: &Args, out: &mut impl Write) -> io::Result<()> {
    write!(out, "{}", commit.id)?;
    if args.time {
        write!(out, " {}/{}", or_dash(commit.time), or_dash(commit.generation))?;
    }
    if args.zone {
        write!(out, " {}", or_dash(commit.zone.map(table::clock)))?;
    }
    if args.format == Format::Parents {
        for parent in &commit.parents {
            write!(out, " {parent}")?;
        }
    }
    writeln!(out)
}

fn or_dash<T: ToString>(value: Option<T>) -> String {
    value.map_or("-".into(), |value| value.to_string())
}

/// Output that cannot go on. A reader that has enough (`| head`) is no fault.
pub fn written(done: io::Result<()>, what: &str) -> Result<(), String> {
    match done {
        Err(error) if error.kind() != io::ErrorKind::BrokenPipe => Err(format!("the {what} cannot be written: {error}")),
        _ => Ok(()),
    }
}
