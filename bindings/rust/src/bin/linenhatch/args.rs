//! The tool's command line.

use std::ffi::{OsStr, OsString};
use std::os::unix::ffi::OsStrExt;
use std::path::PathBuf;

use linenhatch::{Order, ParseTermError, Revs, Term, MAX_TERMS};

pub const HELP: &str = include_str!("help/list.txt");
pub const FEED_HELP: &str = include_str!("help/feed.txt");
pub const TERMS_HELP: &str = include_str!("help/terms.txt");
pub const MERGE_BASE_HELP: &str = include_str!("help/merge-base.txt");
pub const TRACE_HELP: &str = include_str!("help/trace.txt");
pub const WRITE_GRAPH_HELP: &str = include_str!("help/write-graph.txt");
pub const REPORT_HELP: &str = include_str!("help/report.txt");
pub const VERIFY_HELP: &str = include_str!("help/verify.txt");
pub const COMPLETION_HELP: &str = include_str!("help/completion.txt");

#[path = "page_args.rs"]
mod page_args;
#[path = "verify_args.rs"]
mod verify_args;

pub use page_args::Page;
pub use verify_args::Verify;

/// What is to be done.
#[derive(Debug, PartialEq)]
pub enum Task {
    List(Args),
    MergeBase(Pair),
    Trace(Start),
    WriteGraph(Output),
    Page(Page),
    Verify(Verify),
    /// The shell, of which is asked how it completes.
    Completion(Shell),
    /// The manual page.
    Man,
    /// The text to print.
    Help(&'static str),
    Version,
}

/// Which commit-graph file a list goes by.
#[derive(Clone, Copy, Debug, PartialEq)]
pub enum Graph {
    /// Written of the commits that were read, in memory.
    Own,
    /// The file in the repository.
    Git,
    None,
}

/// What a line of a list has.
#[derive(Clone, Copy, Debug, PartialEq)]
pub enum Format {
    Ids,
    Parents,
    Csv,
    Json,
}

impl Format {
    /// Whether it has dates and subjects.
    pub fn is_table(self) -> bool {
        matches!(self, Format::Csv | Format::Json)
    }
}

/// A list's settings.
#[derive(Debug, PartialEq)]
pub struct Args {
    pub dir: PathBuf,
    pub order: Order,
    pub max_count: Option<u64>,
    pub count: bool,
    pub reverse: bool,
    /// Dates, as git takes them.
    pub since: Option<OsString>,
    pub until: Option<OsString>,
    pub cutoff: Option<i64>,
    pub first_parent: bool,
    pub hide: Vec<OsString>,
    pub exclude: Vec<OsString>,
    pub graph: Graph,
    pub untested: bool,
    pub format: Format,
    pub time: bool,
    pub zone: bool,
    pub progress: bool,
    pub check_names: bool,
    /// `--all`, `--branches` and `--tags`, as they were given.
    pub refs: Vec<&'static str>,
    pub report: Option<Report>,
    /// Of a report by terms.
    pub terms: Vec<Term>,
    pub csv: bool,
    /// Of a feed report: a file of embargoed ids, and whether the report is for an outside reader.
    pub embargo: Option<PathBuf>,
    pub outside: bool,
    pub revs: Vec<OsString>,
}

/// What is reported of the commits in place of a list.
#[derive(Clone, Copy, Debug, PartialEq)]
pub enum Report {
    Feed,
    Terms,
    Page,
}

impl Report {
    /// Whether it has readings, which may be embargoed.
    fn has_feeds(self) -> bool {
        self != Report::Terms
    }

    fn help(self) -> &'static str {
        match self {
            Report::Feed => FEED_HELP,
            Report::Terms => TERMS_HELP,
            Report::Page => REPORT_HELP,
        }
    }
}

/// Two names, of which is asked where they part.
#[derive(Debug, PartialEq)]
pub struct Pair {
    pub dir: PathBuf,
    pub progress: bool,
    pub revs: [OsString; 2],
}

/// Where a trace starts, what it is to reach, and within how many moves.
#[derive(Debug, PartialEq)]
pub struct Start {
    pub dir: PathBuf,
    pub progress: bool,
    pub rev: OsString,
    pub calibrations: Vec<OsString>,
    pub moves: u32,
}

/// Where a commit-graph file goes, and whose it is.
#[derive(Debug, PartialEq)]
pub struct Output {
    pub dir: PathBuf,
    pub progress: bool,
    /// Standard output if none is given.
    pub file: Option<PathBuf>,
}

/// The command line's words, without the program's name.
pub fn parse(words: impl IntoIterator<Item = OsString>) -> Result<Task, String> {
    let words: Vec<OsString> = words.into_iter().collect();
    match command(&words) {
        Some("merge-base") => parse_pair(words),
        Some("trace") => parse_start(words),
        Some("write-graph") => parse_output(words),
        Some("list") => parse_list(without(words, "list"), None),
        Some("feed") => parse_list(without(words, "feed"), Some(Report::Feed)),
        Some("terms") => parse_list(without(words, "terms"), Some(Report::Terms)),
        Some("report") => page_args::parse_page(without(words, "report")),
        Some("verify") => verify_args::parse_verify(without(words, "verify")),
        Some("completion") => parse_completion(&of_no_repository(without(words, "completion"))),
        Some("man") => parse_man(&of_no_repository(without(words, "man"))),
        _ => parse_list(words, None),
    }
}

/// Options that choose among a list's lines, or say how they look.
const OF_LISTS: [&str; 12] =
    ["-n", "--max-count", "--count", "--reverse", "--since", "--after", "--until", "--before", "--format", "--parents", "--time", "--zone"];

/// The words without the command's own.
fn without(mut words: Vec<OsString>, command: &str) -> Vec<OsString> {
    let mut at = 0;
    while words[at] != command {
        at += if words[at] == "-C" { 2 } else { 1 };
    }
    words.remove(at);
    words
}

/// The settings of a list or a report where nothing is said.
fn plain(report: Option<Report>) -> Args {
    Args {
        dir: PathBuf::from("."),
        order: Order::Newest,
        max_count: None,
        count: false,
        reverse: false,
        since: None,
        until: None,
        cutoff: None,
        first_parent: false,
        hide: Vec::new(),
        exclude: Vec::new(),
        graph: Graph::Own,
        untested: false,
        format: Format::Ids,
        time: false,
        zone: false,
        progress: false,
        check_names: false,
        refs: Vec::new(),
        report,
        terms: Vec::new(),
        csv: false,
        embargo: None,
        outside: false,
        revs: Vec::new(),
    }
}

fn parse_list(words: Vec<OsString>, report: Option<Report>) -> Result<Task, String> {
    let mut words = words.into_iter();
    let mut args = plain(report);
    while let Some(word) = words.next() {
        if word == "--" {
            for rev in words.by_ref() {
                args.add(rev)?;
            }
            break;
        }
        if !word.as_bytes().starts_with(b"-") {
            args.add(word)?;
            continue;
        }
        let (option, given) = split(&word);
        match option.as_str() {
            "--help" | "-h" => return Ok(Task::Help(report.map_or(HELP, Report::help))),
            "--version" | "-V" => return Ok(Task::Version),
            "--embargo" if !report.is_some_and(Report::has_feeds) => return Err(unknown(&word)),
            of_lists if report.is_some() && OF_LISTS.contains(&of_lists) => return Err(format!("a report has no option {option}")),
            _ => {}
        }
        if let Some(what) = needs(&option, report) {
            let value = given.or_else(|| words.next()).ok_or_else(|| format!("{option} needs {what}"))?;
            args.set(&option, value)?;
        } else if given.is_some() || !args.turn_on(&option) {
            let count = joined_count(&word).filter(|_| report.is_none());
            args.max_count = Some(count_of(count.ok_or_else(|| unknown(&word))?)?);
        }
    }
    args.checked().map(Task::List)
}

/// What an option has to be followed by, if it takes a value.
fn needs(option: &str, report: Option<Report>) -> Option<&'static str> {
    match option {
        "-C" => Some("a folder"),
        "--order" => Some("newest, oldest or breadth"),
        "--format" => Some("ids, parents, csv or json"),
        "-n" | "--max-count" => Some("a number of commits"),
        "--since" | "--after" | "--until" | "--before" => Some("a date"),
        "--cutoff" => Some("a number of seconds"),
        "--hide" | "--exclude" => Some("a commit"),
        "--term" if report == Some(Report::Terms) => Some("a term, as 2024-09..2025-01"),
        "--embargo" => Some("a file of ids"),
        _ => None,
    }
}

/// The number of `-5` and of `-n5`.
fn joined_count(word: &OsStr) -> Option<&OsStr> {
    let digits = word.as_bytes().strip_prefix(b"-n").or_else(|| word.as_bytes().strip_prefix(b"-"))?;
    (!digits.is_empty() && digits.iter().all(u8::is_ascii_digit)).then(|| OsStr::from_bytes(digits))
}

/// The first word that is no -C or --progress, which may be a command.
fn command(words: &[OsString]) -> Option<&str> {
    let mut words = words.iter();
    while let Some(word) = words.next() {
        match word.to_str() {
            Some("-C") => drop(words.next()),
            Some("--progress") => {}
            other => return other,
        }
    }
    None
}

fn parse_pair(words: Vec<OsString>) -> Result<Task, String> {
    let mut words = words.into_iter();
    let (mut dir, mut progress, mut named, mut revs) = (PathBuf::from("."), false, false, Vec::new());
    while let Some(word) = words.next() {
        match word.to_str() {
            Some("merge-base") if !named => named = true,
            Some("-C") => dir.push(words.next().ok_or("-C needs a folder")?),
            Some("--progress") => progress = true,
            Some("--help" | "-h") => return Ok(Task::Help(MERGE_BASE_HELP)),
            Some("--version" | "-V") => return Ok(Task::Version),
            Some("--") => {
                for rev in words.by_ref() {
                    revs.push(name(rev)?);
                }
            }
            _ if word.as_bytes().starts_with(b"-") => return Err(format!("merge-base has no option {}", word.to_string_lossy())),
            _ => revs.push(name(word)?),
        }
    }
    let count = revs.len();
    let revs = revs.try_into().map_err(|_| format!("merge-base needs two names of commits, and there {}", are(count)))?;
    Ok(Task::MergeBase(Pair { dir, progress, revs }))
}

fn parse_start(words: Vec<OsString>) -> Result<Task, String> {
    let mut words = words.into_iter();
    let (mut dir, mut progress, mut named, mut revs, mut calibrations, mut moves) =
        (PathBuf::from("."), false, false, Vec::new(), Vec::new(), None);
    while let Some(word) = words.next() {
        match word.to_str() {
            Some("trace") if !named => named = true,
            Some("-C") => dir.push(words.next().ok_or("-C needs a folder")?),
            Some("--calibration") => calibrations.push(name(words.next().ok_or("--calibration needs a name of a commit")?)?),
            Some("--moves") => moves = Some(moves_of(&words.next().ok_or("--moves needs a number")?)?),
            Some("--progress") => progress = true,
            Some("--help" | "-h") => return Ok(Task::Help(TRACE_HELP)),
            Some("--version" | "-V") => return Ok(Task::Version),
            Some("--") => {
                for rev in words.by_ref() {
                    revs.push(name(rev)?);
                }
            }
            _ if word.as_bytes().starts_with(b"-") => return Err(format!("trace has no option {}", word.to_string_lossy())),
            _ => revs.push(name(word)?),
        }
    }
    let count = revs.len();
    let [rev]: [OsString; 1] = revs.try_into().map_err(|_| format!("trace needs one name of a commit, and there {}", are(count)))?;
    let moves = moves.ok_or("trace needs --moves")?;
    Ok(Task::Trace(Start { dir, progress, rev, calibrations, moves }))
}

fn moves_of(word: &OsStr) -> Result<u32, String> {
    let number = word.to_str().and_then(|text| text.parse().ok());
    number.ok_or_else(|| format!("--moves needs a number, not {}", word.to_string_lossy()))
}

fn parse_output(words: Vec<OsString>) -> Result<Task, String> {
    let mut words = words.into_iter();
    let (mut dir, mut progress, mut file, mut named, mut folders) = (PathBuf::from("."), false, None, false, Vec::new());
    while let Some(word) = words.next() {
        match word.to_str() {
            Some("write-graph") if !named => named = true,
            Some("-C") => dir.push(words.next().ok_or("-C needs a folder")?),
            Some("-o") => file = Some(PathBuf::from(words.next().ok_or("-o needs a file")?)),
            Some("--progress") => progress = true,
            Some("--help" | "-h") => return Ok(Task::Help(WRITE_GRAPH_HELP)),
            Some("--version" | "-V") => return Ok(Task::Version),
            Some("--") => folders.extend(words.by_ref()),
            _ if word.as_bytes().starts_with(b"-") => return Err(format!("write-graph has no option {}", word.to_string_lossy())),
            _ => folders.push(word),
        }
    }
    if folders.len() > 1 {
        return Err(format!("write-graph takes one repository, and there {}", are(folders.len())));
    }
    dir.extend(folders);
    Ok(Task::WriteGraph(Output { dir, progress, file }))
}

/// A shell that can complete the words of a command line.
#[derive(Clone, Copy, Debug, PartialEq)]
pub enum Shell {
    Bash,
    Zsh,
    Fish,
}

/// The words without those that say where a repository is, which do nothing here.
fn of_no_repository(words: Vec<OsString>) -> Vec<OsString> {
    let mut words = words.into_iter();
    let mut left = Vec::new();
    while let Some(word) = words.next() {
        match word.to_str() {
            Some("-C") => drop(words.next()),
            Some("--progress") => {}
            _ => left.push(word),
        }
    }
    left
}

fn parse_completion(words: &[OsString]) -> Result<Task, String> {
    match words.iter().map(|word| word.to_str()).collect::<Vec<_>>()[..] {
        [Some("bash")] => Ok(Task::Completion(Shell::Bash)),
        [Some("zsh")] => Ok(Task::Completion(Shell::Zsh)),
        [Some("fish")] => Ok(Task::Completion(Shell::Fish)),
        [Some("--help" | "-h"), ..] => Ok(Task::Help(COMPLETION_HELP)),
        _ => Err("completion needs the name of a shell: bash, zsh or fish".into()),
    }
}

fn parse_man(words: &[OsString]) -> Result<Task, String> {
    match words {
        [] => Ok(Task::Man),
        [word] if word == "--help" || word == "-h" => Ok(Task::Help(COMPLETION_HELP)),
        _ => Err("man takes no words: it prints the manual page".into()),
    }
}

fn are(count: usize) -> String {
    match count {
        0 => "are none".into(),
        1 => "is one".into(),
        _ => format!("are {count}"),
    }
}

impl Args {
    /// Takes the value of an option that needs one.
    fn set(&mut self, option: &str, value: OsString) -> Result<(), String> {
        match option {
            "-C" => self.dir.push(value),
            "--order" => self.order = order_of(&value)?,
            "--format" => self.format = format_of(&value)?,
            "-n" | "--max-count" => self.max_count = Some(count_of(&value)?),
            "--since" | "--after" => self.since = Some(value),
            "--until" | "--before" => self.until = Some(value),
            "--cutoff" => self.cutoff = Some(seconds_of(&value)?),
            "--hide" => self.hide.push(name(value)?),
            "--term" => self.terms.push(term_of(&value)?),
            "--embargo" => self.embargo = Some(value.into()),
            _ => self.exclude.push(name(value)?),
        }
        Ok(())
    }

    /// Turns an option on that takes no value; says whether there is such a one.
    fn turn_on(&mut self, option: &str) -> bool {
        match option {
            "--all" => self.refs.push("--all"),
            "--branches" => self.refs.push("--branches"),
            "--tags" => self.refs.push("--tags"),
            "--count" => self.count = true,
            "--reverse" => self.reverse = true,
            "--first-parent" => self.first_parent = true,
            "--git-graph" => self.graph = Graph::Git,
            "--no-graph" => self.graph = Graph::None,
            "--untested" => self.untested = true,
            "--parents" => self.format = Format::Parents,
            "--time" => self.time = true,
            "--zone" => self.zone = true,
            "--progress" => self.progress = true,
            "--csv" if self.report.is_some() => self.csv = true,
            "--outside" if self.report.is_some_and(Report::has_feeds) => self.outside = true,
            "--check-names" if self.report.is_none() => self.check_names = true,
            _ => return false,
        }
        true
    }

    /// The settings, if they go together.
    fn checked(mut self) -> Result<Args, String> {
        if self.order == Order::Breadth && self.cutoff.is_some() {
            return Err("--cutoff needs an order by time: --order newest or --order oldest".into());
        }
        if self.format.is_table() && (self.time || self.zone) {
            return Err("--time and --zone are for --format ids and parents; csv and json have both".into());
        }
        if let Some(why) = bad_terms(&self.terms) {
            return Err(why);
        }
        if self.revs.is_empty() && self.refs.is_empty() {
            self.revs.push("HEAD".into());
        }
        Ok(self)
    }

    /// A name to list from, or to hide: `A`, `^A`, `A..B`.
    fn add(&mut self, rev: OsString) -> Result<(), String> {
        let Revs { tips, hidden } = Revs::parse([rev]).map_err(|error| error.to_string())?;
        self.hide.extend(hidden);
        self.revs.extend(tips);
        Ok(())
    }
}

/// An option, and the value after its `=`.
fn split(word: &OsStr) -> (String, Option<OsString>) {
    let bytes = word.as_bytes();
    let (option, value) = match bytes.iter().position(|&byte| byte == b'=') {
        Some(at) if bytes.starts_with(b"--") => (&bytes[..at], Some(OsStr::from_bytes(&bytes[at + 1..]).into())),
        _ => (bytes, None),
    };
    (String::from_utf8_lossy(option).into_owned(), value)
}

fn unknown(word: &OsStr) -> String {
    format!("there is no option {}", word.to_string_lossy())
}

/// One name of a commit.
fn name(rev: OsString) -> Result<OsString, String> {
    Revs::one(rev).map_err(|error| error.to_string())
}

fn order_of(word: &OsStr) -> Result<Order, String> {
    match word.to_str() {
        Some("breadth") => Ok(Order::Breadth),
        Some("newest") => Ok(Order::Newest),
        Some("oldest") => Ok(Order::Oldest),
        _ => Err(format!("'{}' is no order: newest, oldest or breadth", word.to_string_lossy())),
    }
}

fn format_of(word: &OsStr) -> Result<Format, String> {
    match word.to_str() {
        Some("ids") => Ok(Format::Ids),
        Some("parents") => Ok(Format::Parents),
        Some("csv") => Ok(Format::Csv),
        Some("json") => Ok(Format::Json),
        _ => Err(format!("'{}' is no format: ids, parents, csv or json", word.to_string_lossy())),
    }
}

fn seconds_of(word: &OsStr) -> Result<i64, String> {
    let number = word.to_str().and_then(|text| text.parse().ok());
    number.ok_or_else(|| format!("'{}' is no number of seconds since 1970", word.to_string_lossy()))
}

fn term_of(word: &OsStr) -> Result<Term, String> {
    let text = word.to_string_lossy();
    text.parse().map_err(|error: ParseTermError| format!("'{text}' is {error}"))
}

/// Why a report by these terms would be refused (24), with the term that is meant.
fn bad_terms(terms: &[Term]) -> Option<String> {
    if let Some(term) = terms.iter().find(|term| term.last < term.first) {
        return Some(format!("the term {term} ends before it starts"));
    }
    if let Some(two) = terms.windows(2).find(|two| two[1].first <= two[0].last) {
        return Some(format!(
            "the term {} does not start after {} has ended; terms are given in order, and none shares a month",
            two[1], two[0]
        ));
    }
    (terms.len() > MAX_TERMS).then(|| format!("{} terms are given, and a report takes at most {MAX_TERMS}", terms.len()))
}

fn count_of(word: &OsStr) -> Result<u64, String> {
    let number = word.to_str().and_then(|text| text.parse().ok());
    number.ok_or_else(|| format!("'{}' is no number of commits", word.to_string_lossy()))
}
