//! `linenhatch`: lists the commits of a person's own git repository.

mod args;
mod chart;
mod completion;
mod embargo;
mod history;
mod listing;
mod manual;
mod message;
mod names;
mod options;
mod page;
mod progress;
mod refused;
mod report;
mod repository;
mod split;
mod survey;
mod table;
mod verify;

use std::env;
use std::fs;
use std::io::{self, Write};
use std::path::Path;
use std::process::ExitCode;

use args::{Args, Graph, Output, Pair, Start, Task};
use history::{git_graph, resolve, store};
use linenhatch::{check_names_in, merge_base, trace, write_graph_in, Lister, ObjectId, Prospect, References, Refusal};
use refused::counted;
use repository::{Commits, Repository, Wanted};

fn main() -> ExitCode {
    let done = match args::parse(env::args_os().skip(1)) {
        Ok(Task::Help(text)) => return show(text),
        Ok(Task::Version) => return show(concat!("linenhatch ", env!("CARGO_PKG_VERSION"), "\n")),
        Ok(Task::List(args)) if args.check_names => check(&args),
        Ok(Task::List(args)) if args.report.is_some() => report::report(&args),
        Ok(Task::List(args)) => listing::list(&args),
        Ok(Task::MergeBase(pair)) => part(&pair),
        Ok(Task::Trace(start)) => trace_back(&start),
        Ok(Task::WriteGraph(output)) => write(&output),
        Ok(Task::Page(page)) => page::page(&page),
        Ok(Task::Verify(verify)) => verify::verify(&verify),
        Ok(Task::Completion(shell)) => return show(&completion::script(shell)),
        Ok(Task::Man) => return show(&manual::page()),
        Err(message) => {
            say("error", &format!("{message}\n(linenhatch --help says how it is used)"));
            return ExitCode::from(2);
        }
    };
    match done {
        Ok(()) => ExitCode::SUCCESS,
        Err(message) => {
            say("error", &message);
            ExitCode::FAILURE
        }
    }
}

/// Prints a text; a reader that has enough is no fault.
fn show(text: &str) -> ExitCode {
    let _ = io::stdout().write_all(text.as_bytes());
    ExitCode::SUCCESS
}

/// A line to the person, who may have closed that too.
fn say(kind: &str, message: &str) {
    let _ = writeln!(io::stderr(), "linenhatch: {kind}: {message}");
}

/// Every commit that these reach, whole.
fn read(repository: &Repository, from: &[ObjectId], progress: bool) -> Result<Commits, String> {
    repository::read(repository, from, &mut Wanted { progress, ..Wanted::default() })
}

/// Checks the names of all commits that the REVs reach, and the checksum of git's commit-graph file; or says which is false.
fn check(args: &Args) -> Result<(), String> {
    let repository = repository::open(&args.dir)?;
    let tips = resolve(&repository, &args.revs, "names")?;
    let graph = if args.graph == Graph::None { Vec::new() } else { git_graph(&repository) };
    let (_, names) = names::read(&repository, &tips, args.progress)?;
    let count = names.finish()?;
    // A store without commits, so this is of the file alone.
    check_names_in(repository.kind(), &[0; 8], &graph).map_err(|fault| fault.refusal.to_string())?;
    let _ = writeln!(io::stdout(), "{} under the right name", counted(count, "commit"));
    Ok(())
}

/// Prints where two names part; or says why there is nothing to print.
fn part(pair: &Pair) -> Result<(), String> {
    let repository = repository::open(&pair.dir)?;
    let [one, other] = resolve(&repository, &pair.revs, "names")?[..] else { unreachable!("two names") };
    let mut commits = read(&repository, &[one, other], pair.progress)?;
    let absent = std::mem::take(&mut commits.absent);
    let store = store(commits)?;
    match merge_base(&store, one, other) {
        Ok(Some(id)) => {
            let _ = writeln!(io::stdout(), "{id}");
            Ok(())
        }
        Ok(None) => Err(format!("no commit is reachable from both {one} and {other}")),
        Err(Refusal::UnreadableReach) => Err(unreadable(&repository, &store, &absent)),
        Err(refusal) => Err(refusal.to_string()),
    }
}

/// What is said of 13 by a call that reads the store alone: which commits are meant, and what to do.
fn unreadable(repository: &Repository, store: &[u8], absent: &[ObjectId]) -> String {
    let advice = match repository.is_shallow() {
        true => "This is a shallow clone: `git fetch --unshallow` brings what is not there.",
        false => "`git fsck` says more of them.",
    };
    format!("{}{}\n{advice}", Refusal::UnreadableReach, refused::unread(store, absent))
}

/// Prints the cone's first forcing parent; or says why there is none.
fn trace_back(start: &Start) -> Result<(), String> {
    let repository = repository::open(&start.dir)?;
    let [from] = resolve(&repository, std::slice::from_ref(&start.rev), "names")?[..] else { unreachable!("one name") };
    let calibrations = resolve(&repository, &start.calibrations, "calibrations")?;
    let mut commits = read(&repository, &[from], start.progress)?;
    let absent = std::mem::take(&mut commits.absent);
    let store = store(commits)?;
    let line = match trace(&store, from, &calibrations, start.moves) {
        Ok(Prospect::Forced { number, parent }) => format!("{parent} {number}"),
        Ok(Prospect::AtStart) => from.to_string(),
        Ok(Prospect::NotForced) => {
            let moves = counted(start.moves as usize, "move");
            return Err(format!("the bed can keep the trace from {from} off the calibrations for {moves}"));
        }
        Err(Refusal::UnreadableReach) => return Err(unreadable(&repository, &store, &absent)),
        Err(refusal) => return Err(refusal.to_string()),
    };
    let _ = writeln!(io::stdout(), "{line}");
    Ok(())
}

/// Writes the commit-graph file of a whole repository; or says why there is none, and then no byte is written.
fn write(output: &Output) -> Result<(), String> {
    let repository = repository::open(&output.dir)?;
    let tips = repository.tips(&[References::All]).map_err(|error| error.to_string())?;
    let mut commits = read(&repository, &tips, output.progress)?;
    let absent = std::mem::take(&mut commits.absent);
    let store = store(commits)?;
    let file = write_graph_in(repository.kind(), &store).map_err(|refusal| match refusal {
        Refusal::UnfitStore => refused::unfit_store(&store, &absent, repository.is_shallow()),
        _ => Lister::new(&store).tips(&tips).refused(refusal).to_string(),
    })?;
    match &output.file {
        None => listing::written(io::stdout().write_all(&file), "file"),
        Some(path) => replace(path, &file),
    }
}

/// Puts a file in another's place, whole or not at all.
fn replace(path: &Path, bytes: &[u8]) -> Result<(), String> {
    let mut beside = path.as_os_str().to_os_string();
    beside.push(format!(".{}", std::process::id()));
    let done = fs::write(&beside, bytes).and_then(|()| fs::rename(&beside, path));
    done.map_err(|error| {
        let _ = fs::remove_file(&beside);
        format!("{} cannot be written: {error}", path.display())
    })
}
