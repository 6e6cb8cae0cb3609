//! What a list goes over: commits read from a repository, and a commit-graph file of them.

use std::collections::{HashMap, HashSet};
use std::ffi::OsString;

use linenhatch::{write_graph_in, Kind, Lister, ObjectId, Refusal, Walk, MAX_FILE_BYTES, MAX_IDS};

use crate::args::{Args, Graph};
use crate::refused::{self, counted, named};
use crate::repository::{self, Commits, Repository, Wanted};
use crate::{say, survey};

pub struct History {
    pub repository: Repository,
    pub tips: Vec<ObjectId>,
    pub hidden: Vec<ObjectId>,
    pub excluded: Vec<ObjectId>,
    pub store: Vec<u8>,
    pub graph: Vec<u8>,
    /// Commits that are not in the repository.
    pub absent: Vec<ObjectId>,
    /// Of a list with dates and subjects.
    pub subjects: HashMap<ObjectId, String>,
}

impl History {
    /// Reads all commits that the names and hidden names reach, once, and writes the commit-graph file that is asked for.
    pub fn read(args: &Args, store: impl FnOnce(Commits) -> Result<Vec<u8>, String>) -> Result<History, String> {
        let repository = repository::open(&args.dir)?;
        let mut tips = tips(&repository, args)?;
        let hidden = resolve(&repository, &args.hide, "hidden names")?;
        let excluded = resolve(&repository, &args.exclude, "excluded names")?;
        let boundary = repository.boundary().map_err(|error| error.to_string())?;
        let subjects = (args.format.is_table() && !args.count).then(HashMap::new);
        let mut wanted = Wanted { boundary, subjects, progress: args.progress };
        let mut commits = repository::read(&repository, &[&tips[..], &hidden].concat(), &mut wanted)?;
        note_cut(&commits.cut);
        let absent = std::mem::take(&mut commits.absent);
        let subjects = wanted.subjects.unwrap_or_default();
        let store = store(commits)?;
        if tips.len() > MAX_IDS {
            tips = fewer(tips, args, &store)?;
        }
        let graph = match args.graph {
            Graph::Own => own_graph(repository.kind(), &store, &tips, &hidden),
            Graph::Git => git_graph(&repository),
            Graph::None => Vec::new(),
        };
        Ok(History { repository, tips, hidden, excluded, store, graph, absent, subjects })
    }

    /// The walk that the options ask for.
    pub fn lister(&self, args: &Args) -> Lister<'_> {
        let lister = Lister::new(&self.store).kind(self.repository.kind()).graph(&self.graph).order(args.order);
        let mut lister = lister.tips(&self.tips).hide(&self.hidden).exclude(&self.excluded);
        if let Some(seconds) = args.cutoff {
            lister = lister.cutoff(seconds);
        }
        if args.first_parent {
            lister = lister.first_parent();
        }
        lister
    }

    /// The walk, tested unless it is asked for otherwise; or why there is none, and what to do.
    pub fn open(&self, args: &Args) -> Result<Walk<'_>, String> {
        let lister = self.lister(args);
        let opened = if args.untested { lister.open() } else { lister.open_tested() };
        opened.map_err(|refusal| self.not_opened(refusal, args))
    }

    /// Why no walk was opened, which commits are meant, and what to do.
    pub fn not_opened(&self, refusal: Refusal, args: &Args) -> String {
        let advice = match refusal {
            Refusal::UnreadableReach => return refused::unreadable_reach(&self.store, &self.absent),
            Refusal::UnknownGraph | Refusal::CorruptGraph => {
                "Leave git's commit-graph file out: without --git-graph the list goes by a file of its own."
            }
            Refusal::GraphAtOdds => {
                "Git's commit-graph file is stale or damaged (git commit-graph verify). Leave it out: without --git-graph the list goes by a file \
                 of its own; or have git write it anew with git commit-graph write --reachable."
            }
            Refusal::PairNotFalling => advice_on_clocks(args.graph),
            Refusal::TipUnreadable => "--order breadth needs no committer time.",
            _ => "",
        };
        let refused = self.lister(args).refused(refusal);
        format!("{refused}{}{advice}", if advice.is_empty() { "" } else { "\n" })
    }
}

fn advice_on_clocks(graph: Graph) -> &'static str {
    match graph {
        Graph::Own => {
            "A clock stood still or ran backwards there, so hiding may miss commits, and no commit-graph file can be written of this history (see above). \
             --untested lists all the same."
        }
        Graph::Git | Graph::None => {
            "A clock stood still or ran backwards there, so hiding may miss commits. Without --git-graph and --no-graph the list goes by a commit-graph \
             file of its own, and no clock matters; --untested lists all the same."
        }
    }
}

/// The commits that the names and the references lead to.
fn tips(repository: &Repository, args: &Args) -> Result<Vec<ObjectId>, String> {
    let mut tips = resolve(repository, &args.revs, "names")?;
    if !args.refs.is_empty() {
        tips.extend(repository.tips(&repository::references(&args.refs)).map_err(|error| error.to_string())?);
        let mut known = HashSet::new();
        tips.retain(|id| known.insert(*id));
    }
    if tips.is_empty() {
        let what = if repository.is_empty() {
            "this repository has no commits yet".into()
        } else {
            format!("{} leads to no commit", args.refs.join(" "))
        };
        return Err(what);
    }
    Ok(tips)
}

pub fn resolve(repository: &Repository, names: &[OsString], what: &str) -> Result<Vec<ObjectId>, String> {
    if names.len() > MAX_IDS {
        return Err(format!("{} {what} are given, and a walk takes at most {MAX_IDS}", names.len()));
    }
    repository.resolve(names).map_err(|error| error.to_string())
}

/// Of more tips than a walk takes those that are no parents of others' commits. A parent of a hidden name's commit is hidden, so it may go too; but what
/// is not followed through every parent has to start from each tip.
fn fewer(tips: Vec<ObjectId>, args: &Args, store: &[u8]) -> Result<Vec<ObjectId>, String> {
    let count = tips.len();
    let left = if args.first_parent || !args.exclude.is_empty() || args.cutoff.is_some() { tips } else { survey::heads(store, &tips) };
    if left.len() > MAX_IDS {
        return Err(format!("{} lead to {count} commits to start from, and a walk takes at most {MAX_IDS}", args.refs.join(" ")));
    }
    Ok(left)
}

/// Says once where history is cut off.
fn note_cut(cut: &[ObjectId]) {
    if cut.is_empty() {
        return;
    }
    let at = counted(cut.len(), "commit");
    say(
        "note",
        &format!(
            "this is a shallow clone: its history is cut off at {at} ({}), listed as without parents; `git fetch --unshallow` brings the rest",
            named(cut)
        ),
    );
}

/// The commit store: of whole commits if they fit, else of their headers.
pub fn store(commits: Commits) -> Result<Vec<u8>, String> {
    let whole = match commits.whole.finish() {
        Ok(store) => return Ok(store),
        Err(too_large) => too_large.needed,
    };
    let (count, cut) = (commits.headers.commits(), commits.headers.bytes());
    let store = commits.headers.finish().map_err(|_| {
        format!(
            "this history is too large: a store of its {count} commits needs {cut} bytes, each cut after its committer line (whole: {whole} \
             bytes), and may have at most {MAX_FILE_BYTES}.\n\
             All that the names reach has to be there, so --since, --hide and --exclude do not help. List from older commits: a name whose \
             history has some 60,000 commits fits."
        )
    })?;
    say(
        "note",
        &format!("the store of {count} whole commits would need {whole} bytes; each is cut after its committer line ({cut} bytes)"),
    );
    Ok(store)
}

/// The commit-graph file of the commits that were read. With it a tested opening is accepted whatever the clocks say.
fn own_graph(kind: Kind, store: &[u8], tips: &[ObjectId], hidden: &[ObjectId]) -> Vec<u8> {
    match write_graph_in(kind, store) {
        Ok(file) => file,
        Err(Refusal::UnfitSeconds) => {
            let ids = Lister::new(store).tips(tips).hide(hidden).refused(Refusal::UnfitSeconds).commits;
            let what = counted(ids.len(), "commit");
            say(
                "note",
                &format!(
                    "no commit-graph file can hold the time of {what}, before 1970 or past 17,179,869,183 seconds ({}); listed without such a file, by the \
                     clocks, which are tested",
                    named(&ids)
                ),
            );
            Vec::new()
        }
        // The tests refuse it as well, and say which commit is at fault.
        Err(_) => Vec::new(),
    }
}

/// Git's commit-graph file, if there is one that can be used.
pub fn git_graph(repository: &Repository) -> Vec<u8> {
    repository.graph().unwrap_or_else(|why| {
        say("note", &format!("git's commit-graph file is not used: {why}"));
        Vec::new()
    })
}
