//! What holds of a history, in sentences.

use std::collections::HashSet;
use std::fmt;
use std::io::{self, Write};

use linenhatch::{check_names_in, write_graph_in, Kind, Lister, ObjectId, Refusal, MAX_IDS};

use crate::args::Verify;
use crate::listing::written;
use crate::names::{self, Names};
use crate::refused::{counted, named as ids};
use crate::repository::{self, Commits, Repository};
use crate::survey;

/// Says what holds; or that something does not.
pub fn verify(verify: &Verify) -> Result<(), String> {
    let repository = repository::open(&verify.dir)?;
    let tips = tips(&repository, verify)?;
    let (commits, names) = names::read(&repository, &tips, verify.progress)?;
    let findings = Verified::new(repository.kind(), commits, names, &tips)?.findings(&repository);
    let text: String = findings.iter().map(|finding| format!("{finding}\n")).collect();
    written(io::stdout().write_all(text.as_bytes()), "report")?;
    let asked = findings.iter().filter(|finding| !matches!(finding, Finding::Note(_))).count();
    match findings.iter().filter(|finding| matches!(finding, Finding::Fails(_))).count() {
        0 => Ok(()),
        count => Err(format!("{count} of {asked} things that were verified do not hold; standard output says which")),
    }
}

fn tips(repository: &Repository, verify: &Verify) -> Result<Vec<ObjectId>, String> {
    let mut tips = repository.resolve(&verify.revs).map_err(|error| error.to_string())?;
    tips.extend(repository.tips(&repository::references(&verify.refs)).map_err(|error| error.to_string())?);
    let mut known = HashSet::new();
    tips.retain(|id| known.insert(*id));
    match tips.is_empty() {
        true if repository.is_empty() => Err("this repository has no commits yet".into()),
        true => Err(format!("{} leads to no commit", verify.refs.join(" "))),
        false => Ok(tips),
    }
}

/// One sentence of the answer.
#[derive(Debug, PartialEq)]
enum Finding {
    Holds(String),
    Fails(String),
    Note(String),
}

impl fmt::Display for Finding {
    fn fmt(&self, f: &mut fmt::Formatter<'_>) -> fmt::Result {
        match self {
            Finding::Holds(what) => write!(f, "holds: {what}"),
            Finding::Fails(what) => write!(f, "does not hold: {what}"),
            Finding::Note(what) => write!(f, "note: {what}"),
        }
    }
}

/// What was read of a history.
struct Verified {
    kind: Kind,
    count: usize,
    /// Nothing, or what is wrong with the names.
    names: Result<usize, String>,
    /// What a list goes over: those at a boundary without their parents.
    store: Vec<u8>,
    absent: Vec<ObjectId>,
    cut: Vec<ObjectId>,
    /// Lists of ids from which all is reached, each as long as a walk takes.
    from: Vec<Vec<ObjectId>>,
}

impl Verified {
    fn new(kind: Kind, commits: Commits, names: Names, tips: &[ObjectId]) -> Result<Verified, String> {
        let Commits { headers, absent, cut, .. } = commits;
        let (count, names) = (names.count, names.finish());
        let store = headers.finish().map_err(|too_large| format!("this history cannot be tested at once: {too_large}"))?;
        let from = if tips.len() > MAX_IDS { survey::heads(&store, tips) } else { tips.to_vec() };
        let from = from.chunks(MAX_IDS).map(<[ObjectId]>::to_vec).collect();
        Ok(Verified { kind, count, names, store, absent, cut, from })
    }

    fn findings(&self, repository: &Repository) -> Vec<Finding> {
        let mut all = vec![self.presence()];
        if !self.cut.is_empty() {
            let at = counted(self.cut.len(), "commit");
            all.push(Finding::Note(format!("this is a shallow clone, cut off at {at} ({}); what is behind is not tested", ids(&self.cut))));
        }
        all.push(self.names());
        all.extend(self.lists());
        all.extend(self.git_graph(repository));
        all
    }

    fn presence(&self) -> Finding {
        match &self.absent[..] {
            [] => Finding::Holds(format!("every commit that is reached is there: {}", counted(self.count, "commit"))),
            absent => {
                let missing = counted(absent.len(), "commit");
                Finding::Fails(format!(
                    "{missing} that others name as parents are not in the repository: {} (git fsck says more)",
                    ids(absent)
                ))
            }
        }
    }

    fn names(&self) -> Finding {
        match &self.names {
            Ok(_) => Finding::Holds("each of them is under the id that git makes of its body".into()),
            Err(why) => Finding::Fails(format!("{why}; fetch them anew from where they are whole")),
        }
    }

    /// Whether lists are exact, and what the clocks have to do with it.
    fn lists(&self) -> Vec<Finding> {
        let own = write_graph_in(self.kind, &self.store).unwrap_or_default();
        let tested = self.tested(&own);
        let clocks = self.tested(&[]);
        let mut all = vec![match &tested {
            None => Finding::Holds("each of them can be read, and a list of them is exact".into()),
            Some((Refusal::PairNotFalling, commits)) => Finding::Fails(format!(
                "a list by the clocks is exact: {} not newer than a parent ({}), and no commit-graph file can hold the times of this history; \
                 --untested lists all the same",
                is_or_are(commits.len()),
                ids(commits)
            )),
            Some((refusal, commits)) => Finding::Fails(format!("each of them can be read: {refusal}: {}", ids(commits))),
        }];
        if let (None, Some((Refusal::PairNotFalling, commits))) = (tested, clocks) {
            all.push(Finding::Note(format!(
                "{} not newer than a parent ({}): a clock stood still or ran backwards there. A list goes by a commit-graph file of its own, and is \
                 exact all the same",
                is_or_are(commits.len()),
                ids(&commits)
            )));
        }
        all
    }

    /// Git's own commit-graph file.
    fn git_graph(&self, repository: &Repository) -> Vec<Finding> {
        let graph = match repository.graph() {
            Ok(graph) if graph.is_empty() => return vec![Finding::Note("git has no commit-graph file here, and no list needs one".into())],
            Ok(_) if repository.is_shallow() => {
                return vec![Finding::Note("git's commit-graph file is not tested, since git does not use one in a shallow clone".into())]
            }
            Ok(graph) => graph,
            Err(why) => return vec![Finding::Note(format!("git's commit-graph file is not tested: {why}"))],
        };
        const ANEW: &str = "git commit-graph write --reachable writes it anew; no list goes by it unless --git-graph is given";
        if let Err(fault) = check_names_in(self.kind, &[0; 8], &graph) {
            return vec![Finding::Fails(format!("git's commit-graph file: {}; {ANEW}", fault.refusal))];
        }
        let digest = Finding::Holds("git's commit-graph file ends in the digest of the rest".into());
        let agrees = match self.tested(&graph) {
            None | Some((Refusal::PairNotFalling, _)) => {
                Finding::Holds("git's commit-graph file says of each commit what the commit itself says".into())
            }
            Some((Refusal::UnreadableReach, _)) => {
                Finding::Note("git's commit-graph file is not held to the commits, since not all can be read".into())
            }
            Some((refusal, commits)) => Finding::Fails(format!("git's commit-graph file: {refusal}: {}; {ANEW}", ids(&commits))),
        };
        vec![digest, agrees]
    }

    /// The first refusal of a tested opening by a file, with the commits that are meant.
    fn tested(&self, graph: &[u8]) -> Option<(Refusal, Vec<ObjectId>)> {
        self.from.iter().find_map(|from| {
            let lister = Lister::new(&self.store).kind(self.kind).graph(graph).tips(from);
            let refusal = lister.open_tested().err()?;
            Some((refusal, lister.refused(refusal).commits))
        })
    }
}

fn is_or_are(count: usize) -> String {
    format!("{} {}", counted(count, "commit"), if count == 1 { "is" } else { "are" })
}
