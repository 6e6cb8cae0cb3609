//! Reading a repository while a person waits: how far it is, and the subjects of commits.

use std::collections::{HashMap, HashSet};
use std::io::{self, IsTerminal};
use std::path::Path;

pub use linenhatch::{Commits, Repository};
use linenhatch::{ObjectId, References};

use crate::message::subject;
use crate::progress::Progress;

/// The repository that a folder is in.
pub fn open(dir: &Path) -> Result<Repository, String> {
    Repository::open(dir).map_err(|error| error.to_string())
}

/// The references of `--all`, `--branches` and `--tags`.
pub fn references(options: &[&str]) -> Vec<References> {
    let which = |option: &&str| match *option {
        "--branches" => References::Branches,
        "--tags" => References::Tags,
        _ => References::All,
    };
    options.iter().map(which).collect()
}

/// What is asked of a reading beside the commits themselves.
#[derive(Default)]
pub struct Wanted {
    /// Commits that count as having no parents, since history was cut off there.
    pub boundary: HashSet<ObjectId>,
    /// Filled with the subjects, if there is a place for them.
    pub subjects: Option<HashMap<ObjectId, String>>,
    /// Also where standard error is no terminal.
    pub progress: bool,
}

/// Every commit that these reach.
pub fn read(repository: &Repository, from: &[ObjectId], wanted: &mut Wanted) -> Result<Commits, String> {
    let Wanted { boundary, subjects, progress } = wanted;
    let mut progress = Progress::new(*progress || io::stderr().is_terminal(), "commits read");
    let commits = repository.commits(from, boundary, |id, body| {
        progress.step();
        if let Some(subjects) = subjects {
            subjects.insert(id, subject(body));
        }
    });
    progress.make_way();
    commits.map_err(|error| error.to_string())
}
