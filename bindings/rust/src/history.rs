//! From a repository to a list in two calls.

use crate::error::Error;
use crate::graph::write_graph_in;
use crate::id::{Kind, ObjectId};
use crate::order::Order;
use crate::repository::Repository;
use crate::revs::Revs;
use crate::walk::{Infos, Lister};

/// The commits that some names of a repository reach, read once, with a commit-graph file of them. [`Repository::read`] makes it.
///
/// A list of it goes by that file, so no clock matters. A commit with a time that no such file can hold (outside 0 to 17,179,869,183 seconds) leaves it without
/// one; then the clocks decide, and they are tested.
#[derive(Clone, Debug)]
pub struct History {
    kind: Kind,
    tips: Vec<ObjectId>,
    hidden: Vec<ObjectId>,
    store: Vec<u8>,
    graph: Vec<u8>,
    absent: Vec<ObjectId>,
    cut: Vec<ObjectId>,
}

impl Repository {
    /// Reads every commit that some names reach, once: `A` is to list from, `^A` to hide, `A..B` is `^A B`. HEAD where there is none to list from.
    ///
    /// The commits stand whole in a commit store if they fit, else each is cut after its committer line. A shallow clone is read up to its boundary, whose
    /// commits then have no parents.
    ///
    /// ```
    /// # include!(concat!(env!("CARGO_MANIFEST_DIR"), "/tests/repositories/sample.rs"));
    /// # fn main() -> Result<(), linenhatch::Error> {
    /// # let Some(sample) = sample() else { return Ok(()) };
    /// # let folder = sample.path();
    /// use linenhatch::Repository;
    ///
    /// let history = Repository::open(folder)?.read(["printed..main"])?;
    /// assert_eq!(history.list()?.count(), 2);
    /// # Ok(())
    /// # }
    /// ```
    pub fn read<R: AsRef<std::ffi::OsStr>>(&self, revs: impl IntoIterator<Item = R>) -> Result<History, Error> {
        let mut revs = Revs::parse(revs)?;
        if revs.tips.is_empty() {
            revs.tips.push("HEAD".into());
        }
        let (tips, hidden) = (self.resolve(&revs.tips)?, self.resolve(&revs.hidden)?);
        let mut commits = self.commits(&[&tips[..], &hidden].concat(), &self.boundary()?, |_, _| {})?;
        let (absent, cut) = (std::mem::take(&mut commits.absent), std::mem::take(&mut commits.cut));
        let store = commits.store()?;
        // Where there is no such file the opening is refused, or tested by the clocks.
        let graph = write_graph_in(self.kind(), &store).unwrap_or_default();
        Ok(History { kind: self.kind(), tips, hidden, store, graph, absent, cut })
    }
}

impl History {
    /// The commits that are listed from.
    ///
    /// ```
    /// # include!(concat!(env!("CARGO_MANIFEST_DIR"), "/tests/repositories/sample.rs"));
    /// # fn main() -> Result<(), linenhatch::Error> {
    /// # let Some(sample) = sample() else { return Ok(()) };
    /// # let folder = sample.path();
    /// let history = linenhatch::Repository::open(folder)?.read(["main", "^printed"])?;
    /// assert_eq!(history.tips().len(), 1);
    /// # Ok(())
    /// # }
    /// ```
    pub fn tips(&self) -> &[ObjectId] {
        &self.tips
    }

    /// The commits that are hidden, with all that they reach.
    ///
    /// ```
    /// # include!(concat!(env!("CARGO_MANIFEST_DIR"), "/tests/repositories/sample.rs"));
    /// # fn main() -> Result<(), linenhatch::Error> {
    /// # let Some(sample) = sample() else { return Ok(()) };
    /// # let folder = sample.path();
    /// let history = linenhatch::Repository::open(folder)?.read(["main", "^printed"])?;
    /// assert_eq!(history.hidden().len(), 1);
    /// # Ok(())
    /// # }
    /// ```
    pub fn hidden(&self) -> &[ObjectId] {
        &self.hidden
    }

    /// The commit store.
    ///
    /// ```
    /// # include!(concat!(env!("CARGO_MANIFEST_DIR"), "/tests/repositories/sample.rs"));
    /// # fn main() -> Result<(), linenhatch::Error> {
    /// # let Some(sample) = sample() else { return Ok(()) };
    /// # let folder = sample.path();
    /// let history = linenhatch::Repository::open(folder)?.read(["main", "^printed"])?;
    /// assert_eq!(linenhatch::entries(history.store()).count(), 3); // what is hidden is read too
    /// # Ok(())
    /// # }
    /// ```
    pub fn store(&self) -> &[u8] {
        &self.store
    }

    /// The commit-graph file of the store; no bytes where there can be none.
    ///
    /// ```
    /// # include!(concat!(env!("CARGO_MANIFEST_DIR"), "/tests/repositories/sample.rs"));
    /// # fn main() -> Result<(), linenhatch::Error> {
    /// # let Some(sample) = sample() else { return Ok(()) };
    /// # let folder = sample.path();
    /// let history = linenhatch::Repository::open(folder)?.read(["main", "^printed"])?;
    /// assert!(history.graph().starts_with(b"CGPH"));
    /// # Ok(())
    /// # }
    /// ```
    pub fn graph(&self) -> &[u8] {
        &self.graph
    }

    /// Ids that a commit names as parents and that are not in the repository.
    ///
    /// ```
    /// # include!(concat!(env!("CARGO_MANIFEST_DIR"), "/tests/repositories/sample.rs"));
    /// # fn main() -> Result<(), linenhatch::Error> {
    /// # let Some(sample) = sample() else { return Ok(()) };
    /// # let folder = sample.path();
    /// let history = linenhatch::Repository::open(folder)?.read(["main", "^printed"])?;
    /// assert!(history.absent().is_empty());
    /// # Ok(())
    /// # }
    /// ```
    pub fn absent(&self) -> &[ObjectId] {
        &self.absent
    }

    /// The commits at which a shallow clone is cut off.
    ///
    /// ```
    /// # include!(concat!(env!("CARGO_MANIFEST_DIR"), "/tests/repositories/sample.rs"));
    /// # fn main() -> Result<(), linenhatch::Error> {
    /// # let Some(sample) = sample() else { return Ok(()) };
    /// # let folder = sample.path();
    /// let history = linenhatch::Repository::open(folder)?.read(["main", "^printed"])?;
    /// assert!(history.cut().is_empty()); // it is none
    /// # Ok(())
    /// # }
    /// ```
    pub fn cut(&self) -> &[ObjectId] {
        &self.cut
    }

    /// A lister over the store with its file, newest first, from the tips and without what is hidden; it can be set up further.
    ///
    /// ```
    /// # include!(concat!(env!("CARGO_MANIFEST_DIR"), "/tests/repositories/sample.rs"));
    /// # fn main() -> Result<(), Box<dyn std::error::Error>> {
    /// # let Some(sample) = sample() else { return Ok(()) };
    /// # let folder = sample.path();
    /// use linenhatch::Repository;
    ///
    /// let history = Repository::open(folder)?.read(["main"])?;
    /// let report = history.lister().first_parent().feed_report()?;
    /// println!("{} of {} commits have both readings", report.both, report.commits());
    /// # Ok(())
    /// # }
    /// ```
    pub fn lister(&self) -> Lister<'_> {
        Lister::new(&self.store).kind(self.kind).graph(&self.graph).order(Order::Newest).tips(&self.tips).hide(&self.hidden)
    }

    /// The list, newest first: exactly what is reachable and not hidden, each once. Refused where a commit is not there or cannot be read (13), with
    /// the commits that are meant; or, without a commit-graph file, where a clock ran backwards (15).
    ///
    /// ```
    /// # include!(concat!(env!("CARGO_MANIFEST_DIR"), "/tests/repositories/sample.rs"));
    /// # fn main() -> Result<(), linenhatch::Error> {
    /// # let Some(sample) = sample() else { return Ok(()) };
    /// # let folder = sample.path();
    /// use linenhatch::Repository;
    ///
    /// match Repository::open(folder)?.read(["main"])?.list() {
    ///     Ok(infos) => infos.for_each(|info| println!("{}", info.id)),
    ///     Err(error) => println!("{:?} {:?} {:?}", error.number(), error.word(), error.commit()),
    /// }
    /// # Ok(())
    /// # }
    /// ```
    pub fn list(&self) -> Result<Infos<'_>, Error> {
        let lister = self.lister();
        lister.list().map_err(|refusal| lister.refused(refusal).into())
    }
}
