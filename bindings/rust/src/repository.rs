//! What is read from a git repository, through git itself.

use std::collections::HashSet;
use std::ffi::{OsStr, OsString};
use std::fs;
use std::io::{self, BufRead, BufReader, BufWriter, Read, Write};
use std::os::unix::ffi::OsStrExt;
use std::path::{Path, PathBuf};
use std::process::{ChildStdin, Command, Stdio};
use std::sync::mpsc::{channel, Receiver};
use std::thread;

use crate::error::Error;
use crate::id::{Kind, ObjectId};
use crate::store::{header, parents_in, StoreBuilder, TooLarge, MAX_FILE_BYTES};

/// A git repository: with files or bare, a worktree, or a shallow clone. It is read by running `git`, which must be there.
///
/// Replacements and grafts are not followed. Its ids are of the kind that its object format says ([`kind`](Repository::kind)).
///
/// ```
/// # include!(concat!(env!("CARGO_MANIFEST_DIR"), "/tests/repositories/sample.rs"));
/// # fn main() -> Result<(), linenhatch::Error> {
/// # let Some(sample) = sample() else { return Ok(()) };
/// # let folder = sample.path();
/// use linenhatch::Repository;
///
/// let repository = Repository::open(folder)?;
/// # #[cfg(feature = "walk")]
/// // what main has and the branch printed has not, newest first
/// for info in repository.read(["main", "^printed"])?.list()? {
///     println!("{} {:?}", info.id, info.time);
/// }
/// # Ok(())
/// # }
/// ```
#[derive(Clone, Debug)]
pub struct Repository {
    dir: PathBuf,
    kind: Kind,
    shallow: bool,
}

/// Which of a repository's references are meant.
#[derive(Clone, Copy, Debug, PartialEq, Eq, Hash)]
pub enum References {
    /// All of them, and HEAD.
    All,
    /// The branches.
    Branches,
    /// The tags.
    Tags,
}

impl References {
    /// Git's option for them.
    fn option(self) -> &'static str {
        match self {
            References::All => "--all",
            References::Branches => "--branches",
            References::Tags => "--tags",
        }
    }
}

/// The commits that some ids reach, as a store of whole bodies and as one of headers.
#[derive(Clone, Debug, Default)]
pub struct Commits {
    /// The commits whole.
    pub whole: StoreBuilder,
    /// Each cut after its committer line, which is all that a walk reads of it.
    pub headers: StoreBuilder,
    /// Ids that a commit names as parents and the repository has no commit for.
    pub absent: Vec<ObjectId>,
    /// Commits that stand in the stores without their parent lines.
    pub cut: Vec<ObjectId>,
}

impl Commits {
    /// The commit store: of whole commits if they fit, else of their headers.
    ///
    /// ```
    /// let store = linenhatch::Commits::default().store()?;
    /// assert_eq!(store, [0; 8]); // no commits
    /// # Ok::<(), linenhatch::TooLarge>(())
    /// ```
    pub fn store(self) -> Result<Vec<u8>, TooLarge> {
        let Commits { whole, headers, .. } = self;
        whole.finish().or_else(|_| headers.finish())
    }
}

/// Commits as they come from git.
struct Reading<'a> {
    kind: Kind,
    /// Commits that count as having no parents, since history was cut off there.
    boundary: &'a HashSet<ObjectId>,
    each: &'a mut dyn FnMut(ObjectId, &[u8]),
    commits: Commits,
    /// Ids that git has answered for.
    answered: HashSet<ObjectId>,
    /// Ids that are to be there: the first ones, and those that a commit names as parents.
    named: Vec<ObjectId>,
}

impl Reading<'_> {
    fn take(&mut self, object: Object, body: &[u8]) {
        let id = match object {
            Object::Other(id) => {
                if self.answered.insert(id) {
                    self.commits.absent.push(id);
                }
                return;
            }
            Object::Commit(id) => id,
        };
        if !self.answered.insert(id) {
            return;
        }
        (self.each)(id, body);
        if self.boundary.contains(&id) && parents_in(self.kind, body).next().is_some() {
            self.commits.cut.push(id);
            return self.store(id, &without_parents(body));
        }
        self.named.extend(parents_in(self.kind, body));
        self.store(id, body);
    }

    fn store(&mut self, id: ObjectId, body: &[u8]) {
        self.commits.whole.add(id, body);
        self.commits.headers.add(id, header(body));
    }
}

impl Repository {
    /// The repository that a folder is in.
    ///
    /// ```
    /// use linenhatch::{Error, Repository};
    ///
    /// let error = Repository::open("/no/such/folder").unwrap_err();
    /// assert!(matches!(error, Error::Git(_)));
    /// ```
    pub fn open(dir: impl Into<PathBuf>) -> Result<Repository, Error> {
        let mut repository = Repository { dir: dir.into(), kind: Kind::Sha1, shallow: false };
        let asked = repository.text(&["rev-parse", "--git-dir", "--show-object-format", "--is-shallow-repository"]);
        let text = asked?;
        let mut lines = text.rsplit(|&byte| byte == b'\n');
        repository.shallow = lines.next() == Some(b"true");
        let format = String::from_utf8_lossy(lines.next().unwrap_or_default());
        repository.kind = format.parse().map_err(|error| Error::Git(format!("git names an object format '{format}': {error}")))?;
        Ok(repository)
    }

    /// The kind of its ids, as its object format says.
    ///
    /// ```
    /// # include!(concat!(env!("CARGO_MANIFEST_DIR"), "/tests/repositories/sample.rs"));
    /// # fn main() -> Result<(), linenhatch::Error> {
    /// # let Some(sample) = sample() else { return Ok(()) };
    /// # let folder = sample.path();
    /// assert_eq!(linenhatch::Repository::open(folder)?.kind(), linenhatch::Kind::Sha1);
    /// # Ok(())
    /// # }
    /// ```
    pub fn kind(&self) -> Kind {
        self.kind
    }

    fn git(&self) -> Command {
        let mut git = Command::new("git");
        git.arg("-C").arg(&self.dir).arg("--no-replace-objects").env("GIT_GRAFT_FILE", "/dev/null");
        git
    }

    /// What git prints, without the newline at its end.
    fn text<W: AsRef<OsStr>>(&self, words: &[W]) -> Result<Vec<u8>, Error> {
        let output = self.git().args(words).stdin(Stdio::null()).output().map_err(not_started)?;
        if !output.status.success() {
            return Err(Error::Git(String::from_utf8_lossy(&output.stderr).trim_end().to_string()));
        }
        let mut text = output.stdout;
        if text.ends_with(b"\n") {
            text.pop();
        }
        Ok(text)
    }

    /// The commits that names stand for: any names that git knows, one commit each.
    ///
    /// ```
    /// # include!(concat!(env!("CARGO_MANIFEST_DIR"), "/tests/repositories/sample.rs"));
    /// # fn main() -> Result<(), linenhatch::Error> {
    /// # let Some(sample) = sample() else { return Ok(()) };
    /// # let folder = sample.path();
    /// let repository = linenhatch::Repository::open(folder)?;
    /// let ids = repository.resolve(&["main", "v1.0", "main~3"])?;
    /// assert_eq!(ids.len(), 3);
    /// # Ok(())
    /// # }
    /// ```
    pub fn resolve<N: AsRef<OsStr>>(&self, names: &[N]) -> Result<Vec<ObjectId>, Error> {
        if names.is_empty() {
            return Ok(Vec::new());
        }
        let names: Vec<&OsStr> = names.iter().map(AsRef::as_ref).collect();
        let unknown = |name: &OsStr| match name == "HEAD" {
            true if self.is_empty() => Error::Empty,
            _ => Error::NoCommit(name.into()),
        };
        // Each line is a name, so a name with a newline would be two.
        if let Some(name) = names.iter().find(|name| name.as_bytes().contains(&b'\n')) {
            return Err(unknown(name));
        }
        // What follows `:/` is all text to look for, and what is found is a commit.
        let end = |name: &[u8]| if name.starts_with(b":/") { &b"\n"[..] } else { b"^{commit}\n" };
        let asked: Vec<u8> = names.iter().flat_map(|name| [name.as_bytes(), end(name.as_bytes())].concat()).collect();
        let text = self.told(&["cat-file", "--batch-check=%(objectname) %(objecttype)"], &asked)?;
        let mut answers = text.split(|&byte| byte == b'\n');
        let id = |answer: &[u8]| answer.strip_suffix(b" commit").and_then(ObjectId::from_hex);
        names.iter().map(|name| answers.next().and_then(id).ok_or_else(|| unknown(name))).collect()
    }

    /// What git prints when it is told something.
    fn told(&self, words: &[&str], input: &[u8]) -> Result<Vec<u8>, Error> {
        let mut git = self.git();
        git.args(words).stdin(Stdio::piped()).stdout(Stdio::piped()).stderr(Stdio::null());
        let mut git = git.spawn().map_err(not_started)?;
        let mut stdin = git.stdin.take().expect("piped");
        let output = thread::scope(|scope| {
            // If git takes no more, its answer ends early, and that shows.
            scope.spawn(move || drop(stdin.write_all(input)));
            git.wait_with_output()
        });
        Ok(output.map_err(|error| Error::Git(format!("git cannot be read: {error}")))?.stdout)
    }

    /// The seconds since 1970 that git reads a date as.
    ///
    /// ```
    /// # include!(concat!(env!("CARGO_MANIFEST_DIR"), "/tests/repositories/sample.rs"));
    /// # fn main() -> Result<(), linenhatch::Error> {
    /// # let Some(sample) = sample() else { return Ok(()) };
    /// # let folder = sample.path();
    /// let repository = linenhatch::Repository::open(folder)?;
    /// assert_eq!(repository.seconds("2024-09-01T00:00:00Z")?, 1_725_148_800);
    /// assert!(repository.seconds("sometime").is_err());
    /// # Ok(())
    /// # }
    /// ```
    pub fn seconds(&self, date: impl AsRef<OsStr>) -> Result<i64, Error> {
        let date = date.as_ref();
        let mut since = OsString::from("--since=");
        since.push(date);
        // `rev-parse` takes what is no date for now; `config` refuses it.
        let words = ["config", "--type=expiry-date", "--get", "--default"].map(OsStr::new);
        let is_number = !date.is_empty() && date.as_bytes().iter().all(u8::is_ascii_digit);
        let known = is_number || self.text(&[&words[..], &[date, OsStr::new("linenhatch.date")]].concat()).is_ok();
        let text = if known { self.text(&[OsStr::new("rev-parse"), &since])? } else { Vec::new() };
        let seconds = text.strip_prefix(b"--max-age=").and_then(|digits| std::str::from_utf8(digits).ok()?.parse().ok());
        seconds.ok_or_else(|| Error::NoDate(date.into()))
    }

    /// The commits that references lead to.
    ///
    /// ```
    /// # include!(concat!(env!("CARGO_MANIFEST_DIR"), "/tests/repositories/sample.rs"));
    /// # fn main() -> Result<(), linenhatch::Error> {
    /// # let Some(sample) = sample() else { return Ok(()) };
    /// # let folder = sample.path();
    /// use linenhatch::{References, Repository};
    ///
    /// let tips = Repository::open(folder)?.tips(&[References::Branches, References::Tags])?;
    /// assert_eq!(tips.len(), 3);
    /// # Ok(())
    /// # }
    /// ```
    pub fn tips(&self, references: &[References]) -> Result<Vec<ObjectId>, Error> {
        if references.is_empty() {
            return Ok(Vec::new());
        }
        let options: Vec<&str> = references.iter().map(|which| which.option()).collect();
        let text = self.text(&[&["rev-list", "--no-walk=unsorted"], &options[..]].concat())?;
        let lines = text.split(|&byte| byte == b'\n').filter(|line| !line.is_empty());
        let bad = |line: &[u8]| Error::Git(format!("git rev-list printed '{}'", String::from_utf8_lossy(line)));
        lines.map(|line| ObjectId::from_hex(line).ok_or_else(|| bad(line))).collect()
    }

    /// The folder that the repository stands in: that of its files, or its own where it is bare.
    ///
    /// ```
    /// # include!(concat!(env!("CARGO_MANIFEST_DIR"), "/tests/repositories/sample.rs"));
    /// # fn main() -> Result<(), linenhatch::Error> {
    /// # let Some(sample) = sample() else { return Ok(()) };
    /// # let folder = sample.path();
    /// let repository = linenhatch::Repository::open(folder.join(".git/.."))?;
    /// assert_eq!(repository.folder().file_name(), folder.file_name());
    /// # Ok(())
    /// # }
    /// ```
    pub fn folder(&self) -> PathBuf {
        let told = self.text(&["rev-parse", "--show-toplevel"]).or_else(|_| self.text(&["rev-parse", "--absolute-git-dir"]));
        told.map_or_else(|_| self.dir.clone(), |path| PathBuf::from(OsStr::from_bytes(&path)))
    }

    /// Whether no reference of the repository leads to a commit.
    ///
    /// ```
    /// # include!(concat!(env!("CARGO_MANIFEST_DIR"), "/tests/repositories/sample.rs"));
    /// # fn main() -> Result<(), linenhatch::Error> {
    /// # let Some(sample) = sample() else { return Ok(()) };
    /// # let folder = sample.path();
    /// assert!(!linenhatch::Repository::open(folder)?.is_empty());
    /// # Ok(())
    /// # }
    /// ```
    pub fn is_empty(&self) -> bool {
        self.text(&["rev-list", "--max-count=1", "--all"]).is_ok_and(|text| text.is_empty())
    }

    /// Whether history was cut off when the repository was cloned.
    ///
    /// ```
    /// # include!(concat!(env!("CARGO_MANIFEST_DIR"), "/tests/repositories/sample.rs"));
    /// # fn main() -> Result<(), linenhatch::Error> {
    /// # let Some(sample) = sample() else { return Ok(()) };
    /// # let folder = sample.path();
    /// assert!(!linenhatch::Repository::open(folder)?.is_shallow());
    /// # Ok(())
    /// # }
    /// ```
    pub fn is_shallow(&self) -> bool {
        self.shallow
    }

    /// The commits at which it was cut off.
    ///
    /// ```
    /// # include!(concat!(env!("CARGO_MANIFEST_DIR"), "/tests/repositories/sample.rs"));
    /// # fn main() -> Result<(), linenhatch::Error> {
    /// # let Some(sample) = sample() else { return Ok(()) };
    /// # let folder = sample.path();
    /// assert!(linenhatch::Repository::open(folder)?.boundary()?.is_empty());
    /// # Ok(())
    /// # }
    /// ```
    pub fn boundary(&self) -> Result<HashSet<ObjectId>, Error> {
        if !self.shallow {
            return Ok(HashSet::new());
        }
        let file = self.path("shallow")?;
        let text = fs::read(&file).map_err(|error| Error::Git(format!("{}: {error}", file.display())))?;
        Ok(text.split(|&byte| byte == b'\n').filter_map(ObjectId::from_hex).collect())
    }

    /// Git's own commit-graph file, no bytes if there is none; or why no walk can use it: it has several layers, or over [`MAX_FILE_BYTES`].
    ///
    /// ```
    /// # include!(concat!(env!("CARGO_MANIFEST_DIR"), "/tests/repositories/sample.rs"));
    /// # fn main() -> Result<(), linenhatch::Error> {
    /// # let Some(sample) = sample() else { return Ok(()) };
    /// # let folder = sample.path();
    /// let graph = linenhatch::Repository::open(folder)?.graph()?;
    /// assert!(graph.is_empty() || graph.starts_with(b"CGPH"));
    /// # Ok(())
    /// # }
    /// ```
    pub fn graph(&self) -> Result<Vec<u8>, Error> {
        let file = self.path("objects/info/commit-graph")?;
        if !file.is_file() {
            let chain = self.path("objects/info/commit-graphs/commit-graph-chain")?;
            return if chain.is_file() { Err(Error::GraphNotUsed("it is a chain of several layers".into())) } else { Ok(Vec::new()) };
        }
        let bytes = fs::read(&file).map_err(|error| Error::GraphNotUsed(format!("{}: {error}", file.display())))?;
        if bytes.len() > MAX_FILE_BYTES {
            return Err(Error::GraphNotUsed(format!("it has {} bytes, and a walk takes at most {MAX_FILE_BYTES}", bytes.len())));
        }
        Ok(bytes)
    }

    fn path(&self, inside: &str) -> Result<PathBuf, Error> {
        let path = self.text(&["rev-parse", "--git-path", inside])?;
        Ok(self.dir.join(Path::new(OsStr::from_bytes(&path))))
    }

    /// Every commit that some ids reach over the parent lines of their bodies, once. Commits of the boundary, which may be that of a shallow clone
    /// or none, stand in the stores without their parents. Each body is shown to `each` as it comes, whole.
    ///
    /// [`read`](Repository::read) is enough for a list; this is for whoever wants the bodies too.
    ///
    /// ```
    /// # include!(concat!(env!("CARGO_MANIFEST_DIR"), "/tests/repositories/sample.rs"));
    /// # fn main() -> Result<(), Box<dyn std::error::Error>> {
    /// # let Some(sample) = sample() else { return Ok(()) };
    /// # let folder = sample.path();
    /// let repository = linenhatch::Repository::open(folder)?;
    /// let main = repository.resolve(&["main"])?;
    /// let mut bytes = 0;
    /// let commits = repository.commits(&main, &repository.boundary()?, |_id, body| bytes += body.len())?;
    /// println!("{} commits of {bytes} bytes", commits.whole.commits());
    /// assert_eq!(commits.whole.commits(), 3);
    /// # Ok(())
    /// # }
    /// ```
    pub fn commits(
        &self,
        from: &[ObjectId],
        boundary: &HashSet<ObjectId>,
        mut each: impl FnMut(ObjectId, &[u8]),
    ) -> Result<Commits, Error> {
        let each = &mut each;
        let mut reading =
            Reading { kind: self.kind, boundary, each, commits: Commits::default(), answered: HashSet::new(), named: from.to_vec() };
        if from.is_empty() {
            return Ok(reading.commits);
        }
        let broken = |error: io::Error| Error::Git(format!("git cat-file: {error}"));
        self.read_listed(from, &mut reading).map_err(broken)?;
        reading.named.retain(|id| !reading.answered.contains(id));
        if !reading.named.is_empty() {
            self.read_named(&mut reading).map_err(broken)?;
        }
        Ok(reading.commits)
    }

    /// Reads what git itself lists, in one go. Git may go by its commit-graph file for that, so nothing rests on the list being whole.
    fn read_listed(&self, from: &[ObjectId], reading: &mut Reading<'_>) -> io::Result<()> {
        let mut list = self.git();
        list.args(["rev-list", "--stdin"]).stdin(Stdio::piped()).stdout(Stdio::piped()).stderr(Stdio::null());
        let mut list = list.spawn()?;
        let ids: String = from.iter().map(|id| format!("{id}\n")).collect();
        // If git takes no more, it lists less.
        let _ = list.stdin.take().expect("piped").write_all(ids.as_bytes());
        // In one statement, so that no end of the pipe between the two stays open here.
        let listed = list.stdout.take().expect("piped");
        let mut git = self.git().args(["cat-file", "--batch", "--buffer"]).stdin(listed).stdout(Stdio::piped()).spawn()?;
        let mut answers = BufReader::with_capacity(1 << 16, git.stdout.take().expect("piped"));
        let mut body = Vec::new();
        let mut result = Ok(());
        loop {
            match answer(&mut answers, &mut body) {
                Ok(Some(object)) => reading.take(object, &body),
                Ok(None) => break,
                Err(error) => {
                    result = Err(error);
                    break;
                }
            }
        }
        drop(answers);
        let _ = (list.wait(), git.wait());
        result
    }

    /// Reads what is named and not yet answered, and all that comes after it by parents.
    fn read_named(&self, reading: &mut Reading<'_>) -> io::Result<()> {
        let mut git = self.git();
        git.args(["cat-file", "--batch"]).stdin(Stdio::piped()).stdout(Stdio::piped());
        let mut git = git.spawn()?;
        let (stdin, stdout) = (git.stdin.take().expect("piped"), git.stdout.take().expect("piped"));
        // A thread of its own asks for commits, so that git never waits for us to read while we wait for it to take a name.
        let (ask, asked) = channel();
        let asking = thread::spawn(move || ask_for(stdin, asked));
        let mut answers = BufReader::new(stdout);
        let (mut known, mut open, mut body) = (HashSet::new(), 0u64, Vec::new());
        let mut result = Ok(());
        loop {
            for id in std::mem::take(&mut reading.named) {
                if !reading.answered.contains(&id) && known.insert(id) {
                    open += 1;
                    // If the thread has ended, git has, and the next answer will not come.
                    let _ = ask.send(id);
                }
            }
            if open == 0 {
                break;
            }
            open -= 1;
            match answer(&mut answers, &mut body).and_then(|object| object.ok_or_else(ended_early)) {
                Ok(object) => reading.take(object, &body),
                Err(error) => {
                    result = Err(error);
                    break;
                }
            }
        }
        drop(ask);
        drop(answers);
        let _ = asking.join();
        let _ = git.wait();
        result
    }
}

fn ended_early() -> io::Error {
    io::Error::new(io::ErrorKind::UnexpectedEof, "ended early")
}

fn not_started(error: io::Error) -> Error {
    Error::Git(format!("git cannot be started: {error}"))
}

/// A body without its parent lines, those between the tree line and the author line.
fn without_parents(body: &[u8]) -> Vec<u8> {
    let mut lines = body.split_inclusive(|&byte| byte == b'\n');
    let mut left = lines.next().unwrap_or_default().to_vec();
    let rest: Vec<&[u8]> = lines.skip_while(|line| line.starts_with(b"parent ")).collect();
    left.extend(rest.concat());
    left
}

/// Writes the ids that are asked for to `git cat-file --batch`, until there are no more.
fn ask_for(stdin: ChildStdin, asked: Receiver<ObjectId>) -> io::Result<()> {
    let mut stdin = BufWriter::new(stdin);
    while let Ok(id) = asked.recv() {
        writeln!(stdin, "{id}")?;
        while let Ok(id) = asked.try_recv() {
            writeln!(stdin, "{id}")?;
        }
        stdin.flush()?;
    }
    Ok(())
}

/// What git has under an id.
enum Object {
    Commit(ObjectId),
    /// Nothing, or something other than a commit.
    Other(ObjectId),
}

/// One answer of `git cat-file --batch`: a line `ID TYPE SIZE`, the object and a newline; or a line `ID missing`. None if there are no more.
fn answer(answers: &mut impl BufRead, body: &mut Vec<u8>) -> io::Result<Option<Object>> {
    let bad = |line: &[u8]| io::Error::new(io::ErrorKind::InvalidData, format!("answered '{}'", String::from_utf8_lossy(line).trim_end()));
    let mut line = Vec::new();
    answers.read_until(b'\n', &mut line)?;
    if line.is_empty() {
        return Ok(None);
    }
    let mut words = line.trim_ascii_end().split(|&byte| byte == b' ');
    let id = words.next().and_then(ObjectId::from_hex).ok_or_else(|| bad(&line))?;
    let kind = words.next().ok_or_else(|| bad(&line))?;
    if kind == b"missing" {
        return Ok(Some(Object::Other(id)));
    }
    let size: u64 = words.next().and_then(|size| std::str::from_utf8(size).ok()?.parse().ok()).ok_or_else(|| bad(&line))?;
    body.clear();
    if answers.by_ref().take(size + 1).read_to_end(body)? as u64 != size + 1 || body.pop() != Some(b'\n') {
        return Err(ended_early());
    }
    Ok(Some(if kind == b"commit" { Object::Commit(id) } else { Object::Other(id) }))
}

#[cfg(test)]
mod tests {
    use super::*;

    #[test]
    fn bodies_without_parents() {
        let body = b"tree t\nparent a\nparent b\nauthor A\ncommitter C\n\nparent c\n";
        assert_eq!(without_parents(body), b"tree t\nauthor A\ncommitter C\n\nparent c\n");
        assert_eq!(without_parents(b"tree t\nauthor A"), b"tree t\nauthor A");
        assert_eq!(without_parents(b""), b"");
    }

    #[test]
    fn answers_of_git() {
        let (one, two) = ("1".repeat(40), "2".repeat(40));
        let text = format!("{one} commit 3\nab\n\n{two} missing\n{one} tree 0\n\n{two} commit 9\nshort\n");
        let mut answers = text.as_bytes();
        let mut body = Vec::new();
        assert!(matches!(answer(&mut answers, &mut body), Ok(Some(Object::Commit(id))) if id == ObjectId([0x11; 20])));
        assert_eq!(body, b"ab\n");
        assert!(matches!(answer(&mut answers, &mut body), Ok(Some(Object::Other(id))) if id == ObjectId([0x22; 20])));
        assert!(matches!(answer(&mut answers, &mut body), Ok(Some(Object::Other(id))) if id == ObjectId([0x11; 20])));
        assert!(answer(&mut answers, &mut body).is_err());
        assert!(matches!(answer(&mut answers, &mut body), Ok(None)));
        assert!(answer(&mut &b"HEAD ambiguous\n"[..], &mut body).is_err());
    }
}
