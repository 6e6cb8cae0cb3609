//! Small git repositories, and the tool run on them.

#![allow(dead_code)]

use std::collections::BTreeSet;
use std::fs;
use std::io::Write;
use std::path::{Path, PathBuf};
use std::process::{Command, Output, Stdio};

/// The empty tree.
pub const TREE: &str = "4b825dc642cb6eb9a060e54bf8d69288fbee4904";
pub const WIDE_TREE: &str = "6ef19b41225c5369f1c104d45d8d85efa9b057b53b14b4b9b939dd74decc5321";

/// A repository in a folder of its own, which is removed at the end.
pub struct Repository {
    pub dir: PathBuf,
}

impl Drop for Repository {
    fn drop(&mut self) {
        let _ = fs::remove_dir_all(&self.dir);
    }
}

pub fn has_git() -> bool {
    let found = Command::new("git").arg("--version").output().is_ok_and(|output| output.status.success());
    if !found {
        eprintln!("skipped: git is not there");
    }
    found
}

pub fn folder(name: &str) -> PathBuf {
    let dir = Path::new(env!("CARGO_TARGET_TMPDIR")).join(format!("{name}-{}", std::process::id()));
    let _ = fs::remove_dir_all(&dir);
    dir
}

pub fn run(mut command: Command, input: &[u8]) -> Output {
    let mut child = command.stdin(Stdio::piped()).stdout(Stdio::piped()).stderr(Stdio::piped()).spawn().unwrap();
    child.stdin.take().unwrap().write_all(input).unwrap();
    child.wait_with_output().unwrap()
}

pub fn lines(text: &[u8]) -> Vec<String> {
    String::from_utf8(text.to_vec()).unwrap().lines().map(String::from).collect()
}

pub fn set(lines: &[String]) -> BTreeSet<&String> {
    lines.iter().collect()
}

impl Repository {
    pub fn new(name: &str) -> Repository {
        Repository::of_format(name, "sha1").unwrap()
    }

    /// With an object format; `None` where this git does not make such.
    pub fn of_format(name: &str, format: &str) -> Option<Repository> {
        let repository = Repository { dir: folder(name) };
        fs::create_dir_all(&repository.dir).unwrap();
        let mut git = repository.command();
        git.args(["init", "-q", "-b", "main", &format!("--object-format={format}"), "."]);
        if !run(git, b"").status.success() {
            eprintln!("skipped: this git makes no repositories with {format}");
            return None;
        }
        repository.git("hash-object -w -t tree --stdin");
        Some(repository)
    }

    fn tree(&self) -> &'static str {
        let config = fs::read_to_string(self.dir.join(".git/config")).unwrap_or_default();
        if config.contains("sha256") {
            WIDE_TREE
        } else {
            TREE
        }
    }

    pub fn command(&self) -> Command {
        let mut git = Command::new("git");
        git.arg("-C").arg(&self.dir).env("GIT_CONFIG_GLOBAL", "/dev/null").env("GIT_CONFIG_NOSYSTEM", "1");
        for who in ["AUTHOR", "COMMITTER"] {
            git.env(format!("GIT_{who}_NAME"), "A").env(format!("GIT_{who}_EMAIL"), "a");
        }
        git
    }

    pub fn git_with(&self, words: &str, input: &[u8]) -> Vec<String> {
        let mut git = self.command();
        git.args(words.split_whitespace());
        let output = run(git, input);
        assert!(output.status.success(), "git {words}: {}", String::from_utf8_lossy(&output.stderr));
        lines(&output.stdout)
    }

    pub fn git(&self, words: &str) -> Vec<String> {
        self.git_with(words, b"")
    }

    /// Writes a commit with these parents and further header lines. The id.
    pub fn commit_with(&self, seconds: i64, parents: &[&str], more: &str) -> String {
        let parents: String = parents.iter().map(|parent| format!("parent {parent}\n")).collect();
        let tree = self.tree();
        let body = format!(
            "tree {tree}\n{parents}author A B <a@b> {seconds} +0100\ncommitter C D <c@d> {seconds} +0100\n{more}\nrun at {seconds}\n"
        );
        self.git_with("hash-object -w -t commit --stdin", body.as_bytes()).remove(0)
    }

    pub fn commit(&self, seconds: i64, parents: &[&str]) -> String {
        self.commit_with(seconds, parents, "")
    }

    pub fn point(&self, name: &str, id: &str) {
        self.git(&format!("update-ref refs/heads/{name} {id}"));
    }

    pub fn tool(&self, words: &str) -> Output {
        let mut tool = Command::new(env!("CARGO_BIN_EXE_linenhatch"));
        tool.arg("-C").arg(&self.dir).args(words.split_whitespace());
        tool.env("GIT_CONFIG_GLOBAL", "/dev/null").env("GIT_CONFIG_NOSYSTEM", "1");
        run(tool, b"")
    }

    /// The tool's list, which is whole and comes without a word on standard error.
    pub fn list(&self, words: &str) -> Vec<String> {
        let output = self.tool(words);
        assert_eq!((String::from_utf8_lossy(&output.stderr).as_ref(), output.status.code()), ("", Some(0)), "linenhatch {words}");
        lines(&output.stdout)
    }

    /// The tool's list and what it says on standard error, with status 1.
    pub fn fails(&self, words: &str) -> (Vec<String>, String) {
        let output = self.tool(words);
        assert_eq!(output.status.code(), Some(1), "linenhatch {words}");
        (lines(&output.stdout), String::from_utf8(output.stderr).unwrap())
    }
}

/// A main line of 30 commits with side branches, merges of two and of four, and two roots; the times differ and rise.
pub fn history(name: &str) -> Repository {
    history_in(Repository::new(name))
}

/// The same in a repository without commits.
pub fn history_in(repository: Repository) -> Repository {
    let second = |n: i64| 1_700_000_000 + 60 * n;
    let other = repository.commit(second(0), &[]);
    let mut main = vec![repository.commit(second(1), &[])];
    for n in 1..15 {
        main.push(repository.commit(second(10 * n), &[&main[n as usize - 1]]));
    }
    let side: Vec<String> = (0..3).map(|n| repository.commit(second(141 + n), &[&main[3 + 2 * n as usize]])).collect();
    let two = repository.commit_with(
        second(150),
        &[&main[14], &side[0]],
        "gpgsig -----BEGIN PGP SIGNATURE-----\n \n abc=\n -----END PGP SIGNATURE-----\n",
    );
    let four = repository.commit_with(second(160), &[&two, &side[1], &side[2], &other], "encoding ISO-8859-1\n");
    main.push(four);
    for n in 17..31 {
        let last = main.last().unwrap().clone();
        main.push(repository.commit(second(10 * n), &[&last]));
    }
    repository.point("main", main.last().unwrap());
    repository.point("old", &main[10]);
    repository.point("side", &side[2]);
    repository.point("merge", &main[15]);
    repository
}
