//! The tool beside `git rev-list` and `git log`, option by option.

#![cfg(feature = "walk")]

mod repositories;

use std::io::{BufRead, BufReader, Write};
use std::process::{Command, Stdio};

use repositories::{has_git, history, lines, run, Repository, TREE};

/// A history with tags (one annotated, one of a tree) and a branch that HEAD does not reach.
fn referred(name: &str) -> Repository {
    let repository = history(name);
    repository.git("tag v1 main~20");
    repository.git("tag -a -m second v2 merge");
    repository.git(&format!("tag of-a-tree {TREE}"));
    let apart = repository.commit(1_690_000_000, &[]);
    repository.point("apart", &apart);
    let tagged = repository.commit(1_690_000_100, &[&apart]);
    repository.git(&format!("tag apart-too {tagged}"));
    repository.git(&format!("update-ref refs/notes/other {}", repository.commit(1_690_000_200, &[&tagged])));
    repository
}

#[test]
fn references() {
    if !has_git() {
        return;
    }
    let repository = referred("references");
    for words in [
        "--all",
        "--branches",
        "--tags",
        "--tags ^main",
        "--branches --tags",
        "--all ^merge ^apart",
        "--tags main",
        "--all -n 3",
        "--branches --count",
    ] {
        let right = repository.git(&format!("rev-list {words}"));
        assert!(!right.is_empty());
        assert_eq!(repository.list(&format!("list {words}")), right, "{words}");
    }
    repository.git("checkout -q --detach apart-too");
    assert_eq!(repository.list("--all"), repository.git("rev-list --all"));
}

/// More references than a walk takes tips: those that others reach need not be given.
#[test]
fn many_references() {
    if !has_git() {
        return;
    }
    let repository = Repository::new("many");
    let mut stream = Vec::new();
    for n in 1..=1500 {
        writeln!(stream, "commit refs/heads/main\nmark :{n}\ncommitter A <a> {} +0000\ndata 0", 1_000_000_000 + n).unwrap();
        writeln!(stream, "reset refs/tags/t{n}\nfrom :{n}\n").unwrap();
    }
    repository.git_with("fast-import --quiet", &stream);
    assert_eq!(repository.list("--tags"), repository.git("rev-list --tags"));
    assert_eq!(repository.list("--tags ^main~3"), repository.git("rev-list --tags ^main~3"));
    let (list, said) = repository.fails("--tags --first-parent");
    assert!(list.is_empty() && said.contains("--tags lead to 1500 commits") && said.contains("at most 1024"), "{said}");
}

#[test]
fn how_many() {
    if !has_git() {
        return;
    }
    let repository = history("how-many");
    for words in ["-5", "-n5", "-n 5", "--max-count=5", "-n 5 --reverse", "-3 --count old..main", "--first-parent -n 4 --parents"] {
        assert_eq!(
            repository.list(words),
            repository
                .git(&format!("rev-list {}", words.replace("old..main", "") + if words.contains("..") { " old..main" } else { " main" })),
            "{words}"
        );
    }
    assert_eq!(repository.list("--first-parent main").len(), repository.git("rev-list --first-parent main").len());
}

/// Dates are filters: commits behind an older one are still found, where `git rev-list --since` stops.
#[test]
fn dates() {
    if !has_git() {
        return;
    }
    let repository = history("dates");
    for words in [
        "--since=1700006000",
        "--until=1700006000",
        "--since=1700003000 --until=1700010000",
        "--after=2023-11-14T23:00:00Z --before=2023-11-15T01:00:00Z",
        "--until=1700010000 -n 3",
        "--until=1700010000 --count old..main",
        "--until=1700010000 --reverse side..main",
        "--since=2023-11-15T00:00:00+0100 --first-parent",
    ] {
        let revs = if words.contains("..") { "" } else { " main" };
        let right = repository.git(&format!("rev-list {words}{revs}"));
        assert!(!right.is_empty(), "{words}");
        assert_eq!(repository.list(&format!("{words}{revs}")), right, "{words}");
        let sorted = |mut list: Vec<String>| {
            list.sort();
            list
        };
        if !words.contains("-n") {
            assert_eq!(sorted(repository.list(&format!("--order breadth {words}{revs}"))), sorted(right.clone()), "{words}");
            assert_eq!(sorted(repository.list(&format!("--no-graph --order oldest {words}{revs}"))), sorted(right), "{words}");
        }
    }
    let now = std::time::SystemTime::now().duration_since(std::time::UNIX_EPOCH).unwrap().as_secs() as i64;
    let last = repository.git("rev-parse main").remove(0);
    let recent = repository.commit(now - 10 * 86_400, &[&last]);
    repository.point("recent", &recent);
    let mut tool = Command::new(env!("CARGO_BIN_EXE_linenhatch"));
    tool.arg("-C").arg(&repository.dir).args(["--since", "2 weeks ago", "recent"]);
    assert_eq!(lines(&run(tool, b"").stdout), [recent.as_str()]);
    assert_eq!(repository.list("--since=1.week recent"), [""; 0]);
    assert_eq!(repository.list("--until=1.week --count recent"), repository.git("rev-list --count recent"));

    for date in ["sometime", ""] {
        let (list, said) = repository.fails(&format!("--since={date} main"));
        assert!(list.is_empty() && said.contains(&format!("'{date}' is no date that git can read")), "{said}");
    }

    // The tip is older than what is behind it.
    let old = repository.commit(1_600_000_000, &[&last]);
    repository.point("drifted", &old);
    assert_eq!(repository.list("--since=1700006000 drifted"), repository.list("--since=1700006000 main"));
    assert_eq!(repository.git("rev-list --since=1700006000 drifted"), [""; 0]);
    assert_eq!(repository.list("--cutoff=1700006000 --untested drifted"), [""; 0]);
}

#[test]
fn a_reader_that_has_enough() {
    if !has_git() {
        return;
    }
    let repository = Repository::new("pipe");
    let mut stream = Vec::new();
    for n in 1..=20_000 {
        writeln!(stream, "commit refs/heads/main\ncommitter A <a> {} +0000\ndata 0", 1_000_000_000 + n).unwrap();
    }
    repository.git_with("fast-import --quiet", &stream);
    for words in ["main", "--format=json main", "--reverse main"] {
        let mut tool = Command::new(env!("CARGO_BIN_EXE_linenhatch"));
        tool.arg("-C").arg(&repository.dir).args(words.split(' '));
        let mut tool = tool.stdout(Stdio::piped()).stderr(Stdio::piped()).spawn().unwrap();
        let mut first = String::new();
        BufReader::with_capacity(64, tool.stdout.take().unwrap()).read_line(&mut first).unwrap();
        let output = tool.wait_with_output().unwrap();
        assert_eq!((output.status.code(), String::from_utf8(output.stderr).unwrap().as_str()), (Some(0), ""), "{words}");
        assert!(!first.is_empty());
    }
}

#[test]
fn said_as_such() {
    if !has_git() {
        return;
    }
    let repository = Repository::new("said");
    for words in ["", "list --all", "--branches", "HEAD"] {
        assert_eq!(repository.fails(words).1, "linenhatch: error: this repository has no commits yet\n", "{words}");
    }
    let id = repository.commit(1000, &[]);
    repository.point("main", &id);
    repository.git("symbolic-ref HEAD refs/heads/unborn");
    let (_, said) = repository.fails("");
    assert!(said.contains("HEAD leads to no commit") && said.contains("--all"), "{said}");
    assert_eq!(repository.list("--all"), [id.as_str()]);
    let (_, said) = repository.fails("--tags");
    assert!(said.contains("--tags leads to no commit"), "{said}");
    let output = repository.tool("--version");
    assert_eq!(lines(&output.stdout), [concat!("linenhatch ", env!("CARGO_PKG_VERSION"))]);
    for command in ["list", "feed", "terms", "merge-base", "trace", "write-graph"] {
        let help = repository.list(&format!("{command} --help"));
        assert!(help[0].starts_with("linenhatch") && help.iter().any(|line| line.starts_with("example: ")), "{command}");
    }
    assert_eq!(repository.tool("list --sideways").status.code(), Some(2));
}

/// Names of a commit as git knows them.
#[test]
fn names() {
    if !has_git() {
        return;
    }
    let repository = history("revisions");
    let body = format!("tree {TREE}\nauthor A <a> 1800000000 +0000\ncommitter A <a> 1800000000 +0000\n\na table of runs\n");
    let id = repository.git_with("hash-object -w -t commit --stdin", body.as_bytes()).remove(0);
    repository.point("table", &id);
    for name in [":/a table", "table^{/a table}", "table^0", "refs/heads/table", &id[..12]] {
        let mut tool = Command::new(env!("CARGO_BIN_EXE_linenhatch"));
        tool.arg("-C").arg(&repository.dir).arg(name);
        let output = run(tool, b"");
        assert_eq!((lines(&output.stdout), output.status.code()), (vec![id.clone()], Some(0)), "{name}");
    }
    for name in ["table:", "table\nmain", "no such branch", &id[..3]] {
        let mut tool = Command::new(env!("CARGO_BIN_EXE_linenhatch"));
        tool.arg("-C").arg(&repository.dir).args(["main", name]);
        let output = run(tool, b"");
        assert_eq!((output.stdout.len(), output.status.code()), (0, Some(1)), "{name}");
        assert!(String::from_utf8_lossy(&output.stderr).contains("is the name of no commit here"), "{name}");
    }
}
