//! What `linenhatch verify` says of good and broken histories.

#![cfg(feature = "walk")]

mod repositories;

use std::fs;
use std::path::PathBuf;

use repositories::{folder, has_git, history, Repository};

fn file(repository: &Repository, id: &str) -> PathBuf {
    repository.dir.join(".git/objects").join(&id[..2]).join(&id[2..])
}

/// The first words of each sentence.
fn kinds(lines: &[String]) -> Vec<&str> {
    lines.iter().map(|line| line.split(": ").next().unwrap()).collect()
}

#[test]
fn a_good_history() {
    if !has_git() {
        return;
    }
    let repository = history("verified");
    let lines = repository.list("verify");
    assert_eq!(kinds(&lines), ["holds", "holds", "holds", "note"], "{lines:?}");
    assert!(lines[0].ends_with(": 35 commits") && lines[3].contains("no commit-graph file"), "{lines:?}");
    repository.git("commit-graph write --reachable");
    let lines = repository.list("verify --all");
    assert_eq!(kinds(&lines), ["holds"; 5], "{lines:?}");
    assert!(repository.list("verify old")[0].ends_with(": 11 commits"));
    assert_eq!(repository.list("verify old..main")[0], repository.list("verify main")[0]);
    assert!(repository.fails("verify --tags").1.contains("--tags leads to no commit"));
    assert!(repository.fails("verify nosuch").1.contains("'nosuch' is the name of no commit here"));
    assert_eq!(repository.tool("verify --count").status.code(), Some(2));
}

#[test]
fn a_clock_that_ran_backwards() {
    if !has_git() {
        return;
    }
    let repository = history("verified-clock");
    let last = repository.git("rev-parse main").remove(0);
    let back = repository.commit(1_600_000_000, &[&last]);
    repository.point("main", &back);
    let lines = repository.list("verify");
    assert_eq!(kinds(&lines), ["holds", "holds", "holds", "note", "note"], "{lines:?}");
    assert!(lines[3].contains(&back) && lines[3].contains("exact all the same"), "{lines:?}");

    // No commit-graph file can hold a time before 1970, so the clocks decide.
    let early = repository.commit(-5, &[&back]);
    let later = repository.commit(-5, &[&early]);
    let (lines, said) = repository.fails(&format!("verify {later}"));
    assert_eq!(kinds(&lines), ["holds", "holds", "does not hold", "note"], "{lines:?}");
    assert!(lines[2].contains(&later) && said.contains("1 of 3"), "{lines:?} {said}");
}

#[test]
fn broken_histories() {
    if !has_git() {
        return;
    }
    // A body under another commit's id, a lost commit, and one that cannot be read.
    let repository = history("verified-name");
    let ids = repository.git("rev-list -n 2 old");
    let body = fs::read(file(&repository, &ids[1])).unwrap();
    fs::remove_file(file(&repository, &ids[0])).unwrap();
    fs::write(file(&repository, &ids[0]), body).unwrap();
    let (lines, said) = repository.fails("verify");
    assert_eq!(kinds(&lines), ["holds", "does not hold", "holds", "note"], "{lines:?}");
    assert!(lines[1].contains(&ids[0]) && lines[1].contains("refusal 16") && said.contains("1 of 3"), "{lines:?} {said}");

    let repository = history("verified-lost");
    let lost = repository.git("rev-parse old").remove(0);
    fs::remove_file(file(&repository, &lost)).unwrap();
    let (lines, said) = repository.fails("verify");
    assert_eq!(kinds(&lines), ["does not hold", "holds", "does not hold", "note"], "{lines:?}");
    assert!(lines[0].contains(&lost) && lines[2].contains(&lost) && said.contains("2 of 3"), "{lines:?} {said}");

    let repository = history("verified-unreadable");
    let bad = b"tree 4b825dc642cb6eb9a060e54bf8d69288fbee4904\nwriter A <a> 5 +0000\ncommitter A <a> 5 +0000\n\n";
    let bad = repository.git_with("hash-object -w -t commit --literally --stdin", bad).remove(0);
    let tip = repository.commit(1_800_000_000, &[&bad]);
    let (lines, _) = repository.fails(&format!("verify {tip}"));
    assert_eq!(kinds(&lines), ["holds", "holds", "does not hold", "note"], "{lines:?}");
    assert!(lines[2].contains(&bad), "{lines:?}");
}

#[test]
fn gits_own_file() {
    if !has_git() {
        return;
    }
    let repository = history("verified-graph");
    repository.git("commit-graph write --reachable");
    let path = repository.dir.join(".git/objects/info/commit-graph");
    let bytes = fs::read(&path).unwrap();
    let put = |bytes: &[u8]| {
        fs::remove_file(&path).unwrap();
        fs::write(&path, bytes).unwrap();
    };
    let mut other = bytes.clone();
    *other.last_mut().unwrap() ^= 1;
    put(&other);
    let (lines, _) = repository.fails("verify");
    assert_eq!(kinds(&lines), ["holds", "holds", "holds", "does not hold"], "{lines:?}");
    assert!(lines[3].contains("refusal 17") && lines[3].contains("git commit-graph write"), "{lines:?}");
    put(b"another file");
    assert!(repository.fails("verify").0[3].contains("refusal 5"));

    // A file of another history, under its right digest.
    let stale = history("verified-graph-other");
    let main = stale.git("rev-parse main").remove(0);
    stale.point("main", &stale.commit(1_900_000_000, &[&main]));
    stale.git("commit-graph write --reachable");
    put(&fs::read(stale.dir.join(".git/objects/info/commit-graph")).unwrap());
    assert_eq!(kinds(&repository.list("verify")), ["holds"; 5]);
}

#[test]
fn a_shallow_clone() {
    if !has_git() {
        return;
    }
    let whole = history("verified-whole");
    let shallow = Repository { dir: folder("verified-shallow") };
    whole.git(&format!("clone -q --depth 5 file://{} {}", whole.dir.display(), shallow.dir.display()));
    let lines = shallow.list("verify");
    assert_eq!(kinds(&lines), ["holds", "note", "holds", "holds", "note"], "{lines:?}");
    assert!(lines[1].contains(&whole.git("rev-parse main~4")[0]), "{lines:?}");
}
