//! The tool's list as it is, with nothing asked for: exactly what is reachable and not hidden, whatever the clocks say and whatever git's own
//! commit-graph file says.

#![cfg(feature = "walk")]

mod repositories;

use std::collections::{BTreeSet, HashMap};
use std::fs;

use repositories::{folder, has_git, history, lines, run, Repository, TREE};

/// A history whose clocks drift: the commits in order, each with the numbers of its parents.
fn drifting(name: &str) -> (Repository, Vec<String>, Vec<Vec<usize>>) {
    let repository = Repository::new(name);
    let (mut ids, mut links): (Vec<String>, Vec<Vec<usize>>) = (Vec::new(), Vec::new());
    let mut state = 12345u64;
    let mut random = |below: u64| {
        state = state.wrapping_mul(6_364_136_223_846_793_005).wrapping_add(1_442_695_040_888_963_407);
        (state >> 33) % below
    };
    for n in 0..60usize {
        let mut parents: Vec<usize> =
            (0..random(3).min(n as u64) + u64::from(n > 0)).map(|_| n - 1 - random(n.min(6) as u64) as usize).collect();
        parents.sort_unstable();
        parents.dedup();
        let back = if random(4) == 0 { random(4000) as i64 } else { 0 };
        let named: Vec<&str> = parents.iter().map(|&p| ids[p].as_str()).collect();
        ids.push(repository.commit(1_700_000_000 + 60 * n as i64 - back, &named));
        links.push(parents);
    }
    repository.point("main", ids.last().unwrap());
    (repository, ids, links)
}

fn reached(links: &[Vec<usize>], from: usize) -> BTreeSet<usize> {
    let mut all = BTreeSet::from([from]);
    for n in (0..=from).rev() {
        if all.contains(&n) {
            all.extend(&links[n]);
        }
    }
    all
}

/// Every commit hidden in turn; with no file of git's, with a stale one, with one of which a parent is false, and with one that is no such file.
#[test]
fn whatever_clocks_and_files_say() {
    if !has_git() {
        return;
    }
    let (repository, ids, links) = drifting("drifting");
    let (tip, all) = (ids.len() - 1, reached(&links, ids.len() - 1));
    let file = repository.dir.join(".git/objects/info/commit-graph");
    let mut refused = 0;
    for what in ["none", "stale", "false", "no file"] {
        match what {
            "stale" => drop(repository.git_with("commit-graph write --stdin-commits", format!("{}\n", ids[30]).as_bytes())),
            "false" => {
                repository.git("commit-graph write --reachable");
                let mut bytes = fs::read(&file).unwrap();
                let row = bytes[8..].chunks(12).find(|row| row[..4] == b"CDAT"[..]).unwrap();
                let rows = u64::from_be_bytes(row[4..].try_into().unwrap()) as usize;
                for row in (0..20).map(|n| rows + 36 * n) {
                    bytes[row + 23] ^= 1;
                }
                fs::remove_file(&file).unwrap();
                fs::write(&file, bytes).unwrap();
                refused += usize::from(repository.tool("--git-graph main").status.code() == Some(1));
            }
            "no file" => fs::write(&file, "another file").unwrap(),
            _ => {}
        }
        for hidden in (0..=tip).step_by(if what == "none" { 1 } else { 7 }) {
            let gone = reached(&links, hidden);
            let right: BTreeSet<&String> = all.difference(&gone).map(|&n| &ids[n]).collect();
            let list = repository.list(&format!("{}..main", ids[hidden]));
            assert_eq!(list.len(), right.len(), "{what}, hidden {hidden}");
            assert_eq!(list.iter().collect::<BTreeSet<_>>(), right, "{what}, hidden {hidden}");
        }
    }
    assert_eq!(refused, 1, "git's false file is refused where it is asked for");
}

/// The generations are those of the rule, for every commit.
#[test]
fn generations() {
    if !has_git() {
        return;
    }
    let (repository, ids, links) = drifting("generations");
    let mut right: Vec<usize> = Vec::new();
    for parents in &links {
        right.push(parents.iter().map(|&p| right[p]).max().unwrap_or(0) + 1);
    }
    let number: HashMap<&String, usize> = ids.iter().zip(0..).collect();
    let list = repository.list("--time");
    assert_eq!(list.len(), reached(&links, ids.len() - 1).len());
    for line in list {
        let (id, rest) = line.split_once(' ').unwrap();
        assert_eq!(rest.split_once('/').unwrap().1, right[number[&id.to_string()]].to_string(), "{line}");
    }
}

/// A commit before 1970: no commit-graph file can hold it. The clocks decide then, and they are tested.
#[test]
fn times_that_no_file_can_hold() {
    if !has_git() {
        return;
    }
    let repository = Repository::new("before");
    let old = repository.commit(-5, &[]);
    let middle = repository.commit(1000, &[&old]);
    let tip = repository.commit(2000, &[&middle]);
    let output = repository.tool(&format!("{middle}..{tip}"));
    assert_eq!((output.status.code(), lines(&output.stdout)), (Some(0), vec![tip.clone()]));
    let said = String::from_utf8(output.stderr).unwrap();
    assert!(said.contains("the time of 1 commit") && said.contains(&format!("({old})")) && said.lines().count() == 1, "{said}");

    let back = repository.commit(999, &[&middle]);
    let (list, said) = repository.fails(&back);
    assert!(
        list.is_empty() && said.contains(&format!("(refusal 15, pair not falling): {back}\n")) && said.contains("--untested"),
        "{said}"
    );
    assert_eq!(lines(&repository.tool(&format!("--untested {back}")).stdout).len(), 3);
}

/// Commits that git's own list leaves out are asked for by name: nothing rests on it. Here git's file gives the tip no parents.
#[test]
fn nothing_rests_on_gits_list() {
    if !has_git() {
        return;
    }
    let repository = history("list-of-git");
    let right = repository.git("rev-list main");
    repository.git("commit-graph write --reachable");
    let file = repository.dir.join(".git/objects/info/commit-graph");
    let mut bytes = fs::read(&file).unwrap();
    let chunk = |name: &[u8]| {
        let row = bytes[8..].chunks(12).find(|row| row[..4] == *name).unwrap();
        u64::from_be_bytes(row[4..].try_into().unwrap()) as usize
    };
    let (ids, rows) = (chunk(b"OIDL"), chunk(b"CDAT"));
    let at =
        bytes[ids..rows].chunks(20).position(|id| id.iter().map(|byte| format!("{byte:02x}")).collect::<String>() == right[0]).unwrap();
    bytes[rows + 36 * at + 20..][..4].copy_from_slice(&0x7000_0000u32.to_be_bytes());
    fs::remove_file(&file).unwrap();
    fs::write(&file, bytes).unwrap();
    assert_eq!(repository.git("rev-list main").len(), 1, "git believes its file");
    assert_eq!(repository.list("main"), right);
}

#[test]
fn bare_repositories_and_worktrees() {
    if !has_git() {
        return;
    }
    let repository = history("from");
    let right = repository.git("rev-list side..main");
    let bare = Repository { dir: folder("bare") };
    repository.git(&format!("clone -q --bare {} {}", repository.dir.display(), bare.dir.display()));
    assert_eq!(bare.list("side..main"), right);
    assert_eq!(bare.list("list --git-graph --count main"), bare.git("rev-list --count main"));

    let worktree = Repository { dir: folder("worktree") };
    repository.git(&format!("worktree add -q --no-checkout {} old", worktree.dir.display()));
    assert_eq!(worktree.list(""), repository.git("rev-list old"));
    assert_eq!(worktree.list("side..main"), right);
    let inside = worktree.dir.join("deep");
    fs::create_dir(&inside).unwrap();
    assert_eq!(worktree.list("-C deep --count"), repository.git("rev-list --count old"));

    // A worktree of a shallow clone: the boundary is the repository's.
    let shallow = Repository { dir: folder("shallow-bare") };
    repository.git(&format!("clone -q --bare --depth 4 file://{} {}", repository.dir.display(), shallow.dir.display()));
    let output = shallow.tool("--count");
    assert_eq!((lines(&output.stdout), output.status.code()), (vec!["4".to_string()], Some(0)));
    let beside = Repository { dir: folder("shallow-worktree") };
    shallow.git(&format!("worktree add -q --no-checkout --detach {} main~1", beside.dir.display()));
    assert_eq!(lines(&beside.tool("--count").stdout), ["3"]);
}

/// A shallow clone of two branches has two boundaries, and a root among the commits is no boundary.
#[test]
fn several_boundaries() {
    if !has_git() {
        return;
    }
    let repository = Repository::new("two-ends");
    let root = repository.commit(1000, &[]);
    let (left, right) = (repository.commit(1100, &[&root]), repository.commit(1200, &[&root]));
    let alone = repository.commit(1300, &[]);
    repository.point("left", &left);
    repository.point("right", &right);
    repository.point("alone", &alone);
    let shallow = Repository { dir: folder("two-ends-cut") };
    repository.git(&format!("clone -q --bare --depth 1 --no-single-branch file://{} {}", repository.dir.display(), shallow.dir.display()));
    let output = shallow.tool("--all --parents");
    let said = String::from_utf8(output.stderr).unwrap();
    assert_eq!(lines(&output.stdout), [alone.clone(), right.clone(), left.clone()]);
    assert!(said.contains("cut off at 2 commits") && said.contains(&left) && said.contains(&right) && !said.contains(&alone), "{said}");
    assert_eq!(shallow.list("alone"), [alone]);

    // Lost within a shallow clone, and not behind a boundary.
    let tip = shallow.commit(1400, &[&"12".repeat(20), &left]);
    let (list, said) = shallow.fails(&tip);
    assert!(list.is_empty() && said.contains(&format!("not in the repository: 1 commit ({})", "12".repeat(20))), "{said}");
}

/// A lost parent that no boundary explains is refused, and named.
#[test]
fn lost_commits_are_no_boundary() {
    if !has_git() {
        return;
    }
    let repository = history("lost-within");
    let lost = repository.git("rev-parse main~5").remove(0);
    fs::remove_file(repository.dir.join(".git/objects").join(&lost[..2]).join(&lost[2..])).unwrap();
    let (list, said) = repository.fails("main");
    assert!(list.is_empty() && said.contains(&format!("not in the repository: 1 commit ({lost})")), "{said}");
    let mut git = repository.command();
    git.args(["rev-list", "main"]);
    assert!(!run(git, b"").status.success());
    let body = format!("tree {TREE}\nauthor A <a> 5 +0000\ncommitter A <a> 5 +0000\n\n");
    let other = repository.git_with("hash-object -w -t commit --stdin", body.as_bytes()).remove(0);
    assert_eq!(repository.list(&other), [other]);
}

/// A report is over the commits of the list, whatever the clocks say.
#[test]
fn reports_go_over_the_same_commits() {
    if !has_git() {
        return;
    }
    let (repository, ids, links) = drifting("report");
    let all = reached(&links, ids.len() - 1);
    for hidden in (0..ids.len()).step_by(5) {
        let right = all.difference(&reached(&links, hidden)).count().to_string();
        let report = repository.list(&format!("feed --csv {}..main", ids[hidden]));
        assert_eq!(report[1].split(',').next(), Some(right.as_str()), "hidden {hidden}");
        let report = repository.list(&format!("terms --csv --term 1970-01 {}..main", ids[hidden]));
        assert_eq!(report.last().map(String::as_str), Some(format!("total,,,{right},").as_str()), "hidden {hidden}");
    }
    let (report, said) = repository.fails("feed --no-graph main");
    assert!(report.is_empty() && said.contains("(refusal 15, pair not falling)"), "{said}");
}
