//! The crate's own way from a repository to a list, beside git.

#![cfg(feature = "walk")]

mod repositories;

use std::fs;

use linenhatch::{
    check_names, check_names_in, entries, parents_in, Error, Info, Kind, Lister, ObjectId, Order, References, Repository, Walk,
};
use repositories::{folder, has_git, history};

fn ids(infos: impl Iterator<Item = Info>) -> Vec<String> {
    infos.map(|info| info.id.to_string()).collect()
}

#[test]
fn lists_as_git_does() {
    if !has_git() {
        return;
    }
    let sample = history("library");
    let repository = Repository::open(&sample.dir).unwrap();
    for revs in [&["main"][..], &["old..main"], &["main", "side", "^old"], &["^old"], &[], &["side..", "merge^2"]] {
        let read = repository.read(revs).unwrap();
        let words = if revs.iter().all(|rev| rev.starts_with('^')) { format!("HEAD {}", revs.join(" ")) } else { revs.join(" ") };
        assert_eq!(ids(read.list().unwrap()), sample.git(&format!("rev-list {words}")), "{revs:?}");
        assert_eq!((read.absent(), read.cut()), (&[][..], &[][..]));
        assert_eq!(check_names(read.store(), read.graph()), Ok(()));
    }
    let read = repository.read(["main"]).unwrap();
    let infos: Vec<Info> = read.list().unwrap().collect();
    assert_eq!(entries(read.store()).count(), infos.len());
    assert_eq!((infos[0].generation, infos[0].time), (Some(31), Some(1_700_018_000)));
    let mut list = read.lister().order(Order::Breadth).first_parent().list().unwrap();
    assert_eq!(list.by_ref().count(), sample.git("rev-list --first-parent main").len());
    assert_eq!(list.numbers().waiting, 0);
    assert_eq!(list.next(), None);
}

/// The name that an answer had before.
#[test]
fn the_first_name_still_stands() {
    fn is_walk<'a>(walk: impl Iterator<Item = Result<linenhatch::Commit, linenhatch::Refusal>> + 'a) -> usize {
        walk.count()
    }
    let walk: Walk<'_> = linenhatch::Lister::new(&[0; 8]).open().unwrap();
    assert_eq!(is_walk(walk), 0);
    let linenhatch::Commit { id, .. } = Info { id: ObjectId([1; 20]), parents: Vec::new(), generation: None, time: None, zone: None };
    assert_eq!(id, ObjectId([1; 20]));
}

#[test]
fn references_and_names() {
    if !has_git() {
        return;
    }
    let sample = history("library-names");
    sample.git("tag v1 main~7");
    let repository = Repository::open(sample.dir.clone()).unwrap();
    assert!(!repository.is_empty() && !repository.is_shallow());
    let tips = |which: &[References]| repository.tips(which).unwrap().len();
    assert_eq!((tips(&[References::Branches]), tips(&[References::Tags]), tips(&[References::All]), tips(&[])), (4, 1, 5, 0));
    assert_eq!(repository.seconds("2024-09-01T00:00:00Z"), Ok(1_725_148_800));
    assert_eq!(repository.seconds("sometime"), Err(Error::NoDate("sometime".into())));
    assert_eq!(repository.resolve(&["main~1", "nosuch"]), Err(Error::NoCommit("nosuch".into())));
    assert!(matches!(repository.read(["a...b"]), Err(Error::BadName(name)) if name == "a...b"));
    assert_eq!(repository.graph(), Ok(Vec::new()));
    sample.git("commit-graph write --reachable");
    assert!(repository.graph().unwrap().starts_with(b"CGPH"));
    fs::remove_file(sample.dir.join(".git/objects/info/commit-graph")).unwrap();
    sample.git("commit-graph write --reachable --split");
    assert!(matches!(repository.graph(), Err(Error::GraphNotUsed(why)) if why.contains("layers")));
}

/// Errors carry the number, the words and the commit.
#[test]
fn errors() {
    if !has_git() {
        return;
    }
    let sample = history("library-errors");
    let lost = sample.git("rev-parse old").remove(0);
    fs::remove_file(sample.dir.join(".git/objects").join(&lost[..2]).join(&lost[2..])).unwrap();
    let repository = Repository::open(&sample.dir).unwrap();
    let read = repository.read(["main"]).unwrap();
    assert_eq!(read.absent().iter().map(ObjectId::to_string).collect::<Vec<_>>(), [lost.as_str()]);
    let error = read.list().unwrap_err();
    assert_eq!((error.number(), error.word()), (Some(13), Some("unreadable reach")));
    assert_eq!(error.commit().unwrap().to_string(), lost);
    assert!(error.to_string().ends_with(&format!(": {lost}")), "{error}");

    let empty = repositories::Repository::new("library-empty");
    let repository = Repository::open(&empty.dir).unwrap();
    assert!(repository.is_empty());
    assert_eq!(repository.read(["HEAD"]).unwrap_err(), Error::Empty);
    assert_eq!(Error::Empty.number(), None);
    let outside = Repository::open("/").unwrap_err();
    assert!(matches!(&outside, Error::Git(said) if said.contains("not a git repository")), "{outside}");
}

#[test]
fn a_repository_with_sha_256() {
    if !has_git() {
        return;
    }
    let Some(empty) = repositories::Repository::of_format("library-sha256", "sha256") else { return };
    let sample = repositories::history_in(empty);
    let repository = Repository::open(&sample.dir).unwrap();
    assert_eq!(repository.kind(), Kind::Sha256);
    let read = repository.read(["main", "^old"]).unwrap();
    assert_eq!(ids(read.list().unwrap()), sample.git("rev-list main ^old"));
    assert_eq!(check_names_in(Kind::Sha256, read.store(), read.graph()), Ok(()));
    assert!(entries(read.store()).all(|(id, body)| id.kind() == Kind::Sha256 && parents_in(Kind::Sha256, body).count() <= 4));
    let lister = Lister::new(read.store()).tips(read.tips());
    assert_eq!((lister.list().unwrap().count(), lister.feed_report().unwrap().neither), (35, 35));
}

/// A bare clone, a worktree and a shallow clone.
#[test]
fn other_kinds_of_repositories() {
    if !has_git() {
        return;
    }
    let sample = history("library-kinds");
    let [bare, tree, shallow] =
        ["library-bare", "library-tree", "library-shallow"].map(|name| repositories::Repository { dir: folder(name) });
    let all = sample.git("rev-list main");
    sample.git(&format!("clone -q --bare . {}", bare.dir.display()));
    sample.git(&format!("worktree add -q {} old", tree.dir.display()));
    sample.git(&format!("clone -q --depth 5 file://{} {}", sample.dir.display(), shallow.dir.display()));
    let listed = |dir, rev| ids(Repository::open(dir).unwrap().read([rev]).unwrap().list().unwrap());
    assert_eq!(listed(&bare.dir, "main"), all);
    assert_eq!(listed(&tree.dir, "HEAD"), sample.git("rev-list old"));
    let repository = Repository::open(&shallow.dir).unwrap();
    let read = repository.read(["HEAD"]).unwrap();
    assert_eq!(ids(read.list().unwrap()), all[..5]);
    assert_eq!((repository.is_shallow(), repository.boundary().unwrap().len(), read.cut().len()), (true, 1, 1));
    assert_eq!(read.cut()[0].to_string(), all[4]);
    let mut bodies = 0;
    let commits = repository.commits(read.tips(), &repository.boundary().unwrap(), |_, body| bodies += body.len()).unwrap();
    assert!(commits.whole.commits() == 5 && bodies > 500);
}
