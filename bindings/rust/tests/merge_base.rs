//! Where two series part: small histories, each told by its parents, and what is refused.

#![cfg(feature = "walk")]

use linenhatch::{merge_base, store_from_commits, ObjectId, Refusal, MAX_FILE_BYTES};

fn id(n: u8) -> ObjectId {
    ObjectId([n; 20])
}

fn body(seconds: i64, parents: &[ObjectId]) -> String {
    let parents: String = parents.iter().map(|parent| format!("parent {parent}\n")).collect();
    let who = format!("A <a> {seconds} +0000");
    format!("tree 0000000000000000000000000000000000000000\n{parents}author {who}\ncommitter {who}\n\n")
}

/// A store of commits, each its number, its seconds and its parents' numbers.
fn store(commits: &[(u8, i64, &[u8])]) -> Vec<u8> {
    let bodies = commits.iter().map(|(n, seconds, parents)| (id(*n), body(*seconds, &parents.iter().map(|&n| id(n)).collect::<Vec<_>>())));
    store_from_commits(bodies).unwrap()
}

/// What is said, which is the same with the two exchanged.
fn parted(store: &[u8], one: u8, other: u8) -> Result<Option<ObjectId>, Refusal> {
    let said = merge_base(store, id(one), id(other));
    assert_eq!(said, merge_base(store, id(other), id(one)));
    said
}

/// 1, then 2 and 3 on it, each merged into the other twice: 4 and 5, then 6 and 7.
const CRISS_CROSS: [(u8, i64, &[u8]); 7] =
    [(1, 10, &[]), (2, 20, &[1]), (3, 30, &[1]), (4, 40, &[2, 3]), (5, 50, &[3, 2]), (6, 60, &[4]), (7, 70, &[5])];

#[test]
fn a_line_and_a_fork() {
    let store = store(&[(1, 5, &[]), (2, 6, &[1]), (3, 7, &[2]), (4, 8, &[1])]);
    assert_eq!(parted(&store, 3, 3), Ok(Some(id(3))));
    assert_eq!(parted(&store, 1, 3), Ok(Some(id(1))));
    assert_eq!(parted(&store, 2, 3), Ok(Some(id(2))));
    assert_eq!(parted(&store, 4, 3), Ok(Some(id(1))));
}

#[test]
fn none() {
    assert_eq!(parted(&store(&[(1, 5, &[]), (2, 6, &[1]), (3, 7, &[]), (4, 8, &[3])]), 2, 4), Ok(None));
}

#[test]
fn of_several_the_newest_then_the_smallest() {
    let mut commits = CRISS_CROSS;
    for (two, three, first) in
        [(20, 30, 3), (30, 20, 2), (20, 20, 2), (-1, -2, 2), (-2, -1, 3), (-1, 0, 3), (i64::from(i32::MAX), 5_000_000_000, 3)]
    {
        (commits[1].1, commits[2].1) = (two, three);
        assert_eq!(parted(&store(&commits), 6, 7), Ok(Some(id(first))), "{two}, {three}");
    }
}

/// Times decide between best commits alone: a base that is newer than its children is no better for it, and an old best one is best.
#[test]
fn times_that_run_backwards() {
    assert_eq!(parted(&store(&[(1, 900, &[]), (2, 5, &[1]), (3, 1, &[2]), (4, 2, &[2])]), 3, 4), Ok(Some(id(2))));
}

#[test]
fn ids_that_differ_in_their_last_byte() {
    let ending = |last| {
        let mut bytes = [9; 20];
        bytes[19] = last;
        ObjectId(bytes)
    };
    let (small, great) = (ending(1), ending(200));
    let tips = [(id(1), body(9, &[great, small])), (id(2), body(9, &[small, great]))];
    let store = store_from_commits(tips.into_iter().chain([(great, body(7, &[])), (small, body(7, &[]))])).unwrap();
    assert_eq!(merge_base(&store, id(1), id(2)), Ok(Some(small)));
    assert_eq!(merge_base(&store, id(2), id(1)), Ok(Some(small)));
}

#[test]
fn repeated_parents_and_a_parent_of_itself() {
    assert_eq!(parted(&store(&[(1, 5, &[]), (2, 6, &[1, 1, 1]), (3, 7, &[1, 1])]), 2, 3), Ok(Some(id(1))));
    // it is no other commit's parent, so it is best
    assert_eq!(parted(&store(&[(1, 5, &[1]), (2, 6, &[1]), (3, 7, &[1])]), 2, 3), Ok(Some(id(1))));
    assert_eq!(parted(&store(&[(1, 5, &[1])]), 1, 1), Ok(Some(id(1))));
}

#[test]
fn circles() {
    let circle: [(u8, i64, &[u8]); 4] = [(1, 5, &[2]), (2, 6, &[1]), (3, 7, &[1]), (4, 8, &[2])];
    assert_eq!(parted(&store(&circle), 3, 4), Err(Refusal::TangledReach));
    assert_eq!(parted(&store(&circle), 1, 1), Err(Refusal::TangledReach));
    assert_eq!(parted(&store(&circle), 1, 3), Err(Refusal::TangledReach));
    // a circle below the best one is no hindrance
    assert_eq!(parted(&store(&circle), 3, 3), Ok(Some(id(3))));
    // nor one above that is not common
    assert_eq!(parted(&store(&[(1, 5, &[]), (2, 6, &[3, 1]), (3, 7, &[2]), (4, 8, &[1])]), 2, 4), Ok(Some(id(1))));
    // beside a best one a circle says nothing
    assert_eq!(parted(&store(&[(1, 5, &[2]), (2, 6, &[1]), (3, 1, &[]), (4, 8, &[1, 3]), (5, 9, &[3, 2])]), 4, 5), Ok(Some(id(3))));
}

#[test]
fn what_cannot_be_read() {
    let missing = store(&[(1, 5, &[9]), (2, 6, &[1]), (3, 7, &[]), (4, 8, &[3])]);
    assert_eq!(parted(&missing, 2, 4), Err(Refusal::UnreadableReach));
    assert_eq!(parted(&missing, 3, 4), Ok(Some(id(3))));
    assert_eq!(parted(&missing, 3, 8), Err(Refusal::UnreadableReach));
    assert_eq!(parted(&[0; 8], 8, 8), Err(Refusal::UnreadableReach));
    let parents = |n: usize| body(7, &vec![id(1); n]);
    let wide = |n| store_from_commits([(id(1), body(5, &[])), (id(2), parents(n))]).unwrap();
    assert_eq!(parted(&wide(256), 1, 2), Ok(Some(id(1))));
    assert_eq!(parted(&wide(257), 1, 2), Err(Refusal::UnreadableReach));
    assert_eq!(parted(&wide(257), 1, 1), Ok(Some(id(1))));
    let bad = store_from_commits([(id(1), body(5, &[]).replace("committer", "keeper")), (id(2), body(7, &[id(1)]))]).unwrap();
    assert_eq!(parted(&bad, 2, 2), Err(Refusal::UnreadableReach));
}

/// 2, 4, then 13, then 23.
#[test]
fn the_order() {
    assert_eq!(parted(&vec![1; MAX_FILE_BYTES + 1], 1, 2), Err(Refusal::InputTooLarge));
    assert_eq!(parted(&vec![1; MAX_FILE_BYTES], 1, 2), Err(Refusal::CorruptStore));
    assert_eq!(parted(&[], 1, 2), Err(Refusal::CorruptStore));
    let tangled: [(u8, i64, &[u8]); 3] = [(1, 5, &[2]), (2, 6, &[1]), (3, 7, &[1, 9])];
    assert_eq!(parted(&store(&tangled), 1, 2), Err(Refusal::TangledReach));
    assert_eq!(parted(&store(&tangled), 1, 3), Err(Refusal::UnreadableReach));
}
