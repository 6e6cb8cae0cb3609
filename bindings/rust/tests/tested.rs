//! Tested openings: a history of each kind, refused or accepted, with tips, hidden tips and excluded ones.
#![cfg(feature = "walk")]

use linenhatch::{store_from_commits, Commit, Lister, ObjectId, Order, Refusal};

const STORE: &[u8] = include_bytes!("../../../crates/readers/data/store");
const GRAPH: &[u8] = include_bytes!("../../../crates/readers/data/graph");
const TIP: &str = "af72823996703b28706a0974a56dcf6c58214925";

/// The id of the commit that is called by a number.
fn id(name: u8) -> ObjectId {
    ObjectId([name; 20])
}

fn body(seconds: i64, parents: &[u8]) -> String {
    let parents: String = parents.iter().map(|&parent| format!("parent {}\n", id(parent))).collect();
    format!("tree {}\n{parents}author A <a> 5 +0000\ncommitter A <a> {seconds} +0000\n\n", id(0))
}

fn store(commits: &[(u8, i64, &[u8])]) -> Vec<u8> {
    store_from_commits(commits.iter().map(|&(name, seconds, parents)| (id(name), body(seconds, parents)))).unwrap()
}

fn tried(lister: Lister<'_>) -> Result<Vec<u8>, Refusal> {
    lister.open_tested().map(|walk| walk.map(|commit| commit.expect("no refusal after a tested opening").id.as_bytes()[0]).collect())
}

fn from(store: &[u8], tip: u8) -> Result<Vec<u8>, Refusal> {
    tried(Lister::new(store).tips(&[id(tip)]))
}

#[test]
fn a_good_history_is_listed_as_by_a_plain_opening() {
    let store = store(&[(8, 8, &[6, 7]), (7, 7, &[4]), (6, 6, &[5]), (5, 5, &[3]), (4, 4, &[2]), (3, 3, &[1]), (2, 2, &[1]), (1, 1, &[])]);
    let from_8 = || Lister::new(&store).tips(&[id(8)]);
    for lister in [
        from_8(),
        from_8().order(Order::Newest),
        from_8().order(Order::Oldest),
        from_8().order(Order::Newest).cutoff(4),
        from_8().first_parent(),
        from_8().hide(&[id(5)]),
        from_8().exclude(&[id(6)]),
        Lister::new(&store),
        Lister::new(&[0; 8]),
    ] {
        let (mut plain, mut tested) = (lister.open().unwrap(), lister.open_tested().unwrap());
        assert_eq!(plain.numbers(), tested.numbers());
        loop {
            let (one, two) = (plain.next(), tested.next());
            assert_eq!((&one, plain.numbers()), (&two, tested.numbers()));
            if one.is_none() {
                break;
            }
        }
    }
}

#[test]
fn the_other_refusals_come_first() {
    let absent = store(&[(2, 2, &[1])]);
    assert_eq!(Lister::new(&absent[1..]).open_tested().err(), Some(Refusal::CorruptStore));
    assert_eq!(Lister::new(&absent).graph(b"CGPH").tips(&[id(2)]).open_tested().err(), Some(Refusal::UnknownGraph));
    assert_eq!(Lister::new(&absent).tips(&[id(2), id(3)]).order(Order::Newest).open_tested().err(), Some(Refusal::TipNotFound));
    assert_eq!(tried(Lister::new(&absent).tips(&[id(2), id(3)])), Err(Refusal::UnreadableReach));
}

#[test]
fn an_unreadable_reach() {
    assert_eq!(from(&store(&[(3, 3, &[2]), (2, 2, &[1])]), 3), Err(Refusal::UnreadableReach));
    let deep = |last: &str| {
        let commits = [(id(3), body(3, &[2])), (id(2), body(2, &[1])), (id(1), last.to_string())];
        from(&store_from_commits(commits).unwrap(), 3)
    };
    assert_eq!(deep(&body(1, &[])), Ok(vec![3, 2, 1]));
    assert_eq!(deep(&body(1, &[]).replace("committer", "keeper")), Err(Refusal::UnreadableReach));
    assert_eq!(deep(""), Err(Refusal::UnreadableReach));
    for (count, right) in [(256, Ok(vec![2, 1])), (257, Err(Refusal::UnreadableReach))] {
        assert_eq!(from(&store(&[(2, 2, &vec![1; count]), (1, 1, &[])]), 2), right);
    }
}

/// Everything reachable from all tips and hidden tips as they are lent is tested, however the walk goes.
#[test]
fn what_is_tested() {
    // 9 is good, 5 has an absent parent, 7 a good first parent and 5.
    let store = store(&[(9, 9, &[1]), (7, 7, &[1, 5]), (5, 5, &[4]), (1, 1, &[])]);
    let from_9 = || Lister::new(&store).tips(&[id(9)]);
    assert_eq!(tried(from_9()), Ok(vec![9, 1]));
    for lister in [
        from_9().tips(&[id(5)]).exclude(&[id(5)]),
        from_9().hide(&[id(5)]),
        from_9().tips(&[id(5)]).order(Order::Newest).cutoff(6),
        from_9().tips(&[id(7)]).first_parent(),
        Lister::new(&store).hide(&[id(5)]),
    ] {
        assert_eq!(tried(lister), Err(Refusal::UnreadableReach));
    }
    assert_eq!(tried(from_9().exclude(&[id(5)])), Ok(vec![9, 1]));
}

#[test]
fn a_pair_that_does_not_fall() {
    assert_eq!(from(&store(&[(2, 5, &[1]), (1, 5, &[])]), 2), Err(Refusal::PairNotFalling));
    assert_eq!(from(&store(&[(2, 5, &[1]), (1, 6, &[])]), 2), Err(Refusal::PairNotFalling));
    assert_eq!(from(&store(&[(2, -5, &[1]), (1, -6, &[])]), 2), Ok(vec![2, 1]));
    assert_eq!(from(&store(&[(2, 5, &[2])]), 2), Err(Refusal::PairNotFalling));
    assert_eq!(from(&store(&[(2, 5, &[1]), (1, 4, &[2])]), 2), Err(Refusal::PairNotFalling));
    assert_eq!(from(&store(&[(2, 5, &[1]), (1, 5, &[3])]), 2), Err(Refusal::UnreadableReach));
}

/// Where a chunk of git's file starts, and how many rows it has.
fn chunk_at(name: &[u8; 4]) -> usize {
    let row = GRAPH[8..].chunks(12).find(|row| row[..4] == name[..]).unwrap();
    u64::from_be_bytes(row[4..].try_into().unwrap()) as usize
}

fn count() -> usize {
    u32::from_be_bytes(GRAPH[chunk_at(b"OIDF") + 1020..][..4].try_into().unwrap()) as usize
}

/// The tip's walk with git's file, in which these bytes of a row are others.
fn with_row(row: usize, at: usize, bytes: &[u8]) -> Result<Vec<Commit>, Refusal> {
    let mut graph = GRAPH.to_vec();
    graph[chunk_at(b"CDAT") + 36 * row + at..][..bytes.len()].copy_from_slice(bytes);
    let lister = Lister::new(STORE).graph(&graph).tips(&[TIP.parse().unwrap()]);
    lister.open_tested().map(|walk| walk.map(Result::unwrap).collect())
}

#[test]
fn a_graph_file_at_odds() {
    assert_eq!(count(), 21);
    let right = with_row(0, 0, &[]).unwrap();
    assert_eq!(right.len(), 21);
    let row = |k: usize| &GRAPH[chunk_at(b"CDAT") + 36 * k..][..36];
    for k in 0..count() {
        // The tree id is not read.
        assert_eq!(with_row(k, 0, &[7; 20]).as_ref(), Ok(&right));
        // The time.
        assert_eq!(with_row(k, 35, &[row(k)[35] ^ 1]), Err(Refusal::GraphAtOdds));
        assert_eq!(with_row(k, 31, &[row(k)[31] ^ 2]), Err(Refusal::GraphAtOdds));
        // A corrupt list, and another parent.
        assert_eq!(with_row(k, 20, &21u32.to_be_bytes()), Err(Refusal::GraphAtOdds));
        let other = if row(k)[20..24] == 0u32.to_be_bytes() { 1u32 } else { 0 };
        assert_eq!(with_row(k, 20, &other.to_be_bytes()), Err(Refusal::GraphAtOdds));
        // The order of two parents.
        if row(k)[24] < 0x70 {
            let turned = [&row(k)[24..28], &row(k)[20..24]].concat();
            assert_eq!(with_row(k, 20, &turned), Err(Refusal::GraphAtOdds));
        }
    }
    assert!((0..count()).any(|k| row(k)[24] < 0x70));
}

/// A generation of 0 in one row: none is used, and the times alone have to fall.
#[test]
fn generations_decide_before_times_but_for_a_zero() {
    let bits = |k: usize| GRAPH[chunk_at(b"CDAT") + 36 * k + 31] & 3;
    let (mut zeros, mut high) = (0, 0);
    let falls = Lister::new(STORE).tips(&[TIP.parse().unwrap()]).open_tested().is_ok();
    for k in 0..count() {
        zeros += usize::from(with_row(k, 28, &[0, 0, 0, bits(k)]).is_ok() == falls);
        high += usize::from(with_row(k, 28, &[0xff, 0xff, 0xff, 0xfc | bits(k)]) == Err(Refusal::PairNotFalling));
    }
    // Only the tip may have the greatest generation.
    assert_eq!((zeros, high), (count(), count() - 1));
}
