//! Commit-graph files: small stores, the rows that are written of them, and what is refused.

#![cfg(feature = "walk")]

use linenhatch::{graph_length, store_from_commits, write_graph, Lister, ObjectId, Order, Refusal, MAX_FILE_BYTES};

fn id(n: u8) -> ObjectId {
    ObjectId([n; 20])
}

fn body(seconds: i64, parents: &[ObjectId]) -> String {
    let parents: String = parents.iter().map(|parent| format!("parent {parent}\n")).collect();
    let who = format!("A <a> {seconds} +0000");
    format!("tree 0123456789abcdef0123456789abcdef01234567\n{parents}author {who}\ncommitter {who}\n\n")
}

/// A store of commits, each its number, its seconds and its parents' numbers.
fn store(commits: &[(u8, i64, &[u8])]) -> Vec<u8> {
    let bodies = commits.iter().map(|(n, seconds, parents)| (id(*n), body(*seconds, &parents.iter().map(|&n| id(n)).collect::<Vec<_>>())));
    store_from_commits(bodies).unwrap()
}

/// The file, whose length is the one that is said.
fn written(store: &[u8]) -> Result<Vec<u8>, Refusal> {
    let file = write_graph(store);
    assert_eq!(graph_length(store), file.as_ref().map(Vec::len).map_err(|&refusal| refusal));
    file
}

fn word(file: &[u8], at: usize) -> u32 {
    u32::from_be_bytes(file[at..at + 4].try_into().unwrap())
}

#[test]
fn no_commits() {
    let file = written(&[0; 8]).unwrap();
    assert_eq!((file.len(), &file[..8]), (1100, &b"CGPH\x01\x01\x03\0"[..]));
    assert_eq!(Lister::new(&[0; 8]).graph(&file).open_tested().unwrap().count(), 0);
}

#[test]
fn rows() {
    let file = written(&store(&[(1, 5, &[]), (2, (3 << 32) + 7, &[1]), (9, 0, &[2, 1])])).unwrap();
    let (fan, ids, rows) = (56, 56 + 1024, 56 + 1024 + 60);
    assert_eq!(file.len(), rows + 3 * 36 + 20);
    assert_eq!([0, 1, 2, 8, 9, 255].map(|byte| word(&file, fan + 4 * byte)), [0, 1, 2, 2, 3, 3]);
    assert_eq!(&file[ids..rows], [[1; 20], [2; 20], [9; 20]].concat());
    let row = |k: usize| [20, 24, 28, 32].map(|at| word(&file, rows + 36 * k + at));
    assert_eq!([row(0), row(1), row(2)], [[0x7000_0000, 0x7000_0000, 4, 5], [0, 0x7000_0000, 8 + 3, 7], [1, 0, 12, 0]]);
    assert_eq!(&file[rows..rows + 20], b"\x01\x23\x45\x67\x89\xab\xcd\xef\x01\x23\x45\x67\x89\xab\xcd\xef\x01\x23\x45\x67");
}

/// Lists of over two parents stand in EDGE from the second parent on, in the order of rows; two parents never do, and repeats stay.
#[test]
fn lists_of_over_two_parents() {
    let file = written(&store(&[(1, 5, &[]), (2, 5, &[1, 1, 1]), (3, 5, &[1, 1]), (4, 5, &[3, 2, 1, 2])])).unwrap();
    let rows = 68 + 1024 + 80;
    let edge = rows + 4 * 36;
    assert_eq!((file[6], file.len()), (4, edge + 5 * 4 + 20));
    assert_eq!([0, 1, 2, 3].map(|k| word(&file, rows + 36 * k + 24)), [0x7000_0000, 0x8000_0000, 0, 0x8000_0002]);
    assert_eq!([0, 1, 2, 3, 4].map(|k| word(&file, edge + 4 * k)), [0, 0x8000_0000, 1, 0, 0x8000_0001]);
}

/// Clocks that stand still or run backwards are refused by a tested opening, and not with the store's own file.
#[test]
fn a_store_with_its_own_file_is_accepted() {
    let store = store(&[(1, 900, &[]), (2, 5, &[1]), (3, 5, &[2]), (4, 1, &[3, 1]), (5, 0, &[4, 2, 1])]);
    let file = written(&store).unwrap();
    for order in [Order::Breadth, Order::Newest, Order::Oldest] {
        let lister = Lister::new(&store).tips(&[id(5)]).hide(&[id(2)]).order(order);
        assert_eq!(lister.clone().open_tested().err(), Some(Refusal::PairNotFalling));
        let walk = lister.graph(&file).open_tested().unwrap();
        let mut listed: Vec<_> = walk.map(|commit| commit.unwrap()).map(|commit| (commit.id, commit.generation)).collect();
        listed.sort();
        assert_eq!(listed, [(id(3), Some(3)), (id(4), Some(4)), (id(5), Some(5))]);
    }
}

#[test]
fn merges_of_256_parents_and_of_one_more() {
    let wide = |n: usize| store_from_commits([(id(1), body(5, &[])), (id(2), body(7, &vec![id(1); n]))]).unwrap();
    let file = written(&wide(256)).unwrap();
    assert_eq!(file.len(), 68 + 1024 + 2 * 56 + 4 * 255 + 20);
    assert!(Lister::new(&wide(256)).graph(&file).tips(&[id(2)]).open_tested().is_ok());
    assert_eq!(written(&wide(257)), Err(Refusal::UnfitStore));
}

#[test]
fn stores_that_no_file_can_be_written_of() {
    for commits in [
        &[(1u8, 5i64, &[9u8][..])][..],
        &[(1, 5, &[1])],
        &[(1, 5, &[]), (2, 5, &[1, 2])],
        &[(1, 5, &[3]), (2, 5, &[1]), (3, 5, &[2])],
        &[(1, -1, &[2]), (2, 5, &[1])],
    ] {
        assert_eq!(written(&store(commits)), Err(Refusal::UnfitStore), "{commits:?}");
    }
    for (from, to) in [("tree ", "three "), ("author ", "writer "), ("committer ", "keeper "), (" 5 +0000\n\n", "5 +0000\n\n")] {
        let bodies = [(id(1), body(5, &[]).replace(from, to)), (id(2), body(-1, &[]))];
        assert_eq!(written(&store_from_commits(bodies).unwrap()), Err(Refusal::UnfitStore), "{to}");
    }
}

#[test]
fn seconds() {
    const MOST: i64 = 17_179_869_183;
    for (seconds, fits) in [(0, true), (MOST, true), (-1, false), (MOST + 1, false), (-MOST, false), (i64::pow(10, 17), false)] {
        let file = written(&store(&[(1, 5, &[]), (2, seconds, &[1])]));
        assert_eq!(file.err(), (!fits).then_some(Refusal::UnfitSeconds), "{seconds}");
    }
}

#[test]
fn sizes_and_layouts() {
    assert_eq!(written(&vec![1; MAX_FILE_BYTES + 1]), Err(Refusal::InputTooLarge));
    assert_eq!(written(&vec![1; MAX_FILE_BYTES]), Err(Refusal::CorruptStore));
    for bytes in [&[][..], &[0; 7], &[0; 9]] {
        assert_eq!(written(bytes), Err(Refusal::CorruptStore));
    }
}

/// Messages and names are no part of a row.
#[test]
fn equal_rows_give_equal_files() {
    let named = |who: &str, text: &str| {
        let body = |seconds, parents: &[ObjectId]| body(seconds, parents).replace("A <a>", who) + text;
        store_from_commits([(id(1), body(5, &[])), (id(2), body(6, &[id(1)]))]).unwrap()
    };
    assert_eq!(written(&named("A <a>", "")).unwrap(), written(&named("B C <b@c>", "parent 1\nand more")).unwrap());
}
