//! Walks over small histories: the runs that document 01 prints, and each refusal that a `Lister` can meet.
#![cfg(feature = "walk")]

use linenhatch::{store_from_commits, Commit, Lister, Numbers, ObjectId, Order, Refusal};

/// The id of the commit that is called by a number.
fn id(name: u8) -> ObjectId {
    ObjectId([name; 20])
}

fn ids(names: &[u8]) -> Vec<ObjectId> {
    names.iter().map(|&name| id(name)).collect()
}

fn body(seconds: &str, parents: &[u8]) -> String {
    let parents: String = parents.iter().map(|&parent| format!("parent {}\n", id(parent))).collect();
    format!("tree {}\n{parents}author A <a> 5 +0000\ncommitter A <a> {seconds} +0000\n\n", id(0))
}

fn store(commits: &[(u8, i64, &[u8])]) -> Vec<u8> {
    store_from_commits(commits.iter().map(|&(name, seconds, parents)| (id(name), body(&seconds.to_string(), parents)))).unwrap()
}

/// The history of `simple.rs`, numbers as seconds.
fn sample() -> Vec<u8> {
    store(&[(8, 8, &[6, 7]), (7, 7, &[4]), (6, 6, &[5]), (5, 5, &[3]), (4, 4, &[2]), (3, 3, &[1]), (2, 2, &[1]), (1, 1, &[])])
}

fn listed(lister: Lister<'_>) -> Vec<u8> {
    lister.open().unwrap().map(|commit| commit.unwrap().id.as_bytes()[0]).collect()
}

#[test]
fn the_runs() {
    let store = sample();
    let from_8 = || Lister::new(&store).tips(&[id(8)]);
    assert_eq!(listed(from_8()), [8, 6, 7, 5, 4, 3, 2, 1]);
    assert_eq!(listed(from_8().order(Order::Newest)), [8, 7, 6, 5, 4, 3, 2, 1]);
    assert_eq!(listed(from_8().order(Order::Oldest)), [8, 6, 5, 3, 1, 7, 4, 2]);
    assert_eq!(listed(from_8().order(Order::Newest).cutoff(4)), [8, 7, 6, 5, 4]);
    assert_eq!(listed(from_8().first_parent()), [8, 6, 5, 3, 1]);
    assert_eq!(listed(from_8().hide(&[id(5)])), [8, 6, 7, 4, 2]);
    assert_eq!(listed(from_8().exclude(&[id(6)])), [8, 7, 4, 2, 1]);
    assert_eq!(listed(Lister::new(&store).tips(&ids(&[7, 6, 7]))), [7, 6, 4, 5, 2, 3, 1]);
    assert_eq!(listed(from_8().hide(&[id(8)])), []);
    assert_eq!(listed(Lister::new(&store)), []);
    assert_eq!(listed(Lister::new(&[0; 8])), []);
}

#[test]
fn breadth_order_has_no_cutoff() {
    assert_eq!(listed(Lister::new(&sample()).tips(&[id(8)]).cutoff(4)).len(), 8);
}

#[test]
fn a_skewed_clock() {
    let (a, h, c, m, s) = (0xaa, 0x88, 0xcc, 0x99, 0x55);
    let store = store(&[(a, 10, &[c, m]), (h, 9, &[m]), (c, 8, &[]), (m, 3, &[s]), (s, 1, &[c])]);
    assert_eq!(listed(Lister::new(&store).tips(&[id(a)]).hide(&[id(h)])), [a, c]);
}

#[test]
fn fields_of_a_commit() {
    let store = sample();
    let mut walk = Lister::new(&store).tips(&[id(8)]).order(Order::Newest).open().unwrap();
    assert_eq!(walk.numbers(), Numbers { admitted: 1, struck: 0, waiting: 1 });
    assert_eq!(walk.parents().len(), 0);
    let commit = walk.next().unwrap().unwrap();
    assert_eq!(commit, Commit { id: id(8), parents: ids(&[6, 7]), generation: None, time: Some(8), zone: Some(0) });
    assert_eq!(walk.parents().collect::<Vec<_>>(), ids(&[6, 7]));
    assert_eq!(walk.numbers(), Numbers { admitted: 3, struck: 0, waiting: 2 });

    let mut walk = Lister::new(&store).tips(&[id(8)]).order(Order::Newest).first_parent().open().unwrap();
    let commit = walk.next().unwrap().unwrap();
    assert_eq!(commit, Commit { id: id(8), parents: ids(&[6]), generation: None, time: None, zone: Some(0) });
}

#[test]
fn the_sum_holds_after_every_call() {
    let store = sample();
    let mut walk = Lister::new(&store).tips(&ids(&[8, 5])).hide(&[id(5)]).open().unwrap();
    let mut handed = 0;
    while let Some(commit) = walk.next() {
        commit.unwrap();
        handed += 1;
        let numbers = walk.numbers();
        assert_eq!(numbers.admitted, handed + numbers.struck + numbers.waiting);
    }
    assert_eq!(walk.numbers(), Numbers { admitted: 6, struck: 1, waiting: 0 });
}

#[test]
fn after_the_end_only_the_end() {
    let store = store(&[(1, 1, &[])]);
    let mut walk = Lister::new(&store).tips(&[id(1)]).open().unwrap();
    assert!(walk.next().unwrap().is_ok());
    let numbers = walk.numbers();
    for _ in 0..3 {
        assert_eq!(walk.next(), None);
        assert_eq!(walk.numbers(), numbers);
    }
}

#[test]
fn two_walks_over_one_store() {
    let store = sample();
    let lister = Lister::new(&store).tips(&[id(8)]);
    let (one, two) = (lister.open().unwrap(), lister.open().unwrap());
    assert_eq!(one.zip(two).filter(|(a, b)| a == b).count(), 8);
}

#[test]
fn walks_go_between_threads() {
    let store = sample();
    let walk = Lister::new(&store).tips(&[id(8)]).open().unwrap();
    let count = std::thread::scope(|scope| scope.spawn(|| walk.count()).join().unwrap());
    assert_eq!(count, 8);
}

fn refused(lister: Lister<'_>) -> u32 {
    lister.open().unwrap_err().number()
}

#[test]
fn refused_openings() {
    let good = store(&[(1, 1, &[])]);
    let most = 16_777_216;
    assert_eq!(refused(Lister::new(&vec![0; most + 1])), 2);
    assert_eq!(refused(Lister::new(&vec![0; most])), 4);
    assert_eq!(refused(Lister::new(&good).graph(&vec![0; most + 1])), 2);
    assert!(Lister::new(&good).tips(&vec![id(1); 1024]).open().is_ok());
    for lister in [
        Lister::new(&good).tips(&vec![id(1); 1025]),
        Lister::new(&good).hide(&vec![id(1); 1025]),
        Lister::new(&good).exclude(&vec![id(1); 1025]),
    ] {
        assert_eq!(refused(lister), 2);
    }
    assert_eq!(refused(Lister::new(&[])), 4);
    assert_eq!(refused(Lister::new(&good[1..])), 4);
    assert_eq!(refused(Lister::new(&good).graph(b"CGPH")), 5);
    assert_eq!(refused(Lister::new(&good).graph(b"CGPH\x01\x02\x03\x00")), 5);
    assert_eq!(refused(Lister::new(&good).graph(b"CGPH\x01\x01\x03\x00")), 6);
    assert_eq!(refused(Lister::new(&good).tips(&[id(2)]).order(Order::Newest)), 7);
    let bad = store_from_commits([(id(1), body("soon", &[]))]).unwrap();
    assert_eq!(refused(Lister::new(&bad).tips(&[id(1)]).order(Order::Oldest)), 8);
    assert_eq!(Lister::new(&bad).tips(&[id(1)]).open().unwrap().count(), 1);
}

/// A graph file with a fan-out table that claims all the commits there can be: it is refused before any memory is made for them.
#[test]
fn a_graph_file_that_claims_too_much() {
    let mut graph = b"CGPH\x01\x01\x03\x00".to_vec();
    for (name, offset) in [(b"OIDF", 56u64), (b"OIDL", 1080), (b"CDAT", 1080), (b"\0\0\0\0", 1080)] {
        graph.extend(name);
        graph.extend(offset.to_be_bytes());
    }
    graph.extend([0xff; 1024]);
    graph.extend([0; 20]);
    assert_eq!(refused(Lister::new(&[0; 8]).graph(&graph)), 6);
}

#[test]
fn refused_commits_are_used_up_and_the_walk_goes_on() {
    let commits = [
        (id(9), body("9", &[2, 3, 4, 5])),
        (id(3), "no header\n".into()),
        (id(4), body("4", &[])),
        (id(5), body("5", &[6]).replace("author", "autor")),
    ];
    let store = store_from_commits(commits).unwrap();
    let mut walk = Lister::new(&store).tips(&[id(9)]).open().unwrap();
    assert_eq!(walk.next().unwrap().unwrap().id, id(9));
    assert_eq!(walk.next(), Some(Err(Refusal::CommitNotFound)));
    assert_eq!(walk.parents().len(), 0);
    assert_eq!(walk.next(), Some(Err(Refusal::CommitUnreadable)));
    assert_eq!(walk.next().unwrap().unwrap().id, id(4));
    assert_eq!(walk.next(), Some(Err(Refusal::CommitUnreadable)));
    assert_eq!(walk.parents().collect::<Vec<_>>(), ids(&[6]));
    assert_eq!(walk.next(), Some(Err(Refusal::CommitNotFound)));
    assert_eq!(walk.next(), None);
    assert_eq!(walk.next(), None);
    assert_eq!(walk.numbers(), Numbers { admitted: 6, struck: 0, waiting: 0 });
}

#[test]
fn an_absent_parent_and_a_cutoff() {
    let store = store(&[(5, 5, &[4])]);
    let lister = |cutoff| Lister::new(&store).tips(&[id(5)]).order(Order::Newest).cutoff(cutoff);
    let answers: Vec<_> = lister(0).open().unwrap().map(|answer| answer.map(|commit| commit.id)).collect();
    assert_eq!(answers, [Ok(id(5)), Err(Refusal::CommitNotFound)]);
    assert_eq!(listed(lister(1)), [5]);
}

#[test]
fn painting_that_is_refused_ends_the_walk() {
    let store = store(&[(5, 5, &[4])]);
    let mut walk = Lister::new(&store).tips(&[id(5)]).hide(&[id(9)]).open().unwrap();
    assert_eq!(walk.next(), Some(Err(Refusal::CommitNotFound)));
    assert_eq!(walk.numbers(), Numbers { admitted: 1, struck: 1, waiting: 0 });
    assert_eq!(walk.next(), None);
}

#[test]
fn parents_up_to_256() {
    let wide = |count: u16| {
        let parents: String = (0..count).map(|n| format!("parent {}{}\n", "00".repeat(18), format_args!("{n:04x}"))).collect();
        let body = format!("tree {}\n{parents}author A <a> 5 +0000\ncommitter A <a> 5 +0000\n\n", id(0));
        store_from_commits([(id(9), body)]).unwrap()
    };
    let store = wide(256);
    let commit = Lister::new(&store).tips(&[id(9)]).open().unwrap().next().unwrap().unwrap();
    assert_eq!(commit.parents.len(), 256);
    assert_eq!(commit.parents[255].to_string(), format!("{}00ff", "00".repeat(18)));
    let store = wide(257);
    let mut walk = Lister::new(&store).tips(&[id(9)]).open().unwrap();
    assert_eq!(walk.next(), Some(Err(Refusal::TooManyParents)));
    assert_eq!(walk.parents().len(), 256);
    assert_eq!(walk.numbers(), Numbers { admitted: 257, struck: 0, waiting: 256 });
    assert_eq!(walk.filter(|answer| *answer == Err(Refusal::CommitNotFound)).count(), 256);
}

/// The zone of one commit, of this committer line, whose author's is another.
fn zone_of(committer: &str, parents: usize, first: bool) -> Option<i32> {
    let parents = format!("parent {}\n", id(9)).repeat(parents);
    let body = format!("tree {}\n{parents}author A <a> 5 +0900\ncommitter A <a> {committer}\n\n", id(0));
    let store = store_from_commits([(id(1), body)]).unwrap();
    let lister = Lister::new(&store).tips(&[id(1)]);
    let mut walk = if first { lister.first_parent().open() } else { lister.open() }.unwrap();
    walk.next().unwrap().unwrap().zone
}

#[test]
fn zones() {
    for (text, minutes) in [
        ("+0000", Some(0)),
        ("-0000", Some(0)),
        ("+0001", Some(1)),
        ("-0130", Some(-90)),
        ("+1400", Some(840)),
        ("+1459", Some(899)),
        ("-1459", Some(-899)),
        ("+1460", None),
        ("+1500", None),
        ("+100", None),
        ("+01000", None),
        ("UTC", None),
        ("+0100\r", None),
        (" +0100", None),
        ("+0100 ", None),
        ("", None),
    ] {
        assert_eq!(zone_of(&format!("5 {text}"), 0, false), minutes, "{text}");
    }
    assert_eq!(zone_of("5", 0, false), None);
    assert_eq!(zone_of("-5 +0100", 1, false), Some(60));
    assert_eq!(zone_of("soon +0100", 1, true), None);
}

/// It is read past all parent lines, which are not counted for it.
#[test]
fn a_zone_behind_many_parents() {
    for parents in [2, 256, 257, 300] {
        assert_eq!(zone_of("5 -0930", parents, true), Some(-570), "{parents}");
    }
    assert_eq!(zone_of("5 -0930", 256, false), Some(-570));
}

/// A commit-graph file holds no zones: a commit that it has comes without one, also where the store has it too.
#[test]
fn no_zone_from_a_row() {
    let (store, graph) = (include_bytes!("../../../crates/readers/data/store"), include_bytes!("../../../crates/readers/data/graph"));
    let tip: ObjectId = TIP.parse().unwrap();
    let zones =
        |lister: Lister<'_>| -> Vec<Option<i32>> { lister.tips(&[tip]).open().unwrap().map(|commit| commit.unwrap().zone).collect() };
    assert_eq!(zones(Lister::new(store).graph(graph)), [None; 21]);
    assert!(zones(Lister::new(store)).iter().all(Option::is_some));
    // Rows that name a parent past the last row are corrupt: the file is dropped at the first call, and the store is read from there on.
    let mut dropped = graph.to_vec();
    let rows = chunk_at(graph, b"CDAT");
    let count = u32::from_be_bytes(graph[chunk_at(graph, b"OIDF") + 1020..][..4].try_into().unwrap()) as usize;
    for row in 0..count {
        dropped[rows + 36 * row + 20..][..4].copy_from_slice(&(count as u32).to_be_bytes());
    }
    assert_eq!(zones(Lister::new(store).graph(&dropped)), zones(Lister::new(store)));
}

#[test]
fn no_zone_in_a_refusal_or_at_the_end() {
    let store = store(&[(5, 5, &[4])]);
    let mut walk = Lister::new(&store).tips(&[id(5)]).open().unwrap();
    assert_eq!(walk.next().unwrap().unwrap().zone, Some(0));
    assert_eq!(walk.next(), Some(Err(Refusal::CommitNotFound)));
    assert_eq!(walk.next(), None);
}

/// A commit-graph file in which one generation is 0: none is used and none is shown; parents and times stay, and the list too.
#[test]
fn a_graph_file_with_a_generation_0() {
    let (store, graph) = (include_bytes!("../../../crates/readers/data/store"), include_bytes!("../../../crates/readers/data/graph"));
    let tip: ObjectId = TIP.parse().unwrap();
    let list = |graph: &[u8]| -> Vec<Commit> {
        Lister::new(store).graph(graph).tips(&[tip]).order(Order::Newest).open().unwrap().map(Result::unwrap).collect()
    };
    let with = list(graph);
    let rows = chunk_at(graph, b"CDAT");
    let count = u32::from_be_bytes(graph[chunk_at(graph, b"OIDF") + 1020..][..4].try_into().unwrap()) as usize;
    for row in [0, count / 2, count - 1] {
        let mut zeroed = graph.to_vec();
        let word = &mut zeroed[rows + 36 * row + 28..][..4];
        word[..3].fill(0);
        word[3] &= 3;
        let without: Vec<Commit> = with.iter().cloned().map(|commit| Commit { generation: None, ..commit }).collect();
        assert!(with.iter().any(|commit| commit.generation.is_some()));
        assert_eq!(list(&zeroed), without);
    }
}

/// Where a chunk of a commit-graph file starts.
fn chunk_at(graph: &[u8], name: &[u8; 4]) -> usize {
    let row = graph[8..].chunks(12).find(|row| row[..4] == name[..]).unwrap();
    u64::from_be_bytes(row[4..].try_into().unwrap()) as usize
}

/// The history that git itself wrote for the readers: a store, and a commit-graph file with all its chunks.
#[test]
fn a_graph_file_of_git() {
    let (store, graph) = (include_bytes!("../../../crates/readers/data/store"), include_bytes!("../../../crates/readers/data/graph"));
    let tip: ObjectId = TIP.parse().unwrap();
    let with: Vec<Commit> = Lister::new(store).graph(graph).tips(&[tip]).order(Order::Newest).open().unwrap().map(Result::unwrap).collect();
    let without: Vec<Commit> = Lister::new(store).tips(&[tip]).order(Order::Newest).open().unwrap().map(Result::unwrap).collect();
    assert_eq!(with.len(), 21);
    assert_eq!(with[0].time, Some(5_000_000_000));
    assert!(with.iter().all(|commit| commit.generation.is_some()));
    assert!(without.iter().all(|commit| commit.generation.is_none()));
    let times: Vec<_> = with.iter().map(|commit| commit.time).collect();
    assert!(times.windows(2).all(|pair| pair[0] >= pair[1]));
    let plain = |list: &[Commit]| list.iter().map(|commit| (commit.id, commit.parents.clone(), commit.time)).collect::<Vec<_>>();
    assert_eq!(plain(&with), plain(&without));
}

const TIP: &str = "af72823996703b28706a0974a56dcf6c58214925";
