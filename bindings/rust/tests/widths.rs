//! Everything with ids of 20 bytes and of 32: the same history under both gives the same answers.
#![cfg(feature = "walk")]

use linenhatch::{
    check_names_in, entries, graph_length_in, merge_base, store_from_commits, survey, trace, write_graph_in, Kind, Lister, ObjectId, Order,
    Prospect, Reader, Refusal, MAX_IDS,
};

/// The id of a kind whose every byte is a number.
fn id(kind: Kind, n: u8) -> ObjectId {
    ObjectId::from_bytes(&[n; 32][..kind.len_in_bytes()]).unwrap()
}

fn body(kind: Kind, seconds: i64, parents: &[u8], message: &str) -> String {
    let lines: String = parents.iter().map(|&n| format!("parent {}\n", id(kind, n))).collect();
    format!("tree {}\n{lines}author A <a> 5 +0000\ncommitter A <a> {seconds} +0130\n\n{message}", "0".repeat(kind.len_in_hex()))
}

fn store(kind: Kind, commits: &[(u8, i64, &[u8])]) -> Vec<u8> {
    let readings = |n: u8| format!("Cone-feed: {}\nBed-feed: {}\n", 100 * u32::from(n), u32::from(n));
    store_from_commits(commits.iter().map(|&(n, seconds, parents)| (id(kind, n), body(kind, seconds, parents, &readings(n))))).unwrap()
}

/// The history of `simple.rs`, numbers as seconds.
fn sample(kind: Kind) -> Vec<u8> {
    store(kind, &[(8, 8, &[6, 7]), (7, 7, &[4]), (6, 6, &[5]), (5, 5, &[3]), (4, 4, &[2]), (3, 3, &[1]), (2, 2, &[1]), (1, 1, &[])])
}

fn numbers(lister: &Lister<'_>) -> Vec<u8> {
    lister.list().unwrap().map(|info| info.id.as_bytes()[0]).collect()
}

#[test]
fn the_runs() {
    for kind in Kind::ALL {
        let store = sample(kind);
        let graph = write_graph_in(kind, &store).unwrap();
        let id = |n| id(kind, n);
        for graph in [&[][..], &graph] {
            let from_8 = || Lister::new(&store).graph(graph).tips(&[id(8)]);
            assert_eq!(numbers(&from_8()), [8, 6, 7, 5, 4, 3, 2, 1]);
            assert_eq!(numbers(&from_8().order(Order::Newest)), [8, 7, 6, 5, 4, 3, 2, 1]);
            assert_eq!(numbers(&from_8().order(Order::Oldest)), [8, 6, 5, 3, 1, 7, 4, 2]);
            assert_eq!(numbers(&from_8().order(Order::Newest).cutoff(4)), [8, 7, 6, 5, 4]);
            assert_eq!(numbers(&from_8().first_parent()), [8, 6, 5, 3, 1]);
            assert_eq!(numbers(&from_8().hide(&[id(5)])), [8, 6, 7, 4, 2]);
            assert_eq!(numbers(&from_8().exclude(&[id(6)])), [8, 7, 4, 2, 1]);
            let first = from_8().open().unwrap().next().unwrap().unwrap();
            assert_eq!((first.id, first.parents, first.zone), (id(8), vec![id(6), id(7)], graph.is_empty().then_some(90)));
        }
    }
}

/// 256 parents, and 257, of which the first 256 are set down.
#[test]
fn as_many_parents_as_there_is_room_for() {
    for (kind, count) in Kind::ALL.into_iter().flat_map(|kind| [(kind, 256), (kind, 257)]) {
        let many: Vec<u8> = (0..count).map(|n| (n % 250) as u8 + 1).collect();
        let store = store_from_commits([(id(kind, 255), body(kind, 9, &many, ""))]).unwrap();
        let mut walk = Lister::new(&store).tips(&[id(kind, 255)]).open().unwrap();
        let answer = walk.next().unwrap();
        assert_eq!(answer.err(), (count == 257).then_some(Refusal::TooManyParents));
        assert_eq!(walk.parents().collect::<Vec<_>>(), many[..256].iter().map(|&n| id(kind, n)).collect::<Vec<_>>());
    }
}

#[test]
fn files_and_lists_of_the_other_kind() {
    for (kind, other) in [(Kind::Sha1, Kind::Sha256), (Kind::Sha256, Kind::Sha1)] {
        let (mine, theirs) = (sample(kind), sample(other));
        let graph = write_graph_in(other, &theirs).unwrap();
        let lister = |store| Lister::new(store).tips(&[id(kind, 8)]);
        assert_eq!(lister(&theirs).open().err(), Some(Refusal::CorruptStore));
        assert_eq!(lister(&mine).graph(&graph).open().err(), Some(Refusal::UnknownGraph));
        assert_eq!(Lister::new(&mine).kind(other).open().err(), Some(Refusal::CorruptStore));
        for mixed in [lister(&mine).tips(&[id(other, 8)]), lister(&mine).hide(&[id(other, 8)]), lister(&mine).exclude(&[id(other, 8); 5])] {
            assert_eq!(mixed.open().err(), Some(Refusal::PartialId));
            assert_eq!(mixed.open_tested().err(), Some(Refusal::PartialId));
            assert_eq!(mixed.feed_report().err(), Some(Refusal::PartialId));
            assert_eq!(mixed.terms_report(&[]).err(), Some(Refusal::PartialId));
        }
        let list = vec![id(kind, 8); MAX_IDS];
        assert!(Lister::new(&mine).tips(&list).open().is_ok());
        assert_eq!(Lister::new(&mine).tips(&list).tips(&[id(other, 8)]).open().err(), Some(Refusal::InputTooLarge));
        assert_eq!(lister(&mine).feed_report_for(Reader::Outside, &[id(other, 8)]).err(), Some(Refusal::PartialId));
        assert_eq!(trace(&mine, id(kind, 8), &[id(other, 1)], 3), Err(Refusal::PartialId));
        assert_eq!(merge_base(&mine, id(kind, 8), id(other, 8)), Err(Refusal::UnreadableReach));
        assert_eq!(merge_base(&theirs, id(kind, 8), id(other, 8)), Err(Refusal::CorruptStore));
        assert_eq!(write_graph_in(kind, &theirs), Err(Refusal::CorruptStore));
        assert_eq!(graph_length_in(kind, &theirs), Err(Refusal::CorruptStore));
        assert_eq!(check_names_in(kind, &theirs, &[]).unwrap_err().refusal, Refusal::CorruptStore);
        assert_eq!(check_names_in(kind, &[0; 8], &graph).unwrap_err().refusal, Refusal::UnknownGraph);
        assert_eq!(check_names_in(other, &[0; 8], &graph), Ok(()));
        assert_eq!(survey(&mine, &[], &[id(kind, 8), id(other, 8)]).len(), 8);
    }
}

#[test]
fn partings_traces_and_reports() {
    for kind in Kind::ALL {
        let (store, id) = (sample(kind), |n| id(kind, n));
        assert_eq!(merge_base(&store, id(6), id(7)), Ok(Some(id(1))));
        assert_eq!(merge_base(&store, id(6), id(3)), Ok(Some(id(3))));
        assert_eq!(merge_base(&store, id(6), id(9)), Err(Refusal::UnreadableReach));
        assert_eq!(trace(&store, id(8), &[id(5)], 2), Ok(Prospect::Forced { number: 0, parent: id(6) }));
        assert_eq!(trace(&store, id(8), &[id(4), id(4)], 2), Ok(Prospect::Forced { number: 1, parent: id(7) }));
        assert_eq!(trace(&store, id(8), &[id(8)], 0), Ok(Prospect::AtStart));
        let lister = Lister::new(&store).tips(&[id(8)]);
        let (shop, outside) = (lister.feed_report().unwrap(), lister.feed_report_for(Reader::Outside, &[id(8), id(1)]).unwrap());
        assert_eq!((shop.both, shop.cone_sum, shop.bed_sum, shop.difference), (8, 3600, 36, 3564));
        assert_eq!((outside.both, outside.neither, outside.cone_sum), (6, 2, 2700));
        let terms = lister.terms_report(&["1970-01".parse().unwrap(), "1970-02".parse().unwrap()]).unwrap();
        assert_eq!((terms.counts, terms.outside), (vec![8, 0], 0));
        let missing = Lister::new(&store).tips(&[id(9)]);
        assert_eq!(missing.refused(missing.open_tested().unwrap_err()).commits, [id(9)]);
    }
}

/// A false name is told by the digest of its kind: no commit here is under its own.
#[test]
fn names_are_of_a_kind() {
    for kind in Kind::ALL {
        let fault = check_names_in(kind, &sample(kind), &[]).unwrap_err();
        assert_eq!((fault.refusal, fault.entry), (Refusal::FalseName, 0));
        assert_eq!(entries(&sample(kind)).count(), 8);
    }
    let tree = "6ef19b41225c5369f1c104d45d8d85efa9b057b53b14b4b9b939dd74decc5321";
    let text = format!("tree {tree}\nauthor A <a> 5 +0000\ncommitter A <a> 5 +0000\n\n");
    let name: ObjectId = "212fd6b650c88e43077125b21ae40148a1d8c276aa0e0ca71cb4ba329a5cd669".parse().unwrap();
    let true_store = store_from_commits([(name, &text)]).unwrap();
    let mut graph = write_graph_in(Kind::Sha256, &true_store).unwrap();
    assert_eq!(check_names_in(Kind::Sha256, &true_store, &graph), Ok(()));
    *graph.last_mut().unwrap() ^= 1;
    assert_eq!(check_names_in(Kind::Sha256, &true_store, &graph).unwrap_err().refusal, Refusal::FalseChecksum);
}
