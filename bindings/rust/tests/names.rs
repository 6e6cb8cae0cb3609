//! The check of names: files that git wrote, and what is wrong with them after a byte was changed. The ids are those of Python's hashlib.

#![cfg(feature = "walk")]

use linenhatch::{check_names, store_from_commits, Fault, ObjectId, Refusal, ID_BYTES, MAX_FILE_BYTES};

const STORE: &[u8] = include_bytes!("../../../crates/readers/data/store");
const GRAPH: &[u8] = include_bytes!("../../../crates/readers/data/graph");
const ENTRIES: usize = 21;

fn fault(refusal: Refusal, entry: usize) -> Result<(), Fault> {
    Err(Fault { refusal, entry })
}

fn number(at: usize) -> usize {
    u32::from_be_bytes(STORE[at..at + 4].try_into().unwrap()) as usize
}

/// Where the entries start, and where body k ends.
fn start() -> usize {
    number(STORE.len() - 8)
}

fn end(k: usize) -> usize {
    number(start() + 24 * k + ID_BYTES)
}

fn body(k: usize) -> &'static [u8] {
    &STORE[if k == 0 { 0 } else { end(k - 1) }..end(k)]
}

fn id(k: usize) -> ObjectId {
    ObjectId(STORE[start() + 24 * k..start() + 24 * k + ID_BYTES].try_into().unwrap())
}

fn flipped(bytes: &[u8], at: usize) -> Vec<u8> {
    let mut bytes = bytes.to_vec();
    bytes[at] ^= 1 << (at % 8);
    bytes
}

fn named(hex: &str) -> ObjectId {
    ObjectId::from_hex(hex.as_bytes()).unwrap()
}

#[test]
fn what_git_wrote() {
    assert_eq!(number(STORE.len() - 4), ENTRIES);
    assert_eq!(check_names(STORE, GRAPH), Ok(()));
    assert_eq!(check_names(STORE, &[]), Ok(()));
    assert_eq!(check_names(&[0; 8], GRAPH), Ok(()));
    assert_eq!(check_names(&[0; 8], &[]), Ok(()));
}

#[test]
fn each_body_a_bit_off() {
    for k in 0..ENTRIES {
        for at in [end(k) - body(k).len(), end(k) - 1] {
            assert_eq!(check_names(&flipped(STORE, at), GRAPH), fault(Refusal::FalseName, k));
        }
    }
}

#[test]
fn each_body_under_its_neighbours_id() {
    for k in 0..ENTRIES - 1 {
        let mut order: Vec<usize> = (0..ENTRIES).collect();
        order.swap(k, k + 1);
        let store = store_from_commits((0..ENTRIES).map(|n| (id(n), body(order[n])))).unwrap();
        assert_eq!(check_names(&store, GRAPH), fault(Refusal::FalseName, k));
    }
}

#[test]
fn each_id_a_bit_off() {
    for k in 0..ENTRIES {
        let mut bytes = <[u8; 20]>::try_from(id(k).as_bytes()).unwrap();
        bytes[19] ^= 4;
        let other = ObjectId(bytes);
        let store = store_from_commits((0..ENTRIES).map(|n| (if n == k { other } else { id(n) }, body(n)))).unwrap();
        assert_eq!(check_names(&store, GRAPH), fault(Refusal::FalseName, k));
    }
}

/// A changed byte of the graph file is a broken layout or a false checksum, and never passes.
#[test]
fn each_graph_byte_off() {
    for at in 0..GRAPH.len() {
        let found = check_names(&[0; 8], &flipped(GRAPH, at)).unwrap_err();
        let expected: &[Refusal] = match at {
            0..=5 | 7 => &[Refusal::UnknownGraph],
            _ if at >= GRAPH.len() - 20 => &[Refusal::FalseChecksum],
            _ => &[Refusal::CorruptGraph, Refusal::FalseChecksum],
        };
        assert!(expected.contains(&found.refusal) && found.entry == 0, "{at}: {found}");
    }
}

/// 2, 4, 5, 6, then 16, then 17.
#[test]
fn the_order() {
    let (store, graph) = (flipped(STORE, 0), flipped(GRAPH, GRAPH.len() - 1));
    assert_eq!(check_names(STORE, &graph), fault(Refusal::FalseChecksum, 0));
    assert_eq!(check_names(&store, &graph), fault(Refusal::FalseName, 0));
    assert_eq!(check_names(&store, &GRAPH[..GRAPH.len() - 1]), fault(Refusal::CorruptGraph, 0));
    assert_eq!(check_names(&store, &GRAPH[..7]), fault(Refusal::UnknownGraph, 0));
    assert_eq!(check_names(&store[1..], &GRAPH[..7]), fault(Refusal::CorruptStore, 0));
    let large = vec![1; MAX_FILE_BYTES + 1];
    assert_eq!(check_names(&store[1..], &large), fault(Refusal::InputTooLarge, 0));
    assert_eq!(check_names(&large, &GRAPH[..7]), fault(Refusal::InputTooLarge, 0));
    assert_eq!(check_names(&large[1..], &GRAPH[..7]), fault(Refusal::CorruptStore, 0));
}

/// Bodies of zeros that with their header have 9 bytes, and 55 to 120: at the ends of blocks.
#[test]
fn lengths_at_the_ends_of_blocks() {
    for (length, name) in [
        (0, "dcf5b16e76cce7425d0beaef62d79a7d10fce1f5"),
        (45, "050b0f8f2b456a82107e9321c5a2bac420c712a1"),
        (46, "654f66a5ba226e189d2e6019f07118e96d162ad0"),
        (53, "09937188ed0342fa6f853691308ced60e338a356"),
        (54, "81a44f855b83410100f3365020c5fcdf096baebc"),
        (55, "99c14ac077712cd4e603bff08228de1fe33818ad"),
        (108, "a58769ec1e22f8d7db2070837831e0c67324990b"),
        (109, "083ed0752cf766dbc3212a5ad8ad457301816253"),
    ] {
        let store = store_from_commits([(named(name), vec![0; length])]).unwrap();
        assert_eq!(check_names(&store, &[]), Ok(()), "{length}");
    }
}

#[test]
fn a_million_bytes() {
    let name = named("cbf7bc5422a68b90641fdc2ab5daebee88f83715");
    let mut body = vec![b'a'; 1_000_000];
    assert_eq!(check_names(&store_from_commits([(name, &body)]).unwrap(), &[]), Ok(()));
    body[999_999] = b'b';
    assert_eq!(check_names(&store_from_commits([(name, &body)]).unwrap(), &[]), fault(Refusal::FalseName, 0));
}
