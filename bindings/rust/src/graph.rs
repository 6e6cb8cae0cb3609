//! Writing commit-graph files.

use crate::ffi;
use crate::id::Kind;
use crate::refusal::Refusal;

/// The commit-graph file of a store: git's version 1 file with a row for each of its commits, the bytes that `git commit-graph write` gives with
/// `commitGraph.generationVersion` 1 and no changed paths.
///
/// The refusals come in the order 2, 4, 18, 19: the store is too large or its layout is broken; a commit cannot be read or has over 256 parents, a
/// parent is not in the store, or parents run in a circle; or a commit's time is outside 0 to 17,179,869,183.
///
/// A store with its own graph file passes [`open_tested`](crate::Lister::open_tested), whatever its clocks, where the file has at most
/// [`MAX_FILE_BYTES`](crate::MAX_FILE_BYTES) and the tips are in the store.
///
/// ```
/// use linenhatch::{graph_length, store_from_commits, write_graph, Lister, ObjectId};
///
/// let body = |parents: &str, seconds: i64| {
///     let who = format!("A <a> {seconds} +0000");
///     format!("tree 0000000000000000000000000000000000000000\n{parents}author {who}\ncommitter {who}\n\n")
/// };
/// let [first, second] = [1, 2].map(|n| ObjectId([n; 20]));
/// // the second commit's clock stood before the first one's
/// let store = store_from_commits([(first, body("", 7)), (second, body(&format!("parent {first}\n"), 5))])?;
/// assert!(Lister::new(&store).tips(&[second]).open_tested().is_err());
///
/// let graph = write_graph(&store)?;
/// assert_eq!((&graph[..4], graph.len()), (&b"CGPH"[..], graph_length(&store)?));
/// let walk = Lister::new(&store).graph(&graph).tips(&[second]).open_tested()?;
/// assert_eq!(walk.map(|commit| commit.unwrap().generation).collect::<Vec<_>>(), [Some(2), Some(1)]);
/// # Ok::<(), Box<dyn std::error::Error>>(())
/// ```
pub fn write_graph(store: &[u8]) -> Result<Vec<u8>, Refusal> {
    write_graph_in(Kind::Sha1, store)
}

/// The same of a store of either kind; with SHA-256 it is a file of hash version 2.
///
/// ```
/// use linenhatch::{store_from_commits, write_graph_in, Kind, Lister, ObjectId};
///
/// let id = ObjectId::Sha256([0x11; 32]);
/// let store = store_from_commits([(id, format!("tree {}\nauthor A <a> 5 +0000\ncommitter A <a> 5 +0000\n\n", "0".repeat(64)))])?;
/// let graph = write_graph_in(Kind::Sha256, &store)?;
/// assert_eq!((&graph[..6], graph.len()), (&b"CGPH\x01\x02"[..], 8 + 48 + 1024 + 32 + 48 + 32));
/// assert_eq!(Lister::new(&store).graph(&graph).tips(&[id]).list()?.count(), 1);
/// # Ok::<(), Box<dyn std::error::Error>>(())
/// ```
pub fn write_graph_in(kind: Kind, store: &[u8]) -> Result<Vec<u8>, Refusal> {
    let entries = entries(kind, store)?;
    let (mut generations, mut file) = (vec![0; entries], vec![0; most(kind, entries, store.len())]);
    let mut numbers = [0; ffi::GRAPH_NUMBERS];
    let length = length(ffi::write_graph(kind.width(), store, &mut generations, &mut file, &mut numbers), numbers)?;
    file.truncate(length);
    Ok(file)
}

/// How many bytes the commit-graph file of a store has. It is refused as [`write_graph`] is.
///
/// ```
/// // header, table of three chunks, fan-out and checksum; no commit
/// assert_eq!(linenhatch::graph_length(&[0; 8]), Ok(8 + 48 + 1024 + 20));
/// ```
pub fn graph_length(store: &[u8]) -> Result<usize, Refusal> {
    graph_length_in(Kind::Sha1, store)
}

/// The same of a store of either kind.
///
/// ```
/// use linenhatch::{graph_length_in, Kind};
///
/// assert_eq!(graph_length_in(Kind::Sha256, &[0; 8]), Ok(8 + 48 + 1024 + 32));
/// ```
pub fn graph_length_in(kind: Kind, store: &[u8]) -> Result<usize, Refusal> {
    let mut numbers = [0; ffi::GRAPH_NUMBERS];
    length(ffi::graph_length(kind.width(), store, &mut vec![0; entries(kind, store)?], &mut numbers), numbers)
}

/// The number of commits in a store whose size and layout are good; or the refusal.
fn entries(kind: Kind, store: &[u8]) -> Result<usize, Refusal> {
    // The layout is tested before the lent memory, so a call without memory finds its faults.
    match ffi::graph_length(kind.width(), store, &mut [], &mut [0; ffi::GRAPH_NUMBERS]) {
        2 => Err(Refusal::InputTooLarge),
        4 => Err(Refusal::CorruptStore),
        _ => Ok(u32::from_be_bytes(*store.last_chunk().expect("a trailer")) as usize),
    }
}

/// No file is longer: the header, a table of four chunks, the fan-out and the checksum; an id and a row for each commit; a number for a parent,
/// whose line in the store has 48 bytes, or 72.
fn most(kind: Kind, entries: usize, store_bytes: usize) -> usize {
    let id = kind.len_in_bytes();
    68 + 1024 + (id + kind.row_bytes()) * entries + 4 * (store_bytes / kind.parent_line_bytes()) + id
}

fn length(result: u32, numbers: [u64; ffi::GRAPH_NUMBERS]) -> Result<usize, Refusal> {
    match result {
        0 => Ok(numbers[0] as usize),
        number => Err(Refusal::from_number(number).expect("a refusal's number")),
    }
}
