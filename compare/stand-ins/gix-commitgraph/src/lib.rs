//! Stand-in for gix-commitgraph: one commit-graph file, its layout and its parent lists as document 01 has them.
pub mod file;

use gix_hash::{ObjectId, oid};

/// "Without a graph row the level is 0xFFFFFFFF."
pub const GENERATION_NUMBER_INFINITY: u32 = 0xffff_ffff;

/// Why a file is no commit-graph file.
#[derive(Copy, Clone, Eq, PartialEq, Debug)]
pub enum LayoutError {
    /// "first 8 bytes absent or other"
    Foreign,
    /// "the rest of its layout"
    Torn,
}

#[derive(Copy, Clone, Eq, PartialEq, Debug)]
pub struct Position(pub u32);

/// A commit-graph file with a good layout.
pub struct Graph {
    bytes: Vec<u8>,
    ids: Vec<ObjectId>,
    fan: Vec<u32>,
    rows: usize,
    edges: usize,
    edge_count: usize,
}

impl Graph {
    pub fn from_bytes(bytes: Vec<u8>) -> Result<Self, LayoutError> {
        if bytes.len() < 8 || &bytes[..6] != b"CGPH\x01\x01" || bytes[7] != 0 {
            return Err(LayoutError::Foreign);
        }
        Self::read(bytes).ok_or(LayoutError::Torn)
    }

    fn read(bytes: Vec<u8>) -> Option<Self> {
        let chunks = usize::from(bytes[6]);
        let table = 8 + 12 * (chunks + 1);
        if bytes.len() < table + 20 {
            return None;
        }
        let name = |row: usize| &bytes[8 + 12 * row..12 + 12 * row];
        let offset = |row: usize| u64::from(u32_at(&bytes, 12 + 12 * row)) << 32 | u64::from(u32_at(&bytes, 16 + 12 * row));
        if name(chunks) != [0; 4] || offset(0) != table as u64 || offset(chunks) != (bytes.len() - 20) as u64 {
            return None;
        }
        if (0..chunks).any(|row| offset(row) > offset(row + 1)) {
            return None;
        }
        // from here on every offset lies in the file
        let find = |wanted: &[u8]| {
            let mut rows = (0..chunks).filter(|row| name(*row) == wanted);
            let first = rows.next().map(|row| offset(row) as usize..offset(row + 1) as usize);
            (first, rows.next().is_some())
        };
        let once = |wanted: &[u8]| match find(wanted) {
            (Some(part), false) => Some(part),
            _ => None,
        };
        let (oidf, oidl, cdat) = (once(b"OIDF")?, once(b"OIDL")?, once(b"CDAT")?);
        let edge = match find(b"EDGE") {
            (_, true) => return None,
            (part, false) => part.unwrap_or(0..0),
        };
        if oidf.len() != 1024 {
            return None;
        }
        let fan: Vec<u32> = (0..256).map(|entry| u32_at(&bytes, oidf.start + 4 * entry)).collect();
        let count = fan[255] as usize;
        if oidl.len() != 20 * count || cdat.len() != 36 * count || edge.len() % 4 != 0 {
            return None;
        }
        let ids: Vec<_> = bytes[oidl].chunks_exact(20).map(|id| ObjectId::from_bytes(id.try_into().expect("20 bytes"))).collect();
        if !ids.is_sorted_by(|a, b| a < b) {
            return None;
        }
        // the ids rise, so those with a first byte of at most `entry` stand in front
        if (0..256).any(|entry| fan[entry] as usize != ids.partition_point(|id| usize::from(id.first_byte()) <= entry)) {
            return None;
        }
        Some(Graph { ids, fan, rows: cdat.start, edges: edge.start, edge_count: edge.len() / 4, bytes })
    }

    pub fn commit_by_id(&self, id: impl AsRef<oid>) -> Option<file::Commit<'_>> {
        let id = id.as_ref();
        let first = usize::from(id.first_byte());
        let from = if first == 0 { 0 } else { self.fan[first - 1] as usize };
        let to = self.fan[first] as usize;
        let place = self.ids[from..to].binary_search_by(|listed| (**listed).cmp(id)).ok()?;
        Some(self.commit_at(Position((from + place) as u32)))
    }

    pub fn commit_at(&self, position: Position) -> file::Commit<'_> {
        file::Commit::new(self, position)
    }

    /// The number of commits, N.
    pub fn num_commits(&self) -> u32 {
        self.ids.len() as u32
    }
}

fn u32_at(bytes: &[u8], at: usize) -> u32 {
    u32::from_be_bytes(bytes[at..at + 4].try_into().expect("4 bytes"))
}
