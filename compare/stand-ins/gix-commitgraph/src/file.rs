//! One row of a commit-graph file.
use crate::{Graph, Position, u32_at};
use gix_hash::oid;

#[derive(Copy, Clone)]
pub struct Commit<'a> {
    graph: &'a Graph,
    position: Position,
}

impl<'a> Commit<'a> {
    pub(crate) fn new(graph: &'a Graph, position: Position) -> Self {
        assert!(position.0 < graph.num_commits(), "a position stands in the file");
        Commit { graph, position }
    }

    /// A u32 of the row. "tree id, two u32 parents, then a u32 whose high 30 bits are the level and whose low 2 bits are the high bits
    /// of the 34-bit seconds, then their low 32"
    fn word(&self, at: usize) -> u32 {
        u32_at(&self.graph.bytes, self.graph.rows + 36 * self.position.0 as usize + at)
    }

    pub fn id(&self) -> &'a oid {
        &self.graph.ids[self.position.0 as usize]
    }

    pub fn generation(&self) -> u32 {
        self.word(28) >> 2
    }

    pub fn committer_timestamp(&self) -> u64 {
        u64::from(self.word(28) & 3) << 32 | u64::from(self.word(32))
    }

    pub fn iter_parents(&self) -> commit::Parents<'a> {
        commit::Parents::new(*self)
    }
}

pub mod commit {
    use super::Commit;
    use crate::{Position, u32_at};

    /// "Parent 0x70000000 is none."
    const NONE: u32 = 0x7000_0000;
    const TOP: u32 = 0x8000_0000;
    const MOST_PARENTS: usize = 256;

    /// "A parent list is corrupt if a position is at least N, the first parent is none or has the top bit while a second stands, EDGE
    /// runs out, or over 256 parents come."
    #[derive(Debug)]
    pub struct CorruptList;

    enum Place {
        First,
        Second,
        Edge(usize),
        End,
    }

    /// The parents of a row in order, up to the place where the list is corrupt.
    pub struct Parents<'a> {
        commit: Commit<'a>,
        place: Place,
        had: usize,
    }

    impl<'a> Parents<'a> {
        pub(super) fn new(commit: Commit<'a>) -> Self {
            Parents { commit, place: Place::First, had: 0 }
        }

        fn parent(&mut self, position: u32, then: Place) -> Option<Result<Position, CorruptList>> {
            if position >= self.commit.graph.num_commits() || self.had == MOST_PARENTS {
                return Some(Err(CorruptList));
            }
            self.had += 1;
            self.place = then;
            Some(Ok(Position(position)))
        }

        /// "there the list holds the second parent onward and ends at the first entry with the top bit set, whose other bits are the
        /// last parent"
        fn edge(&mut self, entry: usize) -> Option<Result<Position, CorruptList>> {
            let graph = self.commit.graph;
            if entry >= graph.edge_count {
                return Some(Err(CorruptList));
            }
            let word = u32_at(&graph.bytes, graph.edges + 4 * entry);
            if word & TOP == 0 { self.parent(word, Place::Edge(entry + 1)) } else { self.parent(word & !TOP, Place::End) }
        }
    }

    impl Iterator for Parents<'_> {
        type Item = Result<Position, CorruptList>;

        fn next(&mut self) -> Option<Self::Item> {
            let (first, second) = (self.commit.word(20), self.commit.word(24));
            match std::mem::replace(&mut self.place, Place::End) {
                Place::First if first == NONE => (second != NONE).then_some(Err(CorruptList)),
                // the top bit makes it a position of at least N
                Place::First => self.parent(first, Place::Second),
                Place::Second if second == NONE => None,
                Place::Second if second & TOP == 0 => self.parent(second, Place::End),
                Place::Second => self.edge((second & !TOP) as usize),
                Place::Edge(entry) => self.edge(entry),
                Place::End => None,
            }
        }
    }
}
