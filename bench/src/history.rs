//! A history of the bench and the walks over it.
use std::{fs, path::Path};

/// 20 bytes, or 32 with SHA-256.
pub type Id = Vec<u8>;

pub struct History {
    pub name: String,
    pub commits: usize,
    pub links: usize,
    pub store: Vec<u8>,
    pub graph: Vec<u8>,
    pub tip: Id,
    pub hidden: Id,
    pub cutoff: i64,
    /// the git repository
    pub repository: String,
}

fn id(hex: &str) -> Id {
    (0..hex.len() / 2).map(|at| u8::from_str_radix(&hex[2 * at..2 * at + 2], 16).expect("hexadecimal digits")).collect()
}

impl History {
    /// How many bytes an id has.
    pub fn width(&self) -> usize {
        self.tip.len()
    }

    /// From a folder that histories.py has written.
    pub fn read(folder: &str) -> Self {
        let path = Path::new(folder);
        let facts = fs::read_to_string(path.join("facts")).expect("facts");
        let fact = |word: &str| {
            let line = facts.lines().find_map(|line| line.strip_prefix(word)).expect("a line for each fact");
            line.trim().to_string()
        };
        let label = path.file_name().expect("a folder").to_string_lossy();
        History {
            name: label.split('-').next().expect("a name").to_string(),
            commits: fact("commits").parse().expect("a number"),
            links: fact("links").parse().expect("a number"),
            store: fs::read(path.join("store")).expect("store"),
            graph: fs::read(path.join("graph")).expect("graph"),
            tip: id(&fact("tip")),
            hidden: id(&fact("hidden")),
            cutoff: fact("cutoff").parse().expect("a number"),
            repository: path.join("git").to_string_lossy().into_owned(),
        }
    }
}

#[derive(Copy, Clone, PartialEq)]
pub enum Sorting {
    Breadth,
    Newest,
    Oldest,
}

/// How a history is walked.
#[derive(Copy, Clone)]
pub struct Walk {
    pub name: &'static str,
    pub sorting: Sorting,
    pub cutoff: bool,
    pub first: bool,
    pub hides: bool,
    pub graph: bool,
}

const PLAIN: Walk = Walk { name: "", sorting: Sorting::Breadth, cutoff: false, first: false, hides: false, graph: false };

const WALKS: [Walk; 6] = [
    Walk { name: "breadth", ..PLAIN },
    Walk { name: "newest", sorting: Sorting::Newest, ..PLAIN },
    Walk { name: "oldest", sorting: Sorting::Oldest, ..PLAIN },
    Walk { name: "First", first: true, ..PLAIN },
    Walk { name: "hiding", hides: true, ..PLAIN },
    Walk { name: "cutoff", sorting: Sorting::Newest, cutoff: true, ..PLAIN },
];

/// The walks over a history, each without and with the graph file. First only where branches are.
pub fn walks(history: &History) -> impl Iterator<Item = Walk> {
    let has_branches = history.name.starts_with("real");
    let walks = WALKS.into_iter().filter(move |walk| has_branches || !walk.first);
    walks.flat_map(|walk| [Walk { graph: false, ..walk }, Walk { graph: true, ..walk }])
}

/// A commit as a walk hands it out.
#[derive(Clone, PartialEq, Debug)]
pub struct Commit {
    pub id: Id,
    pub parents: Vec<Id>,
    pub generation: Option<u32>,
    pub seconds: Option<i64>,
}

/// What a timed walk did: the commits handed out, and a sum over their ids and parents in order, so that all of them are read.
#[derive(Copy, Clone, PartialEq, Default, Debug)]
pub struct Listed {
    pub commits: usize,
    pub sum: u64,
}

impl Listed {
    #[inline]
    pub fn id(&mut self, id: &[u8]) {
        let bytes = u64::from_ne_bytes(id[..8].try_into().expect("8 bytes"));
        self.sum = (self.sum.rotate_left(5) ^ bytes).wrapping_mul(0x9e37_79b9_7f4a_7c15);
    }
}
