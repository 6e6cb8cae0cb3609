//! The unaltered `Simple`, of histories with SHA-1 ids: the crate as it stands here has no others.
use crate::{
    clock,
    history::{Commit, History, Listed, Sorting, Walk},
    sample::Sample,
    store::Store,
};
use gix_commitgraph::Graph;
use gix_hash::{ObjectId, oid};
use gix_traverse::commit::{
    Parents, Simple,
    simple::{CommitTimeOrder, Sorting as Order},
};
use std::time::Duration;

/// The files as `Simple` takes them: open already. `Simple` keeps the graph, so each walk is given a new one.
pub struct Files {
    pub store: Store,
}

fn all(_: &oid) -> bool {
    true
}

fn sha1(id: &[u8]) -> ObjectId {
    ObjectId::from_bytes(id.try_into().expect("20 bytes"))
}

fn open<'a>(history: &History, store: &'a Store, graph: Option<Graph>, walk: &Walk) -> Simple<&'a Store, fn(&oid) -> bool> {
    let order = match (walk.sorting, walk.cutoff) {
        (Sorting::Breadth, _) => Order::BreadthFirst,
        (Sorting::Newest, false) => Order::ByCommitTime(CommitTimeOrder::NewestFirst),
        (Sorting::Oldest, false) => Order::ByCommitTime(CommitTimeOrder::OldestFirst),
        (Sorting::Newest, true) => Order::ByCommitTimeCutoff { order: CommitTimeOrder::NewestFirst, seconds: history.cutoff },
        (Sorting::Oldest, true) => Order::ByCommitTimeCutoff { order: CommitTimeOrder::OldestFirst, seconds: history.cutoff },
    };
    let hidden = walk.hides.then(|| sha1(&history.hidden));
    Simple::filtered([sha1(&history.tip)], store, all as fn(&oid) -> bool)
        .sorting(order)
        .expect("the tip is readable")
        .parents(if walk.first { Parents::First } else { Parents::All })
        .hide(hidden)
        .expect("no test here")
        .commit_graph(graph)
}

impl Files {
    /// None where the ids are not of SHA-1.
    pub fn open(history: &History) -> Option<Self> {
        (history.width() == 20).then(|| Files { store: Store::from_bytes(history.store.clone()).expect("a good store") })
    }

    fn graph(history: &History, walk: &Walk) -> Option<Graph> {
        walk.graph.then(|| Graph::from_bytes(history.graph.clone()).expect("a good graph file"))
    }

    /// Every commit in all its parts.
    pub fn list(&self, history: &History, walk: &Walk) -> Vec<Commit> {
        let commits = open(history, &self.store, Self::graph(history, walk), walk).map(|info| {
            let info = info.expect("a good history");
            Commit {
                id: info.id.as_bytes().to_vec(),
                parents: info.parent_ids.iter().map(|id| id.as_bytes().to_vec()).collect(),
                generation: info.generation,
                seconds: info.commit_time,
            }
        });
        commits.collect()
    }

    /// As many walks as asked for, timed.
    pub fn sample(&self, history: &History, walk: &Walk, times: u32) -> Sample {
        let (mut opening, mut walking) = (Duration::ZERO, Duration::ZERO);
        let mut listed = Listed::default();
        for _ in 0..times {
            let graph = Self::graph(history, walk);
            let start = clock::thread();
            let mut simple = open(history, &self.store, graph, walk);
            let opened = clock::thread();
            listed = Listed::default();
            for info in &mut simple {
                let info = info.expect("a good history");
                listed.commits += 1;
                listed.id(info.id.as_bytes());
                info.parent_ids.iter().for_each(|id| listed.id(id.as_bytes()));
            }
            walking += clock::thread() - opened;
            opening += opened - start;
        }
        Sample { opening: opening / times, walking: walking / times, listed }
    }
}

/// How long the stand-ins take to read and test the files, which `Simple` is given open.
pub fn time_files(history: &History, graph: bool) -> Duration {
    let (store, file) = (history.store.clone(), history.graph.clone());
    let start = clock::thread();
    let store = Store::from_bytes(store).expect("a good store");
    let graph = graph.then(|| Graph::from_bytes(file).expect("a good graph file"));
    let time = clock::thread() - start;
    drop((store, graph));
    time
}
