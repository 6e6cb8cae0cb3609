//! Runs `Simple` over cases from standard input and prints an answer for each call. compare/README.md has both formats.
mod store;

use gix_commitgraph::{Graph, LayoutError};
use gix_error::{Cause, Error};
use gix_hash::{ObjectId, oid};
use gix_traverse::commit::{
    Info, Parents, Simple,
    simple::{CommitTimeOrder, Sorting},
};
use std::{
    collections::HashSet,
    io::{self, Read, Write},
};
use store::Store;

struct Case {
    store: Vec<u8>,
    graph: Vec<u8>,
    tips: Vec<ObjectId>,
    hidden: Vec<ObjectId>,
    excluded: HashSet<[u8; 20]>,
    sorting: Sorting,
    parents: Parents,
    calls: u32,
}

/// The rest of the input, from the front.
struct Input<'a>(&'a [u8]);

impl<'a> Input<'a> {
    fn take(&mut self, count: usize) -> &'a [u8] {
        let (front, rest) = self.0.split_at(count);
        self.0 = rest;
        front
    }

    fn u8(&mut self) -> u8 {
        self.take(1)[0]
    }

    fn u32(&mut self) -> u32 {
        u32::from_be_bytes(self.take(4).try_into().expect("4 bytes"))
    }

    fn i64(&mut self) -> i64 {
        i64::from_be_bytes(self.take(8).try_into().expect("8 bytes"))
    }

    fn bytes(&mut self) -> &'a [u8] {
        let count = self.u32() as usize;
        self.take(count)
    }

    fn ids(&mut self) -> impl Iterator<Item = [u8; 20]> + use<'a> {
        let bytes = self.bytes();
        assert!(bytes.len() % 20 == 0, "a list of whole ids");
        bytes.chunks_exact(20).map(|id| id.try_into().expect("20 bytes"))
    }

    fn case(&mut self) -> Case {
        let store = self.bytes().to_vec();
        let graph = self.bytes().to_vec();
        let tips = self.ids().map(ObjectId::from_bytes).collect();
        let hidden = self.ids().map(ObjectId::from_bytes).collect();
        let excluded = self.ids().collect();
        let (sorting, seconds) = (self.u8(), self.i64());
        let sorting = match sorting {
            0 => Sorting::BreadthFirst,
            1 => Sorting::ByCommitTime(CommitTimeOrder::NewestFirst),
            2 => Sorting::ByCommitTime(CommitTimeOrder::OldestFirst),
            3 => Sorting::ByCommitTimeCutoff { order: CommitTimeOrder::NewestFirst, seconds },
            4 => Sorting::ByCommitTimeCutoff { order: CommitTimeOrder::OldestFirst, seconds },
            other => panic!("no sorting has the number {other}"),
        };
        let parents = match self.u8() {
            0 => Parents::All,
            1 => Parents::First,
            other => panic!("no mode has the number {other}"),
        };
        let calls = self.u32();
        Case { store, graph, tips, hidden, excluded, sorting, parents, calls }
    }
}

type Excluded = Box<dyn FnMut(&oid) -> bool>;

/// The reference: `Simple::filtered`, then `sorting`, `parents`, `hide`, `commit_graph` in that order; or the number of a refusal.
fn open(case: Case) -> Result<Simple<Store, Excluded>, u8> {
    let store = Store::from_bytes(case.store).ok_or(4)?;
    let graph = match case.graph.is_empty() {
        true => None,
        false => Some(Graph::from_bytes(case.graph).map_err(|err| match err {
            LayoutError::Foreign => 5,
            LayoutError::Torn => 6,
        })?),
    };
    let excluded = case.excluded;
    let predicate: Excluded = Box::new(move |id| !excluded.contains(id.as_bytes()));
    let walk = Simple::filtered(case.tips, store, predicate)
        .sorting(case.sorting)
        .map_err(|err| if err.cause == Cause::NotFound { 7 } else { 8 })?
        .parents(case.parents)
        .hide(case.hidden)
        .map_err(|err| number(&err))?
        .commit_graph(graph);
    Ok(walk)
}

fn number(err: &Error) -> u8 {
    match err.cause {
        Cause::NotFound => 9,
        Cause::Corrupt => 10,
        Cause::Crowded => 11,
    }
}

fn print_info(info: &Info, out: &mut impl Write) -> io::Result<()> {
    write!(out, "commit {}", info.id)?;
    match info.generation {
        Some(generation) => write!(out, " {generation}")?,
        None => write!(out, " -")?,
    }
    match info.commit_time {
        Some(seconds) => write!(out, " {seconds}")?,
        None => write!(out, " -")?,
    }
    for parent in info.parent_ids.iter() {
        write!(out, " {parent}")?;
    }
    writeln!(out)
}

fn run(case: Case, out: &mut impl Write) -> io::Result<()> {
    let calls = case.calls;
    match open(case) {
        Err(number) => writeln!(out, "open {number}")?,
        Ok(mut walk) => {
            writeln!(out, "open")?;
            for _ in 0..calls {
                match walk.next() {
                    Some(Ok(info)) => print_info(&info, out)?,
                    Some(Err(err)) => writeln!(out, "error {}", number(&err))?,
                    None => writeln!(out, "end")?,
                }
            }
        }
    }
    writeln!(out)
}

fn main() -> io::Result<()> {
    match std::env::args().nth(1).as_deref() {
        None => {}
        Some("--plain-heap") => gix_revwalk::forget_the_order_of_equals(),
        Some(other) => panic!("no option {other}"),
    }
    let mut bytes = Vec::new();
    io::stdin().lock().read_to_end(&mut bytes)?;
    let mut input = Input(&bytes);
    let mut out = io::BufWriter::new(io::stdout().lock());
    while !input.0.is_empty() {
        run(input.case(), &mut out)?;
    }
    out.flush()
}
