//! Reads cases from standard input and prints every answer, in the formats of `compare/driver` (`compare/README.md`, "The driver's formats"),
//! so that the library's answers can be set beside those of document 01's walk:
//!
//!     cargo build --release --offline --example cases
//!     python3 ../../compare/compare.py target/release/examples/cases

use std::io::{self, BufWriter, Read, Write};

use linenhatch::{Lister, ObjectId, Order, Walk};

fn main() -> io::Result<()> {
    let mut input = Vec::new();
    io::stdin().read_to_end(&mut input)?;
    let mut out = BufWriter::new(io::stdout().lock());
    let mut rest = &input[..];
    while !rest.is_empty() {
        let Some(case) = Case::take(&mut rest) else {
            return Err(io::Error::new(io::ErrorKind::UnexpectedEof, "the last case is cut short"));
        };
        case.run(&mut out)?;
    }
    out.flush()
}

struct Case<'a> {
    lister: Lister<'a>,
    calls: u32,
}

impl<'a> Case<'a> {
    fn take(rest: &mut &'a [u8]) -> Option<Case<'a>> {
        let (store, graph) = (part(rest)?, part(rest)?);
        let (tips, hidden, excluded) = (ids(part(rest)?), ids(part(rest)?), ids(part(rest)?));
        let sorting = array::<1>(rest)?[0];
        let cutoff = i64::from_be_bytes(array(rest)?);
        let first = array::<1>(rest)?[0] != 0;
        let calls = u32::from_be_bytes(array(rest)?);
        let mut lister = Lister::new(store).graph(graph).tips(&tips).hide(&hidden).exclude(&excluded).order(match sorting {
            1 | 3 => Order::Newest,
            2 | 4 => Order::Oldest,
            _ => Order::Breadth,
        });
        if sorting >= 3 {
            lister = lister.cutoff(cutoff);
        }
        if first {
            lister = lister.first_parent();
        }
        Some(Case { lister, calls })
    }

    fn run(&self, out: &mut impl Write) -> io::Result<()> {
        match self.lister.open() {
            Err(refusal) => writeln!(out, "open {}", refusal.number())?,
            Ok(mut walk) => {
                writeln!(out, "open")?;
                for _ in 0..self.calls {
                    call(&mut walk, out)?;
                }
            }
        }
        writeln!(out)
    }
}

fn call(walk: &mut Walk<'_>, out: &mut impl Write) -> io::Result<()> {
    match walk.next() {
        None => writeln!(out, "end"),
        Some(Err(refusal)) => writeln!(out, "error {}", refusal.number()),
        Some(Ok(commit)) => {
            write!(out, "commit {} {} {}", commit.id, or_dash(commit.generation), or_dash(commit.time))?;
            for parent in commit.parents {
                write!(out, " {parent}")?;
            }
            writeln!(out)
        }
    }
}

fn or_dash<T: ToString>(value: Option<T>) -> String {
    value.map_or("-".to_string(), |value| value.to_string())
}

fn bytes<'a>(rest: &mut &'a [u8], count: usize) -> Option<&'a [u8]> {
    let (taken, after) = (rest.get(..count)?, rest.get(count..)?);
    *rest = after;
    Some(taken)
}

fn array<const N: usize>(rest: &mut &[u8]) -> Option<[u8; N]> {
    bytes(rest, N)?.try_into().ok()
}

/// A length and its bytes.
fn part<'a>(rest: &mut &'a [u8]) -> Option<&'a [u8]> {
    let length = u32::from_be_bytes(array(rest)?);
    bytes(rest, length as usize)
}

fn ids(bytes: &[u8]) -> Vec<ObjectId> {
    bytes.chunks_exact(20).map(|id| ObjectId::from_bytes(id).expect("20 bytes")).collect()
}
