//! The check of names: whether each commit is under the id that git makes of its body.

use std::error::Error;
use std::fmt;

use crate::ffi;
use crate::id::Kind;
use crate::refusal::Refusal;

/// What a check of names found.
#[derive(Clone, Copy, Debug, PartialEq, Eq, Hash)]
pub struct Fault {
    /// [`FalseName`](Refusal::FalseName), [`FalseChecksum`](Refusal::FalseChecksum), or why the files could not be checked.
    pub refusal: Refusal,
    /// After a false name, the number of the first entry at fault, counted from 0 in the order of ids; else 0.
    pub entry: usize,
}

impl fmt::Display for Fault {
    fn fmt(&self, f: &mut fmt::Formatter<'_>) -> fmt::Result {
        match self.refusal {
            Refusal::FalseName => write!(f, "{}: entry {}", self.refusal, self.entry),
            _ => self.refusal.fmt(f),
        }
    }
}

impl Error for Fault {}

/// Checks that each commit of a store is under the SHA-1 of `commit `, its body's length in decimal, a zero byte and its body; and that the
/// commit-graph file, if it has any bytes, ends in the SHA-1 of the rest.
///
/// The refusals come in the order 2, 4, 5, 6, 16, 17; of false names the first in the order of ids is told. Bodies need not be readable.
///
/// ```
/// use linenhatch::{check_names, store_from_commits, ObjectId, Refusal};
///
/// let body = "tree 4b825dc642cb6eb9a060e54bf8d69288fbee4904\nauthor A <a> 5 +0000\ncommitter A <a> 5 +0000\n\n";
/// let id = ObjectId::from_hex(b"b412355a1b1061d033444158fed2c45af52cb92e").unwrap();
/// assert_eq!(check_names(&store_from_commits([(id, body)])?, &[]), Ok(()));
///
/// let fault = check_names(&store_from_commits([(id, &body[1..])])?, &[]).unwrap_err();
/// assert_eq!((fault.refusal, fault.entry), (Refusal::FalseName, 0));
/// # Ok::<(), linenhatch::TooLarge>(())
/// ```
pub fn check_names(store: &[u8], graph: &[u8]) -> Result<(), Fault> {
    check_names_in(Kind::Sha1, store, graph)
}

/// The same of either kind, with its digest.
///
/// ```
/// use linenhatch::{check_names_in, store_from_commits, Kind, ObjectId};
///
/// let tree = "6ef19b41225c5369f1c104d45d8d85efa9b057b53b14b4b9b939dd74decc5321";
/// let body = format!("tree {tree}\nauthor A <a> 5 +0000\ncommitter A <a> 5 +0000\n\n");
/// let id: ObjectId = "212fd6b650c88e43077125b21ae40148a1d8c276aa0e0ca71cb4ba329a5cd669".parse()?;
/// assert_eq!(check_names_in(Kind::Sha256, &store_from_commits([(id, body)])?, &[]), Ok(()));
/// # Ok::<(), Box<dyn std::error::Error>>(())
/// ```
pub fn check_names_in(kind: Kind, store: &[u8], graph: &[u8]) -> Result<(), Fault> {
    let mut numbers = [0; ffi::CHECK_NUMBERS];
    match ffi::check_names(kind.width(), store, graph, &mut numbers) {
        0 => Ok(()),
        number => Err(Fault { refusal: Refusal::from_number(number).expect("a refusal's number"), entry: numbers[0] as usize }),
    }
}
