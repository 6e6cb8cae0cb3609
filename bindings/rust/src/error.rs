//! What can go wrong between a repository and a list.

use std::error;
use std::ffi::OsString;
use std::fmt;

use crate::id::ObjectId;
use crate::refusal::Refusal;
use crate::store::{TooLarge, MAX_FILE_BYTES};

/// A refusal together with the commits that it is about.
///
/// The library's own answer of a refusal names no commit. They are found afterwards, by walks of the library over the same files
/// ([`Lister::refused`](crate::Lister::refused)).
///
/// ```
/// use linenhatch::{ObjectId, Refusal, Refused};
///
/// let refused = Refused { refusal: Refusal::UnreadableReach, commits: vec![ObjectId([0x11; 20])] };
/// assert_eq!((refused.number(), refused.word()), (13, "unreadable reach"));
/// assert_eq!(refused.commit(), Some(ObjectId([0x11; 20])));
/// assert!(refused.to_string().ends_with(&format!("(refusal 13, unreadable reach): {}", "11".repeat(20))));
/// ```
#[derive(Clone, Debug, PartialEq, Eq, Hash)]
pub struct Refused {
    /// Why.
    pub refusal: Refusal,
    /// The commits that are meant; none where the refusal is about no commit.
    pub commits: Vec<ObjectId>,
}

impl Refused {
    /// The refusal's number, as [`Refusal::number`].
    ///
    /// ```
    /// assert_eq!(linenhatch::Refused::from(linenhatch::Refusal::GraphAtOdds).number(), 14);
    /// ```
    pub fn number(&self) -> u32 {
        self.refusal.number()
    }

    /// The refusal's name in words, as [`Refusal::name`].
    ///
    /// ```
    /// assert_eq!(linenhatch::Refused::from(linenhatch::Refusal::GraphAtOdds).word(), "graph at odds");
    /// ```
    pub fn word(&self) -> &'static str {
        self.refusal.name()
    }

    /// The first of the commits.
    ///
    /// ```
    /// assert_eq!(linenhatch::Refused::from(linenhatch::Refusal::InputTooLarge).commit(), None);
    /// ```
    pub fn commit(&self) -> Option<ObjectId> {
        self.commits.first().copied()
    }
}

/// How many commits a sentence names.
const NAMED: usize = 10;

impl fmt::Display for Refused {
    fn fmt(&self, f: &mut fmt::Formatter<'_>) -> fmt::Result {
        write!(f, "{}", self.refusal)?;
        for (n, id) in self.commits.iter().take(NAMED).enumerate() {
            write!(f, "{} {id}", if n == 0 { ":" } else { "," })?;
        }
        match self.commits.len().saturating_sub(NAMED) {
            0 => Ok(()),
            more => write!(f, ", {more} more"),
        }
    }
}

impl error::Error for Refused {}

impl From<Refusal> for Refused {
    fn from(refusal: Refusal) -> Refused {
        Refused { refusal, commits: Vec::new() }
    }
}

/// Why a [`Repository`](crate::Repository) gave no commits, or a history of it no list. `Display` is a sentence that says what to do.
///
/// ```
/// use linenhatch::{Error, Refusal};
///
/// let error = Error::from(Refusal::PairNotFalling);
/// assert_eq!((error.number(), error.word(), error.commit()), (Some(15), Some("pair not falling"), None));
/// assert_eq!(Error::Empty.number(), None);
/// ```
#[derive(Clone, Debug, PartialEq, Eq)]
#[non_exhaustive]
pub enum Error {
    /// What git said, or why it could not be started or read.
    Git(String),
    /// The repository has no commits yet.
    Empty,
    /// A text that is no name of one commit, and no `^A` or `A..B` either.
    BadName(OsString),
    /// A name that stands for no commit of the repository.
    NoCommit(OsString),
    /// A text that git takes for no date.
    NoDate(OsString),
    /// Why git's own commit-graph file cannot be used.
    GraphNotUsed(String),
    /// The commits are too many for a store, also with each cut after its committer line.
    TooLarge(TooLarge),
    /// What the library refused.
    Refused(Refused),
}

impl Error {
    /// The number of the refusal, if it is one.
    ///
    /// ```
    /// use linenhatch::{Error, Refusal};
    ///
    /// assert_eq!((Error::from(Refusal::UnreadableReach).number(), Error::Empty.number()), (Some(13), None));
    /// ```
    pub fn number(&self) -> Option<u32> {
        self.refused().map(Refused::number)
    }

    /// The refusal's name in words, if it is one.
    ///
    /// ```
    /// use linenhatch::{Error, Refusal};
    ///
    /// assert_eq!((Error::from(Refusal::UnreadableReach).word(), Error::Empty.word()), (Some("unreadable reach"), None));
    /// ```
    pub fn word(&self) -> Option<&'static str> {
        self.refused().map(Refused::word)
    }

    /// The first commit that a refusal is about.
    ///
    /// ```
    /// use linenhatch::{Error, ObjectId, Refusal, Refused};
    ///
    /// let error = Error::from(Refused { refusal: Refusal::UnreadableReach, commits: vec![ObjectId([7; 20])] });
    /// assert_eq!(error.commit(), Some(ObjectId([7; 20])));
    /// ```
    pub fn commit(&self) -> Option<ObjectId> {
        self.refused().and_then(Refused::commit)
    }

    fn refused(&self) -> Option<&Refused> {
        match self {
            Error::Refused(refused) => Some(refused),
            _ => None,
        }
    }
}

impl fmt::Display for Error {
    fn fmt(&self, f: &mut fmt::Formatter<'_>) -> fmt::Result {
        match self {
            Error::Git(said) => match said.strip_prefix("fatal: ") {
                Some(rest) if rest.starts_with("not a git repository") => write!(f, "{rest}; -C DIR says where one is"),
                _ => f.write_str(said),
            },
            Error::Empty => f.write_str("this repository has no commits yet"),
            Error::BadName(name) => match name.to_string_lossy() {
                text if text.is_empty() || text.starts_with('-') => write!(f, "'{text}' is no name of a commit"),
                text => write!(f, "'{text}' is not the name of one commit; A, ^A and A..B are known, and A...B is not"),
            },
            Error::NoCommit(name) if name == "HEAD" => f.write_str("HEAD leads to no commit: give the name of a branch, or --all"),
            Error::NoCommit(name) => write!(f, "'{}' is the name of no commit here", name.to_string_lossy()),
            Error::NoDate(date) => {
                write!(f, "'{}' is no date that git can read; 2024-09-01 and '2 weeks ago' are", date.to_string_lossy())
            }
            Error::GraphNotUsed(why) => f.write_str(why),
            Error::TooLarge(too_large) => write!(
                f,
                "this history is too large: a store of its commits, each cut after its committer line, needs {} bytes, and may have at most \
                 {MAX_FILE_BYTES}; list from older commits",
                too_large.needed
            ),
            Error::Refused(refused) => refused.fmt(f),
        }
    }
}

impl error::Error for Error {
    fn source(&self) -> Option<&(dyn error::Error + 'static)> {
        match self {
            Error::TooLarge(too_large) => Some(too_large),
            Error::Refused(refused) => Some(refused),
            _ => None,
        }
    }
}

impl From<TooLarge> for Error {
    fn from(too_large: TooLarge) -> Error {
        Error::TooLarge(too_large)
    }
}

impl From<Refused> for Error {
    fn from(refused: Refused) -> Error {
        Error::Refused(refused)
    }
}

impl From<Refusal> for Error {
    fn from(refusal: Refusal) -> Error {
        Error::Refused(refusal.into())
    }
}

#[cfg(test)]
mod tests {
    use super::*;

    #[test]
    fn what_is_said() {
        let many = Refused { refusal: Refusal::GraphAtOdds, commits: (0..12).map(|n| ObjectId([n; 20])).collect() };
        assert!(many.to_string().ends_with(&format!(", {}, 2 more", ObjectId([9; 20]))), "{many}");
        assert_eq!(Error::from(Refusal::Closed).to_string(), Refusal::Closed.to_string());
        let outside = Error::Git("fatal: not a git repository (or any of the parent directories): .git".into());
        assert!(outside.to_string().starts_with("not a git repository") && outside.to_string().contains("-C DIR"), "{outside}");
        assert!(Error::NoCommit("HEAD".into()).to_string().contains("--all"));
        assert!(Error::from(TooLarge { needed: 17_000_000 }).to_string().contains("17000000"));
    }
}
