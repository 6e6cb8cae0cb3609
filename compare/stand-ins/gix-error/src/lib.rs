//! Stand-in for gix-error: an error with the cause that it began with, and what was said above it.
use std::fmt;

/// Why a commit could not be had; document 01 has a number for each.
#[derive(Copy, Clone, Eq, PartialEq, Debug)]
pub enum Cause {
    /// "in neither file"
    NotFound,
    /// "header line bad", or "a corrupt list"
    Corrupt,
    /// "a good 257th parent line"
    Crowded,
}

#[derive(Debug)]
pub struct Error {
    pub cause: Cause,
    pub above: Vec<&'static str>,
}

pub type Result<T = (), E = Error> = std::result::Result<T, E>;

pub struct Corruption(&'static str);

pub fn corruption(message: &'static str) -> Corruption {
    Corruption(message)
}

impl From<Cause> for Error {
    fn from(cause: Cause) -> Self {
        Error { cause, above: Vec::new() }
    }
}

impl fmt::Display for Error {
    fn fmt(&self, f: &mut fmt::Formatter<'_>) -> fmt::Result {
        write!(f, "{:?} {:?}", self.cause, self.above)
    }
}

pub trait ErrorExt {
    fn and_raise(self, above: Corruption) -> Error;
}

impl ErrorExt for Error {
    fn and_raise(mut self, above: Corruption) -> Error {
        self.above.push(above.0);
        self
    }
}

pub trait ResultExt<T> {
    fn or_raise(self, above: impl FnOnce() -> Corruption) -> Result<T>;
}

impl<T> ResultExt<T> for Result<T> {
    fn or_raise(self, above: impl FnOnce() -> Corruption) -> Result<T> {
        self.map_err(|err| err.and_raise(above()))
    }
}
