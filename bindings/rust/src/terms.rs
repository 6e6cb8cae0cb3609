//! Months and the terms of a school, in UTC.

use std::error::Error;
use std::fmt;
use std::str::FromStr;

/// How many terms a list may have.
pub const MAX_TERMS: usize = 24;

/// A month from January 1970 to December 2099, in UTC. As text it is `2024-09`.
///
/// ```
/// use linenhatch::Month;
///
/// let month: Month = "2024-09".parse()?;
/// assert_eq!((Some(month), month.number(), month.to_string()), (Month::new(2024, 9), 656, "2024-09".into()));
/// assert_eq!((Month::new(1969, 12), Month::new(2100, 1), Month::new(2024, 13)), (None, None, None));
/// # Ok::<(), linenhatch::ParseTermError>(())
/// ```
#[derive(Clone, Copy, Debug, PartialEq, Eq, PartialOrd, Ord, Hash)]
pub struct Month(u32);

impl Month {
    /// A month by its year, 1970 to 2099, and its number there, 1 to 12.
    pub fn new(year: u32, month: u32) -> Option<Month> {
        ((1970..=2099).contains(&year) && (1..=12).contains(&month)).then(|| Month(12 * (year - 1970) + month - 1))
    }

    /// How many months lie between January 1970 and it: 0 to 1,559.
    pub fn number(self) -> u32 {
        self.0
    }
}

impl fmt::Display for Month {
    fn fmt(&self, f: &mut fmt::Formatter<'_>) -> fmt::Result {
        write!(f, "{:04}-{:02}", 1970 + self.0 / 12, 1 + self.0 % 12)
    }
}

impl FromStr for Month {
    type Err = ParseTermError;

    fn from_str(text: &str) -> Result<Month, ParseTermError> {
        let digits = |text: &str, count| {
            (text.len() == count && text.bytes().all(|byte| byte.is_ascii_digit())).then(|| text.parse().ok()).flatten()
        };
        let month = text.split_once('-').and_then(|(year, month)| Month::new(digits(year, 4)?, digits(month, 2)?));
        month.ok_or(ParseTermError)
    }
}

/// A term: from the first second of one month to the last second of the same or a later one. As text it is `2024-09..2025-01`, or one month alone.
///
/// ```
/// use linenhatch::Term;
///
/// let term: Term = "2024-09..2025-01".parse()?;
/// assert_eq!((term.first.to_string(), term.last.to_string(), term.months()), ("2024-09".into(), "2025-01".into(), 5));
/// assert_eq!("2024-09".parse::<Term>()?.months(), 1);
/// # Ok::<(), linenhatch::ParseTermError>(())
/// ```
#[derive(Clone, Copy, Debug, PartialEq, Eq, Hash)]
pub struct Term {
    /// The month that it starts with.
    pub first: Month,
    /// The month that it ends with.
    pub last: Month,
}

impl Term {
    /// How many months it has; 0 where it ends before it starts.
    pub fn months(&self) -> u32 {
        (self.last.0 + 1).saturating_sub(self.first.0)
    }
}

impl fmt::Display for Term {
    fn fmt(&self, f: &mut fmt::Formatter<'_>) -> fmt::Result {
        write!(f, "{}..{}", self.first, self.last)
    }
}

impl FromStr for Term {
    type Err = ParseTermError;

    fn from_str(text: &str) -> Result<Term, ParseTermError> {
        let (first, last) = text.split_once("..").unwrap_or((text, text));
        Ok(Term { first: first.parse()?, last: last.parse()? })
    }
}

/// A text that is no month, or no term.
#[derive(Clone, Copy, Debug, PartialEq, Eq)]
pub struct ParseTermError;

impl fmt::Display for ParseTermError {
    fn fmt(&self, f: &mut fmt::Formatter<'_>) -> fmt::Result {
        f.write_str("no term of months from 1970-01 to 2099-12; one is written 2024-09..2025-01")
    }
}

impl Error for ParseTermError {}
