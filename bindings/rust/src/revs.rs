//! Names of commits as git takes them: `A`, `^A`, `A..B`.

use std::ffi::{OsStr, OsString};
use std::os::unix::ffi::OsStrExt;

use crate::error::Error;

/// Names to list from, and names to hide with all that they reach.
///
/// ```
/// use linenhatch::Revs;
///
/// let revs = Revs::parse(["main", "^old", "a..b"])?;
/// assert_eq!((revs.tips, revs.hidden), (vec!["main".into(), "b".into()], vec!["old".into(), "a".into()]));
/// assert!(Revs::parse(["a...b"]).is_err());
/// # Ok::<(), linenhatch::Error>(())
/// ```
#[derive(Clone, Debug, Default, PartialEq, Eq)]
pub struct Revs {
    /// To list from.
    pub tips: Vec<OsString>,
    /// To hide.
    pub hidden: Vec<OsString>,
}

impl Revs {
    /// All of some names, each as [`add`](Revs::add) takes it.
    ///
    /// ```
    /// assert_eq!(linenhatch::Revs::parse(["^old"])?.hidden, ["old"]);
    /// # Ok::<(), linenhatch::Error>(())
    /// ```
    pub fn parse<R: AsRef<OsStr>>(revs: impl IntoIterator<Item = R>) -> Result<Revs, Error> {
        let mut all = Revs::default();
        for rev in revs {
            all.add(rev)?;
        }
        Ok(all)
    }

    /// One more: `A` is to list from and `^A` to hide; `A..B` is `^A B`, with HEAD for a side that is left out.
    ///
    /// ```
    /// let mut revs = linenhatch::Revs::default();
    /// revs.add("printed..")?;
    /// assert_eq!((revs.tips, revs.hidden), (vec!["HEAD".into()], vec!["printed".into()]));
    /// # Ok::<(), linenhatch::Error>(())
    /// ```
    pub fn add(&mut self, rev: impl AsRef<OsStr>) -> Result<(), Error> {
        let bytes = rev.as_ref().as_bytes();
        let or_head = |side: &[u8]| if side.is_empty() { "HEAD".into() } else { OsStr::from_bytes(side).to_os_string() };
        let (hidden, tip) = match (bytes.strip_prefix(b"^"), bytes.windows(2).position(|two| two == b"..")) {
            (Some(hidden), _) => (Some(OsStr::from_bytes(hidden).to_os_string()), None),
            (None, Some(at)) => (Some(or_head(&bytes[..at])), Some(or_head(&bytes[at + 2..]))),
            (None, None) => (None, Some(rev.as_ref().to_os_string())),
        };
        for (name, list) in [(hidden, &mut self.hidden), (tip, &mut self.tips)] {
            if let Some(name) = name {
                // Of a range the whole is said, not the side that is none.
                list.push(Revs::one(name).map_err(|_| Error::BadName(rev.as_ref().into()))?);
            }
        }
        Ok(())
    }

    /// The name of one commit, as it was given; what looks like an option or a range is none.
    ///
    /// ```
    /// use linenhatch::Revs;
    ///
    /// assert_eq!(Revs::one("main~3")?, "main~3");
    /// assert!(["", "-x", "^a", "a..b"].iter().all(|text| Revs::one(text).is_err()));
    /// # Ok::<(), linenhatch::Error>(())
    /// ```
    pub fn one(rev: impl AsRef<OsStr>) -> Result<OsString, Error> {
        let bytes = rev.as_ref().as_bytes();
        let is_range = bytes.windows(2).any(|two| two == b"..");
        match bytes.first() {
            None | Some(b'-' | b'^' | b'.') => Err(Error::BadName(rev.as_ref().into())),
            _ if is_range => Err(Error::BadName(rev.as_ref().into())),
            _ => Ok(rev.as_ref().into()),
        }
    }
}
