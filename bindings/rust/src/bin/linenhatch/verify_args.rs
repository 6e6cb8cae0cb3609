//! The command line of `verify`.

use std::ffi::OsString;
use std::os::unix::ffi::OsStrExt;
use std::path::PathBuf;

use linenhatch::Revs;

use super::{Task, VERIFY_HELP};

/// What is verified.
#[derive(Debug, PartialEq)]
pub struct Verify {
    pub dir: PathBuf,
    pub progress: bool,
    /// `--all`, `--branches` and `--tags`, as they were given.
    pub refs: Vec<&'static str>,
    /// Hidden names too: what they reach is tested as well.
    pub revs: Vec<OsString>,
}

/// The words without the command's own.
pub fn parse_verify(words: Vec<OsString>) -> Result<Task, String> {
    let mut words = words.into_iter();
    let mut verify = Verify { dir: PathBuf::from("."), progress: false, refs: Vec::new(), revs: Vec::new() };
    while let Some(word) = words.next() {
        match word.to_str() {
            Some("-C") => verify.dir.push(words.next().ok_or("-C needs a folder")?),
            Some("--progress") => verify.progress = true,
            Some("--all") => verify.refs.push("--all"),
            Some("--branches") => verify.refs.push("--branches"),
            Some("--tags") => verify.refs.push("--tags"),
            Some("--help" | "-h") => return Ok(Task::Help(VERIFY_HELP)),
            Some("--version" | "-V") => return Ok(Task::Version),
            Some("--") => {
                for rev in words.by_ref() {
                    verify.add(rev)?;
                }
            }
            _ if word.as_bytes().starts_with(b"-") => return Err(format!("verify has no option {}", word.to_string_lossy())),
            _ => verify.add(word)?,
        }
    }
    if verify.revs.is_empty() && verify.refs.is_empty() {
        verify.revs.push("HEAD".into());
    }
    Ok(Task::Verify(verify))
}

impl Verify {
    fn add(&mut self, rev: OsString) -> Result<(), String> {
        let Revs { tips, hidden } = Revs::parse([rev]).map_err(|error| error.to_string())?;
        self.revs.extend(tips.into_iter().chain(hidden));
        Ok(())
    }
}
