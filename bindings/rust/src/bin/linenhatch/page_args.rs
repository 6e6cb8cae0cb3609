//! The command line of `report`: a list's own, with terms, a title and a file.

use std::ffi::OsString;
use std::path::PathBuf;

use linenhatch::Term;

use super::{bad_terms, needs, parse_list, split, term_of, Args, Report, Task};

/// What a page is made of, and where it goes.
#[derive(Debug, PartialEq)]
pub struct Page {
    pub args: Args,
    pub terms: Vec<Term>,
    pub title: Option<String>,
    /// Standard output if none is given.
    pub file: Option<PathBuf>,
}

/// The words without the command's own.
pub fn parse_page(words: Vec<OsString>) -> Result<Task, String> {
    let mut words = words.into_iter();
    let (mut rest, mut terms, mut title, mut file) = (Vec::new(), Vec::new(), None, None);
    while let Some(word) = words.next() {
        if word == "--" {
            rest.push(word);
            rest.extend(words.by_ref());
            break;
        }
        let (option, given) = split(&word);
        let has_value = given.is_some();
        let mut value = |what: &str| given.clone().or_else(|| words.next()).ok_or_else(|| format!("{option} needs {what}"));
        match option.as_str() {
            "--term" => terms.push(term_of(&value("a term, as 2024-09..2025-01")?)?),
            "--title" => title = Some(value("a text")?.to_string_lossy().into_owned()),
            "-o" | "--output" => file = Some(PathBuf::from(value("a file")?)),
            "--csv" => return Err("a page has no option --csv; linenhatch feed --csv prints fields".into()),
            _ => {
                rest.push(word);
                if needs(&option, Some(Report::Page)).is_some() && !has_value {
                    rest.extend(words.next());
                }
            }
        }
    }
    if let Some(why) = bad_terms(&terms) {
        return Err(why);
    }
    Ok(match parse_list(rest, Some(Report::Page))? {
        Task::List(args) => Task::Page(Page { args, terms, title, file }),
        other => other,
    })
}
