//! The commands and their options in one table, of which completion and the manual page are made. The tests hold it to the parser and to the help.

use crate::args;

/// What an option takes.
#[derive(Clone, Copy, Debug, PartialEq)]
pub enum Value {
    None,
    Folder,
    File,
    Rev,
    /// One of some words.
    Of(&'static [&'static str]),
    /// Anything else, with its name in capitals.
    Text(&'static str),
}

/// An option: its names, what it takes, and what it does.
pub type Opt = (&'static [&'static str], Value, &'static str);

/// A command: its name, what it does, its options, whether names of commits follow, and its help.
pub struct Command {
    pub name: &'static str,
    pub what: &'static str,
    pub options: &'static [&'static [Opt]],
    pub revs: bool,
    pub help: &'static str,
}

const COMMON: &[Opt] = &[
    (&["-C"], Value::Folder, "the repository is in DIR"),
    (&["--progress"], Value::None, "shows how far the work is, also where standard error is no terminal"),
    (&["-h", "--help"], Value::None, "prints the help"),
    (&["-V", "--version"], Value::None, "prints the version"),
];

const REFERENCES: &[Opt] = &[
    (&["--all"], Value::None, "from all references and HEAD"),
    (&["--branches"], Value::None, "from all branches"),
    (&["--tags"], Value::None, "from all tags"),
];

const WALK: &[Opt] = &[
    (&["--hide"], Value::Rev, "leaves out REV and all that it reaches"),
    (&["--exclude"], Value::Rev, "leaves out REV and does not go on from it"),
    (&["--first-parent"], Value::None, "follows only the first parent of each commit"),
    (&["--cutoff"], Value::Text("SECONDS"), "leaves out older commits and what is reached through them alone"),
    (&["--order"], Value::Of(&["newest", "oldest", "breadth"]), "the order of the list"),
    (&["--git-graph"], Value::None, "goes by git's own commit-graph file"),
    (&["--no-graph"], Value::None, "goes by no commit-graph file"),
    (&["--untested"], Value::None, "lists without testing"),
];

const LIST: &[Opt] = &[
    (&["-n", "--max-count"], Value::Text("N"), "at most N commits"),
    (&["--count"], Value::None, "prints how many commits there are"),
    (&["--reverse"], Value::None, "prints the list from its end"),
    (&["--since", "--after"], Value::Text("DATE"), "leaves out the commits before DATE"),
    (&["--until", "--before"], Value::Text("DATE"), "leaves out the commits after DATE"),
    (&["--format"], Value::Of(&["ids", "parents", "csv", "json"]), "what a line has"),
    (&["--parents"], Value::None, "prints the parents' ids after the id"),
    (&["--time"], Value::None, "prints SECONDS/GENERATION after the id"),
    (&["--zone"], Value::None, "prints the committer's time zone after the id"),
    (&["--check-names"], Value::None, "checks names in place of listing"),
];

const FIELDS: &[Opt] = &[(&["--csv"], Value::None, "prints fields parted by commas")];

const EMBARGO: &[Opt] = &[
    (&["--embargo"], Value::File, "the embargoed commits, an id on a line"),
    (&["--outside"], Value::None, "reports for an outside reader"),
];

const TERMS: &[Opt] = &[(&["--term"], Value::Text("FIRST..LAST"), "a term, as 2024-09..2025-01")];

const PAGE: &[Opt] = &[(&["--title"], Value::Text("TEXT"), "the title of the page"), (&["-o", "--output"], Value::File, "the file")];

const TRACE: &[Opt] = &[
    (&["--calibration"], Value::Rev, "a commit that the trace is to reach"),
    (&["--moves"], Value::Text("N"), "how many moves there are"),
];

const OUTPUT: &[Opt] = &[(&["-o"], Value::File, "the file")];

/// The commands, the one that may be left out first.
pub const COMMANDS: &[Command] = &[
    Command { name: "list", what: "lists commits", options: &[REFERENCES, WALK, LIST, COMMON], revs: true, help: args::HELP },
    Command {
        name: "feed",
        what: "reports what messages say of feeds",
        options: &[FIELDS, EMBARGO, REFERENCES, WALK, COMMON],
        revs: true,
        help: args::FEED_HELP,
    },
    Command {
        name: "terms",
        what: "counts commits by terms",
        options: &[TERMS, FIELDS, REFERENCES, WALK, COMMON],
        revs: true,
        help: args::TERMS_HELP,
    },
    Command {
        name: "report",
        what: "writes a page of feeds by terms",
        options: &[TERMS, PAGE, EMBARGO, REFERENCES, WALK, COMMON],
        revs: true,
        help: args::REPORT_HELP,
    },
    Command { name: "merge-base", what: "prints where two series part", options: &[COMMON], revs: true, help: args::MERGE_BASE_HELP },
    Command {
        name: "trace",
        what: "says whether a trace back to a calibration can be forced",
        options: &[TRACE, COMMON],
        revs: true,
        help: args::TRACE_HELP,
    },
    Command { name: "verify", what: "says what holds of a history", options: &[REFERENCES, COMMON], revs: true, help: args::VERIFY_HELP },
    Command {
        name: "write-graph",
        what: "writes the commit-graph file of a repository",
        options: &[OUTPUT, COMMON],
        revs: false,
        help: args::WRITE_GRAPH_HELP,
    },
    Command {
        name: "completion",
        what: "prints what a shell needs to complete the words of linenhatch",
        options: &[],
        revs: false,
        help: args::COMPLETION_HELP,
    },
    Command { name: "man", what: "prints the manual page", options: &[], revs: false, help: args::COMPLETION_HELP },
];

impl Command {
    pub fn options(&self) -> impl Iterator<Item = &'static Opt> {
        self.options.iter().flat_map(|part| part.iter())
    }
}

#[cfg(test)]
mod tests {
    use super::*;
    use crate::args::{parse, Task};
    use std::collections::BTreeSet;

    fn words(text: &str) -> Vec<std::ffi::OsString> {
        text.split_whitespace().map(Into::into).collect()
    }

    /// A value that an option takes, and words that the command needs beside it.
    fn value(value: Value) -> &'static str {
        match value {
            Value::None => "",
            Value::Of(words) => words[0],
            Value::Text("N") => "3",
            Value::Text("SECONDS") => "5",
            Value::Text("FIRST..LAST") => "2024-09..2025-01",
            Value::Folder | Value::File | Value::Rev | Value::Text(_) => "x",
        }
    }

    /// Every option of the table is the parser's, and so is what it takes.
    #[test]
    fn the_parser_knows_each_option() {
        for command in COMMANDS {
            for (names, takes, _) in command.options() {
                for name in *names {
                    let needed = match (command.name, *name) {
                        ("merge-base", _) => "a b",
                        ("trace", "--moves") => "a",
                        ("trace", _) => "a --moves 1",
                        _ => "",
                    };
                    let line = format!("{} {name} {} {needed}", command.name, value(*takes));
                    let parsed = parse(words(&line));
                    assert!(parsed.is_ok(), "{line}: {parsed:?}");
                    if *takes != Value::None {
                        let line = format!("{} {needed} {name}", command.name);
                        assert!(parse(words(&line)).is_err_and(|said| said.contains(&format!("{name} needs"))), "{line}");
                    }
                }
            }
        }
    }

    /// Every word with a dash in the parser's own text is an option of the table.
    #[test]
    fn the_table_has_each_option_of_the_parser() {
        let text = [include_str!("args.rs"), include_str!("page_args.rs"), include_str!("verify_args.rs")].concat();
        let is_option = |word: &&str| {
            let name = word.trim_start_matches('-');
            word.starts_with('-') && !name.is_empty() && name.bytes().all(|byte| byte.is_ascii_alphabetic() || byte == b'-')
        };
        let said: BTreeSet<&str> = text.split('"').filter(is_option).collect();
        let known: BTreeSet<&str> = COMMANDS.iter().flat_map(Command::options).flat_map(|(names, ..)| names.iter().copied()).collect();
        assert!(said.len() > 30);
        assert_eq!(said, known);
    }

    /// The help of a command has all of its options; that of a report leaves those of a list to the list.
    #[test]
    fn the_help_has_each_option() {
        for command in COMMANDS {
            assert!(
                matches!(parse(words(&format!("{} --help", command.name))), Ok(Task::Help(text)) if text == command.help),
                "{}",
                command.name
            );
            for (names, ..) in command.options() {
                for name in names.iter().filter(|name| !["-h", "--help", "-V", "--version"].contains(name)) {
                    let has = |help: &str| help.split(|char: char| !(char.is_ascii_alphabetic() || char == '-')).any(|word| word == *name);
                    assert!(has(command.help), "{} {name}", command.name);
                }
            }
        }
    }
}
