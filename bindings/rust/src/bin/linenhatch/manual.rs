//! The manual page, made of the help of each command.

use crate::options::{Command, COMMANDS};

/// The page, as `man` takes it.
pub fn page() -> String {
    let list = &COMMANDS[0];
    let mut text = format!(
        ".TH LINENHATCH 1 \"\" \"linenhatch {}\" \"User Commands\"\n.SH NAME\nlinenhatch \\- {}\n",
        env!("CARGO_PKG_VERSION"),
        plain(summary(list))
    );
    for command in COMMANDS.iter().filter(|command| command.name != "man") {
        let title = if command.name == "list" { "LIST".into() } else { format!("LINENHATCH {}", command.name.to_uppercase()) };
        text += &format!(".SH {}\n", plain(&title));
        text += &body(command);
    }
    text
}

/// The help's first line, after the name.
fn summary(command: &Command) -> &str {
    command.help.lines().next().and_then(|line| line.split_once(": ")).map_or("", |(_, what)| what)
}

/// How far the lines are that stand as they are.
#[derive(PartialEq)]
enum Mode {
    Text,
    /// Lines of a usage or an example, as they stand.
    AsIs,
    /// An option and what it does.
    Option,
}

/// A help text's lines as paragraphs, options and lines that stand as they are.
fn body(command: &Command) -> String {
    let mut out = String::new();
    let mut mode = Mode::Text;
    let lines: Vec<&str> = command.help.lines().skip(1).collect();
    if command.name != "list" {
        out += &format!("{}\n", capital(&plain(summary(command))));
    }
    for (n, line) in lines.iter().enumerate() {
        let text = line.trim_start();
        let indent = line.len() - text.len();
        let starts_as_is = text.starts_with("usage: ") || text.starts_with("example: ");
        if mode == Mode::AsIs && (text.is_empty() || indent == 0) {
            out += ".fi\n";
            mode = Mode::Text;
        }
        if text.is_empty() {
            if mode == Mode::Option && lines.get(n + 1).is_some_and(|next| next.starts_with("  -")) {
                continue;
            }
            mode = Mode::Text;
            out += ".PP\n";
        } else if starts_as_is {
            mode = Mode::AsIs;
            out += &format!(".nf\n{}\n", plain(text));
        } else if mode == Mode::AsIs {
            out += &format!("{}\n", plain(line));
        } else if indent == 2 && text.starts_with('-') {
            mode = Mode::Option;
            let (option, what) = text.split_once("  ").unwrap_or((text, ""));
            out += &format!(".TP\n\\fB{}\\fR\n{}\n", plain(option), plain(what.trim_start()));
        } else if indent == 0 && lines.get(n + 1).is_some_and(|next| next.starts_with("  ")) && !text.ends_with('.') && text.len() < 40 {
            mode = Mode::Text;
            out += &format!(".SS {}\n", capital(&plain(text)));
        } else {
            out += &format!("{}\n", plain(text));
        }
    }
    if mode == Mode::AsIs {
        out += ".fi\n";
    }
    out
}

/// Text that `man` takes for nothing else.
fn plain(text: &str) -> String {
    let text = text.replace('\\', "\\e").replace('-', "\\-").replace('~', "\\(ti").replace('^', "\\(ha").replace('`', "\\(ga");
    if text.starts_with(['.', '\'']) {
        format!("\\&{text}")
    } else {
        text
    }
}

fn capital(text: &str) -> String {
    let mut chars = text.chars();
    chars.next().map_or(String::new(), |first| first.to_uppercase().chain(chars).collect())
}

#[cfg(test)]
mod tests {
    use super::*;

    /// The page beside the crate is the one that the tool prints.
    #[test]
    fn the_page_that_is_kept() {
        let file = concat!(env!("CARGO_MANIFEST_DIR"), "/man/linenhatch.1");
        let kept = std::fs::read_to_string(file).unwrap_or_default();
        assert!(kept == page(), "{file} is stale: linenhatch man > man/linenhatch.1 writes it anew");
    }

    #[test]
    fn every_command_and_option() {
        let page = page();
        for command in COMMANDS {
            assert!(page.contains(&plain(&format!("linenhatch {}", command.name))) || command.name == "list", "{}", command.name);
            for (names, ..) in command.options() {
                assert!(names.iter().all(|name| page.contains(&plain(name))), "{names:?}");
            }
        }
        assert!(page.lines().all(|line| !line.starts_with('.') || [".TH", ".SH", ".SS", ".TP", ".PP", ".nf", ".fi"].contains(&&line[..3])));
        assert_eq!(page.matches("\n.nf\n").count(), page.matches("\n.fi\n").count());
    }
}
