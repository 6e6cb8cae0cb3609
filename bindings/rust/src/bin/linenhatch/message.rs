//! What the tool itself takes from a commit's body: its subject. No list rests on it.

/// A commit's subject as git has it: the lines of the message up to the first that is blank, joined by spaces.
pub fn subject(body: &[u8]) -> String {
    let Some(at) = body.windows(2).position(|two| two == b"\n\n") else {
        return String::new();
    };
    let lines = body[at + 2..].split(|&byte| byte == b'\n').map(<[u8]>::trim_ascii_end);
    let lines = lines.skip_while(|line| line.is_empty()).take_while(|line| !line.is_empty());
    let text = lines.collect::<Vec<_>>().join(&b' ');
    match is_latin(&body[..at]) {
        true => text.iter().map(|&byte| char::from(byte)).collect(),
        false => String::from_utf8_lossy(&text).into_owned(),
    }
}

/// Whether a header says that the message is in ISO 8859-1, in which a byte is a character; any other is read as UTF-8.
fn is_latin(header: &[u8]) -> bool {
    let mut encodings = header.split(|&byte| byte == b'\n').filter_map(|line| line.strip_prefix(b"encoding "));
    encodings.next().is_some_and(|name| [&b"iso-8859-1"[..], b"iso8859-1", b"latin1", b"latin-1"].contains(&&name.to_ascii_lowercase()[..]))
}

#[cfg(test)]
mod tests {
    use super::*;

    #[test]
    fn subjects() {
        let said = |body: &str| subject(body.as_bytes());
        assert_eq!(said("tree t\nauthor a\n\nrun 7\n"), "run 7");
        assert_eq!(said("tree t\n\n\n  \nrun 7 \nof the left bench\n\nmore\n"), "run 7 of the left bench");
        assert_eq!(said("tree t\n\n"), "");
        assert_eq!(said("tree t\n"), "");
        assert_eq!(subject(b"tree t\nencoding ISO-8859-1\n\ncaf\xe9"), "café");
        assert_eq!(subject(b"tree t\n\ncaf\xe9"), "caf\u{fffd}");
    }
}
