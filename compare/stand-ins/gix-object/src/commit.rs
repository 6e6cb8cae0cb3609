//! "The reader goes over one lent commit line by line, as `CommitRefIter` does."
pub mod ref_iter {
    use gix_date::SecondsSinceUnixEpoch;
    use gix_error::{Cause, Error, Result};
    use gix_hash::{Kind, ObjectId};

    /// "it has at most 256 parents"
    const MOST_PARENTS: usize = 256;

    /// A header line. What follows the committer line is not read.
    pub enum Token {
        Tree { id: ObjectId },
        Parent { id: ObjectId },
        Author,
        Committer { signature: Signature },
    }

    #[derive(Copy, Clone)]
    pub struct Signature(SecondsSinceUnixEpoch);

    impl Signature {
        pub fn seconds(&self) -> SecondsSinceUnixEpoch {
            self.0
        }
    }

    #[derive(Copy, Clone)]
    enum Place {
        Tree,
        Parents { had: usize },
        Committer,
        End,
    }

    #[derive(Copy, Clone)]
    pub struct CommitRefIter<'a> {
        rest: &'a [u8],
        place: Place,
        /// "Where only seconds are wanted … parents are not counted."
        counts: bool,
    }

    impl<'a> CommitRefIter<'a> {
        pub fn from_bytes(body: &'a [u8], _hash: Kind) -> Self {
            CommitRefIter { rest: body, place: Place::Tree, counts: true }
        }

        /// Tree, parents, author and committer are good: the committer's line.
        pub fn committer(&self) -> Result<Signature> {
            let mut lines = *self;
            lines.counts = false;
            for token in lines {
                if let Token::Committer { signature } = token? {
                    return Ok(signature);
                }
            }
            Err(Cause::Corrupt.into())
        }

        fn read(&mut self) -> Result<Token> {
            let bad = || Error::from(Cause::Corrupt);
            match self.place {
                Place::Tree => {
                    let (id, rest) = id_line(b"tree ", self.rest).ok_or_else(bad)?;
                    (self.rest, self.place) = (rest, Place::Parents { had: 0 });
                    Ok(Token::Tree { id })
                }
                Place::Parents { had } => match id_line(b"parent ", self.rest) {
                    Some(_) if self.counts && had == MOST_PARENTS => Err(Cause::Crowded.into()),
                    Some((id, rest)) => {
                        (self.rest, self.place) = (rest, Place::Parents { had: had + 1 });
                        Ok(Token::Parent { id })
                    }
                    None => {
                        let (text, rest) = line(b"author ", self.rest).ok_or_else(bad)?;
                        if !names_a_person(text) {
                            return Err(bad());
                        }
                        (self.rest, self.place) = (rest, Place::Committer);
                        Ok(Token::Author)
                    }
                },
                Place::Committer | Place::End => {
                    let (text, rest) = line(b"committer ", self.rest).ok_or_else(bad)?;
                    let seconds = seconds(text).ok_or_else(bad)?;
                    (self.rest, self.place) = (rest, Place::End);
                    Ok(Token::Committer { signature: Signature(seconds) })
                }
            }
        }
    }

    impl Iterator for CommitRefIter<'_> {
        type Item = Result<Token>;

        fn next(&mut self) -> Option<Self::Item> {
            if matches!(self.place, Place::End) {
                return None;
            }
            let token = self.read();
            if token.is_err() {
                self.place = Place::End;
            }
            Some(token)
        }
    }

    /// A word, "40 hexadecimal digits in lower case + newline"; what follows.
    fn id_line<'a>(word: &[u8], bytes: &'a [u8]) -> Option<(ObjectId, &'a [u8])> {
        let rest = bytes.strip_prefix(word)?;
        let (digits, rest) = rest.split_at_checked(40)?;
        let rest = rest.strip_prefix(b"\n")?;
        let mut id = [0; 20];
        for (byte, pair) in id.iter_mut().zip(digits.chunks_exact(2)) {
            *byte = hex(pair[0])? * 16 + hex(pair[1])?;
        }
        Some((ObjectId::from_bytes(id), rest))
    }

    fn hex(digit: u8) -> Option<u8> {
        match digit {
            b'0'..=b'9' => Some(digit - b'0'),
            b'a'..=b'f' => Some(digit - b'a' + 10),
            _ => None,
        }
    }

    /// A line that begins with a word: its bytes between word and newline; what follows. "A line without its newline is bad."
    fn line<'a>(word: &[u8], bytes: &'a [u8]) -> Option<(&'a [u8], &'a [u8])> {
        let rest = bytes.strip_prefix(word)?;
        let end = rest.iter().position(|byte| *byte == b'\n')?;
        Some((&rest[..end], &rest[end + 1..]))
    }

    /// "bytes holding `<` and later `>`"
    fn names_a_person(text: &[u8]) -> bool {
        let open = text.iter().position(|byte| *byte == b'<');
        open.is_some_and(|at| text[at..].contains(&b'>'))
    }

    /// "after the last `>` stand one space, an optional `-`, 1 to 18 decimal digits, then a space or the newline"
    fn seconds(text: &[u8]) -> Option<SecondsSinceUnixEpoch> {
        let last = text.iter().rposition(|byte| *byte == b'>')?;
        let text = text[last + 1..].strip_prefix(b" ")?;
        let (sign, text) = match text.strip_prefix(b"-") {
            Some(text) => (-1, text),
            None => (1, text),
        };
        let digits = text.iter().take_while(|byte| byte.is_ascii_digit()).count();
        if !(1..=18).contains(&digits) || !matches!(text.get(digits), None | Some(b' ')) {
            return None;
        }
        let value = text[..digits].iter().fold(0, |value, digit| value * 10 + i64::from(digit - b'0'));
        Some(sign * value)
    }
}
