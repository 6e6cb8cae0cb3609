//! Object ids.

use std::error::Error;
use std::fmt;
use std::str::FromStr;

/// How many bytes a SHA-1 id has. [`Kind::len_in_bytes`] says it of either kind.
pub const ID_BYTES: usize = Kind::Sha1.len_in_bytes();

/// The hash function that a repository names its objects by. The name is gix_hash's.
///
/// ```
/// use linenhatch::Kind;
///
/// assert_eq!((Kind::Sha1.len_in_bytes(), Kind::Sha256.len_in_bytes()), (20, 32));
/// assert_eq!("sha256".parse(), Ok(Kind::Sha256)); // as git names its object format
/// assert_eq!(Kind::default(), Kind::Sha1);
/// ```
#[derive(Clone, Copy, Debug, Default, PartialEq, Eq, PartialOrd, Ord, Hash)]
pub enum Kind {
    /// SHA-1: ids of 20 bytes.
    #[default]
    Sha1,
    /// SHA-256: ids of 32 bytes.
    Sha256,
}

impl Kind {
    /// The two of them.
    pub const ALL: [Kind; 2] = [Kind::Sha1, Kind::Sha256];

    /// How many bytes an id has.
    pub const fn len_in_bytes(self) -> usize {
        match self {
            Kind::Sha1 => 20,
            Kind::Sha256 => 32,
        }
    }

    /// How many hexadecimal digits an id is written with.
    pub const fn len_in_hex(self) -> usize {
        2 * self.len_in_bytes()
    }

    /// How many bytes an entry of a commit store has: an id, and the offset of its body's end.
    pub(crate) const fn entry_bytes(self) -> usize {
        self.len_in_bytes() + 4
    }

    /// How many bytes a row of a commit-graph file has.
    #[cfg(feature = "walk")]
    pub(crate) const fn row_bytes(self) -> usize {
        self.len_in_bytes() + 16
    }

    /// How many bytes a parent line of a commit has.
    #[cfg(feature = "walk")]
    pub(crate) const fn parent_line_bytes(self) -> usize {
        self.len_in_hex() + 8
    }

    /// As the library's functions take it.
    #[cfg(feature = "walk")]
    pub(crate) const fn width(self) -> u32 {
        self.len_in_bytes() as u32
    }

    fn of_len(bytes: usize) -> Option<Kind> {
        Kind::ALL.into_iter().find(|kind| kind.len_in_bytes() == bytes)
    }
}

impl fmt::Display for Kind {
    fn fmt(&self, f: &mut fmt::Formatter<'_>) -> fmt::Result {
        f.pad(match self {
            Kind::Sha1 => "sha1",
            Kind::Sha256 => "sha256",
        })
    }
}

impl FromStr for Kind {
    type Err = ParseKindError;

    fn from_str(name: &str) -> Result<Kind, ParseKindError> {
        Kind::ALL.into_iter().find(|kind| kind.to_string() == name).ok_or(ParseKindError)
    }
}

/// A text is the name of no kind of ids: it is neither `sha1` nor `sha256`.
#[derive(Clone, Copy, Debug, PartialEq, Eq)]
pub struct ParseKindError;

impl fmt::Display for ParseKindError {
    fn fmt(&self, f: &mut fmt::Formatter<'_>) -> fmt::Result {
        f.write_str("ids are named by sha1 or by sha256")
    }
}

impl Error for ParseKindError {}

/// The name of a commit: 20 bytes with SHA-1 and 32 with SHA-256, which people write as 40 or 64 hexadecimal digits.
///
/// Ids of one kind are ordered byte by byte. They are read from either case and printed in lower case. Those of one store, one list and one call are
/// of one kind.
///
/// ```
/// use linenhatch::{Kind, ObjectId};
///
/// let id: ObjectId = "0ecb48eae067bd371115e6f64c742aa70d258ac6".parse()?;
/// assert_eq!((id.kind(), id.as_bytes()[0]), (Kind::Sha1, 0x0e));
/// assert_eq!(id.to_string(), "0ecb48eae067bd371115e6f64c742aa70d258ac6");
///
/// let wide: ObjectId = "6ef19b41225c5369f1c104d45d8d85efa9b057b53b14b4b9b939dd74decc5321".parse()?;
/// assert_eq!((wide.kind(), wide.as_bytes().len()), (Kind::Sha256, 32));
/// # Ok::<(), linenhatch::ParseIdError>(())
/// ```
#[derive(Clone, Copy, PartialEq, Eq, PartialOrd, Ord, Hash)]
pub enum ObjectId {
    /// 20 bytes. `ObjectId([7; 20])` is short for it.
    Sha1([u8; 20]),
    /// 32 bytes.
    Sha256([u8; 32]),
}

/// The id of 20 bytes: short for [`ObjectId::Sha1`], and how ids were made when there was no other kind.
///
/// ```
/// use linenhatch::ObjectId;
///
/// assert_eq!(ObjectId([7; 20]), ObjectId::Sha1([7; 20]));
/// ```
#[allow(non_snake_case)]
pub const fn ObjectId(bytes: [u8; 20]) -> ObjectId {
    ObjectId::Sha1(bytes)
}

impl ObjectId {
    /// The id in 40 or 64 hexadecimal digits, as they stand in a commit's header; `None` for anything else.
    ///
    /// ```
    /// use linenhatch::ObjectId;
    ///
    /// assert_eq!(ObjectId::from_hex(&[b'1'; 40]), Some(ObjectId::Sha1([0x11; 20])));
    /// assert_eq!(ObjectId::from_hex(&[b'1'; 64]), Some(ObjectId::Sha256([0x11; 32])));
    /// assert_eq!(ObjectId::from_hex(b"main"), None);
    /// ```
    pub fn from_hex(digits: &[u8]) -> Option<ObjectId> {
        let kind = Kind::ALL.into_iter().find(|kind| kind.len_in_hex() == digits.len())?;
        let mut id = [0; Kind::Sha256.len_in_bytes()];
        for (byte, pair) in id.iter_mut().zip(digits.chunks_exact(2)) {
            *byte = hex_value(pair[0])? << 4 | hex_value(pair[1])?;
        }
        ObjectId::from_bytes(&id[..kind.len_in_bytes()])
    }

    /// The id of 20 or 32 bytes; `None` for any other number of them.
    ///
    /// ```
    /// use linenhatch::ObjectId;
    ///
    /// assert_eq!(ObjectId::from_bytes(&[7; 32]), Some(ObjectId::Sha256([7; 32])));
    /// assert_eq!(ObjectId::from_bytes(&[7; 31]), None);
    /// ```
    pub fn from_bytes(bytes: &[u8]) -> Option<ObjectId> {
        match Kind::of_len(bytes.len())? {
            Kind::Sha1 => bytes.try_into().ok().map(ObjectId::Sha1),
            Kind::Sha256 => bytes.try_into().ok().map(ObjectId::Sha256),
        }
    }

    /// Which kind it is of.
    ///
    /// ```
    /// use linenhatch::{Kind, ObjectId};
    ///
    /// assert_eq!(ObjectId::Sha256([7; 32]).kind(), Kind::Sha256);
    /// ```
    pub const fn kind(&self) -> Kind {
        match self {
            ObjectId::Sha1(_) => Kind::Sha1,
            ObjectId::Sha256(_) => Kind::Sha256,
        }
    }

    /// The 20 or 32 bytes.
    ///
    /// ```
    /// assert_eq!(linenhatch::ObjectId([7; 20]).as_bytes(), &[7; 20]);
    /// assert_eq!(linenhatch::ObjectId::Sha256([7; 32]).as_bytes(), &[7; 32]);
    /// ```
    pub fn as_bytes(&self) -> &[u8] {
        match self {
            ObjectId::Sha1(bytes) => bytes,
            ObjectId::Sha256(bytes) => bytes,
        }
    }
}

fn hex_value(digit: u8) -> Option<u8> {
    match digit {
        b'0'..=b'9' => Some(digit - b'0'),
        b'a'..=b'f' => Some(digit - b'a' + 10),
        b'A'..=b'F' => Some(digit - b'A' + 10),
        _ => None,
    }
}

impl From<[u8; 20]> for ObjectId {
    fn from(bytes: [u8; 20]) -> ObjectId {
        ObjectId::Sha1(bytes)
    }
}

impl From<[u8; 32]> for ObjectId {
    fn from(bytes: [u8; 32]) -> ObjectId {
        ObjectId::Sha256(bytes)
    }
}

impl AsRef<[u8]> for ObjectId {
    fn as_ref(&self) -> &[u8] {
        self.as_bytes()
    }
}

impl FromStr for ObjectId {
    type Err = ParseIdError;

    fn from_str(digits: &str) -> Result<ObjectId, ParseIdError> {
        ObjectId::from_hex(digits.as_bytes()).ok_or(ParseIdError)
    }
}

impl fmt::Display for ObjectId {
    fn fmt(&self, f: &mut fmt::Formatter<'_>) -> fmt::Result {
        const DIGITS: &[u8; 16] = b"0123456789abcdef";
        let mut text = String::with_capacity(self.kind().len_in_hex());
        for &byte in self.as_bytes() {
            text.push(char::from(DIGITS[usize::from(byte >> 4)]));
            text.push(char::from(DIGITS[usize::from(byte & 15)]));
        }
        f.pad(&text)
    }
}

impl fmt::Debug for ObjectId {
    fn fmt(&self, f: &mut fmt::Formatter<'_>) -> fmt::Result {
        write!(f, "ObjectId({self})")
    }
}

/// A text is not the name of a commit: it is neither 40 nor 64 hexadecimal digits.
#[derive(Clone, Copy, Debug, PartialEq, Eq)]
pub struct ParseIdError;

impl fmt::Display for ParseIdError {
    fn fmt(&self, f: &mut fmt::Formatter<'_>) -> fmt::Result {
        f.write_str("an object id is 40 hexadecimal digits, or 64 with SHA-256")
    }
}

impl Error for ParseIdError {}

#[cfg(test)]
mod tests {
    use super::*;

    #[test]
    fn hex_there_and_back() {
        let text = "00ff0123456789abcdef10325476badcfe8091a2";
        for text in [text.to_string(), format!("{text}000102030405060708090a0b")] {
            let id: ObjectId = text.parse().unwrap();
            assert_eq!(id.kind().len_in_hex(), text.len());
            assert_eq!(id.as_bytes()[..4], [0x00, 0xff, 0x01, 0x23]);
            assert_eq!(id.to_string(), text);
            assert_eq!(text.to_uppercase().parse(), Ok(id));
            assert_eq!(format!("{id:?}"), format!("ObjectId({text})"));
            assert_eq!(format!("{id:>66}"), format!("{text:>66}"));
        }
    }

    #[test]
    fn every_byte_there_and_back() {
        for byte in 0..=255 {
            for id in [ObjectId([byte; 20]), ObjectId::Sha256([byte; 32])] {
                assert_eq!(id.to_string().parse(), Ok(id));
                assert_eq!(id.to_string(), format!("{byte:02x}").repeat(id.kind().len_in_bytes()));
                assert_eq!(ObjectId::from_bytes(id.as_bytes()), Some(id));
            }
        }
    }

    #[test]
    fn anything_else_is_no_id() {
        for ones in ["1".repeat(40), "1".repeat(64)] {
            assert!(ones.parse::<ObjectId>().is_ok());
            for bad in ["", "1", &ones[1..], &format!("{ones}1"), &format!(" {}", &ones[1..]), &format!("{}g", &ones[1..])] {
                assert_eq!(bad.parse::<ObjectId>(), Err(ParseIdError), "{bad:?}");
            }
        }
        assert_eq!("é".repeat(20).parse::<ObjectId>(), Err(ParseIdError));
        assert_eq!("é".repeat(32).parse::<ObjectId>(), Err(ParseIdError));
        for count in (0..70).filter(|count| ![20, 32].contains(count)) {
            assert_eq!(ObjectId::from_bytes(&[1; 70][..count]), None);
        }
    }

    #[test]
    fn ids_are_ordered_byte_by_byte() {
        let (mut low, mut wide) = ([0xff; 20], [0xff; 32]);
        (low[0], wide[0]) = (0, 0);
        assert!(ObjectId(low) < ObjectId([1; 20]));
        assert!(ObjectId::Sha256(wide) < ObjectId::Sha256([1; 32]));
        wide = [1; 32];
        wide[31] = 2;
        assert!(ObjectId::Sha256(wide) > ObjectId::Sha256([1; 32]));
    }

    #[test]
    fn names_of_kinds() {
        for kind in Kind::ALL {
            assert_eq!(kind.to_string().parse(), Ok(kind));
        }
        for bad in ["", "SHA1", "sha-256", "sha512", "sha1 "] {
            assert_eq!(bad.parse::<Kind>(), Err(ParseKindError));
        }
    }
}
