//! The refusals of an opening, of a next call and of the calls of their own, and the library's result for want of room.

use std::error::Error;
use std::fmt;

/// Why a walk was not opened (1 to 8, and tested 13 to 15), why a call hands out no commit (9 to 12), what a check of names found (2, 4 to 6, 16,
/// 17), or why a call of its own has no answer (13, 18 to 25, and those of 1 to 4 that are tested there).
///
/// [`number`](Refusal::number) and [`name`](Refusal::name) are the same in C, in Rust and in what the tool prints (`docs/SPECIFICATION.md`, sections
/// 6 and 9); `Display` is a sentence.
#[derive(Clone, Copy, Debug, PartialEq, Eq, Hash)]
pub enum Refusal {
    /// 1: a lent buffer is below its size. A [`Lister`](crate::Lister) lends enough, so it never meets this.
    BufferTooSmall,
    /// 2: the commit store or the commit-graph file has over 16,777,216 bytes, or a list over 1,024 ids.
    InputTooLarge,
    /// 3: a list is not made of whole ids of one width. Here: one of them is of another [`Kind`](crate::Kind).
    PartialId,
    /// 4: the layout of the commit store is broken.
    CorruptStore,
    /// 5: the first 8 bytes are not those of a version 1 commit-graph file with ids of this width and no base file.
    UnknownGraph,
    /// 6: the rest of the commit-graph file's layout is broken.
    CorruptGraph,
    /// 7: by time, a tip that is not in the commit store.
    TipNotFound,
    /// 8: by time, a tip whose header is not good through its committer line.
    TipUnreadable,
    /// 9: it is in neither file.
    CommitNotFound,
    /// 10: a header line is bad.
    CommitUnreadable,
    /// 11: it has a 257th parent.
    TooManyParents,
    /// 12: the walk was not opened, or its memory was touched. A [`Walk`](crate::Walk) is open and alone has its memory, so it never
    /// meets this.
    Closed,
    /// 13: a commit that the tips or hidden tips reach is not in the store, or cannot be read there.
    /// [`open_tested`](crate::Lister::open_tested) and [`merge_base`](crate::merge_base) meet this.
    UnreadableReach,
    /// 14: the commit-graph file lists a commit that they reach with other parents or another time than the store, or its list is corrupt.
    /// [`open_tested`](crate::Lister::open_tested) alone meets this, and the next.
    GraphAtOdds,
    /// 15: from a commit that they reach to a parent the pair of generation and committer time does not fall.
    PairNotFalling,
    /// 16: a commit of the store is not under the digest of its body. [`check_names`](crate::check_names) alone meets this.
    FalseName,
    /// 17: the commit-graph file does not end in the digest of the rest. [`check_names`](crate::check_names) alone meets this.
    FalseChecksum,
    /// 18: no commit-graph file can be written of the store: a commit cannot be read or has over 256 parents, a parent is not in the store, or
    /// parents run in a circle. [`write_graph`](crate::write_graph) and [`graph_length`](crate::graph_length) alone meet this, and the next.
    UnfitStore,
    /// 19: a commit's time is before 1970 or past 17,179,869,183, which a commit-graph file cannot hold.
    UnfitSeconds,
    /// 20: the output is shorter than the file. [`write_graph`](crate::write_graph) lends enough, so it never meets this.
    ShortOutput,
    /// 21: two lines of a message start with the same reading. [`feed_report`](crate::Lister::feed_report) alone meets this, and the next.
    ReadingTwice,
    /// 22: a line of a message starts with a reading and goes on otherwise than with a number.
    ReadingUnreadable,
    /// 23: commits are reachable from both tips, and none of them is best, since parents run in a circle. [`merge_base`](crate::merge_base) alone
    /// meets this.
    TangledReach,
    /// 24: the list of terms is too long, out of order or overlapping, or a term ends before it starts.
    /// [`terms_report`](crate::Lister::terms_report) alone meets this.
    BadTerms,
    /// 25: more moves than a trace may have.
    TooManyMoves,
}

impl Refusal {
    /// All of them, in the order of their numbers.
    pub const ALL: [Refusal; 25] = [
        Refusal::BufferTooSmall,
        Refusal::InputTooLarge,
        Refusal::PartialId,
        Refusal::CorruptStore,
        Refusal::UnknownGraph,
        Refusal::CorruptGraph,
        Refusal::TipNotFound,
        Refusal::TipUnreadable,
        Refusal::CommitNotFound,
        Refusal::CommitUnreadable,
        Refusal::TooManyParents,
        Refusal::Closed,
        Refusal::UnreadableReach,
        Refusal::GraphAtOdds,
        Refusal::PairNotFalling,
        Refusal::FalseName,
        Refusal::FalseChecksum,
        Refusal::UnfitStore,
        Refusal::UnfitSeconds,
        Refusal::ShortOutput,
        Refusal::ReadingTwice,
        Refusal::ReadingUnreadable,
        Refusal::TangledReach,
        Refusal::BadTerms,
        Refusal::TooManyMoves,
    ];

    /// The refusal with a number, if one has it.
    ///
    /// ```
    /// use linenhatch::Refusal;
    ///
    /// assert_eq!((Refusal::from_number(13), Refusal::from_number(100)), (Some(Refusal::UnreadableReach), None));
    /// ```
    pub fn from_number(number: u32) -> Option<Refusal> {
        Refusal::ALL.into_iter().find(|refusal| refusal.number() == number)
    }

    /// Its number: 1 to 25.
    ///
    /// ```
    /// assert_eq!(linenhatch::Refusal::UnreadableReach.number(), 13);
    /// ```
    pub fn number(self) -> u32 {
        match self {
            Refusal::BufferTooSmall => 1,
            Refusal::InputTooLarge => 2,
            Refusal::PartialId => 3,
            Refusal::CorruptStore => 4,
            Refusal::UnknownGraph => 5,
            Refusal::CorruptGraph => 6,
            Refusal::TipNotFound => 7,
            Refusal::TipUnreadable => 8,
            Refusal::CommitNotFound => 9,
            Refusal::CommitUnreadable => 10,
            Refusal::TooManyParents => 11,
            Refusal::Closed => 12,
            Refusal::UnreadableReach => 13,
            Refusal::GraphAtOdds => 14,
            Refusal::PairNotFalling => 15,
            Refusal::FalseName => 16,
            Refusal::FalseChecksum => 17,
            Refusal::UnfitStore => 18,
            Refusal::UnfitSeconds => 19,
            Refusal::ShortOutput => 20,
            Refusal::ReadingTwice => 21,
            Refusal::ReadingUnreadable => 22,
            Refusal::TangledReach => 23,
            Refusal::BadTerms => 24,
            Refusal::TooManyMoves => 25,
        }
    }

    /// Its name, in words.
    ///
    /// ```
    /// assert_eq!(linenhatch::Refusal::UnreadableReach.name(), "unreadable reach");
    /// ```
    pub fn name(self) -> &'static str {
        match self {
            Refusal::BufferTooSmall => "buffer too small",
            Refusal::InputTooLarge => "input too large",
            Refusal::PartialId => "partial id",
            Refusal::CorruptStore => "corrupt store",
            Refusal::UnknownGraph => "unknown graph",
            Refusal::CorruptGraph => "corrupt graph",
            Refusal::TipNotFound => "tip not found",
            Refusal::TipUnreadable => "tip unreadable",
            Refusal::CommitNotFound => "commit not found",
            Refusal::CommitUnreadable => "commit unreadable",
            Refusal::TooManyParents => "too many parents",
            Refusal::Closed => "closed",
            Refusal::UnreadableReach => "unreadable reach",
            Refusal::GraphAtOdds => "graph at odds",
            Refusal::PairNotFalling => "pair not falling",
            Refusal::FalseName => "false name",
            Refusal::FalseChecksum => "false checksum",
            Refusal::UnfitStore => "unfit store",
            Refusal::UnfitSeconds => "unfit seconds",
            Refusal::ShortOutput => "short output",
            Refusal::ReadingTwice => "reading twice",
            Refusal::ReadingUnreadable => "reading unreadable",
            Refusal::TangledReach => "tangled reach",
            Refusal::BadTerms => "bad terms",
            Refusal::TooManyMoves => "too many moves",
        }
    }

    fn sentence(self) -> &'static str {
        match self {
            Refusal::BufferTooSmall => "the memory lent to the walk is too small",
            Refusal::InputTooLarge => {
                "an input is too large: the commit store and the commit-graph file may have 16,777,216 bytes each, a list of commits 1,024 ids"
            }
            Refusal::PartialId => "a list of commits is not made of whole ids of one width",
            Refusal::CorruptStore => "the layout of the commit store is broken",
            Refusal::UnknownGraph => "the commit-graph file is of another kind than version 1 with ids of this width and no base file",
            Refusal::CorruptGraph => "the layout of the commit-graph file is broken",
            Refusal::TipNotFound => "a commit to start from is not in the commit store, where an order by time needs it",
            Refusal::TipUnreadable => "a commit to start from cannot be read through its committer line, which an order by time needs",
            Refusal::CommitNotFound => "a commit is in neither the commit store nor the commit-graph file",
            Refusal::CommitUnreadable => "a commit cannot be read: a line of its header is bad",
            Refusal::TooManyParents => "a commit has more than 256 parents",
            Refusal::Closed => "the walk is closed, or its memory was touched between calls",
            Refusal::UnreadableReach => {
                "a commit that the tips or hidden tips reach is not in the commit store, or cannot be read there: complete or mend the history"
            }
            Refusal::GraphAtOdds => {
                "the commit-graph file says other things of a commit than the commit itself, or its parent list is corrupt: write the file anew, or lend none"
            }
            Refusal::PairNotFalling => {
                "a commit is not newer than one of its parents: lend a commit-graph file with generations that lists all commits, or open untested"
            }
            Refusal::FalseName => "a commit is not under the digest of its body",
            Refusal::FalseChecksum => "the commit-graph file does not end in the digest of the rest",
            Refusal::UnfitStore => {
                "no commit-graph file can be written: a commit cannot be read or has more than 256 parents, a parent is not in the commit store, or parents run in a circle: complete or mend the history"
            }
            Refusal::UnfitSeconds => {
                "no commit-graph file can be written: a commit's time is below 0 or above 17,179,869,183, which the file cannot hold: go on without one"
            }
            Refusal::ShortOutput => "the output is shorter than the commit-graph file: lend as many bytes as the length that is asked for first",
            Refusal::ReadingTwice => "a commit's message has two lines that start with the same reading: leave one, or list without that commit",
            Refusal::ReadingUnreadable => {
                "a line of a commit's message starts with a reading and goes on otherwise than with 1 to 10 digits, at most 1,000,000,000: mend the line, or list without that commit"
            }
            Refusal::TangledReach => {
                "both tips reach the same commits, whose parents run in a circle, so that none is best: such a store is no history, make it anew"
            }
            Refusal::BadTerms => {
                "the list of terms is not good: give at most 24, rising and without a month in common, each from a month to the same or a later one, January 1970 to December 2099"
            }
            Refusal::TooManyMoves => "a trace of more than 12 moves: ask for at most 12",
        }
    }
}

impl fmt::Display for Refusal {
    fn fmt(&self, f: &mut fmt::Formatter<'_>) -> fmt::Result {
        write!(f, "{} (refusal {}, {})", self.sentence(), self.number(), self.name())
    }
}

impl Error for Refusal {}

/// The library's result 101: a buffer of its own was too short, the record, the numbers, the id or the seconds. It comes before all else, and
/// nothing was altered. The walk itself has no such buffers, so it is no [`Refusal`]. This crate lends them in full, so neither a
/// [`Lister`](crate::Lister) nor a [`Walk`](crate::Walk) ever meets it.
#[derive(Clone, Copy, Debug, PartialEq, Eq, Hash)]
pub struct NoRoom;

impl NoRoom {
    /// Its number, which is no refusal's.
    pub const NUMBER: u32 = 101;
}

impl fmt::Display for NoRoom {
    fn fmt(&self, f: &mut fmt::Formatter<'_>) -> fmt::Result {
        let sentence = "the record, the numbers, the id or the seconds lent to the library are too short: lend each the length that linenhatch.h gives it";
        write!(f, "{sentence} (result {})", NoRoom::NUMBER)
    }
}

impl Error for NoRoom {}

#[cfg(test)]
mod tests {
    use super::*;

    #[test]
    fn numbers_and_names() {
        let names = [
            (1, "buffer too small"),
            (2, "input too large"),
            (3, "partial id"),
            (4, "corrupt store"),
            (5, "unknown graph"),
            (6, "corrupt graph"),
            (7, "tip not found"),
            (8, "tip unreadable"),
            (9, "commit not found"),
            (10, "commit unreadable"),
            (11, "too many parents"),
            (12, "closed"),
            (13, "unreadable reach"),
            (14, "graph at odds"),
            (15, "pair not falling"),
            (16, "false name"),
            (17, "false checksum"),
            (18, "unfit store"),
            (19, "unfit seconds"),
            (20, "short output"),
            (21, "reading twice"),
            (22, "reading unreadable"),
            (23, "tangled reach"),
            (24, "bad terms"),
            (25, "too many moves"),
        ];
        assert_eq!(names.len(), Refusal::ALL.len());
        for (number, name) in names {
            let refusal = Refusal::from_number(number).unwrap();
            assert_eq!(refusal.number(), number);
            assert_eq!(refusal.name(), name);
            assert!(refusal.to_string().ends_with(&format!(" (refusal {number}, {name})")), "{refusal}");
        }
    }

    #[test]
    fn no_other_number() {
        for number in [0, 26, 100, NoRoom::NUMBER, u32::MAX] {
            assert_eq!(Refusal::from_number(number), None);
        }
    }
}
