//! Embargoed commits, and who a feed report is for.

use std::fs;

use linenhatch::{FeedReport, Kind, Lister, ObjectId, Reader, Refusal, MAX_IDS};

use crate::args::Args;
use crate::history::History;
use crate::repository;

/// The embargoed ids of a report, and its reader.
#[derive(Debug, Default)]
pub struct Embargo {
    ids: Vec<ObjectId>,
    reader: Reader,
}

impl Embargo {
    /// By the command line: one id on each line of the file; empty lines are passed over.
    pub fn read(args: &Args) -> Result<Embargo, String> {
        let reader = if args.outside { Reader::Outside } else { Reader::Shop };
        let Some(file) = &args.embargo else { return Ok(Embargo { ids: Vec::new(), reader }) };
        let kind = repository::open(&args.dir)?.kind();
        let bytes = fs::read(file).map_err(|error| format!("the embargoed ids cannot be read from {}: {error}", file.display()))?;
        let lines = bytes.split(|&byte| byte == b'\n').map(|line| line.strip_suffix(b"\r").unwrap_or(line)).enumerate();
        let ids: Vec<ObjectId> = lines
            .filter(|(_, line)| !line.is_empty())
            .map(|(k, line)| id_on(kind, line, &file.display().to_string(), k + 1))
            .collect::<Result<_, _>>()?;
        if ids.len() > MAX_IDS {
            let (file, count) = (file.display(), ids.len());
            return Err(format!("{file} names {count} commits, and at most {MAX_IDS} can be embargoed at once: shorten it"));
        }
        Ok(Embargo { ids, reader })
    }

    /// The library's feed report for this reader.
    pub fn feed_report(&self, lister: &Lister<'_>) -> Result<FeedReport, Refusal> {
        lister.feed_report_for(self.reader, &self.ids)
    }

    /// Whether the readings of a commit are withheld from this reader.
    pub fn withholds(&self, id: &ObjectId) -> bool {
        self.reader == Reader::Outside && self.ids.contains(id)
    }

    /// Whether the report is for an outside reader.
    pub fn is_outside(&self) -> bool {
        self.reader == Reader::Outside
    }

    /// Why there is no report. A commit whose readings are withheld is never the one at fault.
    pub fn not_reported(&self, refusal: Refusal, history: &History, args: &Args) -> String {
        match refusal {
            Refusal::ReadingTwice | Refusal::ReadingUnreadable if self.is_outside() => {
                history.lister(args).refused_without(refusal, &self.ids).to_string()
            }
            _ => history.not_opened(refusal, args),
        }
    }
}

fn id_on(kind: Kind, line: &[u8], file: &str, number: usize) -> Result<ObjectId, String> {
    ObjectId::from_hex(line).filter(|id| id.kind() == kind).ok_or_else(|| {
        let (line, digits) = (String::from_utf8_lossy(line), kind.len_in_hex());
        format!("{file}, line {number}: '{line}' is no whole id: write one id of {digits} hexadecimal digits on each line, as linenhatch list prints them")
    })
}
