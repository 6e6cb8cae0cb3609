//! Lists as tables: fields parted by commas, and JSON.

use std::fmt::Write as _;
use std::io::{self, Write};

use linenhatch::Info;

/// What the fields of a line are, in order.
const NAMES: &str = "id,date,seconds,zone,generation,parents,subject";

/// The first line of a table of fields.
pub fn csv_names(out: &mut impl Write) -> io::Result<()> {
    writeln!(out, "{NAMES}")
}

/// A commit as fields. Its parents are one field, parted by spaces; what is not known is empty.
pub fn csv(commit: &Info, subject: &str, out: &mut impl Write) -> io::Result<()> {
    writeln!(
        out,
        "{},{},{},{},{},{},{}",
        commit.id,
        date(commit).unwrap_or_default(),
        or_nothing(commit.time),
        or_nothing(commit.zone.map(clock)),
        or_nothing(commit.generation),
        commit.parents.iter().map(ToString::to_string).collect::<Vec<_>>().join(" "),
        field(subject)
    )
}

/// A commit as a JSON object. What is not known is null.
pub fn json(commit: &Info, subject: &str, out: &mut impl Write) -> io::Result<()> {
    let parents: Vec<String> = commit.parents.iter().map(|id| format!("\"{id}\"")).collect();
    write!(
        out,
        "{{\"id\":\"{}\",\"date\":{},\"seconds\":{},\"zone\":{},\"generation\":{},\"parents\":[{}],\"subject\":{}}}",
        commit.id,
        or_null(date(commit).map(|date| quoted(&date))),
        or_null(commit.time),
        or_null(commit.zone.map(|zone| quoted(&clock(zone)))),
        or_null(commit.generation),
        parents.join(","),
        quoted(subject)
    )
}

fn or_nothing<T: ToString>(value: Option<T>) -> String {
    value.map_or(String::new(), |value| value.to_string())
}

fn or_null<T: ToString>(value: Option<T>) -> String {
    value.map_or("null".into(), |value| value.to_string())
}

/// A field, in quotes where a comma, a quote or a line's end would part it.
fn field(text: &str) -> String {
    if text.contains([',', '"', '\n', '\r']) {
        return format!("\"{}\"", text.replace('"', "\"\""));
    }
    text.into()
}

fn quoted(text: &str) -> String {
    let mut out = String::from("\"");
    for char in text.chars() {
        match char {
            '"' | '\\' => out.extend(['\\', char]),
            '\u{0}'..='\u{1f}' | '\u{7f}' => write!(out, "\\u{:04x}", char as u32).expect("a string takes all"),
            _ => out.push(char),
        }
    }
    out + "\""
}

/// Minutes ahead of UTC as git writes a zone; 0 is +0000.
pub fn clock(minutes: i32) -> String {
    format!("{}{:02}{:02}", sign(minutes), minutes.abs() / 60, minutes.abs() % 60)
}

fn sign(minutes: i32) -> char {
    if minutes < 0 {
        '-'
    } else {
        '+'
    }
}

/// The committer's date by the clock of its own zone (ISO 8601); in UTC with a Z where it has none.
fn date(commit: &Info) -> Option<String> {
    let zone = commit.zone;
    let seconds = commit.time?.checked_add(60 * i64::from(zone.unwrap_or(0)))?;
    let (year, month, day) = day_of(seconds.div_euclid(86_400));
    let of_day = seconds.rem_euclid(86_400);
    let (hour, minute, second) = (of_day / 3600, of_day / 60 % 60, of_day % 60);
    let ahead = zone.map_or("Z".into(), |zone| format!("{}{:02}:{:02}", sign(zone), zone.abs() / 60, zone.abs() % 60));
    Some(format!("{year:04}-{month:02}-{day:02}T{hour:02}:{minute:02}:{second:02}{ahead}"))
}

/// The date of a day, counted from 1 January 1970, in the Gregorian calendar. Years are taken from March on, so that the day of a leap year is its last.
pub fn day_of(days: i64) -> (i64, i64, i64) {
    const DAYS_OF_400_YEARS: i64 = 146_097;
    let from_march_0 = days + 719_468;
    let (era, day) = (from_march_0.div_euclid(DAYS_OF_400_YEARS), from_march_0.rem_euclid(DAYS_OF_400_YEARS));
    let year = (day - day / 1_460 + day / 36_524 - day / 146_096) / 365;
    let day_of_year = day - (365 * year + year / 4 - year / 100);
    let from_march = (5 * day_of_year + 2) / 153;
    let month = if from_march < 10 { from_march + 3 } else { from_march - 9 };
    (400 * era + year + i64::from(month <= 2), month, day_of_year - (153 * from_march + 2) / 5 + 1)
}

#[cfg(test)]
mod tests {
    use super::*;
    use linenhatch::ObjectId;

    fn commit(time: Option<i64>, zone: Option<i32>) -> Info {
        Info { id: ObjectId([0x11; 20]), parents: vec![ObjectId([0x22; 20]); 2], generation: Some(3), time, zone }
    }

    fn text(write: impl Fn(&mut Vec<u8>) -> io::Result<()>) -> String {
        let mut out = Vec::new();
        write(&mut out).unwrap();
        String::from_utf8(out).unwrap()
    }

    #[test]
    fn dates() {
        let said = |time, zone| date(&commit(Some(time), zone)).unwrap();
        assert_eq!(said(0, Some(0)), "1970-01-01T00:00:00+00:00");
        assert_eq!(said(-1, Some(0)), "1969-12-31T23:59:59+00:00");
        assert_eq!(said(1_709_251_199, Some(60)), "2024-03-01T00:59:59+01:00");
        assert_eq!(said(1_709_251_199, Some(-210)), "2024-02-29T20:29:59-03:30");
        assert_eq!(said(951_782_400, None), "2000-02-29T00:00:00Z");
        assert_eq!(said(4_107_542_399, Some(0)), "2100-02-28T23:59:59+00:00");
        assert_eq!(said(4_107_542_400, Some(0)), "2100-03-01T00:00:00+00:00");
        assert_eq!(date(&commit(None, Some(0))), None);
        assert_eq!(date(&commit(Some(i64::MAX), Some(1))), None);
    }

    #[test]
    fn every_day_follows_the_last() {
        let mut last = day_of(-1_000_000);
        for days in -999_999..1_000_000 {
            let (year, month, day) = day_of(days);
            let leap = last.0 % 4 == 0 && (last.0 % 100 != 0 || last.0 % 400 == 0);
            let length = [31, if leap { 29 } else { 28 }, 31, 30, 31, 30, 31, 31, 30, 31, 30, 31][last.1 as usize - 1];
            let next = match (last.1, last.2) {
                (12, 31) => (last.0 + 1, 1, 1),
                (month, day) if day == length => (last.0, month + 1, 1),
                (month, day) => (last.0, month, day + 1),
            };
            assert_eq!((year, month, day), next);
            last = next;
        }
        assert_eq!(day_of(0), (1970, 1, 1));
    }

    #[test]
    fn fields() {
        let (one, two) = ("1".repeat(40), "2".repeat(40));
        let line = text(|out| csv(&commit(Some(5), Some(-90)), "a, \"b\"", out));
        assert_eq!(line, format!("{one},1969-12-31T22:30:05-01:30,5,-0130,3,{two} {two},\"a, \"\"b\"\"\"\n"));
        let line = text(|out| csv(&commit(None, None), "run 7", out));
        assert_eq!(line, format!("{one},,,,3,{two} {two},run 7\n"));
        assert_eq!(NAMES.split(',').count(), line.split(',').count());
    }

    #[test]
    fn objects() {
        let (one, two) = ("1".repeat(40), "2".repeat(40));
        let line = text(|out| json(&commit(Some(5), None), "a \"b\" \\ \u{1}\té", out));
        let rest = "\"zone\":null,\"generation\":3";
        assert_eq!(
            line,
            format!("{{\"id\":\"{one}\",\"date\":\"1970-01-01T00:00:05Z\",\"seconds\":5,{rest},\"parents\":[\"{two}\",\"{two}\"],\"subject\":\"a \\\"b\\\" \\\\ \\u0001\\u0009é\"}}")
        );
    }
}
