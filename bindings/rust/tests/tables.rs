//! Lists as tables, beside what `git log` says of the same commits.

#![cfg(feature = "walk")]

mod repositories;

use std::process::Command;

use repositories::{has_git, history, lines, run, Repository, TREE};

/// Commits with zones, and subjects that are hard to put into a table.
fn awkward(name: &str) -> Repository {
    let repository = Repository::new(name);
    let mut last = String::new();
    for (n, (zone, message)) in [
        ("+0000", "run 1\n"),
        ("-0330", "a, \"quoted\" subject\n\nand a body\n"),
        ("+1245", "\n\n  two lines  \nof subject\t\n\nbody"),
        ("+0100", ""),
        ("-1100", "back\\slash \u{e9}\u{1f9f6}"),
        ("+0530", "no line's end"),
    ]
    .iter()
    .enumerate()
    {
        let parent = if last.is_empty() { String::new() } else { format!("parent {last}\n") };
        let seconds = 1_709_251_199 + 7_000_000 * n;
        let body = format!("tree {TREE}\n{parent}author A <a> 5 +0900\ncommitter C <c> {seconds} {zone}\n\n{message}");
        last = repository.git_with("hash-object -w -t commit --stdin", body.as_bytes()).remove(0);
    }
    repository.point("main", &last);
    repository
}

/// A line of fields, read back.
fn fields(line: &str) -> Vec<String> {
    let (mut all, mut quoted) = (vec![String::new()], false);
    let mut chars = line.chars().peekable();
    while let Some(char) = chars.next() {
        match char {
            '"' if quoted && chars.peek() == Some(&'"') => all.last_mut().unwrap().push(chars.next().unwrap()),
            '"' => quoted = !quoted,
            ',' if !quoted => all.push(String::new()),
            _ => all.last_mut().unwrap().push(char),
        }
    }
    all
}

/// What git says: id, date, seconds, parents and subject.
fn of_git(repository: &Repository, words: &str) -> Vec<Vec<String>> {
    let log = repository.git(&format!("log --format=%H%x00%cI%x00%ct%x00%P%x00%s {words}"));
    log.iter().map(|line| line.split('\0').map(String::from).collect()).collect()
}

#[test]
fn fields_as_git_has_them() {
    if !has_git() {
        return;
    }
    for (repository, words) in [(awkward("csv"), "main"), (history("csv-history"), "old..main")] {
        for graph in ["", "--no-graph", "--order oldest", "--order breadth"] {
            let table = repository.list(&format!("{graph} --format csv {words}"));
            assert_eq!(table[0], "id,date,seconds,zone,generation,parents,subject");
            let mut rows: Vec<Vec<String>> = table[1..].iter().map(|line| fields(line)).collect();
            let mut right = of_git(&repository, words);
            if graph.contains("order") {
                rows.sort();
                right.sort();
            }
            assert_eq!(rows.len(), right.len());
            for (row, right) in rows.iter().zip(right) {
                assert_eq!([&row[0], &row[1], &row[2], &row[5], &row[6]], [0, 1, 2, 3, 4].map(|n| &right[n]), "{graph}");
                assert_eq!(row[3], row[1][19..].replace(':', ""));
                assert_eq!(row[4].is_empty(), graph == "--no-graph", "{row:?}");
            }
        }
    }
}

#[test]
fn json_as_python_reads_it() {
    if !has_git() {
        return;
    }
    let repository = awkward("json");
    let table = repository.list("--format=json main");
    assert_eq!((table[0].as_str(), table.last().unwrap().as_str(), table.len()), ("[", "]", 8));
    for (line, right) in table[1..7].iter().zip(of_git(&repository, "main")) {
        let [id, date, seconds, parent, subject] = &right[..] else { panic!("{right:?}") };
        let subject = subject.replace('\\', "\\\\").replace('"', "\\\"");
        let parents = if parent.is_empty() { String::new() } else { format!("\"{parent}\"") };
        assert!(line.starts_with(&format!("{{\"id\":\"{id}\",\"date\":\"{date}\",\"seconds\":{seconds},\"zone\":\"")), "{line}");
        assert!(line.trim_end_matches(',').ends_with(&format!(",\"parents\":[{parents}],\"subject\":\"{subject}\"}}")), "{line}");
    }
    assert!(table[6].contains("\"generation\":1,") && table[1].contains("\"generation\":6,"), "{table:?}");
    assert_eq!(repository.list("--format json -n 0"), ["[]"]);
    assert_eq!(repository.list("--format csv -n 0"), ["id,date,seconds,zone,generation,parents,subject"]);
    if Command::new("python3").arg("--version").output().is_err() {
        eprintln!("skipped: python3 is not there to read it back");
        return;
    }
    let mut python = Command::new("python3");
    python.args(["-c", "import json, sys; print(*(x['subject'] for x in json.load(sys.stdin)), sep='\\n')"]).env("PYTHONUTF8", "1");
    let output = run(python, table.join("\n").as_bytes());
    assert_eq!(lines(&output.stdout), of_git(&repository, "main").iter().map(|row| row[4].clone()).collect::<Vec<_>>());
}

/// Forms that a table does not change, and tables turned around, counted and cut.
#[test]
fn forms() {
    if !has_git() {
        return;
    }
    let repository = history("forms");
    assert_eq!(repository.list("--format ids"), repository.git("rev-list main"));
    assert_eq!(repository.list("--format parents"), repository.git("rev-list --parents main"));
    assert_eq!(repository.list("--format csv --count"), repository.git("rev-list --count main"));
    let (table, turned) = (repository.list("--format csv -n 5"), repository.list("--format csv -n 5 --reverse"));
    assert_eq!(table.len(), 6);
    assert_eq!(table[1..].iter().rev().collect::<Vec<_>>(), turned[1..].iter().collect::<Vec<_>>());
    assert_eq!(table[0], turned[0]);
    assert_eq!(repository.list("--zone --time -n 1")[0].split(' ').skip(1).collect::<Vec<_>>(), ["1700018000/31", "+0100"]);
}
