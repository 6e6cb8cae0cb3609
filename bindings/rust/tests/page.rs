//! The report page, completion and the manual page. What the page's numbers are is held to a count of its own in `compare/report_page.py`.

#![cfg(feature = "walk")]

mod repositories;

use std::fs;
use std::process::Command;

use repositories::{has_git, run, Repository};

/// Three runs in September 2024, one in October, and one long before.
fn runs(name: &str) -> Repository {
    let repository = Repository::new(name);
    let mut last: Option<String> = None;
    for (seconds, feeds) in [
        (100, ""),
        (1_725_148_800, "\nCone-feed: 1200\nBed-feed: 1250\n"),
        (1_725_148_801, "\nCone-feed: 0800\n"),
        (1_727_740_799, "\nBed-feed: 1000\nCone-feed: 1001\n"),
        (1_727_740_800, ""),
    ] {
        last = Some(repository.commit_with(seconds, &last.iter().map(String::as_str).collect::<Vec<_>>(), feeds));
    }
    repository.point("main", &last.unwrap());
    repository
}

#[test]
fn a_page() {
    if !has_git() {
        return;
    }
    let repository = runs("page");
    let path = repository.dir.join("report.html");
    assert!(repository.list(&format!("report -o {} --term 2024-09 --term=2024-10..2024-12 main", path.display())).is_empty());
    let page = fs::read_to_string(&path).unwrap();
    assert!(page.lines().collect::<Vec<_>>() == repository.list("report --term 2024-09 --term 2024-10..2024-12 main"));
    let row = |what: &str| {
        let line = page.lines().find(|line| line.contains(&format!("<th scope=\"row\">{what}</th>"))).unwrap_or_else(|| panic!("{what}"));
        line.split("<td").skip(1).map(|part| part.split(['>', '<']).nth(1).unwrap().to_string()).collect::<Vec<_>>()
    };
    assert_eq!(row("2024-09"), ["3", "2", "1", "0", "0", "1,000.333", "1,125.000", "\u{2212}24.500"]);
    assert_eq!(row("2024-10 – 2024-12"), ["1", "0", "0", "0", "1", "–", "–", "–"]);
    assert_eq!(row("outside all terms"), ["1", "0", "0", "0", "1", "–", "–", "–"]);
    assert_eq!(row("all runs"), ["5", "2", "1", "0", "2", "1,000.333", "1,125.000", "\u{2212}24.500"]);
    assert!(
        page.contains("5 runs of page-") && page.contains("from main, <span class=\"whole\">1970-01-01 to 2024-10-01</span> (UTC)"),
        "{page}"
    );
    assert_eq!((page.matches("<svg ").count(), page.matches("class=\"mark cone\"").count()), (1, 2));
    assert!(page.contains("prefers-color-scheme: dark") && page.contains("@media print"));

    // By years where no terms are given, the last 24 of them.
    let page = repository.list("report").join("\n");
    assert!(
        page.contains("<th scope=\"row\">2001</th>")
            && page.contains("<th scope=\"row\">2024</th>")
            && !page.contains("<th scope=\"row\">2000</th>")
    );
    let page = repository.list("report --title <&> ^main~1").join("\n");
    assert!(page.contains("<h1>&lt;&amp;&gt;</h1>") && page.contains("from HEAD without main~1"), "{page}");
}

#[test]
fn no_page() {
    if !has_git() {
        return;
    }
    let repository = runs("no-page");
    let path = repository.dir.join("report.html");
    fs::write(&path, "what stood here").unwrap();
    let (out, said) = repository.fails(&format!("report -o {} nosuch", path.display()));
    assert!(out.is_empty() && said.contains("'nosuch' is the name of no commit here"), "{said}");
    let bad = repository.commit_with(1_800_000_000, &[&repository.git("rev-parse main")[0]], "\nBed-feed: x\n");
    let (_, said) = repository.fails(&format!("report -o {} {bad}", path.display()));
    assert!(said.contains("refusal 22") && said.contains(&bad), "{said}");
    assert_eq!(fs::read_to_string(&path).unwrap(), "what stood here");
    for words in [
        "report --term 1969-12",
        "report --term 2024-13",
        "report --term 2024-09 --term 2024-09",
        "report --term 2024-09..2024-08",
        "report --csv",
        "report --count",
        "report -o",
        "report --since now",
    ] {
        assert_eq!(repository.tool(words).status.code(), Some(2), "{words}");
    }
}

/// The commit at fault is found in one pass: the last of many, and well within the time that trying each against all would take.
#[test]
fn the_commit_at_fault_in_a_long_history() {
    if !has_git() {
        return;
    }
    let repository = Repository::new("long");
    let mut stream = Vec::new();
    for n in 0..20_000 {
        let text = if n == 0 { "Cone-feed: 1\nCone-feed: 2\n" } else { "Cone-feed: 1200\nBed-feed: 1250\n" };
        stream.extend(format!("commit refs/heads/main\ncommitter A <a> {} +0000\ndata {}\n{text}", 1_000_000_000 + n, text.len()).bytes());
    }
    repository.git_with("fast-import --quiet", &stream);
    let first = repository.git("rev-list --max-parents=0 main").remove(0);
    let (_, said) = repository.fails("feed main");
    assert!(said.contains("refusal 21") && said.contains(&first), "{said}");
}

fn completed(repository: &Repository, words: &[&str]) -> Option<Vec<String>> {
    let script = String::from_utf8(repository.tool("completion bash").stdout).unwrap();
    let list = words.iter().map(|word| format!("'{word}'")).collect::<Vec<_>>().join(" ");
    let text = format!(
        "{script}\nCOMP_WORDS=(linenhatch {list})\nCOMP_CWORD={}\n_linenhatch\nprintf '%s\\n' \"${{COMPREPLY[@]}}\"\n",
        words.len()
    );
    let mut bash = Command::new("bash");
    bash.args(["--norc", "-c", &text]).current_dir(&repository.dir).env("GIT_CONFIG_GLOBAL", "/dev/null");
    bash.stdin(std::process::Stdio::null());
    let output = bash.output().ok()?;
    assert!(output.status.success() && output.stderr.is_empty(), "{}", String::from_utf8_lossy(&output.stderr));
    Some(repositories::lines(&output.stdout))
}

#[test]
fn words_that_bash_completes() {
    if !has_git() || Command::new("bash").arg("--version").output().is_err() {
        return;
    }
    let repository = runs("completion");
    repository.git("tag mainz main");
    let has = |words: &[&str]| completed(&repository, words).unwrap();
    assert_eq!(has(&["mer"]), ["merge-base"]);
    assert_eq!(has(&["feed", "--c"]), ["--csv", "--cutoff"]);
    assert_eq!(has(&["--order", "n"]), ["newest"]);
    assert_eq!(has(&["report", "--t"]), ["--tags", "--term", "--title"]);
    assert_eq!(has(&["verify", "mai"]), ["main", "mainz"]);
    assert_eq!(has(&["list", "^mai"]), ["^main", "^mainz"]);
    assert_eq!(has(&["old..mainz"]), ["old..mainz"]);
    assert_eq!(has(&["completion", "f"]), ["fish"]);
    assert_eq!(has(&["-n", ""]), [""]);
    assert_eq!(has(&["-C", ".git/ob"]), [".git/objects"]);
    assert!(has(&["-"]).contains(&"--first-parent".to_string()));
}

#[test]
fn other_shells_and_the_manual() {
    if !has_git() {
        return;
    }
    let repository = runs("manual");
    assert!(repository.list("completion zsh")[0].starts_with("#compdef linenhatch"));
    let fish = repository.list("completion fish");
    assert!(fish
        .iter()
        .all(|line| line.starts_with('#') || line.starts_with("complete -c linenhatch") || line.starts_with("set -l commands")));
    assert!(fish.iter().any(|line| line.contains("-l first-parent")));
    let page = repository.list("man");
    assert_eq!(page.join("\n") + "\n", fs::read_to_string(concat!(env!("CARGO_MANIFEST_DIR"), "/man/linenhatch.1")).unwrap());
    assert_eq!(repository.tool("completion").status.code(), Some(2));
    assert_eq!(repository.tool("completion sh").status.code(), Some(2));
    assert_eq!(repository.tool("man 1").status.code(), Some(2));
    // `man` itself finds nothing to warn of.
    let mut man = Command::new("man");
    man.args(["--warnings", "-E", "UTF-8", "-l", "-Tutf8", "-Z", concat!(env!("CARGO_MANIFEST_DIR"), "/man/linenhatch.1")]);
    if Command::new("man").arg("--version").output().is_ok_and(|output| output.status.success()) {
        let output = run(man, b"");
        assert!(output.status.success() && output.stderr.is_empty(), "{}", String::from_utf8_lossy(&output.stderr));
    }
}
