//! The tool, end to end: small git repositories, and its lists beside those of `git rev-list`.
//!
//! Skipped with a message where there is no git, or where the crate is built without the library.

#[cfg(not(feature = "walk"))]
#[test]
fn skipped() {
    eprintln!("skipped: built without the feature `walk`, so without the proved library");
}

#[cfg(feature = "walk")]
mod repositories;

#[cfg(feature = "walk")]
mod tool {
    use std::fs;
    use std::io::Write;

    use super::repositories::{folder, has_git, history, history_in, lines, set, Repository, TREE};

    /// A body under another commit's id: git hands it out as it stands, and the check names the commit.
    #[test]
    fn names_are_checked() {
        if !has_git() {
            return;
        }
        let repository = history("names");
        let said = |rev: &str| [format!("{} commits under the right name", repository.git(&format!("rev-list --count {rev}"))[0])];
        assert_eq!(repository.list("--check-names"), said("main"));
        assert_eq!(repository.list("--check-names old"), said("old"));
        repository.git("commit-graph write --reachable");
        assert_eq!(repository.list("--check-names"), said("main"));

        let graph = repository.dir.join(".git/objects/info/commit-graph");
        let mut bytes = fs::read(&graph).unwrap();
        *bytes.last_mut().unwrap() ^= 1;
        fs::remove_file(&graph).unwrap();
        fs::write(&graph, &bytes).unwrap();
        let (list, why) = repository.fails("--check-names");
        assert!(list.is_empty() && why.contains("refusal 17, false checksum"), "{why}");
        assert_eq!(repository.list("--check-names --no-graph"), said("main"));

        let ids = repository.git("rev-list -n 2 old");
        let file = |id: &str| repository.dir.join(".git/objects").join(&id[..2]).join(&id[2..]);
        let body = fs::read(file(&ids[1])).unwrap();
        fs::remove_file(file(&ids[0])).unwrap();
        fs::write(file(&ids[0]), body).unwrap();
        let (list, why) = repository.fails("--check-names");
        assert!(list.is_empty() && why.trim_end().ends_with(&format!("(refusal 16, false name): {}", ids[0])), "{why}");
    }

    /// The tool's answer is one of git's, and the newest of them.
    #[test]
    fn where_two_series_part() {
        if !has_git() {
            return;
        }
        let repository = history("parting");
        for (one, other) in
            [("main", "side"), ("old", "side"), ("main", "main"), ("merge", "old"), ("main~3", "main~7"), ("merge^2", "merge^3")]
        {
            let expected = repository.git(&format!("merge-base --all {one} {other}"));
            assert_eq!(expected.len(), 1, "{one} {other}");
            assert_eq!(repository.list(&format!("merge-base {one} {other}")), expected);
            assert_eq!(repository.list(&format!("merge-base {other} {one}")), expected);
        }
        let (list, why) = repository.fails("merge-base merge^4 old");
        assert!(list.is_empty() && why.contains("no commit is reachable from both"), "{why}");

        let [one, other] = [5, 9].map(|seconds| repository.commit(1_800_000_000 + seconds, &[]));
        repository.point("left", &repository.commit(1_800_000_100, &[&one, &other]));
        repository.point("right", &repository.commit(1_800_000_100, &[&other, &one]));
        assert_eq!(repository.git("merge-base --all left right").len(), 2);
        assert_eq!(repository.list("merge-base left right"), [other.as_str()]);
        assert_eq!(repository.list("merge-base right left"), [other.as_str()]);

        fs::remove_file(repository.dir.join(".git/objects").join(&one[..2]).join(&one[2..])).unwrap();
        let (list, why) = repository.fails("merge-base left right");
        assert!(
            list.is_empty()
                && why.contains("refusal 13, unreadable reach")
                && why.contains(&format!("not in the repository: 1 commit ({one})")),
            "{why}"
        );
    }

    /// The cone forces its way where every parent that the bed may choose is a calibration.
    #[test]
    fn traces_back() {
        if !has_git() {
            return;
        }
        let repository = Repository::new("traces");
        let [one, two, other] = [1, 2, 3].map(|seconds| repository.commit(1000 + seconds, &[]));
        let forced = repository.commit(1100, &[&one, &two]);
        let free = repository.commit(1200, &[&one, &other]);
        let tip = repository.commit(1300, &[&free, &forced]);
        repository.point("main", &tip);
        let trace = |words: &str| format!("trace main --calibration {one} --calibration {two} {words}");
        assert_eq!(repository.list(&trace("--moves 2")), [format!("{forced} 1")]);
        assert_eq!(repository.list(&format!("trace {one} --calibration {one} --moves 0")), [one.as_str()]);
        for (words, why) in [
            (trace("--moves 1"), format!("the bed can keep the trace from {tip} off the calibrations for 1 move")),
            (format!("trace main --calibration {one} --moves 2"), "for 2 moves".into()),
            (trace("--moves 13"), "(refusal 25, ".into()),
        ] {
            let (list, said) = repository.fails(&words);
            assert!(list.is_empty() && said.contains(&why), "{words}: {said}");
        }
        fs::remove_file(repository.dir.join(".git/objects").join(&other[..2]).join(&other[2..])).unwrap();
        let (list, said) = repository.fails(&trace("--moves 2"));
        assert!(list.is_empty() && said.contains("refusal 13") && said.contains(&other), "{said}");
    }

    /// The lists by one kind of commit-graph file: the tool's own (no word), git's, or none.
    fn compare(repository: &Repository, no: &str) {
        for (words, same) in [
            ("main", "main"),
            ("", "main"),
            ("main side", "main side"),
            ("main --hide old", "main ^old"),
            ("main --hide old --hide side", "main ^old ^side"),
            ("main --hide main~2", "main ^main~2"),
            ("--hide main old", "old ^main"),
            ("merge^2 main~3", "merge^2 main~3"),
            ("old..main", "old..main"),
            ("side..main ^old", "side..main ^old"),
            ("old..", "old.."),
            ("..side", "..side"),
        ] {
            let right = repository.git(&format!("rev-list {same}"));
            for order in ["breadth", "newest", "oldest"] {
                let list = repository.list(&format!("{no} --order {order} {words}"));
                assert_eq!(list.len(), right.len(), "{order} {words}");
                assert_eq!(set(&list), set(&right), "{order} {words}");
            }
            assert_eq!(repository.list(&format!("{no} {words}")), right, "{words}");
            for (ours, gits) in [
                ("-n 4", "-n 4"),
                ("--count", "--count"),
                ("--reverse", "--reverse"),
                ("--reverse -n 3", "--reverse -n 3"),
                ("--count -n 5", "--count -n 5"),
                ("-n 0", "-n 0"),
            ] {
                let right = repository.git(&format!("rev-list {gits} {same}"));
                assert_eq!(repository.list(&format!("{no} {ours} {words}")), right, "{ours} {words}");
            }
            let with_parents = repository.git(&format!("rev-list --parents {same}"));
            assert_eq!(repository.list(&format!("{no} --order newest --parents {words}")), with_parents, "{words}");
        }
        let first = repository.git("rev-list --first-parent main");
        assert_eq!(repository.list(&format!("{no} --first-parent main")), first);
        let since = repository.git("rev-list --max-age=1700006000 main");
        assert!(!since.is_empty());
        assert_eq!(repository.list(&format!("{no} --since 1700006000 main")), since);
        assert_eq!(repository.list(&format!("{no} --cutoff 1700006000 main")), since);
        let times: Vec<String> = repository.list(&format!("{no} --order newest --time main"));
        for (line, right) in times.iter().zip(repository.git("rev-list --timestamp main")) {
            let (seconds, id) = right.split_once(' ').unwrap();
            assert!(line.starts_with(&format!("{id} {seconds}/")), "{line}");
            assert_eq!(line.ends_with("/-"), no == "--no-graph", "{line}");
        }
        assert!(repository.list(&format!("{no} --order breadth --time main")).iter().all(|line| line.contains(" -/") != no.is_empty()));
        let zones = repository.list(&format!("{no} --order newest --zone --time main"));
        assert!(zones.iter().all(|line| line.ends_with(if no == "--git-graph" { " -" } else { " +0100" })), "{zones:?}");
        let without = repository.list(&format!("{no} --exclude merge^1 main"));
        assert!(!without.contains(&repository.git("rev-parse merge^1")[0]));
        assert!(without.contains(&repository.git("rev-parse side")[0]));
    }

    #[test]
    fn lists_as_rev_list_does() {
        if !has_git() {
            return;
        }
        let repository = history("lists");
        compare(&repository, "");
        compare(&repository, "--no-graph");
        repository.git("commit-graph write --reachable --changed-paths");
        compare(&repository, "--git-graph");
        compare(&repository, "");
        // A stale file: commits that it does not have.
        let tip = repository.commit(
            1_800_000_000,
            &["main", "side"].map(|name| repository.git(&format!("rev-parse {name}")).remove(0)).each_ref().map(|id| id.as_str()),
        );
        repository.point("main", &tip);
        assert_eq!(repository.list("--git-graph main"), repository.git("rev-list main"));
        assert!(repository.list("--time main").iter().all(|line| !line.ends_with("/-")));
        let times = repository.list("--git-graph --time main");
        assert!(times[0].ends_with("/-") && !times[1].ends_with("/-"));
    }

    #[test]
    fn graph_files_that_are_not_used() {
        if !has_git() {
            return;
        }
        let repository = history("graphs");
        let right = repository.git("rev-list main");
        repository.git("commit-graph write --reachable --split");
        let output = repository.tool("--git-graph main");
        assert_eq!(output.status.code(), Some(0));
        assert_eq!(lines(&output.stdout), right);
        assert!(String::from_utf8_lossy(&output.stderr).contains("chain of several layers"));
        assert_eq!(repository.list("--no-graph main"), right);
        assert_eq!(repository.list("main"), right);

        let file = repository.dir.join(".git/objects/info/commit-graph");
        fs::write(&file, vec![0; 16_777_217]).unwrap();
        let output = repository.tool("--git-graph main");
        assert_eq!(lines(&output.stdout), right);
        assert!(String::from_utf8_lossy(&output.stderr).contains("16777217 bytes"));

        for (bytes, word) in [(&b"another file"[..], "(refusal 5, unknown graph)"), (b"CGPH\x01\x01\x04\x00", "(refusal 6, corrupt graph)")]
        {
            fs::write(&file, bytes).unwrap();
            let (list, said) = repository.fails("--git-graph main");
            assert!(list.is_empty());
            assert!(said.contains(word) && said.contains("without --git-graph"), "{said}");
            assert_eq!(repository.list("main"), right);
        }
    }

    #[test]
    fn replacements_are_not_followed() {
        if !has_git() {
            return;
        }
        let repository = history("replaced");
        let right = repository.git("rev-list main");
        repository.git("replace main~4 side");
        assert_ne!(repository.git("rev-list main"), right);
        assert_eq!(repository.list("--order newest main"), right);
    }

    /// The skewed clock of docs/DIFFERENCES.md: c is newer than commits that reach it, so hiding misses it, but where the file has generations.
    #[test]
    fn a_skewed_clock() {
        if !has_git() {
            return;
        }
        let repository = Repository::new("skewed");
        let c = repository.commit(1008, &[]);
        let s = repository.commit(1001, &[&c]);
        let m = repository.commit(1003, &[&s]);
        let h = repository.commit(1009, &[&m]);
        let a = repository.commit(1010, &[&c, &m]);
        assert_eq!(repository.list(&format!("{a} --hide {h}")), [a.as_str()]);
        let (list, said) = repository.fails(&format!("--no-graph {a} --hide {h}"));
        assert!(list.is_empty());
        assert!(
            said.contains(&format!("(refusal 15, pair not falling): {s}\n")) && said.contains("Without --git-graph and --no-graph"),
            "{said}"
        );
        assert!(said.contains("--untested"), "{said}");
        assert_eq!(repository.list(&format!("--untested --no-graph {a} --hide {h}")), [a.clone(), c]);
        repository.point("a", &a);
        repository.point("h", &h);
        repository.git("commit-graph write --reachable");
        for words in ["", "--untested", "--git-graph", "--untested --git-graph"] {
            assert_eq!(repository.list(&format!("{words} a --hide h")), [a.as_str()], "{words}");
        }
        assert_eq!(repository.git("rev-list a ^h"), [a]);
    }

    /// A commit-graph file that has another time of one commit than the commit itself.
    #[test]
    fn a_graph_file_at_odds() {
        if !has_git() {
            return;
        }
        let repository = history("odds");
        let right = repository.git("rev-list main");
        repository.git("commit-graph write --reachable");
        assert_eq!(repository.list("--git-graph main"), right);
        let file = repository.dir.join(".git/objects/info/commit-graph");
        let mut bytes = fs::read(&file).unwrap();
        let row = bytes[8..].chunks(12).find(|row| row[..4] == b"CDAT"[..]).unwrap();
        let rows = u64::from_be_bytes(row[4..].try_into().unwrap()) as usize;
        bytes[rows + 35] ^= 1;
        fs::remove_file(&file).unwrap();
        fs::write(&file, &bytes).unwrap();
        let all = repository.git("for-each-ref --format=%(refname:short)").join(" ");
        let (list, said) = repository.fails(&format!("--git-graph {all}"));
        assert!(list.is_empty());
        let first = repository.git("rev-list --all").into_iter().min().unwrap();
        assert!(said.contains(&format!("(refusal 14, graph at odds): {first}\n")), "{said}");
        assert!(said.contains("git commit-graph write --reachable") && said.contains("without --git-graph"), "{said}");
        assert_eq!(repository.list("main"), right);
        assert_eq!(repository.list("--no-graph main"), right);
        assert_eq!(set(&repository.list("--untested --git-graph --order breadth main")), set(&right));
        fs::remove_file(&file).unwrap();
        repository.git("commit-graph write --reachable");
        assert_eq!(repository.list("--git-graph main"), right);
    }

    #[test]
    fn wide_merges() {
        if !has_git() {
            return;
        }
        let repository = Repository::new("wide");
        let roots: Vec<String> = (0..257).map(|n| repository.commit(1000 + n, &[])).collect();
        let roots: Vec<&str> = roots.iter().map(String::as_str).collect();
        repository.point("wide", &repository.commit(5000, &roots[..256]));
        repository.point("wider", &repository.commit(6000, &roots));
        assert_eq!(repository.list("--order newest --parents wide"), repository.git("rev-list --parents wide"));
        repository.git("commit-graph write --reachable");
        assert_eq!(repository.list("--git-graph --parents wide"), repository.git("rev-list --parents wide"));
        let wider = repository.git("rev-parse wider").remove(0);
        let (list, said) = repository.fails("wider");
        assert!(list.is_empty());
        assert!(said.contains("refusal 13") && said.contains(&format!("with more than 256 parents: 1 commit ({wider})\n")), "{said}");
        let (list, said) = repository.fails("--untested --no-graph --order newest wider");
        assert_eq!(set(&list), roots[..256].iter().map(|id| id.to_string()).collect::<Vec<_>>().iter().collect());
        assert!(said.contains(&format!("a commit has more than 256 parents (refusal 11, too many parents): {wider}\n")), "{said}");
        assert!(said.contains("not whole: 1 refusal\n"), "{said}");
    }

    #[test]
    fn commits_that_are_not_there() {
        if !has_git() {
            return;
        }
        let repository = history("whole");
        let shallow = Repository { dir: folder("shallow") };
        repository.git(&format!("clone -q --depth 3 file://{} {}", repository.dir.display(), shallow.dir.display()));
        let note = |said: &[u8]| {
            let said = String::from_utf8(said.to_vec()).unwrap();
            let boundary = fs::read_to_string(shallow.dir.join(".git/shallow")).unwrap();
            assert_eq!(said.lines().count(), 1, "{said}");
            assert!(
                said.contains(&format!("cut off at 1 commit ({})", boundary.trim())) && said.contains("git fetch --unshallow"),
                "{said}"
            );
        };
        for (words, right) in [
            ("main", "main"),
            ("-n 2 main", "-n 2 main"),
            ("main --hide main~2", "main ^main~2"),
            ("--parents main", "--parents main"),
            ("--no-graph main", "main"),
            ("--untested --git-graph main", "main"),
        ] {
            let output = shallow.tool(words);
            assert_eq!(output.status.code(), Some(0), "{words}");
            assert_eq!(lines(&output.stdout), shallow.git(&format!("rev-list {right}")), "{words}");
            note(&output.stderr);
        }
        assert_eq!(shallow.git("rev-list main").len(), 3);
        assert!(lines(&shallow.tool("--time main").stdout)[2].ends_with("/1"));
        // A name is checked over the whole body.
        assert_eq!(shallow.list("--check-names main"), ["3 commits under the right name"]);
        let (list, said) = shallow.fails("merge-base main main~1");
        assert!(list.is_empty() && said.contains("refusal 13") && said.contains("shallow clone"), "{said}");
        let (_, said) = shallow.fails("write-graph");
        assert!(said.contains("refusal 18") && said.contains("shallow clone"), "{said}");

        // Not shallow, and a commit is lost all the same.
        let lost = Repository::new("lost");
        let gone = "12".repeat(20);
        let tip = lost.commit_with(2000, &[&gone], "");
        let (list, said) = lost.fails(&tip);
        assert!(list.is_empty());
        assert!(said.contains("refusal 13") && said.contains(&format!("not in the repository: 1 commit ({gone})\n")), "{said}");
        assert!(said.contains("git fsck") && said.contains("--untested"), "{said}");
        let (list, said) = lost.fails(&format!("--untested {tip}"));
        assert_eq!(list, [tip]);
        assert!(said.contains(&format!("(refusal 9, commit not found): {gone}\n")), "{said}");
    }

    #[test]
    fn a_repository_without_commits() {
        if !has_git() {
            return;
        }
        let repository = Repository::new("empty");
        let (list, said) = repository.fails("");
        assert!(list.is_empty());
        assert_eq!(said, "linenhatch: error: this repository has no commits yet\n");
        let (_, said) = repository.fails("nonesuch");
        assert!(said.contains("'nonesuch' is the name of no commit here"), "{said}");
    }

    #[test]
    fn commits_that_cannot_be_read() {
        if !has_git() {
            return;
        }
        let repository = Repository::new("bad");
        let root = repository.commit(1000, &[]);
        let body = format!("tree {TREE}\nparent {root}\nauthor A <a> 2000 +0000\ncommitter A a 2000\n\n");
        let bad = repository.git_with("hash-object -w -t commit --literally --stdin", body.as_bytes()).remove(0);
        let tip = repository.commit(3000, &[&bad]);
        let (list, said) = repository.fails(&tip);
        assert!(list.is_empty());
        assert!(said.contains("refusal 13") && said.contains(&format!("not to be read: 1 commit ({bad})\n")), "{said}");
        assert_eq!(repository.list(&format!("--untested {tip}")), [tip.clone(), bad.clone(), root.clone()]);
        let (list, said) = repository.fails(&format!("--order newest {bad}"));
        assert!(list.is_empty());
        assert!(said.contains(&format!("(refusal 8, tip unreadable): {bad}\n")) && said.contains("--order breadth"), "{said}");
        let (list, said) = repository.fails(&format!("--untested {tip} --hide {bad}"));
        assert!(list.is_empty());
        assert!(said.contains("nothing is listed") && said.contains(&format!("(refusal 10, commit unreadable): {bad}\n")), "{said}");
    }

    #[test]
    fn wrong_names_and_places() {
        if !has_git() {
            return;
        }
        let repository = history("wrong");
        let (_, said) = repository.fails("nonesuch");
        assert!(said.contains("'nonesuch' is the name of no commit here"), "{said}");
        let (_, said) = repository.fails("--hide main^{tree} main");
        assert!(said.contains("'main^{tree}' is the name of no commit here"), "{said}");
        let (_, said) = repository.fails("-C nowhere main");
        assert!(said.contains("nowhere"), "{said}");
        assert_eq!(repository.tool("--nonsense").status.code(), Some(2));
        assert_eq!(repository.list("--help").first().map(|line| line.starts_with("linenhatch: ")), Some(true));
        repository.git("tag -a -m m v1 main~2");
        assert_eq!(repository.list("--order newest v1"), repository.git("rev-list v1"));
        let names = vec!["main"; 1025].join(" ");
        let (_, said) = repository.fails(&names);
        assert!(said.contains("at most 1024"), "{said}");
    }

    /// The file that the tool writes is the one that git writes, and git passes it.
    #[test]
    fn graph_files() {
        if !has_git() {
            return;
        }
        let repository = history("graph-file");
        let file = repository.dir.join("ours");
        repository.list(&format!("write-graph -o {}", file.display()));
        let ours = fs::read(&file).unwrap();
        let printed = repository.tool("write-graph");
        assert!(printed.status.success() && printed.stdout == ours);
        repository.git("-c commitGraph.generationVersion=1 commit-graph write --reachable --no-progress");
        let theirs = repository.dir.join(".git/objects/info/commit-graph");
        assert_eq!(fs::read(&theirs).unwrap(), ours);
        fs::remove_file(&theirs).unwrap();
        fs::write(&theirs, &ours).unwrap();
        repository.git("commit-graph verify --no-progress");
        assert_eq!(set(&repository.list("main")), set(&repository.git("rev-list main")));
    }

    /// A refusal says why, and leaves the file that is there alone.
    #[test]
    fn no_graph_file() {
        if !has_git() {
            return;
        }
        let repository = Repository::new("no-graph-file");
        let file = repository.dir.join("ours");
        fs::write(&file, "kept").unwrap();
        let body = format!("tree {TREE}\nparent {}\nauthor A <a> 5 +0000\ncommitter A <a> 5 +0000\n\n", "1".repeat(40));
        let id = repository.git_with("hash-object -t commit -w --stdin", body.as_bytes());
        fs::write(repository.dir.join(".git/refs/heads/main"), format!("{}\n", id[0])).unwrap();
        let (printed, why) = repository.fails(&format!("write-graph -o {}", file.display()));
        assert!(
            printed.is_empty() && why.contains("(refusal 18, unfit store)") && why.contains("not in the repository: 1 commit"),
            "{why}"
        );
        let late = format!("tree {TREE}\nauthor A <a> 17179869184 +0000\ncommitter A <a> 17179869184 +0000\n\n");
        let id = repository.git_with("hash-object -t commit -w --stdin", late.as_bytes());
        fs::write(repository.dir.join(".git/refs/heads/main"), format!("{}\n", id[0])).unwrap();
        let (_, why) = repository.fails(&format!("write-graph -o {}", file.display()));
        assert!(why.contains(&format!("(refusal 19, unfit seconds): {}", id[0])), "{why}");
        assert_eq!(fs::read(&file).unwrap(), b"kept");
    }

    /// All that the tool does, in a repository with SHA-256 ids, beside git.
    #[test]
    fn sha_256() {
        if !has_git() {
            return;
        }
        let Some(empty) = Repository::of_format("sha256", "sha256") else { return };
        assert!(empty.fails("").1.contains("no commits yet"));
        let repository = history_in(empty);
        let all = repository.git("rev-list main");
        assert!(all.len() == 35 && all.iter().all(|id| id.len() == 64));
        for graph in ["", " --no-graph", " --git-graph"] {
            assert_eq!(repository.list(&format!("main{graph}")), all);
            assert_eq!(repository.list(&format!("main ^old{graph}")), repository.git("rev-list main ^old"));
            assert_eq!(repository.list(&format!("--first-parent main{graph}")), repository.git("rev-list --first-parent main"));
            repository.git("-c commitGraph.generationVersion=1 commit-graph write --reachable");
        }
        assert_eq!(repository.list("--check-names"), ["35 commits under the right name"]);
        assert!(repository.list("verify").iter().all(|line| line.starts_with("holds: ") || line.starts_with("note: ")));
        assert_eq!(repository.list("merge-base main side"), repository.git("merge-base main side"));
        let (own, git) = (repository.dir.join("own"), repository.dir.join(".git/objects/info/commit-graph"));
        repository.list(&format!("write-graph -o {}", own.display()));
        assert_eq!(fs::read(&own).unwrap(), fs::read(&git).unwrap());
        let list = repository.dir.join("embargoed");
        fs::write(&list, format!("{}\n", all[0])).unwrap();
        assert!(!repository.list(&format!("feed --outside --embargo {}", list.display())).is_empty());
        fs::write(&list, format!("{}\n", &all[0][..40])).unwrap();
        assert!(repository.fails(&format!("feed --embargo {}", list.display())).1.contains("is no whole id: write one id of 64"));
    }

    /// 5,000 commits with messages of 4,000 bytes do not fit whole, and do fit cut. With 25,000 more by somebody with a long name, not even that.
    #[test]
    fn histories_that_do_not_fit_whole() {
        if !has_git() {
            return;
        }
        let repository = Repository::new("large");
        let (message, name) = ("m".repeat(4000), "n".repeat(400));
        let mut stream = Vec::new();
        for n in 1..=30_000 {
            let (branch, name, message) = if n <= 5_000 { ("cut", "A", &message[..]) } else { ("large", &name[..], "") };
            writeln!(stream, "commit refs/heads/{branch}\nmark :{n}\ncommitter {name} <a> {} +0000", 1_000_000_000 + n).unwrap();
            writeln!(stream, "data {}\n{message}", message.len()).unwrap();
            if n > 1 {
                writeln!(stream, "from :{}", n - 1).unwrap();
            }
        }
        repository.git_with("fast-import --quiet", &stream);
        let output = repository.tool("--order newest --progress cut");
        let said = String::from_utf8(output.stderr).unwrap();
        assert_eq!(output.status.code(), Some(0), "{said}");
        assert_eq!(lines(&output.stdout), repository.git("rev-list cut"));
        assert!(said.contains("each is cut after its committer line"), "{said}");
        assert_eq!(repository.list("--check-names cut"), ["5000 commits under the right name"]);
        assert!(repository.list("verify cut")[1].starts_with("holds: each of them is under the id"));
        let (list, said) = repository.fails("large");
        assert!(list.is_empty());
        assert!(said.contains("its 30000 commits needs ") && said.contains("at most 16777216"), "{said}");
    }
    #[test]
    fn reports_feeds() {
        if !has_git() {
            return;
        }
        let repository = Repository::new("feeds");
        let one = repository.commit_with(100, &[], "\nCone-feed: 1200\nBed-feed: 1250\n");
        let two = repository.commit_with(200, &[&one], "\nCone-feed: 0800\n");
        let three = repository.commit(300, &[&two]);
        repository.point("main", &three);
        let fields = repository.list("feed --csv main");
        assert!(fields[0].starts_with("commits,both,"), "{fields:?}");
        assert_eq!(fields[1..], ["3,1,1,0,1,2000,1250,-50,1000.000,1250.000,-50.000"]);
        assert_eq!(repository.list(&format!("feed --csv main ^{one}"))[1], "2,0,1,0,1,800,0,0,800.000,,");
        let text = repository.list("feed");
        assert_eq!(text.len(), 8);
        assert!(text[0].starts_with("commits ") && text[0].ends_with(" 3"), "{text:?}");
        assert!(text[7].starts_with("cone less bed") && text[7].ends_with(" -50 mm, mean -50.000"), "{text:?}");

        let bad = repository.commit_with(400, &[&three], "\nBed-feed: x\n");
        let worse = repository.commit_with(500, &[&bad], "\nBed-feed: 1\nBed-feed: 2\n");
        repository.point("main", &bad);
        repository.point("feed", &worse);
        for (name, id) in [("main", &bad), ("-- feed", &worse)] {
            let (report, why) = repository.fails(&format!("feed {name}"));
            assert!(report.is_empty() && why.contains(id), "{why}");
        }
        assert_eq!(repository.list("-- feed").len(), 5);

        let written = |name: &str, lines: &str| {
            let path = repository.dir.join(name);
            std::fs::write(&path, lines).unwrap();
            path
        };
        let file = written("embargo", &format!("{one}\n\n{bad}\r\n{worse}"));
        let embargo = format!("feed --csv --embargo {} -- feed", file.display());
        assert_eq!(repository.list(&embargo.replace("--csv", "--csv --outside"))[1], "5,0,1,0,4,800,0,0,800.000,,");
        assert!(repository.fails(&embargo).1.contains(&worse));
        assert!(repository.fails("feed --outside -- feed").1.contains(&worse));
        for (lines, said) in
            [(&one[..39], "line 1: '"), ("\nHEAD\n", "line 2: 'HEAD' is no whole id: write one id of 40"), (&*format!("{one} "), "line 1")]
        {
            let file = written("bad", lines);
            assert!(repository.fails(&format!("feed --embargo {}", file.display())).1.contains(said), "{lines}");
        }
        let many = written("many", &format!("{one}\n").repeat(1025));
        assert!(repository.fails(&format!("feed --outside --embargo {}", many.display())).1.contains("1025 commits, and at most 1024"));
        assert!(repository.fails("feed --embargo no-such-file").1.contains("cannot be read from no-such-file"));
    }

    #[test]
    fn reports_by_terms() {
        if !has_git() {
            return;
        }
        let repository = Repository::new("terms");
        // the first second of September 2024, the last of January 2025, the one after it, and a commit of 1970
        let times = [100, 1_725_148_800, 1_738_367_999, 1_738_368_000];
        let mut ids: Vec<String> = Vec::new();
        for time in times {
            let parents: Vec<&str> = ids.last().map(String::as_str).into_iter().collect();
            let id = repository.commit(time, &parents);
            ids.push(id);
        }
        repository.point("main", &ids[3]);
        repository.point("terms", &ids[1]);
        let terms = "--term 2024-09..2025-01 --term 2025-02..2025-03";
        let fields = repository.list(&format!("terms --csv {terms} main"));
        assert_eq!(
            fields,
            [
                "what,first,last,commits,a_month",
                "term,2024-09,2025-01,2,0.400",
                "term,2025-02,2025-03,1,0.500",
                "outside,,,1,",
                "total,,,4,"
            ]
        );
        let text = repository.list(&format!("terms {terms} main ^terms"));
        assert_eq!(text.iter().map(|line| line.split_whitespace().nth(1).unwrap()).collect::<Vec<_>>(), ["1,", "1,", "0", "2"]);
        assert!(text[0].starts_with("2024-09..2025-01 ") && text[0].ends_with(" 1, a month 0.200"), "{text:?}");
        assert!(text[2].starts_with("outside ") && text[3].starts_with("commits "), "{text:?}");
        assert_eq!(repository.list("terms --csv"), ["what,first,last,commits,a_month", "outside,,,4,", "total,,,4,"]);
        assert_eq!(repository.list("-- terms").len(), 2);
        assert_eq!(repository.tool("terms --term 2024-02..2024-01").status.code(), Some(2));
    }
}
