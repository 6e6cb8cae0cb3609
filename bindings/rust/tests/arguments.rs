//! The tool's command line. It needs no library.

#[allow(dead_code)]
#[path = "../src/bin/linenhatch/args.rs"]
mod args;

use std::ffi::OsString;
use std::os::unix::ffi::OsStringExt;
use std::path::Path;

use args::{parse, Args, Format, Graph, Report, Task};
use linenhatch::Order;

fn task(line: &str) -> Result<Task, String> {
    parse(line.split_whitespace().map(OsString::from))
}

fn list(line: &str) -> Args {
    match task(line) {
        Ok(Task::List(args)) => args,
        other => panic!("{line}: {other:?}"),
    }
}

fn refused(line: &str) -> String {
    match task(line) {
        Err(message) => message,
        other => panic!("{line}: {other:?}"),
    }
}

#[test]
fn nothing_given() {
    let args = list("");
    assert_eq!(args.dir, Path::new("."));
    assert_eq!(args.order, Order::Newest);
    assert_eq!((args.since, args.until, args.cutoff, args.max_count), (None, None, None, None));
    assert!(!args.count && !args.reverse);
    assert_eq!((args.graph, args.format), (Graph::Own, Format::Ids));
    assert!(!args.untested && !args.first_parent && !args.time && !args.zone && !args.progress && args.refs.is_empty());
    assert!(args.hide.is_empty() && args.exclude.is_empty());
    assert_eq!(args.revs, ["HEAD"]);
}

#[test]
fn everything_given() {
    let args = list(
        "-C some/where --order oldest --cutoff -5 --since yesterday --until=now --first-parent --hide a --hide=b --exclude c main --no-graph --untested --parents --time --zone --progress v1^0 -- x",
    );
    assert_eq!(args.dir, Path::new("./some/where"));
    assert_eq!(args.order, Order::Oldest);
    assert_eq!(args.cutoff, Some(-5));
    assert_eq!((args.since.unwrap(), args.until.unwrap()), ("yesterday".into(), "now".into()));
    assert_eq!((args.graph, args.format), (Graph::None, Format::Parents));
    assert!(args.untested && args.first_parent && args.time && args.zone && args.progress);
    assert_eq!(args.hide, ["a", "b"]);
    assert_eq!(args.exclude, ["c"]);
    assert_eq!(args.revs, ["main", "v1^0", "x"]);
}

#[test]
fn folders_add_up_as_in_git() {
    assert_eq!(list("-C a -C b").dir, Path::new("./a/b"));
    assert_eq!(list("-C a -C /b").dir, Path::new("/b"));
}

#[test]
fn a_value_may_have_an_equals_sign() {
    assert_eq!(list("--hide=HEAD^{/a=b}").hide, ["HEAD^{/a=b}"]);
    assert_eq!(list("--hide HEAD^{/a=b}").hide, ["HEAD^{/a=b}"]);
}

#[test]
fn a_cutoff_takes_an_order_by_time() {
    assert_eq!(list("--cutoff=7").order, Order::Newest);
    assert_eq!(list("--cutoff=7 --order=oldest").order, Order::Oldest);
    assert!(refused("--cutoff 7 --order breadth").contains("order by time"));
    assert!(list("--since 7 --order breadth").since.is_some());
}

/// The word `list`, and a branch of that name.
#[test]
fn the_word_list() {
    assert_eq!(list("list"), list(""));
    assert_eq!(list("-C list --progress list -n 2 a..b"), list("-C list --progress -n 2 a..b"));
    assert_eq!(list("list list").revs, ["list"]);
    assert_eq!(list("-- list").revs, ["list"]);
    assert_eq!(list("--count list").revs, ["list"]);
}

#[test]
fn which_graph_file() {
    assert_eq!(list("--git-graph").graph, Graph::Git);
    assert_eq!(list("--git-graph --no-graph").graph, Graph::None);
    assert_eq!(list("--no-graph --git-graph").graph, Graph::Git);
}

#[test]
fn references() {
    let args = list("--all --tags");
    assert_eq!((args.refs, args.revs.len()), (vec!["--all", "--tags"], 0));
    let args = list("--branches ^a b");
    assert_eq!((args.refs, args.revs, args.hide), (vec!["--branches"], vec!["b".into()], vec!["a".into()]));
    assert!(refused("--all=x").contains("--all=x"));
}

#[test]
fn dates() {
    assert_eq!(list("--after 2024-09-01 --before=x").since, list("--since=2024-09-01 --until x").since);
    assert_eq!(list("--before=x").until, Some("x".into()));
    assert!(refused("--until").contains("--until needs"));
}

#[test]
fn formats() {
    for (word, format) in [("ids", Format::Ids), ("parents", Format::Parents), ("csv", Format::Csv), ("json", Format::Json)] {
        assert_eq!(list(&format!("--format {word}")).format, format);
    }
    assert!(refused("--format xml").contains("'xml' is no format"));
    assert!(refused("--format csv --zone").contains("csv and json have both"));
    assert!(refused("--format json --time").contains("csv and json have both"));
}

#[test]
fn how_many_and_which_way() {
    assert_eq!(list("-n 3").max_count, Some(3));
    assert_eq!(list("--max-count=0").max_count, Some(0));
    assert!(list("--count").count && list("--reverse").reverse);
    assert_eq!(list("--order breadth").order, Order::Breadth);
    assert!(refused("-n").contains("-n needs"));
    assert!(refused("-n few").contains("few"));
    assert_eq!((list("-12").max_count, list("-n7").max_count), (Some(12), Some(7)));
    assert!(refused("-n7x").contains("-n7x") && refused("-7x").contains("-7x"));
    assert!(refused("-n -1").contains("-1"));
    assert!(refused("--count=3").contains("--count=3"));
}

#[test]
fn what_git_leaves_out_so() {
    let args = list("^a b c..d -- ^e f..");
    assert_eq!(args.hide, ["a", "c", "e", "f"]);
    assert_eq!(args.revs, ["b", "d", "HEAD"]);
    assert_eq!((list("..b").hide, list("..b").revs), (vec!["HEAD".into()], vec!["b".into()]));
    assert_eq!((list("^a").hide, list("^a").revs), (vec!["a".into()], vec!["HEAD".into()]));
    for line in ["a...b", "^", "^^a", "^a..b", "a..^b", "a..b..c", "--hide ^a", "--hide a..b"] {
        assert!(refused(line).contains("name"), "{line}");
    }
}

#[test]
fn help_and_version() {
    assert_eq!(task("--help"), Ok(Task::Help(args::HELP)));
    assert_eq!(task("list --all -h --nonsense"), Ok(Task::Help(args::HELP)));
    assert_eq!(task("--version"), Ok(Task::Version));
    assert_eq!(task("-V"), Ok(Task::Version));
    for option in [
        "-n N",
        "--max-count",
        "--count",
        "--reverse",
        "-V",
        "^A",
        "A..B",
        "-C",
        "--order",
        "--since",
        "--first-parent",
        "--hide",
        "--exclude",
        "--no-graph",
        "--untested",
        "--parents",
        "--time",
        "--zone",
        "--progress",
        "--all",
        "--branches",
        "--tags",
        "--until",
        "--after",
        "--before",
        "--cutoff",
        "--format",
        "csv",
        "json",
        "--git-graph",
    ] {
        assert!(args::HELP.contains(option), "{option}");
    }
    for help in [
        args::HELP,
        args::FEED_HELP,
        args::TERMS_HELP,
        args::MERGE_BASE_HELP,
        args::TRACE_HELP,
        args::WRITE_GRAPH_HELP,
        args::REPORT_HELP,
        args::VERIFY_HELP,
        args::COMPLETION_HELP,
    ] {
        assert!(["\nusage: linenhatch", "\nexample: ", "\nExit status: 0 "].iter().all(|part| help.contains(part)), "{help}");
        assert!(help.lines().all(|line| line.len() <= 160), "{help}");
    }
}

#[test]
fn wrong_words() {
    assert!(refused("--order").contains("--order needs"));
    assert!(refused("--order sideways").contains("sideways"));
    assert!(refused("--cutoff yesterday").contains("yesterday"));
    assert!(refused("--since").contains("--since needs"));
    assert!(refused("--remotes").contains("--remotes"));
    assert!(refused("-x").contains("-x"));
    assert!(refused("--parents=yes").contains("--parents=yes"));
    assert!(refused("--untested=no").contains("--untested=no"));
    assert!(refused("--hide").contains("--hide needs"));
    assert!(refused("--hide -x").contains("-x"));
    assert!(refused("-- -x").contains("-x"));
    assert!(parse([OsString::new()]).is_err());
}

#[test]
fn names_need_not_be_text() {
    let name = OsString::from_vec(b"caf\xe9".to_vec());
    let joined = OsString::from_vec(b"--hide=caf\xe9".to_vec());
    let words = [OsString::from("--hide"), name.clone(), joined, name.clone()];
    match parse(words) {
        Ok(Task::List(args)) => {
            assert_eq!(args.hide, [name.clone(), name.clone()]);
            assert_eq!(args.revs, [name]);
        }
        other => panic!("{other:?}"),
    }
}

fn pair(line: &str) -> args::Pair {
    match task(line) {
        Ok(Task::MergeBase(pair)) => pair,
        other => panic!("{line}: {other:?}"),
    }
}

#[test]
fn where_two_part() {
    let given = pair("merge-base a b");
    assert_eq!((given.dir.as_path(), given.progress), (Path::new("."), false));
    assert_eq!(given.revs, ["a", "b"]);
    let given = pair("-C x --progress merge-base a -C y -- merge-base");
    assert_eq!((given.dir.as_path(), given.progress), (Path::new("./x/y"), true));
    assert_eq!(given.revs, ["a", "merge-base"]);
    assert_eq!(pair("merge-base merge-base merge-base").revs, ["merge-base", "merge-base"]);
    for (line, why) in [
        ("merge-base", "there are none"),
        ("merge-base a", "there is one"),
        ("merge-base a b c", "there are 3"),
        ("merge-base a ^b", "not the name of one commit"),
        ("merge-base a -- -b", "no name of a commit"),
        ("merge-base --count a b", "no option --count"),
        ("merge-base a b -C", "-C needs a folder"),
    ] {
        assert!(refused(line).contains(why), "{line}: {}", refused(line));
    }
    assert_eq!(task("merge-base -h"), Ok(Task::Help(args::MERGE_BASE_HELP)));
    assert_eq!(task("merge-base --version"), Ok(Task::Version));
}

#[test]
fn a_trace() {
    let Ok(Task::Trace(given)) = task("-C x trace a --calibration b --moves 5 --calibration c") else { panic!("no trace") };
    assert_eq!((given.dir.to_str(), given.rev.to_str(), given.moves, given.progress), (Some("./x"), Some("a"), 5, false));
    assert_eq!(given.calibrations, ["b", "c"]);
    for (words, said) in [
        ("trace --moves 5", "there are none"),
        ("trace a b --moves 5", "there are 2"),
        ("trace a", "needs --moves"),
        ("trace a --moves x", "needs a number, not x"),
        ("trace a --moves", "--moves needs a number"),
        ("trace a --moves 1 --calibration", "--calibration needs a name"),
        ("trace a --moves 1 --count", "no option --count"),
    ] {
        let message = task(words).unwrap_err();
        assert!(message.contains(said), "{words}: {message}");
    }
    assert_eq!(task("trace --help"), Ok(Task::Help(args::TRACE_HELP)));
    assert_eq!(list("-- trace").revs, ["trace"]);
}

/// A branch of that name is still listed, where the word is not the first.
#[test]
fn a_branch_of_that_name() {
    assert_eq!(list("-- merge-base").revs, ["merge-base"]);
    assert_eq!(list("--count merge-base").revs, ["merge-base"]);
    assert_eq!(list("main merge-base").revs, ["main", "merge-base"]);
    assert_eq!(list("--hide merge-base").revs, ["HEAD"]);
}

#[test]
fn a_graph_file_to_write() {
    let output = |line: &str| match task(line) {
        Ok(Task::WriteGraph(output)) => output,
        other => panic!("{line}: {other:?}"),
    };
    let given = output("write-graph");
    assert_eq!((given.dir.as_path(), given.progress, given.file), (Path::new("."), false, None));
    let given = output("-C x --progress write-graph y -o file");
    assert_eq!((given.dir.as_path(), given.progress, given.file.as_deref()), (Path::new("./x/y"), true, Some(Path::new("file"))));
    assert_eq!(output("write-graph write-graph").dir, Path::new("./write-graph"));
    assert_eq!(output("write-graph -- -y").dir, Path::new("./-y"));
    for (line, said) in [
        ("write-graph a b", "there are 2"),
        ("write-graph --count", "no option --count"),
        ("write-graph -o", "-o needs a file"),
        ("write-graph -C", "-C needs a folder"),
    ] {
        assert!(refused(line).contains(said), "{line}");
    }
    assert_eq!(task("write-graph -h"), Ok(Task::Help(args::WRITE_GRAPH_HELP)));
    assert_eq!(task("write-graph --version"), Ok(Task::Version));
    assert_eq!(list("-- write-graph").revs, ["write-graph"]);
    assert_eq!(list("--count write-graph").revs, ["write-graph"]);
}

#[test]
fn a_report() {
    let args = list("-C x feed --csv --order oldest --hide a b");
    assert_eq!((args.report, args.csv, args.order), (Some(Report::Feed), true, Order::Oldest));
    assert_eq!((args.dir.as_path(), args.hide, args.revs), (Path::new("./x"), vec![OsString::from("a")], vec![OsString::from("b")]));
    assert_eq!(list("feed").revs, ["HEAD"]);
    assert_eq!(list("feed feed").revs, ["feed"]);
    assert_eq!((list("-- feed").report, list("main feed").report), (None, None));
    assert_eq!(list("feed --all --git-graph --cutoff 7").cutoff, Some(7));
    for option in ["-n 3", "--count", "--reverse", "--parents", "--time", "--zone", "--since=now", "--until now", "--format csv"] {
        assert!(refused(&format!("feed {option}")).contains("a report has no option"), "{option}");
    }
    assert!(refused("feed -3").contains("no option -3"));
    assert!(refused("feed --check-names").contains("no option --check-names"));
    assert!(refused("--csv").contains("no option --csv"));
    assert_eq!(task("feed -h"), Ok(Task::Help(args::FEED_HELP)));
    let args = list("feed --embargo ids --outside a");
    assert_eq!((args.embargo.as_deref(), args.outside, args.revs), (Some(Path::new("ids")), true, vec![OsString::from("a")]));
    let args = list("feed --embargo=ids");
    assert_eq!((args.embargo.as_deref(), args.outside), (Some(Path::new("ids")), false));
    assert!(list("feed --outside").outside);
    assert!(refused("feed --embargo").contains("--embargo needs a file of ids"));
    assert!(refused("--embargo ids").contains("no option --embargo"));
    assert!(refused("--outside").contains("no option --outside"));
}

#[test]
fn a_report_by_terms() {
    let args = list("terms --csv --term 2024-09..2025-01 --term=2025-02 main ^old");
    assert_eq!(
        (args.report, args.csv, args.revs, args.hide),
        (Some(Report::Terms), true, vec![OsString::from("main")], vec![OsString::from("old")])
    );
    assert_eq!(args.terms.iter().map(|term| term.to_string()).collect::<Vec<_>>(), ["2024-09..2025-01", "2025-02..2025-02"]);
    assert_eq!((list("terms").terms, list("terms").revs), (vec![], vec![OsString::from("HEAD")]));
    assert_eq!((list("-- terms").report, list("terms terms").revs), (None, vec![OsString::from("terms")]));
    let many = |count: usize| (0..count).map(|k| format!(" --term {}-01", 1970 + k)).collect::<String>();
    assert_eq!(list(&format!("terms{}", many(24))).terms.len(), 24);
    for (line, said) in [
        ("terms --term", "--term needs a term"),
        ("terms --term 2024-9", "'2024-9' is no term"),
        ("terms --term 2100-01", "'2100-01' is no term"),
        ("terms --term 2024-03..2024-01", "2024-03..2024-01 ends before it starts"),
        ("terms --term 2024-03 --term 2024-01", "2024-01..2024-01 does not start after 2024-03..2024-03"),
        ("terms --term 2024-01..2024-03 --term 2024-03", "does not start after"),
        (&format!("terms{}", many(25)), "25 terms are given"),
        ("terms --count", "a report has no option --count"),
        ("feed --term 2024-01", "no option --term"),
        ("--term 2024-01", "no option --term"),
    ] {
        assert!(refused(line).contains(said), "{line}");
    }
    assert_eq!(task("terms -h"), Ok(Task::Help(args::TERMS_HELP)));
}

#[test]
fn a_page() {
    let page = |line: &str| match task(line) {
        Ok(Task::Page(page)) => page,
        other => panic!("{line}: {other:?}"),
    };
    let given = page("-C x report --term 2024-09..2025-01 --hide z -o out.html --term=2025-02 a..b --title Autumn --first-parent -- c");
    assert_eq!(given.terms.iter().map(ToString::to_string).collect::<Vec<_>>(), ["2024-09..2025-01", "2025-02..2025-02"]);
    assert_eq!((given.title.as_deref(), given.file.as_deref()), (Some("Autumn"), Some(Path::new("out.html"))));
    assert_eq!((given.args.report, given.args.first_parent, given.args.dir.as_path()), (Some(Report::Page), true, Path::new("./x")));
    assert_eq!((given.args.hide, given.args.revs), (vec!["z".into(), "a".into()], vec!["b".into(), "c".into()]));
    let given = page("report");
    assert_eq!((given.terms.len(), given.title, given.file, given.args.revs), (0, None, None, vec!["HEAD".into()]));
    for (line, why) in [
        ("report --term 2024-9", "'2024-9' is no term"),
        ("report --term", "--term needs a term"),
        ("report -o", "-o needs a file"),
        ("report --hide --term 2024-09", "'--term' is no name of a commit"),
        ("report --csv", "no option --csv"),
        ("report -n 3", "a report has no option -n"),
        ("report --format csv", "a report has no option --format"),
        ("report --sideways", "no option --sideways"),
        ("--term 2024-09", "no option --term"),
    ] {
        assert!(refused(line).contains(why), "{line}: {}", refused(line));
    }
    assert_eq!(task("report --term 2024-09 -h"), Ok(Task::Help(args::REPORT_HELP)));
    assert_eq!((list("-- report").revs, list("main report").revs), (vec!["report".into()], vec!["main".into(), "report".into()]));
}

#[test]
fn what_is_verified() {
    let verify = |line: &str| match task(line) {
        Ok(Task::Verify(verify)) => verify,
        other => panic!("{line}: {other:?}"),
    };
    let given = verify("-C x verify --all --tags --progress a b..c ^d -- e");
    assert_eq!((given.dir.as_path(), given.progress, given.refs), (Path::new("./x"), true, vec!["--all", "--tags"]));
    assert_eq!(given.revs, ["a", "c", "b", "d", "e"]);
    assert_eq!(verify("verify").revs, ["HEAD"]);
    assert!(verify("verify --branches").revs.is_empty());
    assert!(refused("verify --count").contains("verify has no option --count") && refused("verify -C").contains("-C needs"));
    assert_eq!(task("verify -h"), Ok(Task::Help(args::VERIFY_HELP)));
    assert_eq!(task("verify --version"), Ok(Task::Version));
    assert_eq!(list("-- verify").revs, ["verify"]);
}

#[test]
fn completion_and_the_manual() {
    for (word, shell) in [("bash", args::Shell::Bash), ("zsh", args::Shell::Zsh), ("fish", args::Shell::Fish)] {
        assert_eq!(task(&format!("completion {word}")), Ok(Task::Completion(shell)));
    }
    assert_eq!((task("man"), task("-C x --progress man")), (Ok(Task::Man), Ok(Task::Man)));
    for line in ["completion", "completion sh", "completion bash zsh"] {
        assert!(refused(line).contains("bash, zsh or fish"), "{line}");
    }
    assert!(refused("man list").contains("takes no words"));
    assert_eq!((task("completion -h"), task("man --help")), (Ok(Task::Help(args::COMPLETION_HELP)), Ok(Task::Help(args::COMPLETION_HELP))));
}
