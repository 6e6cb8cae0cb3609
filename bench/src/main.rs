//! bench [options] FOLDER...: times the lister, `Simple` and `git rev-list` on the histories that histories.py wrote, in one run, one after
//! the other in each repetition, and prints the tables. First each walk is checked: the same commits from all three. On histories with SHA-256 ids `Simple`
//! is left out.
//!
//!     --repetitions N   at most so many for each row (7)
//!     --seconds N       after so many a row is not repeated further, once it has three repetitions (20)
//!     --git-limit N     git is stopped after so many seconds, and its row says so (10)
//!     --walk NAME       only this walk
//!     --graph yes|no    only with, or only without the graph file
//!     --check           only the check
//!     --spin NAME       for a profiler: only this peer (ours or simple), each walk so often that it takes some two seconds
//!     --out FOLDER      where table.md and samples.tsv are written
mod clock;
mod git;
mod history;
#[cfg_attr(not(feature = "ours"), path = "absent.rs")]
mod ours;
mod sample;
mod simple;
mod store;
mod table;

use history::{History, Listed, Walk};
use sample::Times;
use std::{
    fs,
    time::{Duration, Instant},
};
use table::Row;

const OURS: bool = cfg!(feature = "ours");
const FEWEST: usize = 3;
/// A sample of a short walk is the mean of so many walks that they hand out about this many commits.
const COMMITS_IN_A_SAMPLE: usize = 40_000;

struct Options {
    repetitions: usize,
    seconds: f64,
    git_limit: f64,
    walk: Option<String>,
    graph: Option<bool>,
    check: bool,
    spin: Option<String>,
    out: Option<String>,
    folders: Vec<String>,
}

fn options() -> Options {
    let mut options = Options {
        repetitions: 7,
        seconds: 20.0,
        git_limit: 10.0,
        walk: None,
        graph: None,
        check: false,
        spin: None,
        out: None,
        folders: Vec::new(),
    };
    let mut words = std::env::args().skip(1);
    while let Some(word) = words.next() {
        let mut value = || words.next().unwrap_or_else(|| panic!("{word} has a value"));
        match word.as_str() {
            "--repetitions" => options.repetitions = value().parse().expect("a number"),
            "--seconds" => options.seconds = value().parse().expect("a number"),
            "--git-limit" => options.git_limit = value().parse().expect("a number"),
            "--walk" => options.walk = Some(value()),
            "--graph" => options.graph = Some(value() == "yes"),
            "--check" => options.check = true,
            "--spin" => options.spin = Some(value()),
            "--out" => options.out = Some(value()),
            _ => options.folders.push(word),
        }
    }
    options
}

/// The same commits from all three, or a panic: ours and Simple in every part and in order; git's as a set, and in order where git has the
/// order. The result: how many, and whether git was stopped.
fn check(history: &History, files: Option<&simple::Files>, walk: &Walk, limit: Duration) -> (usize, bool) {
    let ours = || ours::Memory::new(history, walk).list(history, walk);
    let commits = files.map_or_else(ours, |files| files.list(history, walk));
    if OURS && files.is_some() {
        let ours = ours();
        assert_eq!(ours.len(), commits.len(), "ours and Simple list as many");
        for (ours, simple) in ours.iter().zip(&commits) {
            assert_eq!(ours, simple, "ours and Simple list the same");
        }
    }
    let mut ids: Vec<_> = commits.iter().map(|commit| commit.id.clone()).collect();
    let Some(mut listed) = git::list(history, walk, limit) else {
        return (commits.len(), true);
    };
    assert_eq!(listed.len(), ids.len(), "git lists as many");
    if walk.sorting != history::Sorting::Newest {
        ids.sort();
        listed.sort();
    }
    assert!(listed == ids, "git lists the same");
    (commits.len(), false)
}

/// A row's repetitions: each has one sample of every peer, and the peers take turns at being first.
fn measure(history: &History, files: Option<&simple::Files>, walk: &Walk, options: &Options) -> Row {
    let limit = Duration::from_secs_f64(options.git_limit);
    let (listed, stopped) = check(history, files, walk, limit);
    let mut row = Row {
        history: history.name.clone(),
        commits: history.commits,
        links: history.links,
        walk: *walk,
        listed,
        lent: ours::lent_bytes(history, walk),
        ours_opening: Times::default(),
        ours_walking: Times::default(),
        ours_both: Times::default(),
        ours_new: Times::default(),
        simple_opening: Times::default(),
        simple_walking: Times::default(),
        simple_both: Times::default(),
        files: Times::default(),
        git: Times::default(),
        git_start: Times::default(),
        git_stopped: stopped.then_some(options.git_limit),
    };
    if options.check {
        return row;
    }
    let times = (COMMITS_IN_A_SAMPLE / listed.max(1)).max(1) as u32;
    let mut memory = ours::Memory::new(history, walk);
    let mut sums: Vec<Listed> = Vec::new();
    let start = Instant::now();
    for repetition in 0..options.repetitions {
        if repetition >= FEWEST && start.elapsed().as_secs_f64() > options.seconds {
            break;
        }
        for turn in 0..3 {
            match (repetition + turn) % 3 {
                0 if OURS => {
                    let sample = memory.sample(history, walk, times);
                    row.ours_opening.add(sample.opening);
                    row.ours_walking.add(sample.walking);
                    row.ours_both.add(sample.opening + sample.walking);
                    sums.push(sample.listed);
                    if start.elapsed().as_secs_f64() < options.seconds {
                        row.ours_new.add(ours::sample_new_memory(history, walk));
                    }
                }
                1 => {
                    let Some(files) = files else { continue };
                    let sample = files.sample(history, walk, times);
                    row.simple_opening.add(sample.opening);
                    row.simple_walking.add(sample.walking);
                    row.simple_both.add(sample.opening + sample.walking);
                    sums.push(sample.listed);
                    row.files.add(simple::time_files(history, walk.graph));
                }
                2 => {
                    row.git_start.add(git::sample_start(history, walk));
                    if !stopped {
                        row.git.add(git::sample(history, walk));
                    }
                }
                _ => {}
            }
        }
    }
    assert!(sums.iter().all(|sum| *sum == sums[0] && sum.commits == listed), "every timed walk lists the same");
    row
}

fn spin(history: &History, files: Option<&simple::Files>, walk: &Walk, peer: &str) {
    let mut memory = ours::Memory::new(history, walk);
    let (start, mut runs) = (Instant::now(), 0);
    let (mut opening, mut walking, mut commits) = (Duration::ZERO, Duration::ZERO, 0);
    let mut least = f64::MAX;
    while start.elapsed() < Duration::from_secs(2) {
        let sample = match files {
            Some(files) if peer != "ours" => files.sample(history, walk, 1),
            _ => memory.sample(history, walk, 1),
        };
        opening += sample.opening;
        walking += sample.walking;
        least = least.min(sample.walking.as_nanos() as f64 / sample.listed.commits as f64);
        commits += sample.listed.commits;
        runs += 1;
    }
    let [opening, walking] = [opening, walking].map(|time| time.as_nanos() as f64 / commits as f64);
    let graph = if walk.graph { "with" } else { "without" };
    println!(
        "{peer}, {} {} {} {graph} graph: {runs} runs, opening {opening:.0}, walk {walking:.0}, least {least:.0}",
        history.name, history.commits, walk.name
    );
}

fn main() {
    let options = options();
    let mut rows = Vec::new();
    for folder in &options.folders {
        let history = History::read(folder);
        let files = simple::Files::open(&history);
        if files.is_none() && (!OURS || options.spin.as_ref().is_some_and(|peer| peer != "ours")) {
            continue;
        }
        for walk in history::walks(&history) {
            let wanted =
                options.walk.as_ref().is_none_or(|name| name == walk.name) && options.graph.is_none_or(|graph| graph == walk.graph);
            if !wanted {
                continue;
            }
            if let Some(peer) = &options.spin {
                spin(&history, files.as_ref(), &walk, peer);
                continue;
            }
            let start = Instant::now();
            let row = measure(&history, files.as_ref(), &walk, &options);
            let graph = if walk.graph { "with" } else { "without" };
            let stopped = if row.git_stopped.is_some() { "; git stopped at its limit" } else { "" };
            let seconds = start.elapsed().as_secs_f64();
            eprintln!("{} {} {} {graph} graph: {} commits, {seconds:.1} s{stopped}", row.history, row.commits, walk.name, row.listed);
            rows.push(row);
        }
    }
    if options.spin.is_some() {
        return;
    }
    if options.check {
        let stopped = rows.iter().filter(|row| row.git_stopped.is_some()).count();
        println!("{} walks: the same commits from all (git stopped at its limit in {stopped})", rows.len());
        return;
    }
    let text = format!(
        "## Nanoseconds for each commit listed\n\n{}\n## Openings, in microseconds\n\n{}\n## Growth, nanoseconds for each commit\n\n{}",
        table::main_table(&rows),
        table::opening_table(&rows),
        table::growth_table(&rows)
    );
    print!("{text}");
    if let Some(folder) = &options.out {
        fs::create_dir_all(folder).expect("a folder for the tables");
        fs::write(format!("{folder}/table.md"), text).expect("table.md is written");
        fs::write(format!("{folder}/samples.tsv"), table::samples(&rows)).expect("samples.tsv is written");
    }
}
