//! `git rev-list` as a process, on the repository that the files come from.
//!
//! git has no breadth order and no order by the oldest that waits: beside these stands its plain list, which holds the same commits.
use crate::{
    clock,
    history::{History, Id, Walk},
};
use std::{
    io::Read,
    process::{Command, Stdio},
    sync::{Arc, Mutex, mpsc},
    thread,
    time::Duration,
};

fn hex(id: &[u8]) -> String {
    id.iter().map(|byte| format!("{byte:02x}")).collect()
}

/// GIT_FLUSH=0: lines are written in blocks, not one by one.
fn command(history: &History, walk: &Walk) -> Command {
    let mut git = Command::new("git");
    git.env("GIT_CONFIG_GLOBAL", "/dev/null").env("GIT_CONFIG_NOSYSTEM", "1").env("GIT_FLUSH", "0");
    git.args(["-C", &history.repository, "-c"]);
    git.arg(format!("core.commitGraph={}", walk.graph));
    git.args(["rev-list", &hex(&history.tip)]);
    if walk.hides {
        git.arg(format!("^{}", hex(&history.hidden)));
    }
    if walk.first {
        git.arg("--first-parent");
    }
    if walk.cutoff {
        git.arg(format!("--max-age={}", history.cutoff));
    }
    git.stdin(Stdio::null()).stderr(Stdio::null());
    git
}

/// The ids that git lists, or none where it takes longer than the limit.
pub fn list(history: &History, walk: &Walk, limit: Duration) -> Option<Vec<Id>> {
    let mut child = command(history, walk).stdout(Stdio::piped()).spawn().expect("git runs");
    let mut out = child.stdout.take().expect("piped");
    let child = Arc::new(Mutex::new(child));
    let (done, wait) = mpsc::channel();
    let watched = Arc::clone(&child);
    let watch = thread::spawn(move || {
        let late = wait.recv_timeout(limit).is_err();
        if late {
            watched.lock().expect("no panic holds it").kill().expect("git can be stopped");
        }
        late
    });
    let mut text = Vec::new();
    out.read_to_end(&mut text).expect("git writes");
    let _ = done.send(());
    let late = watch.join().expect("the watch ends");
    let status = child.lock().expect("no panic holds it").wait().expect("git ends");
    if late {
        return None;
    }
    assert!(status.success(), "git rev-list ends well");
    let digit = |byte: u8| (byte as char).to_digit(16).expect("a digit") as u8;
    let lines = text.chunks_exact(2 * history.width() + 1);
    Some(lines.map(|line| line.chunks_exact(2).map(|pair| digit(pair[0]) << 4 | digit(pair[1])).collect()).collect())
}

fn time(mut git: Command) -> Duration {
    git.stdout(Stdio::null());
    let start = clock::children();
    let status = git.status().expect("git runs");
    let time = clock::children() - start;
    assert!(status.success(), "git rev-list ends well");
    time
}

/// The whole process.
pub fn sample(history: &History, walk: &Walk) -> Duration {
    time(command(history, walk))
}

/// The same process told to list nothing: its start and end alone.
pub fn sample_start(history: &History, walk: &Walk) -> Duration {
    let mut git = command(history, &Walk { hides: false, first: false, cutoff: false, ..*walk });
    git.arg("--max-count=0");
    time(git)
}
