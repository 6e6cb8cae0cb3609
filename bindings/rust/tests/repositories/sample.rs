// A repository for the examples of the documentation: three commits on `main`, `printed` at the first, a tag `v1.0` at the second. It is removed at the
// end. None where there is no git.

struct Sample(std::path::PathBuf);

impl Sample {
    fn path(&self) -> &std::path::Path {
        &self.0
    }
}

impl Drop for Sample {
    fn drop(&mut self) {
        let _ = std::fs::remove_dir_all(&self.0);
    }
}

fn sample() -> Option<Sample> {
    let folder = std::env::temp_dir().join(format!("linenhatch-sample-{}", std::process::id()));
    let sample = Sample(folder);
    std::fs::create_dir_all(sample.path()).ok()?;
    let git = |words: &str, seconds: i64| {
        let mut git = std::process::Command::new("git");
        git.arg("-C").arg(sample.path()).args(words.split(' ')).env("GIT_CONFIG_GLOBAL", "/dev/null").env("GIT_CONFIG_NOSYSTEM", "1");
        for who in ["AUTHOR", "COMMITTER"] {
            git.env(format!("GIT_{who}_NAME"), "A").env(format!("GIT_{who}_EMAIL"), "a").env(format!("GIT_{who}_DATE"), format!("{seconds} +0100"));
        }
        git.output().ok().filter(|output| output.status.success())
    };
    git("init -q -b main .", 0)?;
    for (n, at) in [(1, "branch printed"), (2, "tag v1.0"), (3, "branch last")] {
        git(&format!("commit -q --allow-empty -m run-{n}"), 1_700_000_000 + n)?;
        git(at, 0)?;
    }
    Some(sample)
}
