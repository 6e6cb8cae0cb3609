//! The last ten commits of a repository, newest first, each with its generation and time.
//!
//!     tools/staticlib
//!     cargo run --offline --example last_commits -- FOLDER

use linenhatch::{Error, Repository};

fn main() -> Result<(), Error> {
    let folder = std::env::args_os().nth(1).unwrap_or_else(|| ".".into());
    let history = Repository::open(folder)?.read(["HEAD"])?;
    for info in history.list()?.take(10) {
        let (generation, seconds) = (info.generation.unwrap_or(0), info.time.unwrap_or(0));
        println!("{} {generation} {seconds}", info.id);
    }
    Ok(())
}
