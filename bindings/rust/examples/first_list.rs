//! A first list: the smallest commit store, one commit without parents, and what a walk over it hands out.
//!
//!     tools/staticlib
//!     cargo run --offline --example first_list

use linenhatch::{store_from_commits, Lister, ObjectId};

const BODY: &str = "\
tree 0000000000000000000000000000000000000000
author A <a> 5 +0000
committer A <a> 5 +0000

";

fn main() -> Result<(), Box<dyn std::error::Error>> {
    let tip = ObjectId([0x11; 20]);
    let store = store_from_commits([(tip, BODY)])?;
    println!("a commit store of {} bytes", store.len());

    let mut walk = Lister::new(&store).tips(&[tip]).open()?;
    for commit in &mut walk {
        let commit = commit?;
        println!("{} with {} parents", commit.id, commit.parents.len());
    }
    let numbers = walk.numbers();
    println!("end: admitted {}, struck {}, waiting {}", numbers.admitted, numbers.struck, numbers.waiting);
    Ok(())
}
