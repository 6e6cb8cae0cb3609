//! The check of names over any number of commits: each store is as large as it may be, and is checked when it is full.

use std::io::{self, IsTerminal};

use linenhatch::{check_names_in, entries, Commits, ObjectId, Refusal, Repository, StoreBuilder, MAX_FILE_BYTES};

use crate::progress::Progress;
use crate::refused::{counted, named};

/// Every commit that some ids reach, and what was found of their names. Those at a boundary are checked whole, and then stand without their parents.
pub fn read(repository: &Repository, from: &[ObjectId], progress: bool) -> Result<(Commits, Names), String> {
    let mut progress = Progress::new(progress || io::stderr().is_terminal(), "commits read");
    let mut names = Names::default();
    let boundary = repository.boundary().map_err(|error| error.to_string())?;
    let commits = repository.commits(from, &boundary, |id, body| {
        progress.step();
        names.take(id, body);
    });
    progress.make_way();
    Ok((commits.map_err(|error| error.to_string())?, names))
}

/// What was found of the commits that were taken.
#[derive(Debug, Default)]
pub struct Names {
    store: StoreBuilder,
    pub count: usize,
    /// Of each store the first commit that is not under its name.
    faults: Vec<ObjectId>,
    /// Commits that are too large for any store.
    too_large: Vec<ObjectId>,
}

impl Names {
    pub fn take(&mut self, id: ObjectId, body: &[u8]) {
        let fits = |store: &StoreBuilder| store.bytes() + (body.len() + id.as_bytes().len() + 4) as u64 <= MAX_FILE_BYTES as u64;
        if !fits(&self.store) {
            self.check();
        }
        match fits(&self.store) {
            true => self.store.add(id, body),
            false => self.too_large.push(id),
        }
        self.count += 1;
    }

    fn check(&mut self) {
        let store = std::mem::take(&mut self.store).finish().expect("no more was put in than fits");
        let Some((first, _)) = entries(&store).next() else { return };
        if let Err(fault) = check_names_in(first.kind(), &store, &[]) {
            self.faults.extend(entries(&store).nth(fault.entry).map(|(id, _)| id));
        }
    }

    /// Nothing if each commit is under its name; else which are not.
    pub fn finish(mut self) -> Result<usize, String> {
        self.check();
        self.faults.sort();
        match (&self.faults[..], &self.too_large[..]) {
            ([], []) => Ok(self.count),
            ([], large) => {
                Err(format!("too large for a store, so that no name can be checked: {} ({})", counted(large.len(), "commit"), named(large)))
            }
            (faults, _) => Err(format!("{}: {}", Refusal::FalseName, named(faults))),
        }
    }
}

#[cfg(test)]
mod tests {
    use super::*;

    const BODY: &[u8] = b"tree 4b825dc642cb6eb9a060e54bf8d69288fbee4904\nauthor A <a> 5 +0000\ncommitter A <a> 5 +0000\n\n";

    /// Of the empty tree with SHA-256.
    const WIDE_BODY: &[u8] =
        b"tree 6ef19b41225c5369f1c104d45d8d85efa9b057b53b14b4b9b939dd74decc5321\nauthor A <a> 5 +0000\ncommitter A <a> 5 +0000\n\n";

    fn id() -> ObjectId {
        ObjectId::from_hex(b"b412355a1b1061d033444158fed2c45af52cb92e").unwrap()
    }

    #[test]
    fn stores_one_after_another() {
        let mut names = Names::default();
        names.take(id(), BODY);
        assert_eq!(names.finish(), Ok(1));
        let mut names = Names::default();
        names.take("212fd6b650c88e43077125b21ae40148a1d8c276aa0e0ca71cb4ba329a5cd669".parse().unwrap(), WIDE_BODY);
        assert_eq!(names.finish(), Ok(1));
        // Each of these fills most of a store.
        let large = vec![b'x'; MAX_FILE_BYTES / 2];
        let mut names = Names::default();
        for n in [9, 3, 7] {
            names.take(ObjectId([n; 20]), &large);
        }
        names.take(id(), BODY);
        let said = names.finish().unwrap_err();
        assert!(
            said.contains("refusal 16") && said.ends_with(&format!("{}, {}, {}", ObjectId([3; 20]), ObjectId([7; 20]), ObjectId([9; 20]))),
            "{said}"
        );
    }

    #[test]
    fn a_commit_that_no_store_can_hold() {
        let mut names = Names::default();
        names.take(id(), BODY);
        names.take(ObjectId([9; 20]), &vec![b'x'; MAX_FILE_BYTES]);
        names.take(id(), BODY);
        let said = names.finish().unwrap_err();
        assert!(said.contains(": 1 commit (") && said.contains(&ObjectId([9; 20]).to_string()), "{said}");
    }
}
