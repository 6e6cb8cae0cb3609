//! Which commits a walk's refusals were about. An answer that refuses names no commit, so those that may be meant are tried alone, each by a walk
//! of its own.

pub use linenhatch::entries;
use linenhatch::{store_from_commits, Lister, ObjectId, Refusal};

/// The refusals that a walk met on its way, and what is to be said of them.
#[derive(Default)]
pub struct Refused {
    /// One for each answer that refused a commit.
    pub refusals: Vec<Refusal>,
    /// The walk ended before its first commit, since one could not be read that hiding had to read.
    pub hiding: bool,
}

const NAMED: usize = 10;

impl Refused {
    pub fn any(&self, refusal: Refusal) -> bool {
        self.refusals.contains(&refusal)
    }

    /// Why the list is not whole, in a sentence for each kind of refusal, with the commits that are meant.
    pub fn message(&self, store: &[u8], absent: &[ObjectId]) -> String {
        let lead = match self.hiding {
            true => "nothing is listed, since hiding has to read all that the names reach",
            false => "the list is not whole",
        };
        let mut message = format!("{lead}: {}", counted(self.refusals.len(), "refusal"));
        for refusal in Refusal::ALL {
            let count = self.refusals.iter().filter(|&&other| other == refusal).count();
            if count > 0 {
                let ids = if refusal == Refusal::CommitNotFound { absent.to_vec() } else { alone(store, refusal, self.hiding) };
                message += &format!("\n  {refusal}{}", meant(&ids, count));
            }
        }
        message
    }
}

/// The commits that cannot be read, a line for each way.
pub fn unread(store: &[u8], absent: &[ObjectId]) -> String {
    let ways = [
        ("not in the repository", absent.to_vec()),
        ("not to be read", alone(store, Refusal::CommitUnreadable, true)),
        ("with more than 256 parents", alone(store, Refusal::TooManyParents, true)),
    ];
    let some = ways.iter().filter(|(_, ids)| !ids.is_empty());
    some.map(|(what, ids)| format!("\n  {what}: {} ({})", counted(ids.len(), "commit"), named(ids))).collect()
}

/// Why a tested walk was not opened with 13: which commits are not there, which cannot be read, and what to do.
pub fn unreadable_reach(store: &[u8], absent: &[ObjectId]) -> String {
    let lead = format!("nothing is listed: {}", Refusal::UnreadableReach);
    format!("{lead}{}\n`git fsck` says more of them; --untested lists what can be read.", unread(store, absent))
}

/// Why no commit-graph file was written with 18: which commits are not there, which cannot be read, and what to do.
pub fn unfit_store(store: &[u8], absent: &[ObjectId], shallow: bool) -> String {
    let lead = format!("nothing is written: {}", Refusal::UnfitStore);
    if shallow {
        let behind = counted(absent.len(), "commit");
        return format!(
            "this is a shallow clone, and {lead}\n  past its boundary, not there: {behind}\n`git fetch --unshallow` brings what is not there."
        );
    }
    format!("{lead}{}\n`git fsck` says more of them.", unread(store, absent))
}

/// A number and a word.
pub fn counted(count: usize, word: &str) -> String {
    format!("{count} {word}{}", if count == 1 { "" } else { "s" })
}

/// Some ids, the first few by name.
pub fn named(ids: &[ObjectId]) -> String {
    let mut text: Vec<String> = ids.iter().take(NAMED).map(ObjectId::to_string).collect();
    if ids.len() > NAMED {
        text.push(format!("{} more", ids.len() - NAMED));
    }
    text.join(", ")
}

/// The commits that are meant by so many refusals: these, or some of these.
fn meant(ids: &[ObjectId], count: usize) -> String {
    match ids.len() {
        0 => String::new(),
        all if all == count => format!(": {}", named(ids)),
        _ => format!(", {count} of: {}", named(ids)),
    }
}

/// The commits of a store that a walk refuses so when it comes to them, or when it reads them for hiding.
fn alone(store: &[u8], refusal: Refusal, hiding: bool) -> Vec<ObjectId> {
    entries(store).filter(|(id, body)| tried(*id, body, hiding) == Some(refusal)).map(|(id, _)| id).collect()
}

fn tried(id: ObjectId, body: &[u8], hiding: bool) -> Option<Refusal> {
    let store = store_from_commits([(id, body)]).ok()?;
    let hidden = if hiding { &[id][..] } else { &[] };
    Lister::new(&store).tips(&[id]).hide(hidden).open().ok()?.next()?.err()
}

#[cfg(test)]
mod tests {
    use super::*;

    const GOOD: &str = "tree 0000000000000000000000000000000000000000\nauthor A <a> 5 +0000\ncommitter A <a> 5 +0000\n\n";

    #[test]
    fn commits_that_are_refused_alone() {
        let id = |n| ObjectId([n; 20]);
        let no_author = GOOD.replace("author ", "writer ");
        let no_committer = GOOD.replace("committer ", "keeper ");
        let store = store_from_commits([(id(3), GOOD), (id(1), &no_author), (id(2), &no_committer)]).unwrap();
        assert_eq!(alone(&store, Refusal::CommitUnreadable, false), [id(1)]);
        assert_eq!(alone(&store, Refusal::CommitUnreadable, true), [id(1), id(2)]);
        assert_eq!(alone(&store, Refusal::TooManyParents, true), []);
    }

    #[test]
    fn what_is_said_of_an_unreadable_reach() {
        let id = |n| ObjectId([n; 20]);
        let store = store_from_commits([(id(3), GOOD.to_string()), (id(2), GOOD.replace("committer ", "keeper "))]).unwrap();
        let said = unreadable_reach(&store, &[id(7)]);
        assert!(said.starts_with("nothing is listed: ") && said.contains(" (refusal 13, unreadable reach)\n"), "{said}");
        assert!(
            said.contains(&format!("\n  not in the repository: 1 commit ({})\n  not to be read: 1 commit ({})\n", id(7), id(2))),
            "{said}"
        );
        assert!(said.contains("git fsck") && said.contains("--untested") && !said.contains("256 parents:"), "{said}");
    }

    #[test]
    fn what_is_said_of_an_unfit_store() {
        let id = |n| ObjectId([n; 20]);
        let store = store_from_commits([(id(3), GOOD.to_string()), (id(2), GOOD.replace("committer ", "keeper "))]).unwrap();
        let said = unfit_store(&store, &[id(7)], false);
        assert!(said.starts_with("nothing is written: ") && said.contains(" (refusal 18, unfit store)\n"), "{said}");
        assert!(
            said.contains(&format!("\n  not in the repository: 1 commit ({})\n  not to be read: 1 commit ({})\n", id(7), id(2))),
            "{said}"
        );
        let said = unfit_store(&store, &[id(7), id(8)], true);
        assert!(said.contains("shallow clone") && said.contains("2 commits") && said.contains("--unshallow"), "{said}");
    }

    #[test]
    fn what_is_said() {
        let id = |n| ObjectId([n; 20]);
        let store = store_from_commits([(id(3), GOOD)]).unwrap();
        let lost = |count| Refused { refusals: vec![Refusal::CommitNotFound; count], hiding: false };
        let one = lost(1).message(&store, &[id(7)]);
        assert!(
            one.starts_with("the list is not whole: 1 refusal\n") && one.ends_with(&format!("(refusal 9, commit not found): {}", id(7))),
            "{one}"
        );
        let some = lost(1).message(&store, &[id(7), id(8)]);
        assert!(some.ends_with(&format!(", 1 of: {}, {}", id(7), id(8))), "{some}");
        let many: Vec<ObjectId> = (0..12).map(id).collect();
        assert!(lost(12).message(&store, &many).ends_with(&format!("{}, 2 more", id(9))));
        let hiding = Refused { refusals: vec![Refusal::CommitNotFound], hiding: true }.message(&store, &[id(7)]);
        assert!(hiding.contains("nothing is listed"), "{hiding}");
    }
}
