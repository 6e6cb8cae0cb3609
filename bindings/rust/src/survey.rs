//! What the library itself reads of commits, by plain walks over all that some ids reach; and by it which commits a refusal is about.

use std::collections::{HashMap, HashSet};

use crate::error::Refused;
use crate::id::ObjectId;
use crate::names::check_names_in;
use crate::order::Order;
use crate::refusal::Refusal;
use crate::store::{entries, parents_in, store_from_commits, MAX_IDS};
use crate::walk::{Info, Lister};

/// All commits that some ids reach, as far as they can be read, each once. They have their times; and where no commit-graph file is lent their zones,
/// and no generations.
///
/// A walk by a commit-graph file hands out no zones, and in breadth order no times: this has them.
///
/// ```
/// use linenhatch::{store_from_commits, survey, ObjectId};
///
/// let body = "tree 0000000000000000000000000000000000000000\nauthor A <a> 5 +0000\ncommitter A <a> 5 +0130\n\n";
/// let [one, lost] = [1, 2].map(|n| ObjectId([n; 20]));
/// let all = survey(&store_from_commits([(one, body)])?, &[], &[one, lost]);
/// assert_eq!((all.len(), all[&one].time, all[&one].zone), (1, Some(5), Some(90)));
/// # Ok::<(), linenhatch::TooLarge>(())
/// ```
pub fn survey(store: &[u8], graph: &[u8], from: &[ObjectId]) -> HashMap<ObjectId, Info> {
    let mut all = HashMap::new();
    for ids in from.chunks(MAX_IDS) {
        match Lister::new(store).graph(graph).tips(ids).order(Order::Newest).open() {
            Ok(walk) => all.extend(walk.flatten().map(|info| (info.id, info))),
            // One of them cannot be read; the others can.
            Err(_) if ids.len() > 1 => all.extend(ids.iter().flat_map(|&id| survey(store, graph, &[id]))),
            Err(_) => {}
        }
    }
    all
}

impl Lister<'_> {
    /// A refusal that a call of this lister gave, with the commits that it is about, the oldest first. The judge is the library itself: each commit that
    /// may be meant is tried by a walk of its own. It takes time in proportion to what the tips and hidden tips reach.
    ///
    /// ```
    /// use linenhatch::{store_from_commits, Lister, ObjectId};
    ///
    /// let [tip, lost] = [1, 2].map(|n| ObjectId([n; 20]));
    /// let body = format!("tree {}\nparent {lost}\nauthor A <a> 5 +0000\ncommitter A <a> 5 +0000\n\n", "0".repeat(40));
    /// let store = store_from_commits([(tip, body)])?;
    /// let lister = Lister::new(&store).tips(&[tip]);
    ///
    /// let refused = lister.refused(lister.open_tested().unwrap_err());
    /// assert_eq!((refused.number(), refused.word(), refused.commit()), (13, "unreadable reach", Some(lost)));
    /// # Ok::<(), linenhatch::TooLarge>(())
    /// ```
    pub fn refused(&self, refusal: Refusal) -> Refused {
        Refused { refusal, commits: self.meant(refusal) }
    }

    /// The same of 21 and 22 in a report for an outside reader: a commit whose readings are withheld is never the one at fault.
    ///
    /// ```
    /// use linenhatch::{store_from_commits, Lister, ObjectId, Reader};
    ///
    /// let body = format!("tree {}\nauthor A <a> 5 +0000\ncommitter A <a> 5 +0000\n\nCone-feed: x\n", "0".repeat(40));
    /// let ids = [1, 2].map(|n| ObjectId([n; 20]));
    /// let store = store_from_commits(ids.map(|id| (id, &body)))?;
    /// let lister = Lister::new(&store).tips(&ids);
    ///
    /// let refusal = lister.feed_report_for(Reader::Outside, &ids[..1]).unwrap_err();
    /// assert_eq!(lister.refused_without(refusal, &ids[..1]).commit(), Some(ids[1]));
    /// assert_eq!(lister.refused(refusal).commit(), Some(ids[0]));
    /// # Ok::<(), linenhatch::TooLarge>(())
    /// ```
    pub fn refused_without(&self, refusal: Refusal, embargoed: &[ObjectId]) -> Refused {
        Refused { refusal, commits: self.first_faulty(refusal, embargoed).into_iter().collect() }
    }

    fn meant(&self, refusal: Refusal) -> Vec<ObjectId> {
        let (store, graph, tips) = (self.store, self.graph, &self.tips);
        let from = || [&self.tips[..], &self.hidden].concat();
        match refusal {
            Refusal::TipNotFound | Refusal::TipUnreadable => tips.iter().copied().filter(|&tip| tip_refused(store, tip, refusal)).collect(),
            Refusal::CommitNotFound => absent(&bodies(store), &from()),
            Refusal::CommitUnreadable | Refusal::TooManyParents => alone(&bodies(store), &from(), &[refusal]),
            Refusal::UnreadableReach => {
                let bodies = bodies(store);
                [absent(&bodies, &from()), alone(&bodies, &from(), &[Refusal::CommitUnreadable, Refusal::TooManyParents])].concat()
            }
            Refusal::GraphAtOdds => at_odds(store, graph, &from()),
            Refusal::PairNotFalling => not_falling(store, graph, &from()),
            Refusal::FalseName => check_names_in(self.own_kind(), store, &[])
                .err()
                .and_then(|fault| entries(store).nth(fault.entry))
                .map(|(id, _)| id)
                .into_iter()
                .collect(),
            Refusal::UnfitSeconds => unfit_seconds(store, &from()),
            Refusal::ReadingTwice | Refusal::ReadingUnreadable => self.first_faulty(refusal, &[]).into_iter().collect(),
            _ => Vec::new(),
        }
    }

    /// The first commit of the walk, but for some, whose message alone is so refused.
    fn first_faulty(&self, refusal: Refusal, but: &[ObjectId]) -> Option<ObjectId> {
        let bodies = bodies(self.store);
        let faulty = |id: &ObjectId| !but.contains(id) && bodies.get(id).is_some_and(|body| message_refused(body) == Some(refusal));
        self.open().ok()?.flatten().map(|info| info.id).find(faulty)
    }
}

/// What a feed report says of a message alone, under a header of its own.
fn message_refused(body: &[u8]) -> Option<Refusal> {
    let message = body.windows(2).position(|two| two == b"\n\n").map_or(&[][..], |at| &body[at..]);
    let head = format!("tree {}\nauthor A <a> 5 +0000\ncommitter A <a> 5 +0000", "0".repeat(40));
    let id = ObjectId([0; 20]);
    let store = store_from_commits([(id, [head.as_bytes(), message].concat())]).ok()?;
    Lister::new(&store).tips(&[id]).feed_report().err()
}

fn bodies(store: &[u8]) -> HashMap<ObjectId, &[u8]> {
    entries(store).collect()
}

/// All ids that some ids reach over the good parent lines of bodies.
fn reached(bodies: &HashMap<ObjectId, &[u8]>, from: &[ObjectId]) -> HashSet<ObjectId> {
    let (mut all, mut left) = (HashSet::new(), from.to_vec());
    while let Some(id) = left.pop() {
        if all.insert(id) {
            left.extend(bodies.get(&id).into_iter().flat_map(|body| parents_in(id.kind(), body)));
        }
    }
    all
}

/// Of all that some ids reach what the store has no body for, in the order of ids.
fn absent(bodies: &HashMap<ObjectId, &[u8]>, from: &[ObjectId]) -> Vec<ObjectId> {
    sorted(reached(bodies, from).into_iter().filter(|id| !bodies.contains_key(id)))
}

/// Of all that some ids reach the commits that a walk refuses so when it reads them for hiding, in the order of ids.
fn alone(bodies: &HashMap<ObjectId, &[u8]>, from: &[ObjectId], refusals: &[Refusal]) -> Vec<ObjectId> {
    let tried = |id: &ObjectId| {
        let store = store_from_commits([(*id, bodies.get(id)?)]).ok()?;
        Lister::new(&store).tips(&[*id]).hide(&[*id]).open().ok()?.next()?.err()
    };
    sorted(reached(bodies, from).into_iter().filter(|id| tried(id).is_some_and(|refusal| refusals.contains(&refusal))))
}

fn sorted(ids: impl Iterator<Item = ObjectId>) -> Vec<ObjectId> {
    let mut ids: Vec<ObjectId> = ids.collect();
    ids.sort();
    ids
}

fn tip_refused(store: &[u8], tip: ObjectId, refusal: Refusal) -> bool {
    Lister::new(store).tips(&[tip]).order(Order::Newest).open().err() == Some(refusal)
}

/// Commits whose times no commit-graph file can hold.
fn unfit_seconds(store: &[u8], from: &[ObjectId]) -> Vec<ObjectId> {
    const MOST: i64 = (1 << 34) - 1;
    chosen(&survey(store, &[], from), |info| !info.time.is_some_and(|seconds| (0..=MOST).contains(&seconds)))
}

/// Commits of which the file says other things than the store. (A walk takes the time of a tip, and of a parent of a commit that the file lacks,
/// from the store; with nothing but another time in the file they are not among them.)
fn at_odds(store: &[u8], graph: &[u8], from: &[ObjectId]) -> Vec<ObjectId> {
    let told = survey(store, graph, from);
    let odd = |info: &Info| told.get(&info.id).is_some_and(|other| (&other.parents, other.time) != (&info.parents, info.time));
    chosen(&survey(store, &[], from), odd)
}

/// Commits from which to a parent the pair of generation and time does not fall.
fn not_falling(store: &[u8], graph: &[u8], from: &[ObjectId]) -> Vec<ObjectId> {
    let all = survey(store, graph, from);
    let pair = |info: &Info| (info.generation.unwrap_or(u32::MAX), info.time);
    let rises = |info: &Info| info.parents.iter().filter_map(|id| all.get(id)).any(|parent| pair(parent) >= pair(info));
    chosen(&all, rises)
}

/// The ids of some of them, the oldest first.
fn chosen(all: &HashMap<ObjectId, Info>, is_meant: impl Fn(&Info) -> bool) -> Vec<ObjectId> {
    let mut ids: Vec<_> = all.values().filter(|info| is_meant(info)).map(|info| (info.time, info.id)).collect();
    ids.sort();
    ids.into_iter().map(|(_, id)| id).collect()
}

#[cfg(test)]
mod tests {
    use super::*;
    use crate::graph::write_graph;

    fn id(n: u8) -> ObjectId {
        ObjectId([n; 20])
    }

    fn store(commits: &[(u8, i64, &[u8])]) -> Vec<u8> {
        let body = |seconds, parents: &[u8]| {
            let parents: String = parents.iter().map(|&n| format!("parent {}\n", id(n))).collect();
            format!("tree {}\n{parents}author A <a> {seconds} +0000\ncommitter A <a> {seconds} +0130\n\n", "0".repeat(40))
        };
        store_from_commits(commits.iter().map(|&(n, seconds, parents)| (id(n), body(seconds, parents)))).unwrap()
    }

    #[test]
    fn which_commits_are_meant() {
        let drifted = store(&[(1, 7, &[]), (2, 9, &[1]), (3, 8, &[2]), (4, -1, &[])]);
        assert_eq!(not_falling(&drifted, &[], &[id(3), id(4)]), [id(3)]);
        assert_eq!(unfit_seconds(&drifted, &[id(3), id(4)]), [id(4)]);
        assert_eq!(survey(&drifted, &[], &[id(9), id(2), id(4)]).len(), 3);
        let all = survey(&drifted, &[], &[id(3)]);
        assert_eq!((all.len(), all[&id(2)].time, all[&id(2)].zone), (3, Some(9), Some(90)));
        let line = store(&[(1, 7, &[]), (2, 9, &[1]), (3, 8, &[2])]);
        let graph = write_graph(&line).unwrap();
        assert_eq!(not_falling(&line, &graph, &[id(3)]), []);
        assert_eq!(at_odds(&line, &graph, &[id(3)]), []);
        let other = store(&[(1, 7, &[]), (2, 10, &[1]), (3, 8, &[2, 1])]);
        assert_eq!(at_odds(&other, &graph, &[id(3)]), [id(3), id(2)]);
    }

    #[test]
    fn commits_behind_refusals() {
        let good = store(&[(1, 7, &[2, 9])]);
        let bad = |n: u8| (id(n), format!("tree {}\nwriter A <a> 5 +0000\ncommitter A <a> 5 +0000\n\n", "0".repeat(40)).into_bytes());
        let store = store_from_commits(entries(&good).map(|(id, body)| (id, body.to_vec())).chain([bad(2), bad(3)])).unwrap();
        let lister = Lister::new(&store).tips(&[id(1)]);
        assert_eq!(lister.refused(Refusal::UnreadableReach).commits, [id(9), id(2)]);
        assert_eq!(lister.refused(Refusal::CommitUnreadable).commits, [id(2)]);
        assert_eq!(lister.refused(Refusal::CommitNotFound).commits, [id(9)]);
        assert_eq!(lister.refused(Refusal::FalseName).commits, [id(1)]);
        assert_eq!(lister.refused(Refusal::Closed).commits, []);
        let tips = Lister::new(&store).tips(&[id(1), id(3), id(8)]);
        assert_eq!(
            (tips.refused(Refusal::TipNotFound).commit(), tips.refused(Refusal::TipUnreadable).commit()),
            (Some(id(8)), Some(id(3)))
        );
    }

    #[test]
    fn the_first_faulty_message() {
        let line = store(&[(1, 7, &[]), (2, 8, &[1]), (3, 9, &[2])]);
        let messages = ["Bed-feed: x\n", "Cone-feed: 1\nCone-feed: 1\n", "Bed-feed: y\n"];
        let told = entries(&line).zip(messages).map(|((id, body), message)| (id, [body, message.as_bytes()].concat()));
        let store = store_from_commits(told).unwrap();
        let lister = |n| Lister::new(&store).tips(&[id(n)]);
        for (n, refusal) in [(1, Refusal::ReadingUnreadable), (2, Refusal::ReadingTwice), (3, Refusal::ReadingUnreadable)] {
            assert_eq!(lister(n).feed_report(), Err(refusal));
            assert_eq!(lister(n).refused(refusal).commits, [id(n)]);
        }
    }
}
