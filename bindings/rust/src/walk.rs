//! A walk over commits: its settings, its opening and its calls.

use std::fmt;
use std::iter::FusedIterator;

use crate::ffi::{self, Answer, Input, Memory, Opening};
use crate::id::{Kind, ObjectId};
use crate::order::Order;
use crate::refusal::{NoRoom, Refusal};

/// The buffer of an answer's parents holds so many ids.
const PARENTS: usize = 256;

/// What a walk goes over: files, lists and settings. Made with [`Lister::new`], set up call by call, opened with [`Lister::open`] or, with
/// its histories tested, [`Lister::open_tested`].
///
/// ```
/// # fn main() -> Result<(), linenhatch::Refusal> {
/// use linenhatch::{Lister, Order};
///
/// let store = [0; 8]; // a store without commits
/// let mut walk = Lister::new(&store).order(Order::Newest).cutoff(1_700_000_000).first_parent().open()?;
/// assert_eq!(walk.next(), None);
/// # Ok(())
/// # }
/// ```
#[derive(Clone, Debug)]
#[must_use = "nothing is listed before `open`"]
pub struct Lister<'a> {
    pub(crate) store: &'a [u8],
    pub(crate) graph: &'a [u8],
    kind: Option<Kind>,
    pub(crate) tips: Vec<ObjectId>,
    pub(crate) hidden: Vec<ObjectId>,
    excluded: Vec<ObjectId>,
    order: Order,
    cutoff: Option<i64>,
    first_parent: bool,
}

impl<'a> Lister<'a> {
    /// A lister over a commit store, which a [`StoreBuilder`](crate::StoreBuilder) writes: no graph file, no tips, nothing hidden or excluded,
    /// breadth order, no cutoff, all parents.
    ///
    /// ```
    /// # fn main() -> Result<(), Box<dyn std::error::Error>> {
    /// use linenhatch::{store_from_commits, Lister, ObjectId};
    ///
    /// # let body = |parents: &str, seconds: i64| format!("tree {}\n{parents}author A <a> 5 +0000\ncommitter A <a> {seconds} +0000\n\n", "0".repeat(40));
    /// # let [old, new] = [1, 2].map(|n| ObjectId([n; 20]));
    /// # let store = store_from_commits([(old, body("", 5)), (new, body(&format!("parent {old}\n"), 6))])?;
    /// // a store of two commits, `new` with the parent `old`
    /// assert_eq!(Lister::new(&store).list()?.count(), 0); // no tips, no commits
    /// # Ok(())
    /// # }
    /// ```
    pub fn new(store: &'a [u8]) -> Lister<'a> {
        Lister {
            store,
            graph: &[],
            kind: None,
            tips: Vec::new(),
            hidden: Vec::new(),
            excluded: Vec::new(),
            order: Order::default(),
            cutoff: None,
            first_parent: false,
        }
    }

    /// Git's commit-graph file (`objects/info/commit-graph`). A commit is looked up there before the store. No bytes mean no file.
    ///
    /// ```
    /// # fn main() -> Result<(), Box<dyn std::error::Error>> {
    /// use linenhatch::{store_from_commits, Lister, ObjectId, write_graph};
    ///
    /// # let body = |parents: &str, seconds: i64| format!("tree {}\n{parents}author A <a> 5 +0000\ncommitter A <a> {seconds} +0000\n\n", "0".repeat(40));
    /// # let [old, new] = [1, 2].map(|n| ObjectId([n; 20]));
    /// # let store = store_from_commits([(old, body("", 5)), (new, body(&format!("parent {old}\n"), 6))])?;
    /// // a store of two commits, `new` with the parent `old`
    /// let graph = write_graph(&store)?;
    /// let mut list = Lister::new(&store).graph(&graph).tips(&[new]).list()?;
    /// assert_eq!(list.next().and_then(|info| info.generation), Some(2));
    /// # Ok(())
    /// # }
    /// ```
    pub fn graph(mut self, graph: &'a [u8]) -> Lister<'a> {
        self.graph = graph;
        self
    }

    /// Of which kind the ids of the files are, and of the lists. It needs to be said only where no id is given: else the kind of the first one counts, of the
    /// tips, then of the hidden tips, then of the excluded ids. An opening is refused with 3 where an id is of another kind, and with 4 or 5 where a
    /// file is.
    ///
    /// ```
    /// # fn main() -> Result<(), Box<dyn std::error::Error>> {
    /// use linenhatch::{store_from_commits, Kind, Lister, ObjectId, Refusal};
    ///
    /// let id = ObjectId::Sha256([0x11; 32]);
    /// let store = store_from_commits([(id, format!("tree {}\nauthor A <a> 5 +0000\ncommitter A <a> 5 +0000\n\n", "0".repeat(64)))])?;
    /// assert_eq!(Lister::new(&store).tips(&[id]).list()?.map(|info| info.id).collect::<Vec<_>>(), [id]);
    /// assert_eq!(Lister::new(&store).kind(Kind::Sha256).list()?.count(), 0); // no tips, no commits
    /// assert_eq!(Lister::new(&store).list().err(), Some(Refusal::CorruptStore)); // no store of SHA-1 ids
    /// assert_eq!(Lister::new(&store).tips(&[id, ObjectId([0x11; 20])]).list().err(), Some(Refusal::PartialId));
    /// # Ok(())
    /// # }
    /// ```
    pub fn kind(mut self, kind: Kind) -> Lister<'a> {
        self.kind = Some(kind);
        self
    }

    /// The kind that counts.
    pub(crate) fn own_kind(&self) -> Kind {
        let first = self.tips.iter().chain(&self.hidden).chain(&self.excluded).next();
        self.kind.or_else(|| first.map(ObjectId::kind)).unwrap_or_default()
    }

    /// Adds commits to start from. Repeats are dropped.
    ///
    /// ```
    /// # fn main() -> Result<(), Box<dyn std::error::Error>> {
    /// use linenhatch::{store_from_commits, Lister, ObjectId};
    ///
    /// # let body = |parents: &str, seconds: i64| format!("tree {}\n{parents}author A <a> 5 +0000\ncommitter A <a> {seconds} +0000\n\n", "0".repeat(40));
    /// # let [old, new] = [1, 2].map(|n| ObjectId([n; 20]));
    /// # let store = store_from_commits([(old, body("", 5)), (new, body(&format!("parent {old}\n"), 6))])?;
    /// // a store of two commits, `new` with the parent `old`
    /// assert_eq!(Lister::new(&store).tips(&[new, old]).tips(&[new]).list()?.count(), 2);
    /// # Ok(())
    /// # }
    /// ```
    pub fn tips(mut self, ids: &[ObjectId]) -> Lister<'a> {
        self.tips.extend_from_slice(ids);
        self
    }

    /// Adds hidden tips: they and all that they reach are left out.
    ///
    /// This holds where the pair of generation and committer time falls from each commit to its parents: always for commits that git's
    /// commit-graph file has with generations, and for others where clocks do not run backwards. Elsewhere some of what they reach may still be listed,
    /// and [`open_tested`](Lister::open_tested) refuses.
    ///
    /// ```
    /// # fn main() -> Result<(), Box<dyn std::error::Error>> {
    /// use linenhatch::{store_from_commits, Lister, ObjectId};
    ///
    /// # let body = |parents: &str, seconds: i64| format!("tree {}\n{parents}author A <a> 5 +0000\ncommitter A <a> {seconds} +0000\n\n", "0".repeat(40));
    /// # let [old, new] = [1, 2].map(|n| ObjectId([n; 20]));
    /// # let store = store_from_commits([(old, body("", 5)), (new, body(&format!("parent {old}\n"), 6))])?;
    /// // a store of two commits, `new` with the parent `old`
    /// let list = Lister::new(&store).tips(&[new]).hide(&[old]).list()?;
    /// assert_eq!(list.map(|info| info.id).collect::<Vec<_>>(), [new]);
    /// # Ok(())
    /// # }
    /// ```
    pub fn hide(mut self, ids: &[ObjectId]) -> Lister<'a> {
        self.hidden.extend_from_slice(ids);
        self
    }

    /// Adds excluded ids: the walk neither hands them out nor goes on from them. What is reached another way is still listed.
    ///
    /// ```
    /// # fn main() -> Result<(), Box<dyn std::error::Error>> {
    /// use linenhatch::{store_from_commits, Lister, ObjectId};
    ///
    /// # let body = |parents: &str, seconds: i64| format!("tree {}\n{parents}author A <a> 5 +0000\ncommitter A <a> {seconds} +0000\n\n", "0".repeat(40));
    /// # let [old, new] = [1, 2].map(|n| ObjectId([n; 20]));
    /// # let store = store_from_commits([(old, body("", 5)), (new, body(&format!("parent {old}\n"), 6))])?;
    /// // a store of two commits, `new` with the parent `old`
    /// let list = Lister::new(&store).tips(&[new, old]).exclude(&[new]).list()?;
    /// assert_eq!(list.map(|info| info.id).collect::<Vec<_>>(), [old]);
    /// # Ok(())
    /// # }
    /// ```
    pub fn exclude(mut self, ids: &[ObjectId]) -> Lister<'a> {
        self.excluded.extend_from_slice(ids);
        self
    }

    /// The order in which commits are handed out.
    ///
    /// ```
    /// # fn main() -> Result<(), Box<dyn std::error::Error>> {
    /// use linenhatch::{store_from_commits, Lister, ObjectId, Order};
    ///
    /// # let body = |parents: &str, seconds: i64| format!("tree {}\n{parents}author A <a> 5 +0000\ncommitter A <a> {seconds} +0000\n\n", "0".repeat(40));
    /// # let [old, new] = [1, 2].map(|n| ObjectId([n; 20]));
    /// # let store = store_from_commits([(old, body("", 5)), (new, body(&format!("parent {old}\n"), 6))])?;
    /// // a store of two commits, `new` with the parent `old`
    /// let list = Lister::new(&store).tips(&[old, new]).order(Order::Newest).list()?;
    /// assert_eq!(list.map(|info| info.id).collect::<Vec<_>>(), [new, old]);
    /// # Ok(())
    /// # }
    /// ```
    pub fn order(mut self, order: Order) -> Lister<'a> {
        self.order = order;
        self
    }

    /// Leaves out commits whose committer time is below these seconds, and goes on from none of them. It counts in the orders by time alone;
    /// with [`first_parent`](Lister::first_parent) it counts for the tips alone.
    ///
    /// ```
    /// # fn main() -> Result<(), Box<dyn std::error::Error>> {
    /// use linenhatch::{store_from_commits, Lister, ObjectId, Order};
    ///
    /// # let body = |parents: &str, seconds: i64| format!("tree {}\n{parents}author A <a> 5 +0000\ncommitter A <a> {seconds} +0000\n\n", "0".repeat(40));
    /// # let [old, new] = [1, 2].map(|n| ObjectId([n; 20]));
    /// # let store = store_from_commits([(old, body("", 5)), (new, body(&format!("parent {old}\n"), 6))])?;
    /// // a store of two commits, `new` with the parent `old`
    /// let list = Lister::new(&store).tips(&[new]).order(Order::Newest).cutoff(6).list()?;
    /// assert_eq!(list.map(|info| info.id).collect::<Vec<_>>(), [new]);
    /// # Ok(())
    /// # }
    /// ```
    pub fn cutoff(mut self, seconds: i64) -> Lister<'a> {
        self.cutoff = Some(seconds);
        self
    }

    /// Follows only the first parent of each commit; the commits wait in list order. Hidden tips still hide all that they reach.
    ///
    /// ```
    /// # fn main() -> Result<(), Box<dyn std::error::Error>> {
    /// use linenhatch::{store_from_commits, Lister, ObjectId};
    ///
    /// # let body = |parents: &str, seconds: i64| format!("tree {}\n{parents}author A <a> 5 +0000\ncommitter A <a> {seconds} +0000\n\n", "0".repeat(40));
    /// # let [old, new] = [1, 2].map(|n| ObjectId([n; 20]));
    /// # let store = store_from_commits([(old, body("", 5)), (new, body(&format!("parent {old}\n"), 6))])?;
    /// // a store of two commits, `new` with the parent `old`
    /// assert_eq!(Lister::new(&store).tips(&[new]).first_parent().list()?.count(), 2);
    /// # Ok(())
    /// # }
    /// ```
    pub fn first_parent(mut self) -> Lister<'a> {
        self.first_parent = true;
        self
    }

    /// Tests files and lists, and opens the walk with memory of its own; or says which of refusals 2 to 8 comes first; 3 comes where
    /// an id is of another kind than the first one.
    ///
    /// ```
    /// # fn main() -> Result<(), Box<dyn std::error::Error>> {
    /// use linenhatch::{store_from_commits, Lister, ObjectId};
    ///
    /// # let body = |parents: &str, seconds: i64| format!("tree {}\n{parents}author A <a> 5 +0000\ncommitter A <a> {seconds} +0000\n\n", "0".repeat(40));
    /// # let [old, new] = [1, 2].map(|n| ObjectId([n; 20]));
    /// # let store = store_from_commits([(old, body("", 5)), (new, body(&format!("parent {old}\n"), 6))])?;
    /// // a store of two commits, `new` with the parent `old`
    /// for commit in Lister::new(&store).tips(&[new]).open()? {
    ///     println!("{}", commit?.id);
    /// }
    /// # Ok(())
    /// # }
    /// ```
    pub fn open(&self) -> Result<Walk<'a>, Refusal> {
        self.opened(Opening::Plain)
    }

    /// Opens the walk as [`open`](Lister::open) does, and tests all commits that tips and hidden tips reach, over all parents (also from tips that
    /// are excluded or too old, and with [`first_parent`](Lister::first_parent)). After 8 it refuses with 13 where one of them is not in the store
    /// or cannot be read there, with 14 where the commit-graph file says other things of one than the store does, and with 15 where the pair of
    /// generation and committer time does not fall from one to a parent; in this order.
    ///
    /// If it is accepted the walk hands out exactly the commits to be listed, each once, and meets no refusal: that is a theorem, and nothing
    /// more is asked of the files. It takes about as long as listing all that is reached.
    ///
    /// ```
    /// # fn main() -> Result<(), Box<dyn std::error::Error>> {
    /// use linenhatch::{store_from_commits, Lister, ObjectId, Refusal};
    ///
    /// let (old, new) = (ObjectId([0x11; 20]), ObjectId([0x22; 20]));
    /// let zeros = "0".repeat(40);
    /// let body = |parent: &str, second| format!("tree {zeros}\n{parent}author A <a> 5 +0000\ncommitter A <a> {second} +0000\n\n");
    /// let child = |second| body(&format!("parent {old}\n"), second);
    ///
    /// let store = store_from_commits([(old, body("", 5)), (new, child(6))])?;
    /// let listed: Result<Vec<_>, _> = Lister::new(&store).tips(&[new]).open_tested()?.map(|commit| commit.map(|commit| commit.id)).collect();
    /// assert_eq!(listed?, [new, old]);
    ///
    /// // A clock that ran backwards: the child is no newer than its parent.
    /// let store = store_from_commits([(old, body("", 5)), (new, child(5))])?;
    /// assert_eq!(Lister::new(&store).tips(&[new]).open_tested().err(), Some(Refusal::PairNotFalling));
    /// # Ok(())
    /// # }
    /// ```
    pub fn open_tested(&self) -> Result<Walk<'a>, Refusal> {
        self.opened(Opening::Tested)
    }

    /// Opens tested, and hands out the commits themselves: after [`open_tested`](Lister::open_tested) no call meets a refusal.
    ///
    /// ```
    /// use linenhatch::{store_from_commits, Lister, ObjectId};
    ///
    /// let body = "tree 0000000000000000000000000000000000000000\nauthor A <a> 5 +0000\ncommitter A <a> 5 +0000\n\n";
    /// let id = ObjectId([0x11; 20]);
    /// let store = store_from_commits([(id, body)])?;
    /// assert_eq!(Lister::new(&store).tips(&[id]).list()?.map(|info| info.id).collect::<Vec<_>>(), [id]);
    /// # Ok::<(), Box<dyn std::error::Error>>(())
    /// ```
    pub fn list(&self) -> Result<Infos<'a>, Refusal> {
        self.open_tested().map(|walk| Infos { walk })
    }

    fn opened(&self, how: Opening) -> Result<Walk<'a>, Refusal> {
        let input = self.input();
        let (kind, tips) = (self.own_kind(), joined(self.own_kind(), &self.tips));
        // Files and lists are tested before memory, so a first try without memory finds their faults, and memory is made for good files alone:
        // a broken commit-graph file may claim any number of commits.
        let mut memory = Memory::with_places(kind, 0);
        let mut numbers = [0; ffi::OPEN_NUMBERS];
        let mut result = ffi::open(how, &input, &tips, &mut memory, &mut numbers);
        if result == Refusal::BufferTooSmall.number() {
            memory = Memory::with_places(kind, ffi::places(&input, &tips));
            result = ffi::open(how, &input, &tips, &mut memory, &mut numbers);
        }
        if result != 0 {
            return Err(refusal(result));
        }
        let [admitted, struck, waiting] = numbers;
        Ok(Walk {
            kind,
            input,
            memory,
            answer: Answer { id: vec![0; kind.len_in_bytes()], numbers: [0; ffi::CALL_NUMBERS], seconds: [0; ffi::CALL_SECONDS] },
            numbers: Numbers { admitted, struck, waiting },
            ended: false,
        })
    }

    /// How many places the walk needs.
    pub(crate) fn places(&self) -> usize {
        ffi::places(&self.input(), &joined(self.own_kind(), &self.tips))
    }

    /// Files, lists and settings as the library takes them, and the tips.
    pub(crate) fn lent(&self) -> (Input<'a>, Vec<u8>) {
        (self.input(), joined(self.own_kind(), &self.tips))
    }

    fn input(&self) -> Input<'a> {
        let kind = self.own_kind();
        Input {
            width: kind.width(),
            store: self.store,
            graph: self.graph,
            hidden: joined(kind, &self.hidden),
            excluded: joined(kind, &self.excluded),
            sorting: match self.order {
                Order::Breadth => 0,
                Order::Newest => 1,
                Order::Oldest => 2,
            },
            has_cutoff: u32::from(self.cutoff.is_some()),
            cutoff: self.cutoff.unwrap_or(0),
            first: u32::from(self.first_parent),
        }
    }
}

/// The bytes of a list. One with an id of another kind is no list of whole ids, whatever its length: with a byte too few it is one for refusal 3.
pub(crate) fn joined(kind: Kind, ids: &[ObjectId]) -> Vec<u8> {
    let mut bytes: Vec<u8> = ids.iter().flat_map(ObjectId::as_bytes).copied().collect();
    if ids.iter().any(|id| id.kind() != kind) {
        bytes.resize(ids.len() * kind.len_in_bytes() - 1, 0);
    }
    bytes
}

pub(crate) fn refusal(number: u32) -> Refusal {
    match Refusal::from_number(number) {
        Some(refusal) => refusal,
        None if number == NoRoom::NUMBER => unreachable!("{NoRoom}"),
        None => unreachable!("the library's contract has no result {number}"),
    }
}

impl Memory {
    pub(crate) fn with_places(kind: Kind, places: usize) -> Memory {
        Memory {
            names: vec![0; kind.len_in_bytes() * places],
            marks: vec![0; places],
            generations: vec![0; places],
            times: vec![0; places],
            line: vec![0; 5 * places],
            parents: vec![0; kind.len_in_bytes() * PARENTS],
            record: [0; ffi::RECORD],
        }
    }
}

/// An open walk. As an iterator it hands out one commit after another.
///
/// A call that meets an unreadable commit gives `Err`, with refusal 9, 10 or 11; that commit is used up, and the iterator goes on with the
/// next. After the first `None` it gives only `None`. If hidden tips were given, the first call finds out what they hide; if a commit cannot
/// be read there, that call gives `Err` and the next `None`. A walk of [`open_tested`](Lister::open_tested) never gives `Err`.
///
/// The walk borrows the files and alone has its lists, settings, memory and record, so every call is lent what the opening was lent, and
/// memory untouched since: the one thing that the library's promise about a whole list of calls asks of a caller.
pub struct Walk<'a> {
    kind: Kind,
    input: Input<'a>,
    memory: Memory,
    answer: Answer,
    numbers: Numbers,
    ended: bool,
}

impl Walk<'_> {
    /// The running numbers, after the opening or the last call.
    ///
    /// ```
    /// # fn main() -> Result<(), Box<dyn std::error::Error>> {
    /// use linenhatch::{store_from_commits, Lister, ObjectId};
    ///
    /// # let body = |parents: &str, seconds: i64| format!("tree {}\n{parents}author A <a> 5 +0000\ncommitter A <a> {seconds} +0000\n\n", "0".repeat(40));
    /// # let [old, new] = [1, 2].map(|n| ObjectId([n; 20]));
    /// # let store = store_from_commits([(old, body("", 5)), (new, body(&format!("parent {old}\n"), 6))])?;
    /// // a store of two commits, `new` with the parent `old`
    /// let mut walk = Lister::new(&store).tips(&[new]).open()?;
    /// assert_eq!(walk.by_ref().count(), 2);
    /// assert_eq!((walk.numbers().admitted, walk.numbers().waiting), (2, 0));
    /// # Ok(())
    /// # }
    /// ```
    pub fn numbers(&self) -> Numbers {
        self.numbers
    }

    /// The ids that the last call set down: the parents of its commit, or after refusals 10 and 11 those that were read before the bad line.
    ///
    /// ```
    /// # fn main() -> Result<(), Box<dyn std::error::Error>> {
    /// use linenhatch::{store_from_commits, Lister, ObjectId};
    ///
    /// # let body = |parents: &str, seconds: i64| format!("tree {}\n{parents}author A <a> 5 +0000\ncommitter A <a> {seconds} +0000\n\n", "0".repeat(40));
    /// # let [old, new] = [1, 2].map(|n| ObjectId([n; 20]));
    /// # let store = store_from_commits([(old, body("", 5)), (new, body(&format!("parent {old}\n"), 6))])?;
    /// // a store of two commits, `new` with the parent `old`
    /// let mut walk = Lister::new(&store).tips(&[new]).open()?;
    /// walk.next();
    /// assert_eq!(walk.parents().collect::<Vec<_>>(), [old]);
    /// # Ok(())
    /// # }
    /// ```
    pub fn parents(&self) -> impl ExactSizeIterator<Item = ObjectId> + '_ {
        let count = self.answer.numbers[3] as usize;
        self.memory.parents.chunks_exact(self.kind.len_in_bytes()).take(count).map(id_of)
    }

    fn info(&self) -> Info {
        let [.., has_generation, generation, has_time, has_zone] = self.answer.numbers;
        let [time, zone] = self.answer.seconds;
        Info {
            id: id_of(&self.answer.id),
            parents: self.parents().collect(),
            generation: (has_generation != 0).then_some(generation as u32),
            time: (has_time != 0).then_some(time),
            zone: (has_zone != 0).then_some(zone as i32),
        }
    }
}

fn id_of(bytes: &[u8]) -> ObjectId {
    ObjectId::from_bytes(bytes).expect("as many bytes as an id of the walk's kind has")
}

impl Iterator for Walk<'_> {
    type Item = Result<Info, Refusal>;

    fn next(&mut self) -> Option<Result<Info, Refusal>> {
        const COMMIT: u32 = 0;
        const END: u32 = 100;
        if self.ended {
            return None;
        }
        let result = ffi::next(&self.input, &mut self.memory, &mut self.answer);
        let [admitted, struck, waiting, ..] = self.answer.numbers;
        self.numbers = Numbers { admitted, struck, waiting };
        match result {
            COMMIT => Some(Ok(self.info())),
            END => {
                self.ended = true;
                None
            }
            number => {
                let refusal = refusal(number);
                self.ended = refusal == Refusal::Closed;
                Some(Err(refusal))
            }
        }
    }
}

impl FusedIterator for Walk<'_> {}

impl fmt::Debug for Walk<'_> {
    fn fmt(&self, f: &mut fmt::Formatter<'_>) -> fmt::Result {
        f.debug_struct("Walk").field("numbers", &self.numbers).field("ended", &self.ended).finish_non_exhaustive()
    }
}

/// The commits of a tested walk, one after another; [`Lister::list`] makes it.
#[derive(Debug)]
pub struct Infos<'a> {
    walk: Walk<'a>,
}

impl Infos<'_> {
    /// The running numbers, after the opening or the last commit.
    ///
    /// ```
    /// let mut infos = linenhatch::Lister::new(&[0; 8]).list()?; // a store without commits
    /// assert_eq!((infos.next(), infos.numbers().admitted), (None, 0));
    /// # Ok::<(), linenhatch::Refusal>(())
    /// ```
    pub fn numbers(&self) -> Numbers {
        self.walk.numbers()
    }
}

impl Iterator for Infos<'_> {
    type Item = Info;

    fn next(&mut self) -> Option<Info> {
        let answer = self.walk.next()?;
        Some(answer.unwrap_or_else(|refusal| unreachable!("a walk that was opened tested meets no refusal: {refusal}")))
    }
}

impl FusedIterator for Infos<'_> {}

/// The name that [`Info`] had at first.
pub type Commit = Info;

/// One commit that a walk handed out.
#[derive(Clone, Debug, PartialEq, Eq, Hash)]
pub struct Info {
    /// Its name.
    pub id: ObjectId,
    /// Its parents in order; with [`first_parent`](Lister::first_parent) the first alone.
    pub parents: Vec<ObjectId>,
    /// Its generation, if it came from the commit-graph file and no generation of that file is 0 (by which older programs said that they had
    /// computed none; then none is used).
    pub generation: Option<u32>,
    /// The committer time that it was queued with, in seconds since 1970: in the orders by time, but not with
    /// [`first_parent`](Lister::first_parent).
    pub time: Option<i64>,
    /// The zone of its committer line, in minutes ahead of UTC, from -899 to 899: in every order, and with
    /// [`first_parent`](Lister::first_parent) too. None if it came from the commit-graph file, which holds no zones; and where the committer line
    /// has none (a space, a sign, four digits with minutes below 60 and hours at most 14, the line's end), or a line up to it cannot be read.
    ///
    /// ```
    /// # fn main() -> Result<(), Box<dyn std::error::Error>> {
    /// use linenhatch::{store_from_commits, Lister, ObjectId};
    ///
    /// let id = ObjectId([0x11; 20]);
    /// let body = "tree 0000000000000000000000000000000000000000\nauthor A <a> 5 +0000\ncommitter A <a> 5 -0330\n\n";
    /// let store = store_from_commits([(id, body)])?;
    /// let commit = Lister::new(&store).tips(&[id]).open()?.next().expect("a commit")?;
    /// assert_eq!(commit.zone, Some(-210));
    /// # Ok(())
    /// # }
    /// ```
    pub zone: Option<i32>,
}

/// A walk's running numbers. After every call `admitted` = commits handed out + commits refused + `struck` + `waiting`. (A refusal of the
/// first call while it finds out what is hidden strikes all that waits, and counts as no commit refused.)
#[derive(Clone, Copy, Debug, Default, PartialEq, Eq, Hash)]
pub struct Numbers {
    /// The commits that ever waited.
    pub admitted: u64,
    /// Of those, the ones that hiding took away.
    pub struck: u64,
    /// Of those, the ones not handed out yet.
    pub waiting: u64,
}
