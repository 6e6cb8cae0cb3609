//! The commits that painting has met, each read whole when it is first met.
use gix_commitgraph::Graph as Cache;
use gix_date::SecondsSinceUnixEpoch;
use gix_error::{Cause, Result};
use gix_hash::{ObjectId, oid};
use gix_object::{Find, FindExt, commit::ref_iter::Token};
use smallvec::SmallVec;

pub type Generation = u32;
pub type IdMap<T> = gix_hashtable::HashMap<ObjectId, T>;

pub struct Commit<T> {
    pub parents: SmallVec<[ObjectId; 1]>,
    pub commit_time: SecondsSinceUnixEpoch,
    pub generation: Option<Generation>,
    pub data: T,
}

pub struct Graph<'find, 'cache, T> {
    find: Box<dyn Find + 'find>,
    cache: Option<&'cache Cache>,
    map: IdMap<T>,
    buf: Vec<u8>,
}

impl<'find, 'cache, T> Graph<'find, 'cache, T> {
    pub fn new(objects: impl Find + 'find, cache: Option<&'cache Cache>) -> Self {
        Graph { find: Box::new(objects), cache, map: IdMap::default(), buf: Vec::new() }
    }

    pub fn get(&self, id: &oid) -> Option<&T> {
        self.map.get(id)
    }

    pub fn get_mut(&mut self, id: &oid) -> Option<&mut T> {
        self.map.get_mut(id)
    }

    pub fn detach(self) -> IdMap<T> {
        self.map
    }
}

impl<T: Default> Graph<'_, '_, Commit<T>> {
    /// "the first that is absent (9), unreadable (10) or crowded (11), or a corrupt list (here 10), ends painting"
    pub fn get_or_insert_full_commit(&mut self, id: ObjectId, update: impl FnOnce(&mut Commit<T>)) -> Result {
        if let Some(commit) = self.map.get_mut(&id) {
            update(commit);
            return Ok(());
        }
        let mut commit = self.read(&id)?;
        update(&mut commit);
        self.map.insert(id, commit);
        Ok(())
    }

    /// "the graph comes before the book"
    fn read(&mut self, id: &oid) -> Result<Commit<T>> {
        let mut parents = SmallVec::default();
        if let Some((cache, row)) = self.cache.and_then(|cache| cache.commit_by_id(id).map(|row| (cache, row))) {
            for parent in row.iter_parents() {
                let position = parent.map_err(|_| Cause::Corrupt)?;
                parents.push(cache.commit_at(position).id().to_owned());
            }
            let commit_time = row.committer_timestamp() as SecondsSinceUnixEpoch;
            return Ok(Commit { parents, commit_time, generation: Some(row.generation()), data: T::default() });
        }
        let mut commit_time = None;
        for token in self.find.find_commit_iter(id, &mut self.buf)? {
            match token? {
                Token::Parent { id } => parents.push(id),
                Token::Committer { signature } => commit_time = Some(signature.seconds()),
                Token::Tree { .. } | Token::Author => {}
            }
        }
        let commit_time = commit_time.ok_or(Cause::Corrupt)?;
        Ok(Commit { parents, commit_time, generation: None, data: T::default() })
    }
}
