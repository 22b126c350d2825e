//! The cache with typed requests and answers.

use crate::answer::{Answer, Evicted, Inserted, Replies, strange};
use crate::blocks::{GuestBlock, PhysicalBlock};
use crate::call::{self, CARRY_BYTES, Fed, MOST_REQUEST_BYTES, Settings};
use crate::refusal::Refusal;
use crate::request::Request;

/// A cache in a store `S`: a lent `&mut [u8]`, a `Vec<u8>`, a `Box<[u8]>`, or anything else that gives bytes.
///
/// Each request is a call of its own here, and each call checks the whole store first; [`run`](Cache::run) takes many
/// requests to one call, which is what a host with many requests wants.
///
/// A store that only this cache changes is never refused: [`Refusal`] of a request then means that something else
/// wrote to the store's memory.
#[derive(Debug)]
pub struct Cache<S> {
    store: S,
    requests: Vec<u8>,
    replies: Vec<u8>,
}

impl Cache<Box<[u8]>> {
    /// An empty cache in a store of its own.
    pub fn new(settings: Settings) -> Result<Self, Refusal> {
        Cache::create(settings, vec![0; call::store_bytes()].into_boxed_slice())
    }
}

impl<S: AsMut<[u8]>> Cache<S> {
    /// Makes the store an empty cache, whatever it held before.
    pub fn create(settings: Settings, mut store: S) -> Result<Self, Refusal> {
        call::create(settings, store.as_mut())?;
        Ok(Cache::over(store))
    }

    /// The cache that the store holds, as an earlier one left it.
    pub fn open(mut store: S) -> Result<Self, Refusal> {
        call::run(store.as_mut(), &[], &mut [])?;
        Ok(Cache::over(store))
    }

    fn over(store: S) -> Self {
        Cache { store, requests: Vec::new(), replies: Vec::new() }
    }

    /// The store, with the cache in it.
    #[must_use]
    pub fn into_store(self) -> S {
        self.store
    }

    /// Where the block is, if it is resident; the pair becomes warmer.
    pub fn get(&mut self, guest: GuestBlock) -> Result<Option<PhysicalBlock>, Refusal> {
        match self.one(Request::Get(guest))? {
            Answer::Found(physical) => Ok(physical),
            _ => strange(),
        }
    }

    /// Where the block is, if it is resident; nothing changes.
    pub fn peek(&mut self, guest: GuestBlock) -> Result<Option<PhysicalBlock>, Refusal> {
        match self.one(Request::Peek(guest))? {
            Answer::Found(physical) => Ok(physical),
            _ => strange(),
        }
    }

    /// Takes the pair out, and answers where the block was, if it was resident.
    pub fn remove(&mut self, guest: GuestBlock) -> Result<Option<PhysicalBlock>, Refusal> {
        match self.one(Request::Remove(guest))? {
            Answer::TakenOut(physical) => Ok(physical),
            _ => strange(),
        }
    }

    /// Puts the pair in, and answers what it replaced or which pair had to leave for it.
    pub fn insert(&mut self, guest: GuestBlock, physical: PhysicalBlock) -> Result<Inserted, Refusal> {
        match self.one(Request::Insert(guest, physical))? {
            Answer::Inserted(inserted) => Ok(inserted),
            _ => strange(),
        }
    }

    /// Hands back one pair; on a full cache the eviction rule pushes one out before that.
    pub fn evict_one(&mut self) -> Result<Evicted, Refusal> {
        match self.one(Request::Evict)? {
            Answer::Evicted(evicted) => Ok(evicted),
            _ => strange(),
        }
    }

    /// Empties the cache. The pairs in it are not named: take them out first if the map needs them.
    pub fn clear(&mut self) -> Result<(), Refusal> {
        self.one(Request::Clear).map(|_| ())
    }

    /// Runs the requests in one call: all of them or, where the call is refused, none.
    pub fn run(&mut self, requests: &[Request]) -> Result<Vec<Answer>, Refusal> {
        let replies = self.call(requests)?;
        let mut read = Replies::new(replies);
        let answers = requests.iter().map(|request| read.answer(*request)).collect();
        if !read.is_empty() {
            strange()
        }
        Ok(answers)
    }

    fn one(&mut self, request: Request) -> Result<Answer, Refusal> {
        let replies = self.call(&[request])?;
        Ok(Replies::new(replies).answer(request))
    }

    /// The reply bytes of a call with these requests. The buffer for them is as long as they may need.
    fn call(&mut self, requests: &[Request]) -> Result<&[u8], Refusal> {
        self.requests.clear();
        requests.iter().for_each(|request| request.write(&mut self.requests));
        let room = requests.iter().map(Request::reply_room).sum();
        if self.replies.len() < room {
            self.replies.resize(room, 0);
        }
        let written = call::run(self.store.as_mut(), &self.requests, &mut self.replies)?;
        Ok(&self.replies[..written])
    }

    /// What a feed of this piece answers, and its reply bytes. The buffer for them is as long as they may need.
    pub(crate) fn feed(&mut self, carry: &mut [u8; CARRY_BYTES], piece: &[u8]) -> (Fed, &[u8]) {
        let room = call::feed_room(piece.len());
        if self.replies.len() < room {
            self.replies.resize(room, 0);
        }
        let fed = call::feed(self.store.as_mut(), carry, piece, &mut self.replies);
        (fed, &self.replies[..fed.replied])
    }
}

/// Cuts requests into runs that one call takes each.
pub fn in_calls(requests: &[Request]) -> impl Iterator<Item = &[Request]> {
    let mut rest = requests;
    std::iter::from_fn(move || {
        let mut bytes = 0;
        let fit = rest.iter().take_while(|request| {
            bytes += request.bytes();
            bytes <= MOST_REQUEST_BYTES
        });
        let (run, more) = rest.split_at(fit.count());
        rest = more;
        (!run.is_empty()).then_some(run)
    })
}
