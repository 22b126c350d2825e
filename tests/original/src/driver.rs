//! The original behind our requests and replies. What left, and after how many pops, is read off its own state and
//! counters: the original's calls tell neither.

use crate::error::ConfigError;
use crate::policy::s3_fifo::{S3FifoCache, observe};
use crate::state::{Entry, State};
use crate::traits::EvictingCache;
use mapcache::{GuestBlock, Pair, PhysicalBlock, Reply, Request, Settings};

pub struct Original {
    cache: S3FifoCache<u64, u64>,
    /// The residents before the request; kept only to save allocations.
    before: Vec<Entry>,
}

/// How far the original's counters moved in one request.
struct Moved {
    pops: u64,
    left_small: u64,
    left_main: u64,
}

impl Original {
    pub fn create(settings: Settings) -> Result<Original, ConfigError> {
        let capacity = usize::try_from(settings.capacity).expect("a capacity fits the machine's words");
        let cache = S3FifoCache::try_with_ratios(capacity, settings.small_ratio, settings.ghost_ratio)?;
        Ok(Original { cache, before: Vec::new() })
    }

    pub fn state(&self) -> State {
        observe::state(&self.cache)
    }

    /// How many inserts so far found their key among the ghosts, by the original's own count.
    pub fn ghost_hits(&self) -> u64 {
        self.cache.metrics().ghost_hits
    }

    /// Runs one request and appends its replies.
    pub fn answer(&mut self, request: Request, replies: &mut Vec<u8>) {
        match request {
            Request::Get(guest) => hit(self.cache.get(&guest.0)).write(replies),
            Request::Peek(guest) => hit(self.cache.peek(&guest.0)).write(replies),
            Request::Remove(guest) => match self.cache.remove(&guest.0) {
                Some(value) => Reply::Gone(PhysicalBlock(value)).write(replies),
                None => Reply::Nothing.write(replies),
            },
            Request::Insert(guest, physical) => self.insert(guest.0, physical.0, replies),
            Request::Evict => self.evict_one(replies),
            Request::Clear => {
                self.cache.clear();
                Reply::Done.write(replies);
            },
            request => panic!("{request} is no request of the original's"),
        }
    }

    fn insert(&mut self, key: u64, value: u64, replies: &mut Vec<u8>) {
        let (old, moved) = self.watched(|cache| cache.insert(key, value));
        self.report_left(None, &moved, replies);
        match old {
            Some(value) => Reply::Replaced(PhysicalBlock(value)).write(replies),
            None => Reply::New { pops: moved.pops }.write(replies),
        }
    }

    /// On a full cache the original pushes one pair out without a word, and hands another back, or none.
    fn evict_one(&mut self, replies: &mut Vec<u8>) {
        let (handed, moved) = self.watched(|cache| cache.evict_one());
        self.report_left(handed, &moved, replies);
        match handed {
            Some((key, value)) => Reply::HandedBack(pair(key, value)).write(replies),
            None => Reply::Nothing.write(replies),
        }
    }

    /// Does something to the cache, keeping the residents before it and answering how its counters moved.
    fn watched<T>(&mut self, work: impl FnOnce(&mut S3FifoCache<u64, u64>) -> T) -> (T, Moved) {
        self.before.clear();
        self.before.extend(observe::residents(&self.cache));
        let before = *self.cache.metrics();
        let done = work(&mut self.cache);
        let after = self.cache.metrics();
        let moved = Moved {
            pops: after.promotions + after.main_reinserts + after.evicted_entries
                - (before.promotions + before.main_reinserts + before.evicted_entries),
            left_small: after.small_evictions - before.small_evictions,
            left_main: after.main_evictions - before.main_evictions,
        };
        (done, moved)
    }

    /// Writes a report of the pair that was resident before and is not now, other than the one handed back.
    fn report_left(&self, handed: Option<(u64, u64)>, moved: &Moved, replies: &mut Vec<u8>) {
        let mut left = self.before.iter().filter(|e| !self.cache.contains(&e.key) && handed != Some((e.key, e.value)));
        let first = left.next();
        assert!(left.next().is_none(), "the original pushed two pairs out in one request");
        match (first, moved.left_small, moved.left_main) {
            (None, 0, 0) => {},
            (Some(e), 1, 0) => Reply::LeftSmall(pair(e.key, e.value)).write(replies),
            (Some(e), 0, 1) => Reply::LeftMain(pair(e.key, e.value)).write(replies),
            (left, small, main) => panic!("the original lost {left:?} and counts {small} from Small, {main} from Main"),
        }
    }
}

fn hit(value: Option<&u64>) -> Reply {
    match value {
        Some(value) => Reply::Hit(PhysicalBlock(*value)),
        None => Reply::Nothing,
    }
}

fn pair(key: u64, value: u64) -> Pair {
    Pair { guest: GuestBlock(key), physical: PhysicalBlock(value) }
}
