//! What the host wants of a cache, and the mapping cache that gives it. The trait is there so that another cache can be
//! put in its place: tests/thin does so with the original.

use crate::Result;
use mapcache::{Answer, Cache, GuestBlock, Pair, PhysicalBlock, Request, Settings, in_calls};

pub trait BlockCache {
    fn make(settings: Settings) -> Result<Self>
    where
        Self: Sized;

    fn get(&mut self, guest: GuestBlock) -> Result<Option<PhysicalBlock>>;

    fn remove(&mut self, guest: GuestBlock) -> Result<Option<PhysicalBlock>>;

    /// Puts the pair in, and answers the pair that left, as far as the cache says so.
    fn insert(&mut self, guest: GuestBlock, physical: PhysicalBlock) -> Result<Option<Pair>>;

    /// Makes room for a pair, and answers the pairs that left, as far as the cache says so.
    fn evict_one(&mut self) -> Result<Vec<Pair>>;

    /// Those of the guest blocks that are resident, each with its physical block.
    fn residents(&mut self, among: &[GuestBlock]) -> Result<Vec<Pair>>;
}

impl BlockCache for Cache<Box<[u8]>> {
    fn make(settings: Settings) -> Result<Self> {
        Ok(Cache::new(settings)?)
    }

    fn get(&mut self, guest: GuestBlock) -> Result<Option<PhysicalBlock>> {
        Ok(Cache::get(self, guest)?)
    }

    fn remove(&mut self, guest: GuestBlock) -> Result<Option<PhysicalBlock>> {
        Ok(Cache::remove(self, guest)?)
    }

    fn insert(&mut self, guest: GuestBlock, physical: PhysicalBlock) -> Result<Option<Pair>> {
        Ok(Cache::insert(self, guest, physical)?.left().map(|left| left.pair))
    }

    fn evict_one(&mut self) -> Result<Vec<Pair>> {
        Ok(Cache::evict_one(self)?.pairs().collect())
    }

    fn residents(&mut self, among: &[GuestBlock]) -> Result<Vec<Pair>> {
        let requests: Vec<Request> = among.iter().map(|guest| Request::Peek(*guest)).collect();
        let mut answers = Vec::new();
        for call in in_calls(&requests) {
            answers.extend(self.run(call)?);
        }
        let pairs = among.iter().zip(answers).filter_map(|(guest, answer)| match answer {
            Answer::Found(Some(physical)) => Some(Pair { guest: *guest, physical }),
            _ => None,
        });
        Ok(pairs.collect())
    }
}
