//! The original as the host's cache: it never says which pair an insert pushed out, and `evict_one` names one of two.

use mapcache::{GuestBlock, Pair, PhysicalBlock, Settings};
use original::policy::s3_fifo::S3FifoCache;
use original::traits::EvictingCache;
use thin::{BlockCache, Result};

pub struct Original(S3FifoCache<u64, u64>);

impl BlockCache for Original {
    fn make(settings: Settings) -> Result<Self> {
        let Settings { capacity, small_ratio, ghost_ratio } = settings;
        let cache = S3FifoCache::try_with_ratios(capacity as usize, small_ratio, ghost_ratio);
        Ok(Original(cache.map_err(|error| error.to_string())?))
    }

    fn get(&mut self, guest: GuestBlock) -> Result<Option<PhysicalBlock>> {
        Ok(self.0.get(&guest.0).copied().map(PhysicalBlock))
    }

    fn remove(&mut self, guest: GuestBlock) -> Result<Option<PhysicalBlock>> {
        Ok(self.0.remove(&guest.0).map(PhysicalBlock))
    }

    fn insert(&mut self, guest: GuestBlock, physical: PhysicalBlock) -> Result<Option<Pair>> {
        self.0.insert(guest.0, physical.0);
        Ok(None)
    }

    fn evict_one(&mut self) -> Result<Vec<Pair>> {
        let handed_back = EvictingCache::evict_one(&mut self.0);
        let pair =
            handed_back.map(|(guest, physical)| Pair { guest: GuestBlock(guest), physical: PhysicalBlock(physical) });
        Ok(pair.into_iter().collect())
    }

    fn residents(&mut self, among: &[GuestBlock]) -> Result<Vec<Pair>> {
        let resident = |guest: &GuestBlock| {
            self.0.peek(&guest.0).map(|physical| Pair { guest: *guest, physical: PhysicalBlock(*physical) })
        };
        Ok(among.iter().filter_map(resident).collect())
    }
}
