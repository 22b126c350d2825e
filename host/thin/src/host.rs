//! The thin provisioning layer: a guest's block gets a physical block when it is first written.
//!
//! The map from guest blocks to physical blocks is in a file, with a cache before it. An insert into the cache is not
//! written through: a pair reaches the file when it leaves the cache. So between the two there is nothing that knows a
//! pair but the cache, and a cache that drops one without a word loses it: the next sweep finds its physical block
//! neither in the map nor resident, takes it for free, and gives it to another guest.

use crate::Result;
use crate::block_cache::BlockCache;
use crate::disk::{Disks, MapFile};
use mapcache::{GuestBlock, Pair, PhysicalBlock, Settings};
use std::collections::BTreeSet;
use std::path::Path;

pub struct Host<C> {
    cache: C,
    map: MapFile,
    free: BTreeSet<PhysicalBlock>,
    settings: Settings,
    disks: Disks,
    physical_blocks: u64,
    /// Pairs written to the map as they left the cache.
    pub pairs_written: u64,
}

/// How a planned restart empties the cache.
#[derive(Clone, Copy, Debug, PartialEq, Eq)]
pub enum Emptying {
    ByRemoving,
    ByEvicting,
}

impl<C: BlockCache> Host<C> {
    pub fn start(settings: Settings, disks: Disks, physical_blocks: u64, map: &Path) -> Result<Host<C>> {
        Ok(Host {
            cache: C::make(settings)?,
            map: MapFile::create(map, disks)?,
            free: (0..physical_blocks).map(PhysicalBlock).collect(),
            settings,
            disks,
            physical_blocks,
            pairs_written: 0,
        })
    }

    /// Where the guest's block is; none where it was never written.
    pub fn read(&mut self, guest: GuestBlock) -> Result<Option<PhysicalBlock>> {
        if let Some(physical) = self.cache.get(guest)? {
            return Ok(Some(physical));
        }
        let in_map = self.map.get(guest)?;
        if let Some(physical) = in_map {
            self.insert(guest, physical)?;
        }
        Ok(in_map)
    }

    /// Where the guest's block is to be written: a physical block of its own is given out the first time.
    /// None where no physical block is free.
    pub fn write(&mut self, guest: GuestBlock) -> Result<Option<PhysicalBlock>> {
        match self.read(guest)? {
            Some(physical) => Ok(Some(physical)),
            None => self.give_out(guest),
        }
    }

    /// Gives the guest's block a new physical block, as a write to a block that a snapshot shares does.
    pub fn give_out(&mut self, guest: GuestBlock) -> Result<Option<PhysicalBlock>> {
        if self.free.is_empty() {
            self.sweep()?;
        }
        let given = self.free.pop_first();
        if let Some(physical) = given {
            self.insert(guest, physical)?;
        }
        Ok(given)
    }

    /// The guest needs the block no more. Its physical block is found free by the next sweep.
    pub fn trim(&mut self, guest: GuestBlock) -> Result<()> {
        self.cache.remove(guest)?;
        Ok(self.map.set(guest, None)?)
    }

    /// Finds what is free: the physical blocks that are neither in the map nor resident.
    pub fn sweep(&mut self) -> Result<()> {
        let in_map = self.map.physical_blocks()?;
        let resident = self.residents()?;
        self.free = (0..self.physical_blocks).map(PhysicalBlock).collect();
        for used in in_map.into_iter().chain(resident.into_iter().map(|pair| pair.physical)) {
            self.free.remove(&used);
        }
        Ok(())
    }

    /// How many physical blocks may be given out before the next sweep.
    pub fn free(&self) -> usize {
        self.free.len()
    }

    /// Writes one pair or two to the map ahead of need.
    pub fn evict_one(&mut self) -> Result<()> {
        let left = self.cache.evict_one()?;
        self.write_down(left)
    }

    /// A planned restart: every pair is taken out of the cache and written, and the host starts from the file alone.
    pub fn restart(mut self, emptying: Emptying) -> Result<Host<C>> {
        match emptying {
            Emptying::ByRemoving => {
                for Pair { guest, .. } in self.residents()? {
                    let physical = self.cache.remove(guest)?;
                    self.write_down(physical.map(|physical| Pair { guest, physical }))?;
                }
            },
            Emptying::ByEvicting => {
                while !self.residents()?.is_empty() {
                    self.evict_one()?;
                }
            },
        }
        let mut again = Host { cache: C::make(self.settings)?, map: self.map.reopen()?, free: BTreeSet::new(), ..self };
        again.sweep()?;
        Ok(again)
    }

    fn insert(&mut self, guest: GuestBlock, physical: PhysicalBlock) -> Result<()> {
        let left = self.cache.insert(guest, physical)?;
        self.write_down(left)
    }

    fn write_down(&mut self, left: impl IntoIterator<Item = Pair>) -> Result<()> {
        for pair in left {
            self.map.set(pair.guest, Some(pair.physical))?;
            self.pairs_written += 1;
        }
        Ok(())
    }

    fn residents(&mut self) -> Result<Vec<Pair>> {
        let all: Vec<GuestBlock> = self.disks.all().collect();
        self.cache.residents(&all)
    }
}
