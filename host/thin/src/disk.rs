//! The guests' disks, and the file that maps their blocks.

use mapcache::{GuestBlock, PhysicalBlock};
use std::fs::{File, OpenOptions};
use std::io;
use std::os::unix::fs::FileExt;
use std::path::{Path, PathBuf};

/// So many guests, each with a disk of so many blocks.
#[derive(Clone, Copy, Debug)]
pub struct Disks {
    pub guests: u64,
    pub blocks: u64,
}

impl Disks {
    /// A guest's block as the cache's key: the guest in the upper half, the block in the lower.
    pub fn block(guest: u64, block: u64) -> GuestBlock {
        GuestBlock(guest << 32 | block)
    }

    pub fn guest_of(block: GuestBlock) -> u64 {
        block.0 >> 32
    }

    pub fn all(self) -> impl Iterator<Item = GuestBlock> {
        (0..self.guests).flat_map(move |guest| (0..self.blocks).map(move |block| Disks::block(guest, block)))
    }

    pub fn size(self) -> u64 {
        self.guests * self.blocks
    }

    fn index(self, block: GuestBlock) -> u64 {
        Disks::guest_of(block) * self.blocks + (block.0 & 0xffff_ffff)
    }
}

/// "guest 1's block 5"
pub fn name(block: GuestBlock) -> String {
    format!("guest {}'s block {}", Disks::guest_of(block), block.0 & 0xffff_ffff)
}

/// The map: 8 bytes for each guest block, which are all ones where it has no physical block.
pub struct MapFile {
    file: File,
    path: PathBuf,
    disks: Disks,
}

const NONE: u64 = u64::MAX;

impl MapFile {
    /// A map of disks that nothing was written to.
    pub fn create(path: &Path, disks: Disks) -> io::Result<MapFile> {
        let file = OpenOptions::new().read(true).write(true).create(true).truncate(false).open(path)?;
        file.set_len(disks.size() * 8)?;
        file.write_all_at(&vec![0xff; disks.size() as usize * 8], 0)?;
        Ok(MapFile { file, path: path.to_owned(), disks })
    }

    /// The same map, read from the file anew.
    pub fn reopen(self) -> io::Result<MapFile> {
        let MapFile { file, path, disks } = self;
        drop(file);
        let file = OpenOptions::new().read(true).write(true).open(&path)?;
        Ok(MapFile { file, path, disks })
    }

    pub fn get(&self, guest: GuestBlock) -> io::Result<Option<PhysicalBlock>> {
        let mut cell = [0; 8];
        self.file.read_exact_at(&mut cell, 8 * self.disks.index(guest))?;
        Ok(physical(cell))
    }

    pub fn set(&self, guest: GuestBlock, physical: Option<PhysicalBlock>) -> io::Result<()> {
        let cell = physical.map_or(NONE, |physical| physical.0);
        self.file.write_all_at(&cell.to_le_bytes(), 8 * self.disks.index(guest))
    }

    /// All physical blocks that the map names.
    pub fn physical_blocks(&self) -> io::Result<Vec<PhysicalBlock>> {
        let mut cells = vec![0; self.disks.size() as usize * 8];
        self.file.read_exact_at(&mut cells, 0)?;
        let (cells, _) = cells.as_chunks::<8>();
        Ok(cells.iter().filter_map(|cell| physical(*cell)).collect())
    }
}

fn physical(cell: [u8; 8]) -> Option<PhysicalBlock> {
    let number = u64::from_le_bytes(cell);
    (number != NONE).then_some(PhysicalBlock(number))
}
