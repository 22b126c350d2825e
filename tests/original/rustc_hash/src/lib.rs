//! Stands for the crate `rustc_hash`, which the original's files use and do not include: the two names that they import.
//! The arithmetic is that of rustc_hash 2 (one addition and one multiplication to a number, one rotation at the end), so
//! that the original is timed with the hash it was written for. Answers never depend on it: hash order is not seen from outside.

use std::collections::HashMap;
use std::hash::{BuildHasher, Hasher};

pub type FxHashMap<K, V> = HashMap<K, V, FxBuildHasher>;

#[derive(Clone, Copy, Default)]
pub struct FxBuildHasher;

impl BuildHasher for FxBuildHasher {
    type Hasher = FxHasher;

    #[inline]
    fn build_hasher(&self) -> FxHasher {
        FxHasher { hash: 0 }
    }
}

pub struct FxHasher {
    hash: u64,
}

impl FxHasher {
    const FACTOR: u64 = 0xf135_7aea_2e62_a9c5;
    const ROTATION: u32 = 26;
}

impl Hasher for FxHasher {
    #[inline]
    fn write_u64(&mut self, number: u64) {
        self.hash = self.hash.wrapping_add(number).wrapping_mul(Self::FACTOR);
    }

    fn write(&mut self, bytes: &[u8]) {
        for byte in bytes {
            self.write_u64(u64::from(*byte));
        }
    }

    #[inline]
    fn finish(&self) -> u64 {
        self.hash.rotate_left(Self::ROTATION)
    }
}
