//! The two kinds of block number, and pairs of them.

use std::fmt;

/// The number of a guest's block: the cache's key.
#[derive(Clone, Copy, Debug, PartialEq, Eq, Hash, PartialOrd, Ord)]
pub struct GuestBlock(pub u64);

/// The number of a physical block: the cache's value.
#[derive(Clone, Copy, Debug, PartialEq, Eq, Hash, PartialOrd, Ord)]
pub struct PhysicalBlock(pub u64);

/// Where a guest's block is.
#[derive(Clone, Copy, Debug, PartialEq, Eq, Hash)]
pub struct Pair {
    /// The guest's block,
    pub guest: GuestBlock,
    /// and the physical block that holds it.
    pub physical: PhysicalBlock,
}

/// One of the two queues of residents.
#[derive(Clone, Copy, Debug, PartialEq, Eq, Hash)]
pub enum Queue {
    /// Where new pairs go.
    Small,
    /// Where pairs go that were asked for again.
    Main,
}

/// A pair that the eviction rule pushed out of the cache, and the queue that it left.
#[derive(Clone, Copy, Debug, PartialEq, Eq, Hash)]
#[must_use = "this pair is in the cache no more: whoever keeps the map writes it down"]
pub struct Left {
    /// The pair,
    pub pair: Pair,
    /// and the queue that it was in.
    pub from: Queue,
}

impl fmt::Display for GuestBlock {
    fn fmt(&self, f: &mut fmt::Formatter<'_>) -> fmt::Result {
        write!(f, "guest block {}", self.0)
    }
}

impl fmt::Display for PhysicalBlock {
    fn fmt(&self, f: &mut fmt::Formatter<'_>) -> fmt::Result {
        write!(f, "physical block {}", self.0)
    }
}

impl fmt::Display for Pair {
    fn fmt(&self, f: &mut fmt::Formatter<'_>) -> fmt::Result {
        write!(f, "{} in {}", self.guest, self.physical)
    }
}
