//! Reads the original's private state. Compiled as a child module of s3_fifo.rs, which is what lets it see the fields.
#![warn(clippy::all)]

use super::{QueueKind, S3FifoCache};
use crate::ds::SlotId;
use crate::state::{Entry, State};
use std::sync::atomic::Ordering;

type Cache = S3FifoCache<u64, u64>;

/// The whole state: limits, both queues head first, ghosts newest first.
pub fn state(cache: &Cache) -> State {
    State {
        capacity: cache.capacity as u64,
        small_limit: cache.small_cap as u64,
        ghost_limit: cache.ghost.capacity() as u64,
        small: queue(cache, QueueKind::Small).collect(),
        main: queue(cache, QueueKind::Main).collect(),
        ghosts: cache.ghost.iter().copied().collect(),
    }
}

/// The residents of both queues, Small's first.
pub fn residents(cache: &Cache) -> impl Iterator<Item = Entry> {
    queue(cache, QueueKind::Small).chain(queue(cache, QueueKind::Main))
}

fn queue(cache: &Cache, kind: QueueKind) -> impl Iterator<Item = Entry> {
    let head = match kind {
        QueueKind::Small => cache.small_head,
        QueueKind::Main => cache.main_head,
    };
    std::iter::successors(head, |id| node(cache, *id).next).map(|id| {
        let node = node(cache, id);
        Entry { key: node.key, value: node.value, frequency: node.freq.load(Ordering::Relaxed) }
    })
}

fn node(cache: &Cache, id: SlotId) -> &super::Node<u64, u64> {
    cache.arena.get(id).expect("a linked slot is in use")
}
