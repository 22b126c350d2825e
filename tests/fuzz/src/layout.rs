//! The store's layout (docs/STORE.md), read anew: which state some bytes hold, or that they hold none. Part of the judge:
//! it is not the reader of the differential runs, on purpose, as `verdict` says.

use crate::state::{Entry, State};
use std::collections::VecDeque;
use std::ops::Range;

pub const MOST: u64 = 1024;
pub const HEADER: usize = 128;
pub const SENTINELS: usize = 4;

/// The header's cells that hold something: the limits, then the lists' lengths. The other cells are left open.
pub const CAPACITY: usize = 0;
pub const SMALL_LIMIT: usize = 1;
pub const GHOST_LIMIT: usize = 2;
pub const LENGTHS: usize = 4;

/// The lists by their numbers.
pub const FREE: u8 = 0;
pub const SMALL: u8 = 1;
pub const MAIN: u8 = 2;
pub const GHOSTS: u8 = 3;

/// A field of a node, a column of its own: how many bytes of a node the columns in front of it take, and how many this one.
#[derive(Clone, Copy, Debug, PartialEq, Eq)]
pub struct Field {
    pub before: usize,
    pub width: usize,
}

pub const KEY: Field = Field { before: 0, width: 8 };
pub const VALUE: Field = Field { before: 8, width: 8 };
pub const NEXT: Field = Field { before: 16, width: 2 };
pub const PREV: Field = Field { before: 18, width: 2 };
pub const CHAIN: Field = Field { before: 20, width: 2 };
pub const QUEUE: Field = Field { before: 22, width: 1 };
pub const FREQ: Field = Field { before: 23, width: 1 };
/// All of them take so many bytes of a node.
const NODE: usize = 24;
pub const FIELDS: [Field; 7] = [KEY, VALUE, NEXT, PREV, CHAIN, QUEUE, FREQ];

pub fn header_cell(cell: usize) -> Range<usize> {
    8 * cell..8 * cell + 8
}

pub fn number(bytes: &[u8]) -> u64 {
    bytes.iter().rev().fold(0, |number, byte| number << 8 | u64::from(*byte))
}

/// Where things are in a store of so many nodes.
#[derive(Clone, Copy, Debug)]
pub struct Layout {
    pub nodes: usize,
}

impl Layout {
    pub fn field(self, node: usize, field: Field) -> Range<usize> {
        let start = HEADER + field.before * (self.nodes + SENTINELS) + field.width * node;
        start..start + field.width
    }

    pub fn sentinel(self, list: u8) -> usize {
        self.nodes + usize::from(list)
    }

    pub fn buckets(self) -> usize {
        3 * self.nodes
    }

    pub fn bucket(self, bucket: usize) -> Range<usize> {
        let start = HEADER + NODE * (self.nodes + SENTINELS) + 2 * bucket;
        start..start + 2
    }

    /// The bytes that hold the state; those behind them are neither read nor written.
    pub fn used(self) -> usize {
        self.bucket(self.buckets()).start
    }

    pub fn bucket_of(self, key: u64) -> usize {
        let mixed = ((key >> 32) as u32).wrapping_mul(2_246_822_507).wrapping_add(key as u32);
        let spread = mixed.wrapping_mul(2_654_435_769);
        ((u64::from(spread) * self.buckets() as u64) >> 32) as usize
    }
}

/// A store whose limits are in range, so that its layout is known.
pub struct Read<'a> {
    bytes: &'a [u8],
    pub layout: Layout,
}

impl<'a> Read<'a> {
    /// None where a limit is out of range.
    pub fn new(bytes: &'a [u8]) -> Option<Read<'a>> {
        let limit = |cell| number(&bytes[header_cell(cell)]);
        let (capacity, small_limit, ghost_limit) = (limit(CAPACITY), limit(SMALL_LIMIT), limit(GHOST_LIMIT));
        let in_range = (1..=MOST).contains(&capacity) && small_limit <= capacity && ghost_limit <= MOST;
        in_range.then(|| Read { bytes, layout: Layout { nodes: (capacity + ghost_limit) as usize } })
    }

    pub fn get(&self, node: usize, field: Field) -> u64 {
        number(&self.bytes[self.layout.field(node, field)])
    }

    fn link(&self, node: usize, field: Field) -> usize {
        self.get(node, field) as usize
    }

    /// The nodes of a list, head first; none where its links are not those of a list.
    pub fn list(&self, list: u8) -> Option<Vec<usize>> {
        let sentinel = self.layout.sentinel(list);
        let mut nodes = Vec::new();
        let mut at = sentinel;
        loop {
            let next = self.link(at, NEXT);
            if next != sentinel && (next >= self.layout.nodes || self.get(next, QUEUE) != u64::from(list)) {
                return None;
            }
            if self.link(next, PREV) != at {
                return None;
            }
            if next == sentinel {
                return Some(nodes);
            }
            nodes.push(next);
            if nodes.len() > self.layout.nodes {
                return None;
            }
            at = next;
        }
    }

    /// The nodes of a bucket's chain; none where it goes in a circle, or ends elsewhere than at the number of nodes.
    pub fn chain(&self, bucket: usize) -> Option<Vec<usize>> {
        let mut nodes = Vec::new();
        let mut at = number(&self.bytes[self.layout.bucket(bucket)]) as usize;
        while at < self.layout.nodes {
            if nodes.len() == self.layout.nodes {
                return None;
            }
            nodes.push(at);
            at = self.link(at, CHAIN);
        }
        (at == self.layout.nodes).then_some(nodes)
    }

    /// Whether the chains hold each node of the three lists in its key's bucket, no other node, and their keys rise; and
    /// what ends them, Free's sentinel, leads to itself and is in no list.
    fn index_is_sound(&self, live: usize) -> bool {
        let end = self.layout.sentinel(FREE);
        let mut chained = 0;
        for bucket in 0..self.layout.buckets() {
            let Some(nodes) = self.chain(bucket) else { return false };
            let own = |node: &usize| {
                self.get(*node, QUEUE) != u64::from(FREE) && self.layout.bucket_of(self.get(*node, KEY)) == bucket
            };
            if !nodes.iter().all(own) || !nodes.is_sorted_by(|a, b| self.get(*a, KEY) < self.get(*b, KEY)) {
                return false;
            }
            chained += nodes.len();
        }
        chained == live && self.link(end, CHAIN) == end && self.get(end, QUEUE) == u64::from(FREE)
    }

    fn entry(&self, node: usize) -> Entry {
        Entry { key: self.get(node, KEY), value: self.get(node, VALUE), frequency: self.get(node, FREQ) as u8 }
    }

    fn entries(&self, nodes: &[usize]) -> VecDeque<Entry> {
        nodes.iter().map(|node| self.entry(*node)).collect()
    }

    fn header(&self, cell: usize) -> u64 {
        number(&self.bytes[header_cell(cell)])
    }
}

/// The sound state that a store holds; none where it is damaged.
pub fn state(store: &[u8]) -> Option<State> {
    let read = Read::new(store)?;
    let lists = [read.list(FREE)?, read.list(SMALL)?, read.list(MAIN)?, read.list(GHOSTS)?];
    let lengths = lists.each_ref().map(|list| list.len() as u64);
    if (0..4).any(|list| lengths[list] != read.header(LENGTHS + list)) {
        return None;
    }
    let [free, small, main, ghosts] = lengths;
    let state = State {
        capacity: read.header(CAPACITY),
        small_limit: read.header(SMALL_LIMIT),
        ghost_limit: read.header(GHOST_LIMIT),
        small: read.entries(&lists[usize::from(SMALL)]),
        main: read.entries(&lists[usize::from(MAIN)]),
        ghosts: lists[usize::from(GHOSTS)].iter().map(|node| read.get(*node, KEY)).collect(),
    };
    let sound = free + small + main + ghosts == read.layout.nodes as u64
        && small + main <= state.capacity
        && ghosts <= state.ghost_limit
        && state.small.iter().chain(&state.main).all(|entry| entry.frequency <= 3)
        && read.index_is_sound(read.layout.nodes - free as usize);
    sound.then_some(state)
}
