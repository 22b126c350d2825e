//! Reads the state off a store's bytes, by the layout of docs/STORE.md.

use original::state::{Entry, State};

const HEADER: usize = 128;
const NODE: usize = 24;
const SENTINELS: usize = 4;
/// Three bucket heads to a node, of 2 bytes each.
const HEADS: usize = 6;

#[derive(Clone, Copy)]
enum List {
    Small = 1,
    Main = 2,
    Ghosts = 3,
}

struct Nodes<'a> {
    store: &'a [u8],
    count: usize,
}

/// The bytes that a cache with these limits uses; those behind them belong to nobody.
pub fn used_bytes(capacity: u64, ghost_limit: u64) -> usize {
    let nodes = (capacity + ghost_limit) as usize;
    HEADER + NODE * (nodes + SENTINELS) + HEADS * nodes
}

pub fn read(store: &[u8]) -> Result<State, String> {
    let header = |cell: usize| number(store, 8 * cell);
    let (capacity, small_limit, ghost_limit) = (header(0), header(1), header(2));
    if capacity.max(ghost_limit) > 1024 || used_bytes(capacity, ghost_limit) > store.len() {
        return Err(format!("the header's limits are too large: capacity {capacity}, ghosts {ghost_limit}"));
    }
    let nodes = Nodes { store, count: (capacity + ghost_limit) as usize };
    let entries = |list: List| -> Result<Vec<Entry>, String> {
        Ok(nodes.list(list, header(4 + list as usize))?.into_iter().map(|node| nodes.entry(node)).collect())
    };
    Ok(State {
        capacity,
        small_limit,
        ghost_limit,
        small: entries(List::Small)?,
        main: entries(List::Main)?,
        ghosts: entries(List::Ghosts)?.into_iter().map(|entry| entry.key).collect(),
    })
}

impl Nodes<'_> {
    /// The nodes of a list, head first: a circle through its sentinel, linked both ways, of the length in the header.
    fn list(&self, list: List, length: u64) -> Result<Vec<usize>, String> {
        let tag = list as usize;
        let sentinel = self.count + tag;
        let mut found = Vec::new();
        let mut at = sentinel;
        loop {
            let next = self.next(at);
            if next != sentinel && next >= self.count {
                return Err(format!("list {tag}: node {at} is followed by {next}, which is no node"));
            }
            if self.previous(next) != at {
                return Err(format!(
                    "list {tag}: node {next} follows {at}, and its own link says {}",
                    self.previous(next)
                ));
            }
            if next == sentinel {
                break;
            }
            if self.queue(next) != tag {
                return Err(format!("list {tag}: node {next} says that it is in list {}", self.queue(next)));
            }
            found.push(next);
            at = next;
        }
        match found.len() as u64 == length {
            true => Ok(found),
            false => Err(format!("list {tag} has {} nodes, and the header says {length}", found.len())),
        }
    }

    fn entry(&self, node: usize) -> Entry {
        let [key, value] = [0, 8].map(|before| number(self.store, self.at(before, 8, node)));
        Entry { key, value, frequency: self.store[self.at(23, 1, node)] }
    }

    fn next(&self, node: usize) -> usize {
        link(self.store, self.at(16, 2, node))
    }

    fn previous(&self, node: usize) -> usize {
        link(self.store, self.at(18, 2, node))
    }

    fn queue(&self, node: usize) -> usize {
        usize::from(self.store[self.at(22, 1, node)])
    }

    /// A node's cell in the column of this width, behind columns of so many bytes to a node.
    fn at(&self, before: usize, width: usize, node: usize) -> usize {
        HEADER + before * (self.count + SENTINELS) + width * node
    }
}

fn number(store: &[u8], at: usize) -> u64 {
    u64::from_le_bytes(store[at..at + 8].try_into().expect("8 bytes"))
}

fn link(store: &[u8], at: usize) -> usize {
    usize::from(u16::from_le_bytes([store[at], store[at + 1]]))
}
