//! Every kind of damage that a store can take.

use crate::edit::Edit;
use crate::layout::{
    CAPACITY, CHAIN, FIELDS, FREE, FREQ, Field, GHOST_LIMIT, GHOSTS, HEADER, KEY, LENGTHS, Layout, NEXT, PREV, QUEUE,
    Read, SENTINELS, SMALL_LIMIT, VALUE, header_cell,
};
use common::Random;

#[derive(Clone, Copy, Debug, PartialEq, Eq, Hash, PartialOrd, Ord)]
pub enum Damage {
    /// One byte of the used part gets another value.
    Byte,
    /// One bit of the used part turns.
    Bit,
    /// A limit gets another value, in range or not.
    Limit,
    /// A list's length gets another value.
    Length,
    /// A next, prev or chain link, or a bucket's head, leads elsewhere.
    Link,
    /// A node is tagged with another list.
    Tag,
    /// A node's frequency gets another value.
    Frequency,
    /// A node gets another node's key.
    CopiedKey,
    /// Two nodes swap the values of one field.
    SwappedField,
    /// Two nodes swap places, with all they hold.
    SwappedNodes,
    /// Two buckets swap their chains.
    SwappedBuckets,
    /// Two neighbours of a chain change places: all of its nodes are there, and their keys do not rise.
    SwappedInChain,
    /// A node is in no list, all of which are whole.
    LostNode,
    /// One or two nodes are in another list, all of which are whole; the index is as it was.
    MovedNodes,
    /// The capacity is less and the ghost limit more, or the other way about, and the number of nodes the same.
    TradedLimits,
    /// A run of bytes moves by some places.
    Shifted,
    /// The first part of this store, the rest of an earlier one.
    Spliced,
    /// Everything behind the header is random.
    RandomBody,
    /// Every byte is random.
    WholeRandom,
    /// Every byte is 0.
    Zeros,
    /// Every byte is 255.
    Ones,
    /// Only bytes that the layout leaves open: this is no damage, and must be accepted.
    OpenBytes,
}

pub const KINDS: [Damage; 22] = [
    Damage::Byte,
    Damage::Bit,
    Damage::Limit,
    Damage::Length,
    Damage::Link,
    Damage::Tag,
    Damage::Frequency,
    Damage::CopiedKey,
    Damage::SwappedField,
    Damage::SwappedNodes,
    Damage::SwappedBuckets,
    Damage::SwappedInChain,
    Damage::LostNode,
    Damage::MovedNodes,
    Damage::TradedLimits,
    Damage::Shifted,
    Damage::Spliced,
    Damage::RandomBody,
    Damage::WholeRandom,
    Damage::Zeros,
    Damage::Ones,
    Damage::OpenBytes,
];

/// Damages a sound store. `other` is another sound store.
pub fn inflict(kind: Damage, store: &mut [u8], other: &[u8], random: &mut Random) {
    let layout = Read::new(store).expect("the store is sound").layout;
    match kind {
        Damage::Byte => store[random.index(layout.used())] = random.byte(),
        Damage::Bit => store[random.index(layout.used())] ^= 1 << random.below(8),
        Damage::Limit => set_header(store, random.pick(&[CAPACITY, SMALL_LIMIT, GHOST_LIMIT]), random),
        Damage::Length => set_header(store, LENGTHS + random.index(4), random),
        Damage::Link => lead_elsewhere(store, layout, random),
        Damage::Tag => store[layout.field(random.index(layout.nodes + 1), QUEUE).start] = random.below(6) as u8,
        Damage::Frequency => store[layout.field(random.index(layout.nodes), FREQ).start] = random.below(9) as u8,
        Damage::CopiedKey => copy_key(store, layout, random),
        Damage::SwappedField => swap_fields(store, layout, random),
        Damage::SwappedNodes => {
            let (a, b) = (random.index(layout.nodes + SENTINELS), random.index(layout.nodes + SENTINELS));
            for field in FIELDS {
                swap(store, layout.field(a, field).start, layout.field(b, field).start, field.width);
            }
        },
        Damage::SwappedBuckets => {
            let (a, b) = (random.index(layout.buckets()), random.index(layout.buckets()));
            swap(store, layout.bucket(a).start, layout.bucket(b).start, 2);
        },
        Damage::SwappedInChain => swap_in_chain(Edit { store, layout }, random),
        Damage::LostNode => Edit { store, layout }.detach(random.index(layout.nodes)),
        Damage::MovedNodes => move_nodes(Edit { store, layout }, random),
        Damage::TradedLimits => trade_limits(Edit { store, layout }, random),
        Damage::Shifted => shift(store, layout, random),
        Damage::Spliced => {
            let cut = random.index(layout.used());
            let len = store.len().min(other.len());
            store[cut..len].copy_from_slice(&other[cut..len]);
        },
        Damage::RandomBody => random.fill(&mut store[HEADER..]),
        Damage::WholeRandom => random.fill(store),
        Damage::Zeros => store.fill(0),
        Damage::Ones => store.fill(0xff),
        Damage::OpenBytes => garble_open_bytes(store, layout, random),
    }
}

fn copy_key(store: &mut [u8], layout: Layout, random: &mut Random) {
    let from = layout.field(random.index(layout.nodes), KEY);
    let to = layout.field(random.index(layout.nodes), KEY);
    store.copy_within(from, to.start);
}

fn swap_fields(store: &mut [u8], layout: Layout, random: &mut Random) {
    let field: Field = random.pick(&FIELDS);
    let (a, b) = (random.index(layout.nodes + SENTINELS), random.index(layout.nodes + SENTINELS));
    swap(store, layout.field(a, field).start, layout.field(b, field).start, field.width);
}

/// In a chain of two nodes or more, if there is one.
fn swap_in_chain(mut edit: Edit, random: &mut Random) {
    let layout = edit.layout;
    let read = Read::new(edit.store).expect("the store is sound");
    let chains = (0..layout.buckets()).map(|bucket| (bucket, read.chain(bucket).expect("the store is sound")));
    let long: Vec<_> = chains.filter(|(_, nodes)| nodes.len() > 1).collect();
    if long.is_empty() {
        return;
    }
    let (bucket, nodes) = &long[random.index(long.len())];
    let at = random.index(nodes.len() - 1);
    let behind = edit.get(nodes[at + 1], CHAIN);
    match at {
        0 => edit.store[layout.bucket(*bucket)].copy_from_slice(&(nodes[1] as u16).to_le_bytes()),
        _ => edit.set(nodes[at - 1], CHAIN, nodes[at + 1]),
    }
    edit.set(nodes[at + 1], CHAIN, nodes[at]);
    edit.set(nodes[at], CHAIN, behind);
}

fn trade_limits(mut edit: Edit, random: &mut Random) {
    let change = random.between(1, 3) as i64 * random.pick(&[1, -1]);
    edit.add_to_header(CAPACITY, change);
    edit.add_to_header(GHOST_LIMIT, -change);
}

fn shift(store: &mut [u8], layout: Layout, random: &mut Random) {
    let (from, to) = (random.index(layout.used()), random.index(layout.used()));
    let len = random.index(64).min(layout.used() - from.max(to));
    store.copy_within(from..from + len, to);
}

fn set_header(store: &mut [u8], cell: usize, random: &mut Random) {
    let now = crate::layout::number(&store[header_cell(cell)]);
    let any = random.below(2000);
    let to = random.pick(&[0, now.wrapping_sub(1), now + 1, 1023, 1024, 1025, any, 1 << 32 | now, 1 << 63, u64::MAX]);
    store[header_cell(cell)].copy_from_slice(&to.to_le_bytes());
}

fn lead_elsewhere(store: &mut [u8], layout: Layout, random: &mut Random) {
    let place = match random.below(4) {
        0 => layout.field(random.index(layout.nodes + SENTINELS), NEXT),
        1 => layout.field(random.index(layout.nodes + SENTINELS), PREV),
        2 => layout.field(random.index(layout.nodes + 1), CHAIN),
        _ => layout.bucket(random.index(layout.buckets())),
    };
    let to = match random.below(4) {
        0 => layout.nodes as u64 + random.below(6),
        1 => random.below(65_536),
        _ => random.below(layout.nodes as u64 + 1),
    };
    store[place].copy_from_slice(&(to as u16).to_le_bytes());
}

/// Moves a node, and at times another one from the list that it came to into the list that it came from.
fn move_nodes(mut edit: Edit, random: &mut Random) {
    let (first, second) = (random.index(edit.layout.nodes), random.index(edit.layout.nodes));
    let from = edit.get(first, QUEUE) as u8;
    let to = random.below(4) as u8;
    edit.detach(first);
    edit.attach(first, to);
    if first != second && edit.get(second, QUEUE) == usize::from(to) {
        edit.detach(second);
        edit.attach(second, from);
    }
}

fn swap(store: &mut [u8], a: usize, b: usize, len: usize) {
    for n in 0..len {
        store.swap(a + n, b + n);
    }
}

/// The header's open cells; a free node's key, value, chain and frequency; a ghost's value and frequency; a sentinel's
/// all but its links, and but chain and list of Free's; and what lies behind the used part.
fn garble_open_bytes(store: &mut [u8], layout: Layout, random: &mut Random) {
    for cell in (0..16)
        .filter(|cell| ![CAPACITY, SMALL_LIMIT, GHOST_LIMIT].contains(cell) && !(LENGTHS..LENGTHS + 4).contains(cell))
    {
        random.fill(&mut store[header_cell(cell)]);
    }
    for node in 0..layout.nodes + SENTINELS {
        let list = store[layout.field(node, QUEUE).start];
        let open: &[Field] = if node == layout.sentinel(FREE) {
            &[KEY, VALUE, FREQ]
        } else if node > layout.nodes {
            &[KEY, VALUE, CHAIN, QUEUE, FREQ]
        } else if list == FREE {
            &[KEY, VALUE, CHAIN, FREQ]
        } else if list == GHOSTS {
            &[VALUE, FREQ]
        } else {
            &[]
        };
        for field in open {
            random.fill(&mut store[layout.field(node, *field)]);
        }
    }
    random.fill(&mut store[layout.used()..]);
}
