//! Settings and requests, fit and unfit.

use crate::verdict::MOST_REQUEST_BYTES;
use common::Random;
use mapcache::{GuestBlock, PhysicalBlock, Request, Settings};

/// Numbers on both sides of what is tested, and any.
pub fn settings(random: &mut Random) -> Settings {
    let capacity = match random.below(8) {
        0 => random.pick(&[0, 1, 2, 1023, 1024, 1025, 1 << 32, 1 << 63, u64::MAX]),
        1 => random.between(1, 1024),
        _ => random.between(1, 12),
    };
    Settings { capacity, small_ratio: ratio(random, capacity), ghost_ratio: ratio(random, capacity) }
}

/// Settings that are accepted, mostly of small caches, where a random byte of the store hits something.
pub fn fit_settings(random: &mut Random) -> Settings {
    let capacity = match random.below(40) {
        0 => 1024,
        1..=3 => random.between(1, 1024),
        _ => random.between(1, 12),
    };
    let ghost_limit = match random.below(8) {
        0 => 0,
        1 => random.below(1025).min(4 * capacity),
        _ => random.between(0, capacity),
    };
    Settings {
        capacity,
        small_ratio: random.between(0, 20) as f64 / 20.0,
        ghost_ratio: ghost_limit as f64 / capacity as f64,
    }
}

fn ratio(random: &mut Random, capacity: u64) -> f64 {
    const SPECIAL: [f64; 17] = [
        0.0,
        -0.0,
        1.0,
        1.0 + f64::EPSILON,
        1.00048828125,
        0.499_999_999_999_999_94,
        f64::INFINITY,
        f64::NEG_INFINITY,
        f64::NAN,
        f64::MAX,
        f64::MIN,
        f64::MIN_POSITIVE,
        5e-324,
        -5e-324,
        -1.0,
        0.1,
        0.9,
    ];
    match random.below(8) {
        0 | 1 => random.pick(&SPECIAL),
        2 => f64::from_bits(random.number()),
        // the product is just a half below or above a whole number, or near 1,024.5
        3 => (random.below(1026) as f64 + 0.5) / capacity.max(1) as f64,
        _ => random.below(21) as f64 / 20.0,
    }
}

/// Keys from a few, so that they meet again, with the ends of their range among them, and some that share a bucket.
fn key(random: &mut Random, keys: u64) -> GuestBlock {
    GuestBlock(match random.below(40) {
        0 => 0,
        1 => u64::MAX,
        2 => random.below(keys) << 32,
        3..=10 => of_bucket_0(random.below(keys)),
        _ => random.below(keys),
    })
}

/// A key that falls into bucket 0, however many buckets there are: what its halves are folded to is 0 (docs/STORE.md).
fn of_bucket_0(upper: u64) -> u64 {
    upper << 32 | u64::from((upper as u32).wrapping_mul(2_246_822_507).wrapping_neg())
}

fn value(random: &mut Random) -> PhysicalBlock {
    PhysicalBlock(match random.below(16) {
        0 => 0,
        1 => u64::MAX,
        _ => random.below(1000),
    })
}

fn request(random: &mut Random, keys: u64) -> Request {
    match random.below(100) {
        0..=19 => Request::Get(key(random, keys)),
        20..=27 => Request::Peek(key(random, keys)),
        28..=35 => Request::Remove(key(random, keys)),
        36..=91 => Request::Insert(key(random, keys), value(random)),
        92..=98 => Request::Evict,
        _ => Request::Clear,
    }
}

/// Whole records, so many of them.
pub fn requests(random: &mut Random, keys: u64, count: u64) -> Vec<u8> {
    let mut bytes = Vec::new();
    for _ in 0..count {
        request(random, keys).write(&mut bytes);
    }
    bytes
}

/// Whole records up to the most bytes that a call takes.
pub fn longest_requests(random: &mut Random, keys: u64) -> Vec<u8> {
    let mut bytes = Vec::new();
    while bytes.len() + 18 <= MOST_REQUEST_BYTES {
        request(random, keys).write(&mut bytes);
    }
    while bytes.len() < MOST_REQUEST_BYTES - 1 {
        Request::Evict.write(&mut bytes);
    }
    bytes
}

/// Records that are cut, garbled, or no records at all.
pub fn bad_requests(random: &mut Random, keys: u64) -> Vec<u8> {
    let count = random.between(1, 12);
    let mut bytes = requests(random, keys, count);
    match random.below(6) {
        0 => bytes.truncate(random.index(bytes.len())),
        1 => {
            let at = random.index(bytes.len());
            bytes[at] = random.byte();
        },
        2 => {
            let at = random.index(bytes.len());
            bytes.remove(at);
        },
        3 => {
            let mark = random.pick(&[b"gt", b"XX", b"CF", b"NO", b"\0\0", b"ES", b"IM", b"GI"]);
            bytes.extend_from_slice(mark);
        },
        4 => bytes.push(b'E'),
        _ => random.fill(&mut bytes),
    }
    bytes
}
