//! What is run: requests as bytes, cut into calls.

use common::Random;
use mapcache::{GuestBlock, MOST_REQUEST_BYTES, PhysicalBlock, Request, Settings};

pub const CAPACITIES: [u64; 2] = [100, 1000];
pub const PATTERNS: [Pattern; 3] = [Pattern::Uniform, Pattern::Skewed, Pattern::Scan];

const LOOKUPS_TO_AN_INSERT: u64 = 4;
pub const SEED: u64 = 1;

/// How the keys of lookups and inserts come.
#[derive(Clone, Copy, Debug, PartialEq, Eq)]
pub enum Pattern {
    /// Each of twice as many keys as the capacity alike.
    Uniform,
    /// Of ten times as many keys as the capacity, the n-th in proportion to 1 / n.
    Skewed,
    /// Four times as many keys as the capacity one after the other, over and over; lookups and inserts walk on their own.
    Scan,
}

impl Pattern {
    pub fn name(self) -> &'static str {
        match self {
            Pattern::Uniform => "uniform",
            Pattern::Skewed => "skewed",
            Pattern::Scan => "scan",
        }
    }

    pub fn named(name: &str) -> Option<Pattern> {
        PATTERNS.into_iter().find(|pattern| pattern.name() == name)
    }
}

pub struct Call {
    pub requests: Vec<u8>,
    pub room: usize,
}

pub struct Input {
    pub settings: Settings,
    pub calls: Vec<Call>,
}

/// So many requests, in calls as large as they may be.
pub fn input(capacity: u64, pattern: Pattern, requests: u64, seed: u64) -> Input {
    let mut keys = Keys::new(capacity, pattern, seed);
    let requests = (0..requests).map(|number| match number % (LOOKUPS_TO_AN_INSERT + 1) {
        LOOKUPS_TO_AN_INSERT => Request::Insert(keys.next_insert(), PhysicalBlock(number)),
        _ => Request::Get(keys.next_lookup()),
    });
    Input { settings: Settings::with_capacity(capacity), calls: calls(requests) }
}

/// These requests, in calls as large as they may be.
pub fn calls(requests: impl Iterator<Item = Request>) -> Vec<Call> {
    let mut calls = vec![Call { requests: Vec::new(), room: 0 }];
    for request in requests {
        let mut call = calls.pop().expect("there is a call");
        if call.requests.len() + request.bytes() > MOST_REQUEST_BYTES {
            calls.push(call);
            call = Call { requests: Vec::new(), room: 0 };
        }
        request.write(&mut call.requests);
        call.room += request.reply_room();
        calls.push(call);
    }
    calls
}

struct Keys {
    pattern: Pattern,
    random: Random,
    universe: u64,
    looked_up: u64,
    inserted: u64,
    /// For the skewed pattern: the sum of 1 / n up to each n.
    sums: Vec<f64>,
}

impl Keys {
    fn new(capacity: u64, pattern: Pattern, seed: u64) -> Keys {
        let universe = match pattern {
            Pattern::Uniform => 2 * capacity,
            Pattern::Skewed => 10 * capacity,
            Pattern::Scan => 4 * capacity,
        };
        let sums = (1..=universe)
            .scan(0.0, |sum, n| {
                *sum += 1.0 / n as f64;
                Some(*sum)
            })
            .collect();
        // A scan starts elsewhere with each seed.
        Keys { pattern, random: Random::new(seed), universe, looked_up: 7 * seed, inserted: 7 * seed, sums }
    }

    fn next_lookup(&mut self) -> GuestBlock {
        self.looked_up += 1;
        self.key(self.looked_up)
    }

    fn next_insert(&mut self) -> GuestBlock {
        self.inserted += 1;
        self.key(self.inserted)
    }

    fn key(&mut self, turn: u64) -> GuestBlock {
        GuestBlock(match self.pattern {
            Pattern::Uniform => (self.random.fraction() * self.universe as f64) as u64,
            Pattern::Skewed => {
                let sum = self.random.fraction() * self.sums[self.sums.len() - 1];
                self.sums.partition_point(|so_far| *so_far <= sum) as u64
            },
            Pattern::Scan => turn % self.universe,
        })
    }
}
