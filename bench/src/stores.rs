//! Stores of some kinds, to time what depends on their keys: the check, and a lookup. The check is timed by calls of one peek
//! over eight stores in turn: a processor learns the branches of one that is checked over and over, and a host has many.

use crate::input::{CAPACITIES, Input, PATTERNS, Pattern, SEED, calls, input};
use crate::sides::{Ours, Side};
use crate::times::best_of_rounds;
use common::Random;
use mapcache::{GuestBlock, PhysicalBlock, Request, Settings};
use std::time::Duration;

const IN_TURN: u64 = 8;
const LARGEST: u64 = 1024;
/// As many as fill residents and ghosts, and more.
const INSERTS: u64 = 3 * LARGEST;
const FOLD: u64 = 2_246_822_507;

/// What the stores of a table's row have been through.
#[derive(Clone, Copy)]
pub enum Kind {
    /// The requests that are timed, of this capacity and pattern.
    Traffic(u64, Pattern),
    /// The largest limits, nothing in it.
    Empty,
    /// The largest limits, full, keys counted up.
    Counted,
    /// The same, random keys.
    Drawn,
    /// The same, all keys in one bucket.
    OneBucket,
}

pub const FULL: [Kind; 3] = [Kind::Counted, Kind::Drawn, Kind::OneBucket];

pub fn kinds() -> impl Iterator<Item = Kind> {
    let traffic = CAPACITIES.into_iter().flat_map(|capacity| PATTERNS.map(|pattern| Kind::Traffic(capacity, pattern)));
    traffic.chain([Kind::Empty]).chain(FULL)
}

impl Kind {
    pub fn name(self) -> String {
        match self {
            Kind::Traffic(capacity, pattern) => format!("capacity {capacity}, {} keys", pattern.name()),
            Kind::Empty => "limits 1,024 and 1,024, empty".to_string(),
            Kind::Counted => "limits 1,024 and 1,024, full, keys counted up".to_string(),
            Kind::Drawn => "limits 1,024 and 1,024, full, random keys".to_string(),
            Kind::OneBucket => "limits 1,024 and 1,024, full, all keys in one bucket".to_string(),
        }
    }

    fn input(self, seed: u64) -> Input {
        match self {
            Kind::Traffic(capacity, pattern) => input(capacity, pattern, 100 * capacity, seed),
            _ => {
                let pairs = self.keys(seed).into_iter().zip(0..);
                let requests = pairs.map(|(key, turn)| Request::Insert(GuestBlock(key), PhysicalBlock(turn)));
                Input {
                    settings: Settings { capacity: LARGEST, small_ratio: 0.1, ghost_ratio: 1.0 },
                    calls: calls(requests),
                }
            },
        }
    }

    /// The keys that are inserted into a store of the largest limits: as many as fill residents and ghosts, and more.
    fn keys(self, seed: u64) -> Vec<u64> {
        let mut random = Random::new(seed);
        match self {
            Kind::Traffic(..) | Kind::Empty => Vec::new(),
            Kind::Counted => (seed * INSERTS..(seed + 1) * INSERTS).collect(),
            Kind::Drawn => (0..INSERTS).map(|_| random.number()).collect(),
            // The bucket follows from upper * FOLD + lower, modulo 2^32: here that is the seed (docs/STORE.md).
            Kind::OneBucket => {
                let lower = |upper: u64| (seed as u32).wrapping_sub((upper * FOLD) as u32);
                (0..INSERTS).map(|upper| upper << 32 | u64::from(lower(upper))).collect()
            },
        }
    }

    fn stores(self) -> Vec<Ours> {
        let made = (1..=IN_TURN).map(|seed| {
            let input = self.input(seed);
            let mut ours = Ours::new(&input);
            ours.run(&input.calls, &mut |_| ());
            ours
        });
        made.collect()
    }

    /// How long a check takes.
    pub fn check(self) -> Duration {
        const CHECKS: u32 = 400;
        let mut stores = self.stores();
        let all = best_of_rounds(|| {
            for turn in 0..CHECKS {
                stores[(turn as u64 % IN_TURN) as usize].check();
            }
        });
        all / CHECKS
    }

    /// How long a lookup takes in a full store, of the keys that were inserted, in turns that are drawn: a third are
    /// resident, a third are ghosts, a third are gone.
    pub fn lookup(self) -> Duration {
        const LOOKUPS: u32 = 32_000;
        let (inserts, keys) = (self.input(SEED), self.keys(SEED));
        let mut random = Random::new(SEED);
        let lookups = calls((0..LOOKUPS).map(|_| Request::Get(GuestBlock(random.pick(&keys)))));
        let mut ours = Ours::new(&inserts);
        ours.run(&inserts.calls, &mut |_| ());
        best_of_rounds(|| ours.run(&lookups, &mut |_| ())) / LOOKUPS
    }
}
