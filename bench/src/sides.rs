//! The two sides. Both are given the same request bytes, a call at a time, and write reply bytes into memory that is
//! there before the clock starts.
//!
//! The original cannot tell which pair left, nor after how many pops. Its driver writes a report of as many bytes with
//! zeros where a pair left, so that it writes as much as ours; finding the pair out would take it longer.

use crate::input::{Call, Input};
use mapcache::{GuestBlock, Pair, PhysicalBlock, Reply, Request};
use original::policy::s3_fifo::S3FifoCache;
use std::hint::black_box;

/// A report of zeros, in place of the pair that the original does not name.
pub const SOME_PAIR_LEFT: Reply = Reply::LeftSmall(Pair { guest: GuestBlock(0), physical: PhysicalBlock(0) });

/// A key that no input has.
const NEVER_INSERTED: GuestBlock = GuestBlock(u64::MAX);

pub trait Side {
    /// Runs all calls; answers the reply bytes of each to the function given.
    fn run(&mut self, calls: &[Call], each: &mut dyn FnMut(&[u8]));
}

pub struct Ours {
    store: Vec<u8>,
    replies: Vec<u8>,
    peek: Vec<u8>,
    nothing: Vec<u8>,
}

impl Ours {
    pub fn new(input: &Input) -> Ours {
        let mut store = vec![0; mapcache::store_bytes()];
        mapcache::create(input.settings, &mut store).expect("the settings are valid");
        let (mut peek, mut nothing) = (Vec::new(), Vec::new());
        Request::Peek(NEVER_INSERTED).write(&mut peek);
        Reply::Nothing.write(&mut nothing);
        let room = most_room(&input.calls).max(Request::Peek(NEVER_INSERTED).reply_room());
        Ours { store, replies: vec![0; room], peek, nothing }
    }

    /// A call of one peek, of a key that is not there: it checks that the store is sound, and does next to nothing else.
    pub fn check(&mut self) {
        let written = mapcache::run(&mut self.store, &self.peek, &mut self.replies).expect("the store is sound");
        assert_eq!(self.replies[..written], self.nothing, "the key is not there");
    }
}

impl Side for Ours {
    fn run(&mut self, calls: &[Call], each: &mut dyn FnMut(&[u8])) {
        for call in calls {
            let written =
                mapcache::run(&mut self.store, &call.requests, &mut self.replies).expect("the calls are valid");
            each(&self.replies[..written]);
        }
    }
}

pub struct Original {
    cache: S3FifoCache<u64, u64>,
    replies: Vec<u8>,
}

fn original_cache(input: &Input) -> S3FifoCache<u64, u64> {
    let settings = input.settings;
    S3FifoCache::with_ratios(settings.capacity as usize, settings.small_ratio, settings.ghost_ratio)
}

impl Original {
    pub fn new(input: &Input) -> Original {
        Original { cache: original_cache(input), replies: Vec::with_capacity(most_room(&input.calls)) }
    }

    fn answer(&mut self, request: Request) {
        match request {
            Request::Get(guest) => match self.cache.get(&guest.0) {
                Some(value) => Reply::Hit(PhysicalBlock(*value)).write(&mut self.replies),
                None => Reply::Nothing.write(&mut self.replies),
            },
            Request::Insert(guest, physical) => {
                let full = self.cache.len() == self.cache.capacity();
                match self.cache.insert(guest.0, physical.0) {
                    Some(value) => Reply::Replaced(PhysicalBlock(value)).write(&mut self.replies),
                    None => {
                        if full {
                            SOME_PAIR_LEFT.write(&mut self.replies);
                        }
                        Reply::New { pops: 0 }.write(&mut self.replies);
                    },
                }
            },
            request => panic!("{request} is not among the requests that are timed"),
        }
    }
}

impl Side for Original {
    fn run(&mut self, calls: &[Call], each: &mut dyn FnMut(&[u8])) {
        for call in calls {
            self.replies.clear();
            each_request(call, |request| self.answer(request));
            each(&self.replies);
        }
    }
}

/// The original's calls alone: what they return is not written down.
pub struct Unwritten {
    cache: S3FifoCache<u64, u64>,
}

impl Unwritten {
    pub fn new(input: &Input) -> Unwritten {
        Unwritten { cache: original_cache(input) }
    }

    fn answer(&mut self, request: Request) {
        match request {
            Request::Get(guest) => drop(black_box(self.cache.get(&guest.0))),
            Request::Insert(guest, physical) => drop(black_box(self.cache.insert(guest.0, physical.0))),
            request => panic!("{request} is not among the requests that are timed"),
        }
    }
}

impl Side for Unwritten {
    fn run(&mut self, calls: &[Call], each: &mut dyn FnMut(&[u8])) {
        for call in calls {
            each_request(call, |request| self.answer(request));
            each(&[]);
        }
    }
}

fn each_request(call: &Call, mut answer: impl FnMut(Request)) {
    let mut rest = call.requests.as_slice();
    while let Some(request) = Request::read(rest) {
        rest = &rest[request.bytes()..];
        answer(request);
    }
    assert!(rest.is_empty(), "the requests are whole records");
}

fn most_room(calls: &[Call]) -> usize {
    calls.iter().map(|call| call.room).max().unwrap_or(0)
}
