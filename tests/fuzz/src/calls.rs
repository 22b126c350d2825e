//! One call of the archive in guarded buffers, held to what it must answer.

mod feeds;

use crate::guard::{Edge, Guarded};
use crate::layout::{self, Read};
use crate::verdict::{self, STORE_BYTES, Verdict};
use crate::watch;
use common::Random;
use mapcache::{Settings, ffi};

/// The longest buffers that are lent.
pub const MOST_STORE: usize = STORE_BYTES + 8192;
pub const MOST_REQUESTS: usize = 40_960;
pub const MOST_REPLIES: usize = 600_000;
pub const MOST_CARRY: usize = 96;

/// What stands in `*detail` and `*replied` before a call. No run has a detail as large, and a feed writes even numbers.
const UNWRITTEN: u64 = 0xDDDD_DDDD_DDDD_DDDD;

pub struct Calls {
    store: Guarded,
    requests: Guarded,
    replies: Guarded,
    carry: Guarded,
    replied: Guarded,
    detail: Guarded,
    /// All calls made, and those among them that only see whether a store is accepted again.
    pub made: u64,
    pub made_again: u64,
}

impl Calls {
    pub fn new() -> Calls {
        Calls {
            store: Guarded::new(MOST_STORE),
            requests: Guarded::new(MOST_REQUESTS),
            replies: Guarded::new(MOST_REPLIES),
            carry: Guarded::new(MOST_CARRY),
            replied: Guarded::new(8),
            detail: Guarded::new(8),
            made: 0,
            made_again: 0,
        }
    }

    /// Runs the requests on the store, which becomes what the call makes of it.
    pub fn run(
        &mut self,
        store: &mut [u8],
        requests: &[u8],
        replies_len: usize,
        random: &mut Random,
    ) -> Result<Verdict, String> {
        let expected = verdict::of_run(store, requests, replies_len);
        let filling = random.byte();
        lend(&mut self.store, store, random);
        lend(&mut self.requests, requests, random);
        lend(&mut self.replies, &vec![filling; replies_len], random);
        lend(&mut self.detail, &UNWRITTEN.to_le_bytes(), random);
        let answer = self.call_run();
        if self.requests.bytes() != requests {
            return Err("the requests were changed".to_owned());
        }
        self.answer_is(&expected, answer)?;
        self.replies_are(&expected, filling)?;
        self.store_is(&expected, store)?;
        self.nothing_beside_is_touched()?;
        self.take_over(&expected, store, random)?;
        Ok(expected)
    }

    /// Creates a cache in the store, which becomes what the call makes of it.
    pub fn create(&mut self, settings: Settings, store: &mut [u8], random: &mut Random) -> Result<Verdict, String> {
        let Settings { capacity, small_ratio, ghost_ratio } = settings;
        let expected = verdict::of_create(capacity, small_ratio, ghost_ratio, store.len());
        lend(&mut self.store, store, random);
        let answer = self.call_create(settings);
        let number = match expected {
            Verdict::Refused { number, .. } => -i64::from(number),
            Verdict::Done { .. } => 0,
        };
        if answer != number {
            return Err(format!("the answer is {answer}; it must be {number}"));
        }
        self.store_is(&expected, store)?;
        self.nothing_beside_is_touched()?;
        self.take_over(&expected, store, random)?;
        Ok(expected)
    }

    fn answer_is(&mut self, expected: &Verdict, answer: i64) -> Result<(), String> {
        let detail = layout::number(self.detail.bytes());
        let (right, right_detail) = match expected {
            Verdict::Refused { number, detail } => (-i64::from(*number), *detail),
            Verdict::Done { replies, .. } => (replies.len() as i64, 0),
        };
        if (answer, detail) == (right, right_detail) {
            Ok(())
        } else {
            Err(format!("the answer is {answer} with detail {detail}; it must be {right} with detail {right_detail}"))
        }
    }

    /// The replies are those that the rules give, none where the call is refused; the rest is as it was filled.
    fn replies_are(&mut self, expected: &Verdict, filling: u8) -> Result<(), String> {
        let right = match expected {
            Verdict::Refused { .. } => &[],
            Verdict::Done { replies, .. } => replies.as_slice(),
        };
        let (front, rest) = self.replies.bytes().split_at(right.len());
        if front != right {
            return Err("the replies are not those that the rules give".to_owned());
        }
        if rest.iter().any(|byte| *byte != filling) {
            return Err("reply bytes behind the answer were changed".to_owned());
        }
        Ok(())
    }

    /// Where the call was accepted the caller's store becomes what it made, which the next call must accept.
    fn take_over(&mut self, expected: &Verdict, store: &mut [u8], random: &mut Random) -> Result<(), String> {
        if let Verdict::Done { .. } = expected {
            store.copy_from_slice(self.store.bytes());
            self.stays_accepted(store, random)?;
        }
        Ok(())
    }

    /// The store holds the state that it must hold, or the bytes that it held; behind its used part it is the same.
    fn store_is(&mut self, expected: &Verdict, before: &[u8]) -> Result<(), String> {
        let after = self.store.bytes();
        match expected {
            Verdict::Refused { .. } if after != before => Err("a refused call changed the store".to_owned()),
            Verdict::Refused { .. } => Ok(()),
            Verdict::Done { state, .. } => {
                if layout::state(after).as_ref() != Some(state) {
                    return Err("the store does not hold the state that the rules give".to_owned());
                }
                let used = Read::new(after).map_or(0, |read| read.layout.used());
                if after[used..] != before[used..] {
                    return Err("bytes behind the store's used part were changed".to_owned());
                }
                Ok(())
            },
        }
    }

    fn nothing_beside_is_touched(&mut self) -> Result<(), String> {
        for (name, buffer) in [
            ("store", &mut self.store),
            ("requests", &mut self.requests),
            ("replies", &mut self.replies),
            ("carry", &mut self.carry),
            ("replied", &mut self.replied),
            ("detail", &mut self.detail),
        ] {
            if !buffer.beside_is_untouched() {
                return Err(format!("bytes beside the buffer of the {name} were changed"));
            }
        }
        Ok(())
    }

    /// A call with no requests takes the store that an accepted call left, and changes nothing.
    fn stays_accepted(&mut self, store: &[u8], random: &mut Random) -> Result<(), String> {
        lend(&mut self.store, store, random);
        lend(&mut self.requests, &[], random);
        lend(&mut self.replies, &[], random);
        lend(&mut self.detail, &UNWRITTEN.to_le_bytes(), random);
        let answer = self.call_run();
        self.made_again += 1;
        if answer != 0 || layout::number(self.detail.bytes()) != 0 || self.store.bytes() != store {
            return Err(format!(
                "a call with no requests on the store of an accepted call answers {answer}, or changes the store"
            ));
        }
        self.nothing_beside_is_touched()
    }

    fn call_run(&mut self) -> i64 {
        self.made += 1;
        watch::call(self.made);
        let (store, store_len) = parts(self.store.bytes());
        let (requests, requests_len) = parts(self.requests.bytes());
        let (replies, replies_len) = parts(self.replies.bytes());
        let (detail, _) = parts(self.detail.bytes());
        self.requests.read_only(true);
        // SAFETY: four mappings of their own, each good for its length, and no other thread.
        let answer =
            unsafe { ffi::mapcache_run(store, store_len, requests, requests_len, replies, replies_len, detail.cast()) };
        self.requests.read_only(false);
        answer
    }

    fn call_create(&mut self, settings: Settings) -> i64 {
        self.made += 1;
        watch::call(self.made);
        let (store, store_len) = parts(self.store.bytes());
        // SAFETY: a mapping of its own, good for its length, and no other thread.
        unsafe { ffi::mapcache_create(settings.capacity, settings.small_ratio, settings.ghost_ratio, store, store_len) }
    }
}

fn parts(buffer: &mut [u8]) -> (*mut u8, usize) {
    (buffer.as_mut_ptr(), buffer.len())
}

fn lend(buffer: &mut Guarded, bytes: &[u8], random: &mut Random) {
    let edge = random.pick(&[Edge::First, Edge::Last]);
    buffer.place(bytes.len(), edge);
    buffer.bytes().copy_from_slice(bytes);
}
