//! The library and the original side by side, on the same requests: in whole calls, and on a second store in pieces.

use crate::ending::Ending;
use crate::fed::Fed;
use crate::store;
use common::Random;
use mapcache::{Refusal, Reply, Request, Settings};
use original::driver::Original;
use original::state::State;

/// What the bytes behind the replies hold before a call, and must hold after it.
pub const UNTOUCHED: u8 = 0xa5;

pub struct Pair {
    random: Random,
    store: Vec<u8>,
    /// The same requests in pieces, on a store of their own.
    fed: Fed,
    /// What stands behind the used part of both stores, and must stay.
    surplus: Vec<u8>,
    original: Original,
    replies: Vec<u8>,
    /// The original's replies to the call, behind the bytes that feeds still owe from the call before.
    expected: Vec<u8>,
    owed: usize,
    /// How many of all these feeds have given.
    given: usize,
}

/// A call on which both sides agree: its replies, and the state after it.
pub struct Agreed<'a> {
    pub replies: &'a [u8],
    pub state: State,
    pub ghost_hits: u64,
    /// What feeding came across, how often.
    pub fed: Vec<(&'static str, u64)>,
}

impl Pair {
    /// Makes both caches, ours in a store full of old bytes, and compares the states that they start in.
    pub fn create(settings: Settings, mut random: Random) -> Result<Pair, String> {
        let original =
            Original::create(settings).map_err(|error| format!("the original refuses {settings}: {error}"))?;
        let expected = original.state();
        let longer = if random.one_in(4) { random.between(1, 100) as usize } else { 0 };
        let mut store = vec![0; mapcache::store_bytes() + longer];
        random.fill(&mut store);
        let surplus = store[store::used_bytes(expected.capacity, expected.ghost_limit)..].to_vec();
        mapcache::create(settings, &mut store).map_err(|refusal| format!("{refusal:?} of {settings}"))?;
        let fed = Fed::new(store.clone(), Random::new(random.number()));
        let pair = Pair {
            random,
            store,
            fed,
            surplus,
            original,
            replies: Vec::new(),
            expected: Vec::new(),
            owed: 0,
            given: 0,
        };
        pair.compare_states(&pair.store)?;
        Ok(pair)
    }

    /// Runs one call on both and compares replies, states and what must not be touched. With the last call the stream is
    /// ended and finished.
    pub fn call(&mut self, requests: &[Request], is_last: bool) -> Result<Agreed<'_>, String> {
        let ghost_hits = self.original.ghost_hits();
        let ending = is_last.then(|| self.fed.ending());
        self.answer_and_feed(requests, ending.as_ref())?;
        let written = self.run(requests).map_err(|refusal| format!("the library answers {refusal:?}"))?;
        let (replies, rest) = self.replies.split_at(written);
        let expected = &self.expected[self.owed..];
        if replies != expected {
            return Err(format!("the replies differ\n ours     {}\n original {}", text(replies), text(expected)));
        }
        if rest.iter().any(|byte| *byte != UNTOUCHED) {
            return Err("the library wrote behind its replies".to_string());
        }
        let state = self.compare_states(&self.store)?;
        let ghost_hits = self.original.ghost_hits() - ghost_hits;
        Ok(Agreed { replies: &self.replies[..written], state, ghost_hits, fed: std::mem::take(&mut self.fed.met) })
    }

    /// The original answers one request after the other. As soon as it has answered those that a piece completes, the piece
    /// is fed, and both must be in the same state.
    fn answer_and_feed(&mut self, requests: &[Request], ending: Option<&Ending>) -> Result<(), String> {
        self.expected.drain(..self.given);
        self.owed = self.expected.len();
        let mut given = 0;
        let pieces = self.fed.cut(requests, ending);
        let mut pieces = pieces.iter().peekable();
        for answered in 0..=requests.len() {
            while let Some(piece) = pieces.next_if(|piece| piece.requests == answered) {
                self.fed.feed(piece, &self.expected[given..])?;
                given = self.expected.len();
                self.compare_states(&self.fed.store).map_err(|difference| format!("fed in pieces: {difference}"))?;
            }
            if let Some(request) = requests.get(answered) {
                self.original.answer(*request, &mut self.expected);
            }
        }
        self.given = given;
        ending.map_or(Ok(()), |ending| self.fed.finish(ending))
    }

    /// Our side of a call: the reply buffer is as long as the requests' room asks, or somewhat longer.
    fn run(&mut self, requests: &[Request]) -> Result<usize, Refusal> {
        let mut bytes = Vec::new();
        let mut room = 0;
        for request in requests {
            request.write(&mut bytes);
            room += request.reply_room();
        }
        if self.random.one_in(2) {
            room += self.random.below(80) as usize;
        }
        self.replies.clear();
        self.replies.resize(room, UNTOUCHED);
        mapcache::run(&mut self.store, &bytes, &mut self.replies)
    }

    /// Holds a store to the state that the original is in.
    fn compare_states(&self, store: &[u8]) -> Result<State, String> {
        let expected = self.original.state();
        let ours = store::read(store).map_err(|error| format!("our store cannot be read: {error}"))?;
        if ours != expected {
            return Err(format!("the states differ\n ours\n{ours}\n original\n{expected}"));
        }
        let used = store::used_bytes(expected.capacity, expected.ghost_limit);
        if store[used..] != self.surplus {
            return Err("the library wrote behind the used part of the store".to_string());
        }
        Ok(expected)
    }
}

fn text(replies: &[u8]) -> String {
    match Reply::read_all(replies) {
        Ok(replies) => replies.iter().map(Reply::to_string).collect::<Vec<_>>().join(", "),
        Err(at) => format!("no record at byte {at} of {replies:02x?}"),
    }
}
