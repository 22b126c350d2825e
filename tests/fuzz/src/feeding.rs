//! Feeds and finishes at random: streams on the store that the runs use too, with each buffer now and then unfit.

use crate::Fuzzer;
use crate::calls::{MOST_REPLIES, MOST_REQUESTS};
use crate::carry_damage::{self, CARRY_KINDS};
use crate::damage;
use crate::stream;
use crate::streams::{STREAMS, Stream};
use crate::verdict::{MOST_REQUEST_BYTES, STORE_BYTES, Verdict};

impl Fuzzer {
    /// One feed of one of the streams. What an accepted feed leaves is what the stream and the store go on from.
    pub fn feed(&mut self) -> Result<(), String> {
        let at = self.some_stream();
        let mut piece = self.streams[at].piece(self.keys, &mut self.random);
        if self.random.one_in(16) {
            piece.resize(MOST_REQUEST_BYTES + 1 + self.random.index(MOST_REQUESTS - MOST_REQUEST_BYTES), b'C');
        }
        let mut store = self.lent_store();
        let mut carry = self.lent_carry(at);
        let replies_len = self.replies_for(&carry, &piece);
        let before = carry.clone();
        let fed = self.calls.feed(&mut store, &mut carry, &piece, replies_len, &mut self.random)?;
        self.tally.feeds.feed(&before, &piece, &fed);
        if let Verdict::Done { .. } = fed.verdict {
            self.store = store;
            self.streams[at].go_on(carry, &piece);
        }
        Ok(())
    }

    /// One finish of one of the streams, which goes on all the same: a finish changes nothing.
    pub fn finish(&mut self) -> Result<(), String> {
        let at = self.some_stream();
        let carry = self.lent_carry(at);
        self.calls.finish(&carry, &mut self.random)?;
        self.tally.feeds.finish(&carry);
        Ok(())
    }

    /// Any of the streams. Now and then a new one takes its place: a stopped stream is fed and finished for a while yet.
    fn some_stream(&mut self) -> usize {
        let at = self.random.index(STREAMS);
        if self.random.one_in(12) {
            self.streams[at] = Stream::new(&mut self.random);
        }
        at
    }

    /// The store, now and then a damaged one or too little of it.
    fn lent_store(&mut self) -> Vec<u8> {
        let mut store = self.store.clone();
        match self.random.below(24) {
            0 => store.truncate(self.random.index(STORE_BYTES)),
            1..=2 => {
                let kind = self.random.pick(&damage::KINDS);
                damage::inflict(kind, &mut store, &self.earlier, &mut self.random);
            },
            _ => {},
        }
        store
    }

    /// What the stream carries, now and then damaged.
    fn lent_carry(&mut self, at: usize) -> Vec<u8> {
        let mut carry = self.streams[at].carry.clone();
        if self.random.one_in(3) {
            let kind = self.random.pick(&CARRY_KINDS);
            carry_damage::inflict(kind, &mut carry, &mut self.random);
        }
        carry
    }

    /// Reply room: what the feed asks for, one byte less, or any.
    fn replies_for(&mut self, carry: &[u8], piece: &[u8]) -> usize {
        let room = stream::room(carry, piece).unwrap_or(100);
        match self.random.below(8) {
            0 => room.saturating_sub(1),
            1 => self.random.index(room + 1),
            2 => (room + self.random.index(500)).min(MOST_REPLIES),
            _ => room,
        }
    }
}
