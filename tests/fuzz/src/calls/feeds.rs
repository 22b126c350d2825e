//! A feed and a finish of the archive in guarded buffers, held to what they must answer.

use super::{Calls, UNWRITTEN, lend, parts};
use crate::layout;
use crate::stream::{self, Fed};
use crate::verdict::Verdict;
use crate::watch;
use common::Random;
use mapcache::ffi;

impl Calls {
    /// Feeds the piece to the store. Store and carry become what the call makes of them.
    pub fn feed(
        &mut self,
        store: &mut [u8],
        carry: &mut [u8],
        piece: &[u8],
        replies_len: usize,
        random: &mut Random,
    ) -> Result<Fed, String> {
        let expected = stream::of_feed(store, carry, piece, replies_len);
        let filling = random.byte();
        lend(&mut self.store, store, random);
        lend(&mut self.carry, carry, random);
        lend(&mut self.requests, piece, random);
        lend(&mut self.replies, &vec![filling; replies_len], random);
        lend(&mut self.replied, &UNWRITTEN.to_le_bytes(), random);
        lend(&mut self.detail, &UNWRITTEN.to_le_bytes(), random);
        let answer = self.call_feed();
        if self.requests.bytes() != piece {
            return Err("the piece was changed".to_owned());
        }
        self.feed_answer_is(&expected, answer)?;
        self.replies_are(&expected.verdict, filling)?;
        self.carry_is(&expected.carry)?;
        self.store_is(&expected.verdict, store)?;
        self.store_stays_without_requests(&expected.verdict, store)?;
        self.nothing_beside_is_touched()?;
        carry.copy_from_slice(&expected.carry);
        self.take_over(&expected.verdict, store, random)?;
        Ok(expected)
    }

    /// Asks whether the stream is complete. The carry may only be read.
    pub fn finish(&mut self, carry: &[u8], random: &mut Random) -> Result<(), String> {
        let (number, right_detail, _) = stream::of_finish(carry);
        lend(&mut self.carry, carry, random);
        lend(&mut self.detail, &UNWRITTEN.to_le_bytes(), random);
        let answer = self.call_finish();
        let detail = layout::number(self.detail.bytes());
        let right = -i64::from(number);
        if (answer, detail) != (right, right_detail) {
            return Err(format!(
                "a finish answers {answer} with detail {detail}; it must be {right} with detail {right_detail}"
            ));
        }
        self.carry_is(carry)?;
        self.nothing_beside_is_touched()
    }

    fn feed_answer_is(&mut self, expected: &Fed, answer: i64) -> Result<(), String> {
        let replied = layout::number(self.replied.bytes());
        let detail = layout::number(self.detail.bytes());
        let right = match (&expected.verdict, expected.stops_at) {
            (Verdict::Refused { number, detail }, _) => (-i64::from(*number), 0, *detail),
            (Verdict::Done { replies, .. }, None) => (replies.len() as i64, replies.len() as u64, 0),
            (Verdict::Done { replies, .. }, Some(offset)) => (-9, replies.len() as u64, offset),
        };
        if (answer, replied, detail) == right {
            return Ok(());
        }
        let (right, right_replied, right_detail) = right;
        Err(format!(
            "a feed answers {answer}, replied {replied}, detail {detail}; \
             it must be {right}, replied {right_replied}, detail {right_detail}"
        ))
    }

    /// A feed that completes no request, and so replies nothing, changes no byte of the store.
    fn store_stays_without_requests(&mut self, expected: &Verdict, before: &[u8]) -> Result<(), String> {
        match expected {
            Verdict::Done { replies, .. } if replies.is_empty() && self.store.bytes() != before => {
                Err("a feed that completed no request changed the store".to_owned())
            },
            _ => Ok(()),
        }
    }

    fn carry_is(&mut self, right: &[u8]) -> Result<(), String> {
        let carry = self.carry.bytes();
        if carry == right { Ok(()) } else { Err(format!("the carry is {carry:02x?}; it must be {right:02x?}")) }
    }

    fn call_feed(&mut self) -> i64 {
        self.made += 1;
        watch::call(self.made);
        let (store, store_len) = parts(self.store.bytes());
        let (carry, carry_len) = parts(self.carry.bytes());
        let (piece, piece_len) = parts(self.requests.bytes());
        let (replies, replies_len) = parts(self.replies.bytes());
        let (replied, _) = parts(self.replied.bytes());
        let (detail, _) = parts(self.detail.bytes());
        self.requests.read_only(true);
        // SAFETY: six mappings of their own, each good for its length, and no other thread.
        let answer = unsafe {
            ffi::mapcache_feed(
                store,
                store_len,
                carry,
                carry_len,
                piece,
                piece_len,
                replies,
                replies_len,
                replied.cast(),
                detail.cast(),
            )
        };
        self.requests.read_only(false);
        answer
    }

    fn call_finish(&mut self) -> i64 {
        self.made += 1;
        watch::call(self.made);
        let (carry, carry_len) = parts(self.carry.bytes());
        let (detail, _) = parts(self.detail.bytes());
        self.carry.read_only(true);
        // SAFETY: two mappings of their own, each good for its length, and no other thread.
        let answer = unsafe { ffi::mapcache_finish(carry, carry_len, detail.cast()) };
        self.carry.read_only(false);
        answer
    }
}
