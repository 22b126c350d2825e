//! Feeds and finishes at every length and value around each limit, one by one.

use crate::calls::Calls;
use crate::carry::{CARRY_BYTES, COUNT, Carry, FLAG, KEPT};
use crate::input;
use crate::limits::around;
use crate::stream;
use crate::tally::Tally;
use crate::verdict::{MOST_REQUEST_BYTES, STORE_BYTES, TABLE};
use common::Random;
use mapcache::Settings;

/// More than any feed here asks for.
const ROOM: usize = 1000;

pub fn all(calls: &mut Calls, tally: &mut Tally, random: &mut Random) -> Result<(), String> {
    let before = calls.made;
    let mut store = vec![0xA5; STORE_BYTES];
    tally.creation(&calls.create(Settings::with_capacity(3), &mut store, random)?);
    let mut limits = Limits { calls, tally, random, store };
    limits.carry_lengths()?;
    limits.kept_bytes()?;
    limits.last_offsets()?;
    limits.piece_lengths()?;
    limits.cuts_and_reply_lengths()?;
    tally.at_limits += calls.made - before;
    Ok(())
}

struct Limits<'a> {
    calls: &'a mut Calls,
    tally: &'a mut Tally,
    random: &'a mut Random,
    store: Vec<u8>,
}

impl Limits<'_> {
    /// A feed; answers the carry that it leaves.
    fn feed(&mut self, carry: &[u8], piece: &[u8], replies_len: usize) -> Result<Vec<u8>, String> {
        let mut after = carry.to_vec();
        let fed = self.calls.feed(&mut self.store, &mut after, piece, replies_len, self.random)?;
        self.tally.feeds.feed(carry, piece, &fed);
        Ok(after)
    }

    fn finish(&mut self, carry: &[u8]) -> Result<(), String> {
        self.calls.finish(carry, self.random)?;
        self.tally.feeds.finish(carry);
        Ok(())
    }

    /// Carries from nothing on, and beyond the bytes that are read.
    fn carry_lengths(&mut self) -> Result<(), String> {
        for len in 0..=CARRY_BYTES + 9 {
            let mut carry = vec![0; len];
            self.feed(&carry, b"EV", ROOM)?;
            self.finish(&carry)?;
            carry.iter_mut().skip(CARRY_BYTES).for_each(|byte| *byte = 0xEE);
            self.feed(&carry, b"G", ROOM)?;
        }
        Ok(())
    }

    /// Every number of bytes kept, of every mark and of none, stopped or not; and every byte behind those kept.
    fn kept_bytes(&mut self) -> Result<(), String> {
        let marks = TABLE.iter().map(|(mark, ..)| **mark).chain([*b"XX", *b"gt", *b"\0\0"]);
        for mark in marks {
            for count in 0..=CARRY_BYTES - KEPT {
                let mut carry = Carry { offset: 18, kept: [&mark[..], &[7; 20]].concat(), stopped: false }.write();
                carry[COUNT] = count as u8;
                carry[KEPT + count..].fill(0);
                self.feed(&carry, b"X", ROOM)?;
                self.finish(&carry)?;
                for flag in [1, 2, 255] {
                    carry[FLAG] = flag;
                    self.feed(&carry, b"X", ROOM)?;
                }
            }
        }
        for at in KEPT + 2..CARRY_BYTES {
            let mut carry = Carry { offset: 2, kept: b"IN".to_vec(), stopped: false }.write();
            carry[at] = 1;
            self.feed(&carry, &[], ROOM)?;
            self.finish(&carry)?;
        }
        Ok(())
    }

    /// Every offset near the last, with nothing, half a mark, a mark and the most bytes kept, and with short pieces.
    fn last_offsets(&mut self) -> Result<(), String> {
        for offset in (0..=22).map(|less| u64::MAX - less) {
            for count in [0, 1, 2, 17] {
                let kept = [&b"IN"[..], &[0; 15]].concat()[..count].to_vec();
                let carry = Carry { offset, kept, stopped: false }.write();
                self.finish(&carry)?;
                for piece in [&b""[..], b"C", b"CL", b"CLC"] {
                    self.feed(&carry, piece, ROOM)?;
                }
            }
            let stopped = Carry { offset, kept: Vec::new(), stopped: true }.write();
            self.finish(&stopped)?;
            self.feed(&stopped, b"CLCL", ROOM)?;
        }
        Ok(())
    }

    /// Pieces around the most bytes that a feed takes, with nothing, one byte and the most bytes kept; and where 17 or a
    /// stopped stream stand beside the length.
    fn piece_lengths(&mut self) -> Result<(), String> {
        let carry = |offset, kept: &[u8], stopped| Carry { offset, kept: kept.to_vec(), stopped }.write();
        let insert = [&b"IN"[..], &[0; 15]].concat();
        for len in around(MOST_REQUEST_BYTES) {
            let piece: Vec<u8> = b"CL".iter().copied().cycle().take(len).collect();
            for carry in [carry(0, b"", false), carry(4, &insert, false), carry(2, b"", true)] {
                self.feed(&carry, &piece, 2 * MOST_REQUEST_BYTES)?;
            }
            let lost: Vec<u8> = b"LC".iter().copied().cycle().take(len).collect();
            self.feed(&carry(8, b"C", false), &lost, MOST_REQUEST_BYTES)?;
            self.feed(&carry(u64::MAX - 1, b"", false), &piece, 0)?;
        }
        Ok(())
    }

    /// A run of records of all kinds, an unknown mark behind it, in two feeds: cut at every place, with every reply length
    /// around what each part needs, and finished after each.
    fn cuts_and_reply_lengths(&mut self) -> Result<(), String> {
        let whole = [&input::requests(self.random, 6, 12)[..], b"XX"].concat();
        for cut in 0..=whole.len() {
            let mut carry = vec![0; CARRY_BYTES];
            for piece in [&whole[..cut], &whole[cut..]] {
                let room = stream::room(&carry, piece).unwrap_or(0);
                for replies_len in room.saturating_sub(2)..room {
                    self.feed(&carry, piece, replies_len)?;
                }
                carry = self.feed(&carry, piece, room + cut % 2)?;
                self.finish(&carry)?;
            }
        }
        Ok(())
    }
}
