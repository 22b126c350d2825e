//! What a feed and a finish must answer and leave, worked out from the bytes of their buffers alone. Part of the judge, as
//! `verdict` says.

use crate::carry::{self, CARRY_BYTES, Carry, Unfit};
use crate::layout;
use crate::state::State;
use crate::verdict::{MOST_REQUEST_BYTES, STORE_BYTES, TABLE, Verdict};

/// The numbers that each can refuse with, nothing done; the runs must come to every one.
pub const FEED_REFUSALS: [u8; 6] = [6, 7, 8, 9, 10, 17];
pub const FINISH_REFUSALS: [u8; 2] = [9, 17];

/// What a feed must do.
#[derive(Clone, Debug)]
pub struct Fed {
    /// Refused, and then nothing changes; or the state afterwards and the replies.
    pub verdict: Verdict,
    /// All bytes of the carry afterwards, those behind the first 32 among them.
    pub carry: Vec<u8>,
    /// The offset of the mark that stops the stream in this feed: then 9 is the answer, and the replies count.
    pub stops_at: Option<u64>,
    /// The refusals that apply, in the order in which they are judged.
    pub reasons: Vec<(u8, u64)>,
    /// What is wrong with the carry.
    pub unfit: Vec<Unfit>,
}

/// How far whole records go in some bytes, their reply room, and whether a mark that is no request's comes next.
pub struct Walk {
    pub whole: usize,
    pub room: usize,
    pub unknown: bool,
}

pub fn walk(bytes: &[u8]) -> Walk {
    let mut walk = Walk { whole: 0, room: 0, unknown: false };
    loop {
        let rest = &bytes[walk.whole..];
        let row = TABLE.iter().find(|(mark, ..)| rest.starts_with(*mark));
        match row {
            Some((_, bytes, room)) if rest.len() >= *bytes => {
                walk.whole += bytes;
                walk.room += room;
            },
            row => {
                walk.unknown = row.is_none() && rest.len() >= 2;
                return walk;
            },
        }
    }
}

/// The reply room that a feed asks for; none where it does not come to that.
pub fn room(carry: &[u8], piece: &[u8]) -> Option<usize> {
    let carry = carry::read(carry, Some(piece.len())).ok().filter(|carry| !carry.stopped)?;
    Some(walk(&[&carry.kept, piece].concat()).room)
}

pub fn of_feed(store: &[u8], carry: &[u8], piece: &[u8], replies_len: usize) -> Fed {
    let state = if store.len() < STORE_BYTES { Err(6) } else { layout::state(store).ok_or(7) };
    let read = carry::read(carry, Some(piece.len()));
    let mut reasons: Vec<(u8, u64)> = Vec::new();
    reasons.extend(state.as_ref().err().map(|number| (*number, 0)));
    reasons.extend(read.as_ref().err().map(|_| (17, 0)));
    reasons.extend((piece.len() > MOST_REQUEST_BYTES).then_some((8, 0)));
    reasons.extend(read.as_ref().ok().filter(|read| read.stopped).map(|read| (9, read.offset)));
    reasons.extend(room(carry, piece).filter(|room| replies_len < *room).map(|room| (10, room as u64)));
    match (state, read, reasons.first()) {
        (Ok(state), Ok(read), None) => done(state, &read, carry, piece),
        (_, read, first) => {
            let (number, detail) = *first.expect("what is not done has a reason");
            let verdict = Verdict::Refused { number, detail };
            Fed { verdict, carry: carry.to_vec(), stops_at: None, reasons, unfit: read.err().unwrap_or_default() }
        },
    }
}

/// A feed that nothing speaks against.
fn done(mut state: State, before: &Carry, carry: &[u8], piece: &[u8]) -> Fed {
    let joined = [&before.kept, piece].concat();
    let Walk { whole, unknown, .. } = walk(&joined);
    let replies = state.run(&joined[..whole]);
    let offset = before.offset + whole as u64;
    let kept = if unknown { Vec::new() } else { joined[whole..].to_vec() };
    let left = Carry { offset, kept, stopped: unknown }.write();
    Fed {
        verdict: Verdict::Done { state, replies },
        carry: [&left, &carry[CARRY_BYTES..]].concat(),
        stops_at: unknown.then_some(offset),
        reasons: Vec::new(),
        unfit: Vec::new(),
    }
}

/// What a finish must answer: its number, 0 where the stream is complete, and its detail; and what is wrong with the carry.
pub fn of_finish(carry: &[u8]) -> (u8, u64, Vec<Unfit>) {
    match carry::read(carry, None) {
        Err(unfit) => (17, 0, unfit),
        Ok(carry) if carry.stopped || !carry.kept.is_empty() => (9, carry.offset, Vec::new()),
        Ok(_) => (0, 0, Vec::new()),
    }
}
