//! What each call must answer, worked out from the bytes of its buffers alone.
//!
//! This file, `carry`, `stream`, `state` and `layout` are the fuzzer's judge. They have their own reader of stores, carries
//! and records, their own rules and their own constants, and share none with the wrapper, with the reader that the
//! differential runs use or with the archive: a mistake in what is shared would be on both sides of each comparison, and no
//! run would show it.

use crate::layout;
use crate::state::State;

/// The numbers that each call can refuse with; the runs must come to every one.
pub const CREATE_REFUSALS: [u8; 6] = [1, 2, 3, 4, 5, 6];
pub const RUN_REFUSALS: [u8; 5] = [6, 7, 8, 9, 10];

pub const STORE_BYTES: usize = 61_696;
pub const MOST_REQUEST_BYTES: usize = 32_768;

#[derive(Clone, Debug, PartialEq)]
pub enum Verdict {
    Refused {
        number: u8,
        detail: u64,
    },
    /// The state afterwards and the reply bytes.
    Done {
        state: State,
        replies: Vec<u8>,
    },
}

fn refused(number: u8) -> Verdict {
    Verdict::Refused { number, detail: 0 }
}

/// The marks with the bytes of their records and their reply room.
pub const TABLE: [(&[u8; 2], usize, usize); 6] =
    [(b"GT", 10, 10), (b"PK", 10, 10), (b"RM", 10, 10), (b"IN", 18, 28), (b"EV", 2, 36), (b"CL", 2, 2)];

/// The reply room of all requests, or the offset of the first record that is none.
pub fn reply_room(requests: &[u8]) -> Result<usize, usize> {
    let (mut at, mut room) = (0, 0);
    while at < requests.len() {
        let rest = &requests[at..];
        let row = TABLE.iter().find(|(mark, bytes, _)| rest.starts_with(*mark) && rest.len() >= *bytes);
        let (_, bytes, reply) = row.ok_or(at)?;
        at += bytes;
        room += reply;
    }
    Ok(room)
}

pub fn of_run(store: &[u8], requests: &[u8], replies_len: usize) -> Verdict {
    if store.len() < STORE_BYTES {
        return refused(6);
    }
    let Some(mut state) = layout::state(store) else { return refused(7) };
    if requests.len() > MOST_REQUEST_BYTES {
        return refused(8);
    }
    match reply_room(requests) {
        Err(offset) => Verdict::Refused { number: 9, detail: offset as u64 },
        Ok(room) if replies_len < room => Verdict::Refused { number: 10, detail: room as u64 },
        Ok(_) => {
            let replies = state.run(requests);
            Verdict::Done { state, replies }
        },
    }
}

pub fn of_create(capacity: u64, small_ratio: f64, ghost_ratio: f64, store_len: usize) -> Verdict {
    let unfit = |ratio: f64| !ratio.is_finite() || ratio < 0.0;
    let limit = |ratio: f64| (capacity as f64 * ratio).round();
    if capacity == 0 {
        refused(1)
    } else if capacity > layout::MOST {
        refused(2)
    } else if unfit(small_ratio) || small_ratio > 1.0 {
        refused(3)
    } else if unfit(ghost_ratio) {
        refused(4)
    } else if limit(ghost_ratio) > layout::MOST as f64 {
        refused(5)
    } else if store_len < STORE_BYTES {
        refused(6)
    } else {
        let state = State::empty(capacity, limit(small_ratio) as u64, limit(ghost_ratio) as u64);
        Verdict::Done { state, replies: Vec::new() }
    }
}
