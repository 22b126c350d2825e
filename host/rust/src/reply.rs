//! The records that replies are made of.

use crate::blocks::{GuestBlock, Pair, PhysicalBlock};
use crate::record;
use std::fmt;

/// One record of the replies. What the records of one request say together is its [`Answer`](crate::Answer). More kinds
/// may come with a later version.
#[derive(Clone, Copy, Debug, PartialEq, Eq, Hash)]
#[non_exhaustive]
#[must_use = "it may name a pair that is in the cache no more"]
pub enum Reply {
    /// MI: not resident, or nothing to hand back.
    Nothing,
    /// HI: where the block is.
    Hit(PhysicalBlock),
    /// RE: where the block was before the insert.
    Replaced(PhysicalBlock),
    /// NW: the block is new.
    New {
        /// How many pops the eviction rule made; an entry that is asked for again may be popped twice.
        pops: u64,
    },
    /// GO: where the block was that is taken out.
    Gone(PhysicalBlock),
    /// EX: the pair handed back.
    HandedBack(Pair),
    /// OK: the cache is empty.
    Done,
    /// ES: the pair that the eviction rule pushed out of Small. The record that closes the answer follows.
    LeftSmall(Pair),
    /// EM: the pair that it pushed out of Main. The record that closes the answer follows.
    LeftMain(Pair),
}

impl Reply {
    /// Appends its record.
    #[inline]
    pub fn write(&self, out: &mut Vec<u8>) {
        match *self {
            Reply::Nothing => record::write(out, b"MI", []),
            Reply::Hit(physical) => record::write(out, b"HI", [physical.0]),
            Reply::Replaced(physical) => record::write(out, b"RE", [physical.0]),
            Reply::New { pops } => record::write(out, b"NW", [pops]),
            Reply::Gone(physical) => record::write(out, b"GO", [physical.0]),
            Reply::HandedBack(pair) => record::write(out, b"EX", numbers(pair)),
            Reply::Done => record::write(out, b"OK", []),
            Reply::LeftSmall(pair) => record::write(out, b"ES", numbers(pair)),
            Reply::LeftMain(pair) => record::write(out, b"EM", numbers(pair)),
        }
    }

    /// The first reply of some bytes and the bytes after it; none where no whole record stands there.
    #[must_use]
    pub fn read(bytes: &[u8]) -> Option<(Reply, &[u8])> {
        let number = |n| record::number(bytes, n);
        let physical = |n| number(n).map(PhysicalBlock);
        let pair = || Some(Pair { guest: GuestBlock(number(0)?), physical: physical(1)? });
        let (reply, length) = match bytes.first_chunk::<2>()? {
            b"MI" => (Reply::Nothing, 2),
            b"HI" => (Reply::Hit(physical(0)?), 10),
            b"RE" => (Reply::Replaced(physical(0)?), 10),
            b"NW" => (Reply::New { pops: number(0)? }, 10),
            b"GO" => (Reply::Gone(physical(0)?), 10),
            b"EX" => (Reply::HandedBack(pair()?), 18),
            b"OK" => (Reply::Done, 2),
            b"ES" => (Reply::LeftSmall(pair()?), 18),
            b"EM" => (Reply::LeftMain(pair()?), 18),
            _ => return None,
        };
        Some((reply, &bytes[length..]))
    }

    /// The replies of some bytes. Bytes that are no record end it, as the error that says where.
    pub fn read_all(bytes: &[u8]) -> Result<Vec<Reply>, usize> {
        let mut rest = bytes;
        let mut replies = Vec::new();
        while !rest.is_empty() {
            let (reply, after) = Reply::read(rest).ok_or(bytes.len() - rest.len())?;
            replies.push(reply);
            rest = after;
        }
        Ok(replies)
    }
}

#[inline]
fn numbers(pair: Pair) -> [u64; 2] {
    [pair.guest.0, pair.physical.0]
}

/// Its mark and its numbers, as the header writes them.
impl fmt::Display for Reply {
    fn fmt(&self, f: &mut fmt::Formatter<'_>) -> fmt::Result {
        let mut two = |mark, Pair { guest, physical }: &Pair| write!(f, "{mark} {} {}", guest.0, physical.0);
        match self {
            Reply::HandedBack(pair) => two("EX", pair),
            Reply::LeftSmall(pair) => two("ES", pair),
            Reply::LeftMain(pair) => two("EM", pair),
            Reply::Hit(physical) => write!(f, "HI {}", physical.0),
            Reply::Replaced(physical) => write!(f, "RE {}", physical.0),
            Reply::Gone(physical) => write!(f, "GO {}", physical.0),
            Reply::New { pops } => write!(f, "NW {pops}"),
            Reply::Nothing => write!(f, "MI"),
            Reply::Done => write!(f, "OK"),
        }
    }
}
