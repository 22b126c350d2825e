//! Typed requests and their records.

use crate::blocks::{GuestBlock, PhysicalBlock};
use crate::record;
use std::fmt;

/// One request. More kinds may come with a later version.
#[derive(Clone, Copy, Debug, PartialEq, Eq, Hash)]
#[non_exhaustive]
pub enum Request {
    /// GT: look up, and make the pair warmer.
    Get(GuestBlock),
    /// PK: look up without any change.
    Peek(GuestBlock),
    /// RM: take the pair out.
    Remove(GuestBlock),
    /// IN: put the pair in.
    Insert(GuestBlock, PhysicalBlock),
    /// EV: hand back one pair.
    Evict,
    /// CL: empty the cache.
    Clear,
}

impl Request {
    /// The length of its record.
    #[must_use]
    pub fn bytes(&self) -> usize {
        match self {
            Request::Get(_) | Request::Peek(_) | Request::Remove(_) => 10,
            Request::Insert(..) => 18,
            Request::Evict | Request::Clear => 2,
        }
    }

    /// The most bytes that its reply may take.
    #[must_use]
    pub fn reply_room(&self) -> usize {
        match self {
            Request::Get(_) | Request::Peek(_) | Request::Remove(_) => 10,
            Request::Insert(..) => 28,
            Request::Evict => 36,
            Request::Clear => 2,
        }
    }

    /// Appends its record.
    #[inline]
    pub fn write(&self, out: &mut Vec<u8>) {
        match *self {
            Request::Get(guest) => record::write(out, b"GT", [guest.0]),
            Request::Peek(guest) => record::write(out, b"PK", [guest.0]),
            Request::Remove(guest) => record::write(out, b"RM", [guest.0]),
            Request::Insert(guest, physical) => record::write(out, b"IN", [guest.0, physical.0]),
            Request::Evict => record::write(out, b"EV", []),
            Request::Clear => record::write(out, b"CL", []),
        }
    }

    /// The first request of some bytes; none where no whole record stands there.
    #[inline]
    #[must_use]
    pub fn read(bytes: &[u8]) -> Option<Request> {
        let guest = || record::number(bytes, 0).map(GuestBlock);
        let physical = || record::number(bytes, 1).map(PhysicalBlock);
        match bytes.first_chunk::<2>()? {
            b"GT" => Some(Request::Get(guest()?)),
            b"PK" => Some(Request::Peek(guest()?)),
            b"RM" => Some(Request::Remove(guest()?)),
            b"IN" => Some(Request::Insert(guest()?, physical()?)),
            b"EV" => Some(Request::Evict),
            b"CL" => Some(Request::Clear),
            _ => None,
        }
    }
}

/// Its mark and its numbers, as the header writes them.
impl fmt::Display for Request {
    fn fmt(&self, f: &mut fmt::Formatter<'_>) -> fmt::Result {
        match self {
            Request::Get(guest) => write!(f, "GT {}", guest.0),
            Request::Peek(guest) => write!(f, "PK {}", guest.0),
            Request::Remove(guest) => write!(f, "RM {}", guest.0),
            Request::Insert(guest, physical) => write!(f, "IN {} {}", guest.0, physical.0),
            Request::Evict => write!(f, "EV"),
            Request::Clear => write!(f, "CL"),
        }
    }
}
