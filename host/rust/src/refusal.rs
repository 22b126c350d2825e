//! Why a call was turned away.

use std::error::Error;
use std::fmt;

/// Why a call was turned away. A call that is refused has changed nothing, but for a feed that meets an unknown mark
/// ([`BadRecord`](Refusal::BadRecord)): it has carried out the requests before it. More reasons may come with a later version.
#[derive(Clone, Copy, Debug, PartialEq, Eq, Hash)]
#[non_exhaustive]
#[must_use]
pub enum Refusal {
    /// 1: the capacity is 0.
    CapacityZero,
    /// 2: the capacity is above 1,024.
    CapacityLarge,
    /// 3: the small ratio is NaN, infinite, above 1, or below zero. -0.0 is not below zero.
    SmallRatio,
    /// 4: the ghost ratio is NaN, infinite, or below zero. -0.0 is not below zero.
    GhostRatio,
    /// 5: the ghost limit is above 1,024.
    GhostLimit,
    /// 6: the store is shorter than [`store_bytes`](crate::store_bytes).
    StoreShort,
    /// 7: the store is damaged.
    StoreDamaged,
    /// 8: the requests, or the piece of a stream, are longer than 32,768 bytes.
    RequestsLong,
    /// 9: the record at this offset of the requests, or of the whole stream, has an unknown mark, or is cut short.
    BadRecord {
        /// Where the record starts.
        offset: u64,
    },
    /// 10: the replies may need this many bytes, and there is less room.
    RepliesShort {
        /// The sum of the requests' reply rooms.
        needed: u64,
    },
    /// 17: what is carried is none that a feed leaves, or the piece ends past offset 2^64-1 of its stream.
    BadCarry,
}

impl Refusal {
    /// The refusal that the library names by a number and a detail. A number that is unknown here comes from a library of
    /// another version; what such a call means cannot be told, so this panics.
    pub(crate) fn of(number: u64, detail: u64) -> Refusal {
        match number {
            1 => Refusal::CapacityZero,
            2 => Refusal::CapacityLarge,
            3 => Refusal::SmallRatio,
            4 => Refusal::GhostRatio,
            5 => Refusal::GhostLimit,
            6 => Refusal::StoreShort,
            7 => Refusal::StoreDamaged,
            8 => Refusal::RequestsLong,
            9 => Refusal::BadRecord { offset: detail },
            10 => Refusal::RepliesShort { needed: detail },
            17 => Refusal::BadCarry,
            _ => panic!("the library linked is not the one that this crate is for: it refuses with {number}"),
        }
    }

    /// Its number, as the header lists them.
    #[must_use]
    pub fn number(&self) -> u8 {
        match self {
            Refusal::CapacityZero => 1,
            Refusal::CapacityLarge => 2,
            Refusal::SmallRatio => 3,
            Refusal::GhostRatio => 4,
            Refusal::GhostLimit => 5,
            Refusal::StoreShort => 6,
            Refusal::StoreDamaged => 7,
            Refusal::RequestsLong => 8,
            Refusal::BadRecord { .. } => 9,
            Refusal::RepliesShort { .. } => 10,
            Refusal::BadCarry => 17,
        }
    }

    /// Its detail: an offset, a number of bytes, or 0 where there is none.
    #[must_use]
    pub fn detail(&self) -> u64 {
        match *self {
            Refusal::BadRecord { offset } => offset,
            Refusal::RepliesShort { needed } => needed,
            _ => 0,
        }
    }
}

impl fmt::Display for Refusal {
    fn fmt(&self, f: &mut fmt::Formatter<'_>) -> fmt::Result {
        match self {
            Refusal::CapacityZero => write!(f, "the capacity is 0"),
            Refusal::CapacityLarge => write!(f, "the capacity is above 1,024"),
            Refusal::SmallRatio => write!(f, "the small ratio is no number from 0 to 1"),
            Refusal::GhostRatio => write!(f, "the ghost ratio is no finite number from 0 up"),
            Refusal::GhostLimit => write!(f, "capacity times ghost ratio is above 1,024"),
            Refusal::StoreShort => write!(f, "the store is too short"),
            Refusal::StoreDamaged => write!(f, "the store is damaged"),
            Refusal::RequestsLong => write!(f, "the requests are longer than 32,768 bytes"),
            Refusal::BadRecord { offset } => write!(f, "the record at offset {offset} is unknown or cut short"),
            Refusal::RepliesShort { needed } => {
                write!(f, "the replies may need {needed} bytes, and there is less room")
            },
            Refusal::BadCarry => write!(f, "what is carried is none that a feed leaves, or the stream grows too long"),
        }?;
        write!(f, " (refusal {})", self.number())
    }
}

impl Error for Refusal {}

#[cfg(test)]
mod tests {
    use super::Refusal;

    /// The numbers that this crate knows; those between are of no call yet.
    const KNOWN: [u64; 11] = [1, 2, 3, 4, 5, 6, 7, 8, 9, 10, 17];

    #[test]
    fn every_number_is_that_of_its_refusal() {
        for number in KNOWN {
            let refusal = Refusal::of(number, 28);
            assert_eq!(u64::from(refusal.number()), number);
            assert!([0, 28].contains(&refusal.detail()), "{refusal:?}");
            assert!(refusal.to_string().ends_with(&format!("(refusal {number})")), "{refusal}");
        }
    }

    #[test]
    #[should_panic = "it refuses with"]
    fn a_number_of_another_version_is_not_taken_for_one_of_ours() {
        let _ = Refusal::of(u64::from(u8::MAX), 0);
    }
}
