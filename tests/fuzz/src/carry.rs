//! What a stream carries from one feed to the next, as the bytes that a host lends, and every way in which no feed could
//! have left them. Part of the judge: it is written apart from the definitions on purpose, as `verdict` says.

use crate::layout::number;
use crate::verdict::TABLE;

pub const CARRY_BYTES: usize = 32;

/// The most bytes that wait: an IN that lacks its last one.
const MOST_KEPT: usize = 17;

/// Where the bytes kept begin.
pub const KEPT: usize = 10;
pub const COUNT: usize = 8;
pub const FLAG: usize = 9;

#[derive(Clone, Debug, PartialEq, Eq)]
pub struct Carry {
    pub offset: u64,
    pub kept: Vec<u8>,
    pub stopped: bool,
}

/// Why no feed could have left some bytes, or why this piece cannot follow them.
#[derive(Clone, Copy, Debug, PartialEq, Eq, PartialOrd, Ord)]
pub enum Unfit {
    Short,
    Count,
    Flag,
    Behind,
    Odd,
    StoppedKeeping,
    StoppedLate,
    Whole,
    Unknown,
    KeptLate,
    PieceLate,
}

/// Each in words, as it is printed.
pub const UNFIT: [(Unfit, &str); 11] = [
    (Unfit::Short, "shorter than 32 bytes"),
    (Unfit::Count, "more than 17 bytes kept"),
    (Unfit::Flag, "stopped neither 0 nor 1"),
    (Unfit::Behind, "a byte behind those kept"),
    (Unfit::Odd, "an odd offset"),
    (Unfit::StoppedKeeping, "stopped, and bytes kept"),
    (Unfit::StoppedLate, "stopped at a mark past the end"),
    (Unfit::Whole, "a whole record kept"),
    (Unfit::Unknown, "an unknown mark kept"),
    (Unfit::KeptLate, "kept past the end"),
    (Unfit::PieceLate, "a piece past the end"),
];

impl Carry {
    /// The bytes of a carry that is fit.
    pub fn write(&self) -> [u8; CARRY_BYTES] {
        let mut bytes = [0; CARRY_BYTES];
        bytes[..COUNT].copy_from_slice(&self.offset.to_le_bytes());
        bytes[COUNT] = self.kept.len() as u8;
        bytes[FLAG] = u8::from(self.stopped);
        bytes[KEPT..KEPT + self.kept.len()].copy_from_slice(&self.kept);
        bytes
    }
}

/// What the bytes carry, or all that is wrong with them. A finish has no piece.
pub fn read(bytes: &[u8], piece_len: Option<usize>) -> Result<Carry, Vec<Unfit>> {
    let Some(bytes) = bytes.get(..CARRY_BYTES) else { return Err(vec![Unfit::Short]) };
    let count = usize::from(bytes[COUNT]);
    let (kept, behind) = bytes[KEPT..].split_at(count.min(CARRY_BYTES - KEPT));
    let carry = Carry { offset: number(&bytes[..COUNT]), kept: kept.to_vec(), stopped: bytes[FLAG] == 1 };
    let mut wrong = Vec::new();
    let mut note = |is: bool, what: Unfit| wrong.extend(is.then_some(what));
    note(count > MOST_KEPT, Unfit::Count);
    note(bytes[FLAG] > 1, Unfit::Flag);
    note(behind.iter().any(|byte| *byte != 0), Unfit::Behind);
    note(!carry.offset.is_multiple_of(2), Unfit::Odd);
    if carry.stopped {
        note(count > 0, Unfit::StoppedKeeping);
        note(carry.offset.checked_add(2).is_none(), Unfit::StoppedLate);
    } else if count <= MOST_KEPT {
        wrong.extend(unfit_to_wait(kept));
        wrong.extend(late(&carry, piece_len));
    }
    if wrong.is_empty() { Ok(carry) } else { Err(wrong) }
}

/// What waits is nothing, half a mark, or a known mark with too few bytes behind it.
fn unfit_to_wait(kept: &[u8]) -> Option<Unfit> {
    if kept.len() < 2 {
        return None;
    }
    match TABLE.iter().find(|(mark, ..)| kept.starts_with(*mark)) {
        None => Some(Unfit::Unknown),
        Some((_, bytes, _)) => (kept.len() >= *bytes).then_some(Unfit::Whole),
    }
}

/// No byte of a stream ends past offset 2^64 - 1.
fn late(carry: &Carry, piece_len: Option<usize>) -> Option<Unfit> {
    match carry.offset.checked_add(carry.kept.len() as u64) {
        None => Some(Unfit::KeptLate),
        Some(at) => at.checked_add(piece_len.unwrap_or(0) as u64).is_none().then_some(Unfit::PieceLate),
    }
}
