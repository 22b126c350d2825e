//! Carries that no feed left: every field of a good one changed, and carries that are random.

use crate::calls::MOST_CARRY;
use crate::carry::{CARRY_BYTES, COUNT, Carry, FLAG, KEPT};
use crate::input;
use common::Random;

#[derive(Clone, Copy, Debug)]
pub enum CarryDamage {
    /// The offset gets another value, odd or even.
    Offset,
    /// The offset is among the last there are, or just low enough for the bytes kept.
    LateOffset,
    /// Another number of bytes is said to be kept.
    Count,
    /// The stream is said to have stopped, or not to, or neither.
    Flag,
    /// Other bytes are kept: the front of some record, a whole one, more than one, or an unknown mark.
    Kept,
    /// A byte behind those kept is not 0.
    Behind,
    /// The last bytes are missing.
    Short,
    /// More bytes behind the record: this is no damage, and must be accepted.
    Surplus,
    /// Any byte gets another value.
    Byte,
    /// Every byte is random.
    WholeRandom,
}

pub const CARRY_KINDS: [CarryDamage; 10] = [
    CarryDamage::Offset,
    CarryDamage::LateOffset,
    CarryDamage::Count,
    CarryDamage::Flag,
    CarryDamage::Kept,
    CarryDamage::Behind,
    CarryDamage::Short,
    CarryDamage::Surplus,
    CarryDamage::Byte,
    CarryDamage::WholeRandom,
];

/// Damages a carry of at least 32 bytes.
pub fn inflict(kind: CarryDamage, carry: &mut Vec<u8>, random: &mut Random) {
    match kind {
        CarryDamage::Offset => {
            let offset = random.number() >> random.below(64);
            set_offset(carry, offset);
        },
        CarryDamage::LateOffset => {
            let offset = u64::MAX - random.below(24);
            // mostly even, so that it is late and nothing else
            set_offset(carry, if random.one_in(4) { offset } else { offset & !1 });
        },
        CarryDamage::Count => carry[COUNT] = if random.one_in(2) { random.below(24) as u8 } else { random.byte() },
        CarryDamage::Flag => carry[FLAG] = if random.one_in(3) { random.byte() } else { 1 - carry[FLAG].min(1) },
        CarryDamage::Kept => keep_others(carry, random),
        CarryDamage::Behind => {
            let kept = usize::from(carry[COUNT]).min(CARRY_BYTES - KEPT - 1);
            let at = KEPT + kept + random.index(CARRY_BYTES - KEPT - kept);
            carry[at] = 1 + random.below(255) as u8;
        },
        CarryDamage::Short => carry.truncate(random.index(CARRY_BYTES)),
        CarryDamage::Surplus => lengthen(carry, random),
        CarryDamage::Byte => carry[random.index(CARRY_BYTES)] = random.byte(),
        CarryDamage::WholeRandom => random.fill(carry),
    }
}

fn set_offset(carry: &mut [u8], offset: u64) {
    carry[..COUNT].copy_from_slice(&offset.to_le_bytes());
}

/// Any bytes behind the record; a feed may neither read nor write them.
pub fn lengthen(carry: &mut Vec<u8>, random: &mut Random) {
    carry.resize(CARRY_BYTES + random.index(MOST_CARRY - CARRY_BYTES), 0);
    random.fill(&mut carry[CARRY_BYTES..]);
}

/// Keeps the front of some records, which may reach beyond the first, or of bytes that are none; the rest is as a feed
/// leaves it.
fn keep_others(carry: &mut [u8], random: &mut Random) {
    let mut bytes = input::requests(random, 8, 3);
    if random.one_in(3) {
        bytes = input::bad_requests(random, 8);
    }
    bytes.resize(18, 0);
    bytes.truncate(random.index(19));
    let offset = crate::layout::number(&carry[..COUNT]) & !1;
    let stopped = carry[FLAG] == 1 && random.one_in(2);
    carry[..CARRY_BYTES].copy_from_slice(&Carry { offset, kept: bytes, stopped }.write());
}
