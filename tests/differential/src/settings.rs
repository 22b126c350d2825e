//! Settings that reach a limit that is asked for, and settings as bytes.

use common::Random;
use mapcache::{DEFAULT_GHOST_RATIO, DEFAULT_SMALL_RATIO, MOST, Settings};

/// The largest limits that ours takes.
pub const MOST_CAPACITY: u64 = MOST;
pub const MOST_GHOSTS: u64 = MOST;

const MARK: &[u8; 2] = b"CF";

/// The record CF, which the replay program reads first: a mark, the capacity, and the bits of the two ratios.
pub fn write(settings: Settings, out: &mut Vec<u8>) {
    let Settings { capacity, small_ratio, ghost_ratio } = settings;
    out.extend_from_slice(MARK);
    for number in [capacity, small_ratio.to_bits(), ghost_ratio.to_bits()] {
        out.extend_from_slice(&number.to_le_bytes());
    }
}

/// The settings of a record CF and the bytes behind it; none where no whole one stands there.
pub fn read(bytes: &[u8]) -> Option<(Settings, &[u8])> {
    let (capacity, rest) = number(bytes.strip_prefix(MARK)?)?;
    let (small_ratio, rest) = number(rest)?;
    let (ghost_ratio, rest) = number(rest)?;
    let [small_ratio, ghost_ratio] = [small_ratio, ghost_ratio].map(f64::from_bits);
    Some((Settings { capacity, small_ratio, ghost_ratio }, rest))
}

fn number(bytes: &[u8]) -> Option<(u64, &[u8])> {
    let (number, rest) = bytes.split_first_chunk::<8>()?;
    Some((u64::from_le_bytes(*number), rest))
}

/// The limits given.
pub fn exactly(capacity: u64, small_limit: u64, ghost_limit: u64) -> Settings {
    Settings {
        capacity,
        small_ratio: ratio(capacity, small_limit, 0.0),
        ghost_ratio: ratio(capacity, ghost_limit, 0.0),
    }
}

/// Both products halfway above the limit given, and the nearest ratios on each side: where rounding decides.
pub fn around_half(capacity: u64, limit: u64) -> [Settings; 3] {
    let half = ratio(capacity, limit, 0.5);
    [half.next_down(), half, half.next_up()].map(|ratio| Settings {
        capacity,
        small_ratio: ratio.min(1.0),
        ghost_ratio: ratio,
    })
}

/// Any limits, those at the ends and the default ones more often than others.
pub fn any(capacity: u64, random: &mut Random) -> Settings {
    let small_ratio = match random.below(6) {
        0 => DEFAULT_SMALL_RATIO,
        1 => 0.0,
        _ => {
            let limit = random.between(0, capacity);
            ratio(capacity, limit, off_centre(random)).min(1.0)
        },
    };
    let ghost_ratio = match random.below(6) {
        0 => DEFAULT_GHOST_RATIO,
        1 => 0.0,
        2 => ratio(capacity, MOST_GHOSTS, 0.0),
        way => {
            let limit = random.between(0, if way == 3 { MOST_GHOSTS } else { capacity });
            ratio(capacity, limit, off_centre(random))
        },
    };
    Settings { capacity, small_ratio, ghost_ratio }
}

/// How far a product is from the whole number that it is rounded to.
fn off_centre(random: &mut Random) -> f64 {
    match random.below(3) {
        0 => 0.0,
        _ => random.fraction() * 0.98 - 0.49,
    }
}

/// A ratio whose product with the capacity is so far from the limit.
fn ratio(capacity: u64, limit: u64, off: f64) -> f64 {
    ((limit as f64 + off) / capacity as f64).max(0.0)
}
