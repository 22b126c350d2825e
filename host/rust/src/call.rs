//! The library's calls over slices. This file alone has unsafe code.

use crate::ffi;
use crate::record;
use crate::refusal::Refusal;
use std::fmt;

/// The version of the interface that this crate is for, as in the header and the pkg-config file.
pub const VERSION: &str = env!("MAPCACHE_VERSION");

/// The largest capacity, and the largest ghost limit.
pub const MOST: u64 = 1024;

/// The most request bytes that one call takes.
pub const MOST_REQUEST_BYTES: usize = 32_768;

/// The bytes of what one feed of a stream carries to the next. A new stream starts with as many zeros.
pub const CARRY_BYTES: usize = 32;

/// The most bytes of a cut record that are carried.
const MOST_KEPT: usize = record::LONGEST - 1;

/// The most reply bytes for each byte of requests: an eviction has 2, and a reply room of 36.
const MOST_REPLY_BYTES_TO_ONE: usize = 18;

/// Small's limit as a part of the capacity, where nothing else is asked for.
pub const DEFAULT_SMALL_RATIO: f64 = 0.1;

/// The ghost limit as a part of the capacity, where nothing else is asked for.
pub const DEFAULT_GHOST_RATIO: f64 = 0.9;

/// The largest frequency that a pair reaches.
pub const MAX_FREQ: u8 = 3;

/// What a cache is made with.
#[derive(Clone, Copy, Debug, PartialEq)]
pub struct Settings {
    /// How many pairs it holds, 1 to 1,024.
    pub capacity: u64,
    /// Small's limit as a part of the capacity.
    pub small_ratio: f64,
    /// The ghost limit as a part of the capacity.
    pub ghost_ratio: f64,
}

impl Settings {
    /// The default ratios.
    #[must_use]
    pub fn with_capacity(capacity: u64) -> Settings {
        Settings { capacity, small_ratio: DEFAULT_SMALL_RATIO, ghost_ratio: DEFAULT_GHOST_RATIO }
    }
}

impl fmt::Display for Settings {
    fn fmt(&self, f: &mut fmt::Formatter<'_>) -> fmt::Result {
        write!(f, "capacity {}, small ratio {:?}, ghost ratio {:?}", self.capacity, self.small_ratio, self.ghost_ratio)
    }
}

/// The bytes that a store needs. A longer store is allowed; the surplus is neither read nor written.
#[allow(unsafe_code)]
#[must_use]
pub fn store_bytes() -> usize {
    // SAFETY: the call takes nothing and touches no memory.
    let bytes = unsafe { ffi::mapcache_store_bytes() };
    usize::try_from(bytes).expect("the library is for machines of 64 bits")
}

/// Makes the store an empty cache.
///
/// # Panics
///
/// Where the library refuses with a number that this crate does not know: it is of another version.
#[allow(unsafe_code)]
pub fn create(settings: Settings, store: &mut [u8]) -> Result<(), Refusal> {
    let Settings { capacity, small_ratio, ghost_ratio } = settings;
    // SAFETY: a slice's pointer is not null and good for its length; `&mut` means that no one else uses it.
    let answer = unsafe { ffi::mapcache_create(capacity, small_ratio, ghost_ratio, store.as_mut_ptr(), store.len()) };
    match answer {
        0 => Ok(()),
        refused => Err(Refusal::of(refused.unsigned_abs(), 0)),
    }
}

/// Runs the requests, which are bytes, and answers how many reply bytes were written. [`Cache`](crate::Cache) does
/// the same with typed requests and answers.
///
/// # Panics
///
/// Where the library refuses with a number that this crate does not know: it is of another version.
#[allow(unsafe_code)]
pub fn run(store: &mut [u8], requests: &[u8], replies: &mut [u8]) -> Result<usize, Refusal> {
    let mut detail = 0;
    // SAFETY: slices' pointers are not null, also at length 0, and good for their lengths; `&mut` and `&` borrowed
    // together mean that the buffers do not overlap and that no other thread changes them; `detail` is our own, and a `u64`.
    let answer = unsafe {
        ffi::mapcache_run(
            store.as_mut_ptr(),
            store.len(),
            requests.as_ptr(),
            requests.len(),
            replies.as_mut_ptr(),
            replies.len(),
            &mut detail,
        )
    };
    usize::try_from(answer).map_err(|_| Refusal::of(answer.unsigned_abs(), detail))
}

/// What a feed of bytes answered.
#[derive(Clone, Copy, Debug, PartialEq, Eq, Hash)]
#[must_use = "its replies may name pairs that are in the cache no more, also where it is refused"]
pub struct Fed {
    /// How many reply bytes were written. They count where the feed is refused too: with a new
    /// [`BadRecord`](Refusal::BadRecord) they answer the requests before the unknown mark.
    pub replied: usize,
    /// The refusal that it gave, if it gave one.
    pub refused: Option<Refusal>,
}

/// The reply room that always suffices for a piece of so many bytes.
#[must_use]
pub const fn feed_room(piece_bytes: usize) -> usize {
    piece_bytes.saturating_add(MOST_KEPT).saturating_mul(MOST_REPLY_BYTES_TO_ONE)
}

/// Takes the next piece of a stream: the requests that it completes are carried out, and a record that is cut is kept in the
/// carry, [`CARRY_BYTES`] bytes that are zero where the stream starts. [`Stream`](crate::Stream) does the same with typed
/// answers.
///
/// # Panics
///
/// Where the library refuses with a number that this crate does not know: it is of another version.
#[allow(unsafe_code)]
pub fn feed(store: &mut [u8], carry: &mut [u8], piece: &[u8], replies: &mut [u8]) -> Fed {
    let (mut replied, mut detail) = (0, 0);
    // SAFETY: slices' pointers are not null, also at length 0, and good for their lengths; `&mut` and `&` borrowed
    // together mean that the buffers do not overlap and that no other thread changes them; `replied` and `detail` are our
    // own, and each a `u64`.
    let answer = unsafe {
        ffi::mapcache_feed(
            store.as_mut_ptr(),
            store.len(),
            carry.as_mut_ptr(),
            carry.len(),
            piece.as_ptr(),
            piece.len(),
            replies.as_mut_ptr(),
            replies.len(),
            &mut replied,
            &mut detail,
        )
    };
    let refused = (answer < 0).then(|| Refusal::of(answer.unsigned_abs(), detail));
    Fed { replied: usize::try_from(replied).expect("the library is for machines of 64 bits"), refused }
}

/// Whether a stream may end here: with a whole record, and not stopped. Nothing changes.
///
/// # Panics
///
/// Where the library refuses with a number that this crate does not know: it is of another version.
#[allow(unsafe_code)]
pub fn finish(carry: &[u8]) -> Result<(), Refusal> {
    let mut detail = 0;
    // SAFETY: a slice's pointer is not null and good for its length; `&` means that no one changes it; `detail` is our own,
    // and a `u64`.
    let answer = unsafe { ffi::mapcache_finish(carry.as_ptr(), carry.len(), &mut detail) };
    match answer {
        0 => Ok(()),
        refused => Err(Refusal::of(refused.unsigned_abs(), detail)),
    }
}
