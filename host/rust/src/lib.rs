//! The proved mapping cache, for hosts in Rust.
//!
//! A cache maps guest blocks to physical blocks (S3-FIFO), in memory that the host lends. The library underneath,
//! `libmapcache.a`, is proved to follow its rules for every input under five assumptions: no pointer is null, lengths
//! are true, the numbers that a call writes are aligned as a `u64` is, the buffers do not overlap, and no other thread uses
//! them meanwhile. Here they cannot be broken: slices give the first two, those numbers are `u64`s, and `&mut` gives the
//! others.
//!
//! ```
//! use mapcache::{Cache, GuestBlock, Inserted, Pair, PhysicalBlock, Queue, Left, Settings};
//!
//! let mut cache = Cache::new(Settings::with_capacity(1))?;
//! let first = cache.insert(GuestBlock(7), PhysicalBlock(70))?;
//! assert_eq!(first, Inserted::New { left: None, pops: 0 });
//!
//! // the cache is full: the insert says which pair left
//! let second = cache.insert(GuestBlock(8), PhysicalBlock(80))?;
//! let pair = Pair { guest: GuestBlock(7), physical: PhysicalBlock(70) };
//! assert_eq!(second.left(), Some(Left { pair, from: Queue::Small }));
//! assert_eq!(cache.get(GuestBlock(7))?, None);
//! assert_eq!(cache.get(GuestBlock(8))?, Some(PhysicalBlock(80)));
//! # Ok::<(), mapcache::Refusal>(())
//! ```
//!
//! Where requests come as bytes through a pipe that cuts anywhere, a [`Stream`] takes them as they come.
//!
//! A guest block and a physical block are different kinds of number, so they cannot be mixed up:
//!
//! ```compile_fail,E0308
//! # use mapcache::{Cache, GuestBlock, PhysicalBlock, Settings};
//! let mut cache = Cache::new(Settings::with_capacity(1)).unwrap();
//! let _ = cache.insert(PhysicalBlock(70), GuestBlock(7));
//! ```
//!
//! Nor can one buffer be lent twice to a call:
//!
//! ```compile_fail,E0499
//! let mut store = vec![0; mapcache::store_bytes()];
//! let _ = mapcache::run(&mut store, b"EV", &mut store[..36]);
//! ```
#![deny(unsafe_code)]
#![warn(missing_docs)]
#![warn(clippy::must_use_candidate)]

mod answer;
mod blocks;
mod cache;
mod call;
pub mod ffi;
mod record;
mod refusal;
mod reply;
mod request;
mod stream;

pub use answer::{Answer, Evicted, Inserted};
pub use blocks::{GuestBlock, Left, Pair, PhysicalBlock, Queue};
pub use cache::{Cache, in_calls};
pub use call::{
    CARRY_BYTES, DEFAULT_GHOST_RATIO, DEFAULT_SMALL_RATIO, Fed, MAX_FREQ, MOST, MOST_REQUEST_BYTES, Settings, VERSION,
    create, feed, feed_room, finish, run, store_bytes,
};
pub use refusal::Refusal;
pub use reply::Reply;
pub use request::Request;
pub use stream::{Answered, Broken, Stream, StreamError};
