//! An example host: thin provisioning with its map in a file, and the mapping cache before the map.
//!
//! It is right only if no pair leaves the cache untold. `src/main.rs` shows one scenario; the repository's tests/thin has
//! random runs of this host, and the same runs over a cache that does not tell.

mod block_cache;
mod disk;
mod host;

pub use block_cache::BlockCache;
pub use disk::{Disks, name};
pub use host::{Emptying, Host};

/// What goes wrong here is said to people, whichever kind it is.
pub type Result<T> = std::result::Result<T, Box<dyn std::error::Error>>;
