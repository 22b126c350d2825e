//! The original and what is needed to drive it: cachekit's S3-FIFO as published (`policy`, `ds`, `traits`, `error`,
//! `metrics`), and with the feature `observe` a driver that answers our requests in our bytes.

include!(concat!(env!("OUT_DIR"), "/root.rs"));

#[cfg(feature = "observe")]
pub mod driver;
#[cfg(feature = "observe")]
pub mod state;
