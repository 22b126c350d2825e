//! Every ratio and every buffer length around each limit, one by one.

use crate::calls::Calls;
use crate::input;
use crate::tally::Tally;
use crate::verdict::{MOST_REQUEST_BYTES, STORE_BYTES, reply_room};
use common::Random;
use mapcache::Settings;

/// How far beyond a limit the lengths go, on both sides.
const AROUND: usize = 9;

pub fn all(calls: &mut Calls, tally: &mut Tally, random: &mut Random) -> Result<(), String> {
    let before = calls.made;
    ratios(calls, tally, random)?;
    store_lengths(calls, tally, random)?;
    let mut store = vec![0xA5; STORE_BYTES];
    tally.creation(&calls.create(Settings::with_capacity(3), &mut store, random)?);
    request_lengths(calls, tally, &mut store, random)?;
    cuts_and_reply_lengths(calls, tally, &mut store, random)?;
    tally.at_limits += calls.made - before;
    Ok(())
}

pub fn around(limit: usize) -> std::ops::RangeInclusive<usize> {
    limit.saturating_sub(AROUND)..=limit + AROUND
}

/// Zero and one and what is next to them, the largest, and what is no number, each with either sign; and each with each.
fn ratios(calls: &mut Calls, tally: &mut Tally, random: &mut Random) -> Result<(), String> {
    let one = [1.0f64.next_down(), 1.0, 1.0f64.next_up()];
    let ends = [0.0, 5e-324, f64::MIN_POSITIVE, f64::MAX, f64::INFINITY, f64::NAN];
    let each: Vec<f64> = [&one[..], &ends].concat().iter().flat_map(|ratio| [*ratio, -ratio]).collect();
    let mut store = vec![0x5A; STORE_BYTES];
    for capacity in [1, 4, 1024] {
        for small_ratio in each.iter().copied() {
            for ghost_ratio in each.iter().copied() {
                let settings = Settings { capacity, small_ratio, ghost_ratio };
                tally.creation(&calls.create(settings, &mut store, random)?);
            }
        }
    }
    Ok(())
}

/// Stores from nothing on, and around the size that they need.
fn store_lengths(calls: &mut Calls, tally: &mut Tally, random: &mut Random) -> Result<(), String> {
    for len in around(0).chain(around(128)).chain(around(4096)).chain(around(STORE_BYTES)) {
        let mut store = vec![0x5A; len];
        for capacity in [1, 1024] {
            let settings = Settings { capacity, small_ratio: 1.0, ghost_ratio: 1.0 };
            tally.creation(&calls.create(settings, &mut store, random)?);
            let requests = input::requests(random, 8, 3);
            tally.run(&calls.run(&mut store, &requests, 28 * 3 + 36, random)?);
        }
    }
    Ok(())
}

/// Requests around the most bytes that a call takes: whole records, and a cut one behind them.
fn request_lengths(calls: &mut Calls, tally: &mut Tally, store: &mut [u8], random: &mut Random) -> Result<(), String> {
    for len in around(MOST_REQUEST_BYTES) {
        let requests: Vec<u8> = b"CL".iter().copied().cycle().take(len).collect();
        for replies_len in [0, MOST_REQUEST_BYTES - 1, MOST_REQUEST_BYTES, len] {
            tally.run(&calls.run(store, &requests, replies_len, random)?);
        }
    }
    Ok(())
}

/// A run of records of all kinds: cut at every length, and with every reply length around what each cut needs.
fn cuts_and_reply_lengths(
    calls: &mut Calls,
    tally: &mut Tally,
    store: &mut [u8],
    random: &mut Random,
) -> Result<(), String> {
    let whole = input::requests(random, 6, 12);
    for cut in 0..=whole.len() {
        let requests = &whole[..cut];
        match reply_room(requests) {
            Err(_) => tally.run(&calls.run(store, requests, 1000, random)?),
            Ok(room) => {
                for replies_len in around(room) {
                    tally.run(&calls.run(store, requests, replies_len, random)?);
                }
            },
        }
    }
    Ok(())
}
