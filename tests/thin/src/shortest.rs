//! The shortest run in which a block comes to belong to two guests, by trying all runs in the order of their length.

use crate::run::{Event, Outcome, Setup, run};
use mapcache::Settings;
use std::path::Path;
use thin::{BlockCache, Disks, Emptying, Result};

/// Two guests with two blocks each before a cache of one pair.
pub fn smallest_setup() -> Setup {
    Setup { settings: Settings::with_capacity(1), disks: Disks { guests: 2, blocks: 2 }, physical_blocks: 8 }
}

pub struct Shortest {
    pub events: Vec<Event>,
    pub outcome: Outcome,
}

/// The first run that shares a block, among all runs of at most so many of these events; and how many were tried.
pub fn search<C: BlockCache>(setup: Setup, events: &[Event], most: u32, map: &Path) -> Result<(u64, Option<Shortest>)> {
    let mut tried = 0;
    for length in 1..=most {
        for number in 0..events.len().pow(length) {
            let events = nth_run(events, length, number);
            let outcome = run::<C>(setup, &events, map)?;
            tried += 1;
            if outcome.shared.is_some() {
                return Ok((tried, Some(Shortest { events, outcome })));
            }
        }
    }
    Ok((tried, None))
}

/// Writes and sweeps: what pushes a pair out here is an insert.
pub fn writes_and_sweeps(disks: Disks) -> Vec<Event> {
    disks.all().map(Event::Write).chain([Event::Sweep]).collect()
}

pub fn all_events(disks: Disks) -> Vec<Event> {
    let mut events = writes_and_sweeps(disks);
    events.extend([Event::Evict, Event::Restart(Emptying::ByRemoving), Event::Restart(Emptying::ByEvicting)]);
    events.extend(disks.all().flat_map(|block| [Event::Read(block), Event::Trim(block)]));
    events
}

/// The run that the digits of a number spell, in as many digits as it has events.
fn nth_run(events: &[Event], length: u32, mut number: usize) -> Vec<Event> {
    let mut run: Vec<Event> = (0..length)
        .map(|_| {
            let event = events[number % events.len()];
            number /= events.len();
            event
        })
        .collect();
    run.reverse();
    run
}
