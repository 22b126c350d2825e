//! Runs of a host: events one after the other, watched by someone who knows which block belongs to whom.

use common::Random;
use mapcache::{GuestBlock, PhysicalBlock, Settings};
use std::collections::HashMap;
use std::fmt;
use std::path::Path;
use thin::{BlockCache, Disks, Emptying, Host, Result, name};

#[derive(Clone, Copy, Debug, PartialEq, Eq)]
pub enum Event {
    Read(GuestBlock),
    Write(GuestBlock),
    /// The block gets a new physical block.
    Move(GuestBlock),
    Trim(GuestBlock),
    Evict,
    Sweep,
    Restart(Emptying),
}

impl fmt::Display for Event {
    fn fmt(&self, f: &mut fmt::Formatter<'_>) -> fmt::Result {
        match self {
            Event::Read(block) => write!(f, "{} is read", name(*block)),
            Event::Write(block) => write!(f, "{} is written", name(*block)),
            Event::Move(block) => write!(f, "{} is moved", name(*block)),
            Event::Trim(block) => write!(f, "{} is trimmed", name(*block)),
            Event::Evict => write!(f, "a pair is evicted"),
            Event::Sweep => write!(f, "sweep"),
            Event::Restart(Emptying::ByRemoving) => write!(f, "planned restart, emptied by RM"),
            Event::Restart(Emptying::ByEvicting) => write!(f, "planned restart, emptied by EV"),
        }
    }
}

/// What a run is made with.
#[derive(Clone, Copy, Debug)]
pub struct Setup {
    pub settings: Settings,
    pub disks: Disks,
    pub physical_blocks: u64,
}

/// From the least to the most, by the remainder, as the runs were drawn whose figures docs/RELIABILITY.md has.
fn draw(random: &mut Random, least: u64, most: u64) -> u64 {
    least + random.number() % (most - least + 1)
}

impl Setup {
    pub fn random(random: &mut Random) -> Setup {
        let disks = Disks { guests: draw(random, 2, 4), blocks: draw(random, 1, 24) };
        let settings = Settings {
            capacity: draw(random, 1, 12),
            small_ratio: draw(random, 0, 10) as f64 / 10.0,
            ghost_ratio: draw(random, 0, 20) as f64 / 10.0,
        };
        Setup { settings, disks, physical_blocks: disks.size() + draw(random, 0, disks.size()) }
    }

    pub fn random_event(&self, random: &mut Random) -> Event {
        let guest = draw(random, 0, self.disks.guests - 1);
        let block = Disks::block(guest, draw(random, 0, self.disks.blocks - 1));
        match draw(random, 0, 63) {
            0..=23 => Event::Write(block),
            24..=43 => Event::Read(block),
            44..=49 => Event::Move(block),
            50..=55 => Event::Trim(block),
            56..=59 => Event::Evict,
            60..=62 => Event::Sweep,
            _ if draw(random, 0, 1) == 0 => Event::Restart(Emptying::ByRemoving),
            _ => Event::Restart(Emptying::ByEvicting),
        }
    }
}

/// A physical block that was given out although it belongs to another guest.
#[derive(Clone, Copy, Debug, PartialEq, Eq)]
pub struct Shared {
    pub physical: PhysicalBlock,
    pub owner: GuestBlock,
    pub given_to: GuestBlock,
}

impl fmt::Display for Shared {
    fn fmt(&self, f: &mut fmt::Formatter<'_>) -> fmt::Result {
        write!(f, "{} belongs to {} and to {}", self.physical, name(self.owner), name(self.given_to))
    }
}

/// What a run came to.
#[derive(Clone, Debug, Default)]
pub struct Outcome {
    /// What became of each event, for people.
    pub log: Vec<String>,
    pub given_out: u64,
    pub pairs_written: u64,
    pub sweeps: u64,
    pub restarts: u64,
    /// The first block that belongs to two guests.
    pub shared: Option<Shared>,
    /// The first guest block that was found elsewhere than where it is.
    pub lost: Option<GuestBlock>,
}

/// Who was given which block and has not given it back.
#[derive(Default)]
struct Owners {
    block_of: HashMap<GuestBlock, PhysicalBlock>,
}

impl Owners {
    fn of(&self, physical: PhysicalBlock) -> Option<GuestBlock> {
        self.block_of.iter().find(|(_, owned)| **owned == physical).map(|(guest, _)| *guest)
    }
}

/// Runs the events to the end, or until a block belongs to two guests.
pub fn run<C: BlockCache>(setup: Setup, events: &[Event], map: &Path) -> Result<Outcome> {
    let mut host: Host<C> = Host::start(setup.settings, setup.disks, setup.physical_blocks, map)?;
    let mut owners = Owners::default();
    let mut outcome = Outcome::default();
    for event in events {
        let written_before = host.pairs_written;
        let place;
        (host, place) = step(host, *event, &mut owners, &mut outcome)?;
        outcome.log.push(told(*event, place, host.pairs_written - written_before));
        if outcome.shared.is_some() {
            break;
        }
    }
    outcome.pairs_written = host.pairs_written;
    Ok(outcome)
}

/// Has the host do what the event says, and books what it answers. Answers the host again and the block's place.
fn step<C: BlockCache>(
    mut host: Host<C>,
    event: Event,
    owners: &mut Owners,
    outcome: &mut Outcome,
) -> Result<(Host<C>, Option<PhysicalBlock>)> {
    let mut place = None;
    match event {
        Event::Read(guest) => {
            place = host.read(guest)?;
            outcome.compare(guest, place, owners.block_of.get(&guest).copied());
        },
        Event::Write(guest) => {
            let owned = owners.block_of.get(&guest).copied();
            place = host.write(guest)?;
            match owned {
                Some(_) => outcome.compare(guest, place, owned),
                None => outcome.book(guest, place, owners),
            }
        },
        Event::Move(guest) => {
            place = host.give_out(guest)?;
            outcome.book(guest, place, owners);
        },
        Event::Trim(guest) => {
            host.trim(guest)?;
            owners.block_of.remove(&guest);
        },
        Event::Evict => host.evict_one()?,
        Event::Sweep => {
            host.sweep()?;
            outcome.sweeps += 1;
        },
        Event::Restart(emptying) => {
            host = host.restart(emptying)?;
            outcome.restarts += 1;
        },
    }
    Ok((host, place))
}

/// What became of an event: where the block is, and how many pairs reached the map.
fn told(event: Event, place: Option<PhysicalBlock>, written: u64) -> String {
    let place = match (event, place) {
        (_, Some(physical)) => physical.to_string(),
        (Event::Read(_), None) => "nowhere".to_owned(),
        (Event::Write(_) | Event::Move(_), None) => "no block is free".to_owned(),
        _ => String::new(),
    };
    let pairs = match written {
        0 if place.is_empty() => "no pair written".to_owned(),
        0 => String::new(),
        1 => "1 pair written".to_owned(),
        more => format!("{more} pairs written"),
    };
    [place, pairs].into_iter().filter(|part| !part.is_empty()).collect::<Vec<_>>().join(", ")
}

impl Outcome {
    /// A block was given out to a guest, who may have had another before.
    fn book(&mut self, guest: GuestBlock, given: Option<PhysicalBlock>, owners: &mut Owners) {
        let Some(physical) = given else { return };
        self.given_out += 1;
        match owners.of(physical) {
            Some(owner) if Disks::guest_of(owner) != Disks::guest_of(guest) => {
                self.shared = Some(Shared { physical, owner, given_to: guest });
            },
            Some(owner) => self.lost = self.lost.or(Some(owner)),
            None => {},
        }
        owners.block_of.insert(guest, physical);
    }

    fn compare(&mut self, guest: GuestBlock, found: Option<PhysicalBlock>, owned: Option<PhysicalBlock>) {
        if found != owned {
            self.lost = self.lost.or(Some(guest));
        }
    }
}
