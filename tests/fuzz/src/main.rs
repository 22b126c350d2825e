//! Bad input at scale: calls of the archive with stores of every kind of damage, requests cut and garbled, streams fed in
//! pieces with carries that no feed left, and every ratio and buffer length around each limit, in buffers that end at
//! unreadable pages. Each call's answer, replies, store and carry are held to what the rules give, worked out here from the
//! bytes anew; a refused call must change nothing, no call may touch anything else, and a store that a call left must be
//! accepted by the next.

mod calls;
mod carry;
mod carry_damage;
mod damage;
mod edit;
mod feed_limits;
mod feed_tally;
mod feeding;
mod guard;
mod input;
mod layout;
mod limits;
mod state;
mod stream;
mod streams;
mod tally;
mod verdict;
mod watch;

use calls::{Calls, MOST_REPLIES, MOST_REQUESTS, MOST_STORE};
use common::Random;
use common::program::Options;
use std::process::ExitCode;
use streams::{STREAMS, Stream};
use tally::Tally;
use verdict::{MOST_REQUEST_BYTES, STORE_BYTES, Verdict, reply_room};

const HELP: &str = "usage: mapcache-fuzz [--seed N] [--calls N]
Calls the archive with damaged stores, bad requests and buffers of all lengths, and checks every answer.
  --seed N   the seed (1)
  --calls N  how many calls at least (100000)
Exit status: 0 every call did what it must; 1 one did not, or something was never met; 2 bad usage.";

fn main() -> ExitCode {
    match options() {
        Ok((seed, least)) => fuzz(seed, least),
        Err(status) => status,
    }
}

fn options() -> Result<(u64, u64), ExitCode> {
    let options = Options::read("fuzz", HELP, &["--seed", "--calls"])?;
    Ok((options.number("--seed", 1)?, options.number("--calls", 100_000)?))
}

fn fuzz(seed: u64, least: u64) -> ExitCode {
    watch::start(seed);
    let mut fuzzer = Fuzzer::new(seed);
    if let Err(problem) = fuzzer.go(least) {
        eprintln!("fuzz: {problem} (seed {seed}, call {})", fuzzer.calls.made);
        return ExitCode::FAILURE;
    }
    println!("fuzz: seed {seed}, {} calls, each as it must be", fuzzer.calls.made);
    println!("  stores of accepted calls, each accepted again: {}", fuzzer.calls.made_again);
    fuzzer.tally.print();
    let missing = fuzzer.tally.missing();
    for problem in &missing {
        eprintln!("fuzz: {problem}: these calls do not show enough");
    }
    ExitCode::from(u8::from(!missing.is_empty()))
}

/// A sound store that goes on from call to call, the streams that are fed to it, and an earlier store.
struct Fuzzer {
    random: Random,
    calls: Calls,
    tally: Tally,
    store: Vec<u8>,
    earlier: Vec<u8>,
    keys: u64,
    streams: [Stream; STREAMS],
}

impl Fuzzer {
    fn new(seed: u64) -> Fuzzer {
        let mut random = Random::new(seed);
        let streams = [(); STREAMS].map(|()| Stream::new(&mut random));
        Fuzzer {
            random,
            calls: Calls::new(),
            tally: Tally::default(),
            store: Vec::new(),
            earlier: Vec::new(),
            keys: 0,
            streams,
        }
    }

    fn go(&mut self, least: u64) -> Result<(), String> {
        if mapcache::store_bytes() != STORE_BYTES {
            return Err(format!(
                "a store needs {} bytes by the archive, {STORE_BYTES} by docs/STORE.md",
                mapcache::store_bytes()
            ));
        }
        limits::all(&mut self.calls, &mut self.tally, &mut self.random)?;
        feed_limits::all(&mut self.calls, &mut self.tally, &mut self.random)?;
        self.new_store()?;
        self.earlier = self.store.clone();
        while self.calls.made < least {
            match self.random.below(32) {
                0 => self.new_store()?,
                1 => self.any_creation()?,
                2..=6 => self.sound_call()?,
                7..=9 => self.bad_requests()?,
                10 => self.bad_lengths()?,
                11..=19 => self.damaged_store()?,
                20..=28 => self.feed()?,
                _ => self.finish()?,
            }
        }
        Ok(())
    }

    /// A fresh cache takes the place of the store, which becomes the earlier one.
    fn new_store(&mut self) -> Result<(), String> {
        let settings = input::fit_settings(&mut self.random);
        self.earlier = std::mem::take(&mut self.store);
        let surplus = if self.random.below(4) == 0 { self.random.index(MOST_STORE - STORE_BYTES) } else { 0 };
        self.store = vec![0; STORE_BYTES + surplus];
        self.random.fill(&mut self.store);
        self.keys = settings.capacity * 2 + 2;
        let verdict = self.calls.create(settings, &mut self.store, &mut self.random)?;
        self.tally.creation(&verdict);
        // mostly filled, so that there is something to damage
        let count = self.random.below(3 * settings.capacity.min(400)) + 1;
        let requests = input::requests(&mut self.random, self.keys, count);
        self.run_on_the_store(&requests)
    }

    fn any_creation(&mut self) -> Result<(), String> {
        let settings = input::settings(&mut self.random);
        let len = self.random.pick(&[
            0,
            64,
            STORE_BYTES - 1,
            STORE_BYTES,
            STORE_BYTES,
            STORE_BYTES,
            STORE_BYTES + 1,
            MOST_STORE,
        ]);
        let mut store = vec![0; len];
        self.random.fill(&mut store);
        let verdict = self.calls.create(settings, &mut store, &mut self.random)?;
        self.tally.creation(&verdict);
        Ok(())
    }

    fn run_on_the_store(&mut self, requests: &[u8]) -> Result<(), String> {
        let room = reply_room(requests).unwrap_or(0);
        let verdict = self.calls.run(&mut self.store, requests, room + self.random.index(3), &mut self.random)?;
        self.tally.run(&verdict);
        Ok(())
    }

    fn some_requests(&mut self) -> Vec<u8> {
        if self.random.below(400) == 0 {
            return input::longest_requests(&mut self.random, self.keys);
        }
        let count = self.random.below(20);
        input::requests(&mut self.random, self.keys, count)
    }

    fn sound_call(&mut self) -> Result<(), String> {
        let requests = self.some_requests();
        self.run_on_the_store(&requests)
    }

    fn bad_requests(&mut self) -> Result<(), String> {
        let requests = input::bad_requests(&mut self.random, self.keys);
        let replies_len = self.random.index(600);
        let verdict = self.calls.run(&mut self.store, &requests, replies_len, &mut self.random)?;
        self.tally.run(&verdict);
        Ok(())
    }

    /// Sound requests on a sound store, in buffers that are too short or too long.
    fn bad_lengths(&mut self) -> Result<(), String> {
        let mut requests = self.some_requests();
        if self.random.below(8) == 0 {
            requests.resize(MOST_REQUEST_BYTES + 1 + self.random.index(MOST_REQUESTS - MOST_REQUEST_BYTES), b'C');
        }
        let room = reply_room(&requests).unwrap_or(100);
        let replies_len = match self.random.below(3) {
            0 => room.saturating_sub(1 + self.random.index(30)),
            1 => self.random.index(room + 1),
            _ => (room + self.random.index(5000)).min(MOST_REPLIES),
        };
        let len = if self.random.below(4) == 0 { self.random.index(STORE_BYTES) } else { self.store.len() };
        let verdict = self.calls.run(&mut self.store[..len], &requests, replies_len, &mut self.random)?;
        self.tally.run(&verdict);
        Ok(())
    }

    /// A copy of the store, damaged. Where it is still sound it must do what its own state says.
    fn damaged_store(&mut self) -> Result<(), String> {
        let kind = self.random.pick(&damage::KINDS);
        let mut store = self.store.clone();
        let times = if self.random.below(4) == 0 { 2 } else { 1 };
        for _ in 0..times {
            if layout::state(&store).is_some() {
                damage::inflict(kind, &mut store, &self.earlier, &mut self.random);
            }
        }
        let requests = self.some_requests();
        let room = reply_room(&requests).unwrap_or(0);
        let verdict = self
            .calls
            .run(&mut store, &requests, room, &mut self.random)
            .map_err(|problem| format!("{kind:?}: {problem}"))?;
        self.tally.run(&verdict);
        self.tally.damage(kind, &verdict);
        if let Verdict::Done { .. } = verdict {
            self.store = store;
        }
        Ok(())
    }
}
