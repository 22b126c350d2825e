//! Counts what the runs came across. A kind of event that never came up would mean that nothing was compared there.

use crate::pair::Agreed;
use mapcache::{GuestBlock, MOST_REQUEST_BYTES, PhysicalBlock, Reply, Request};
use original::state::State;
use std::collections::{BTreeMap, BTreeSet};

pub struct Tally {
    counts: BTreeMap<&'static str, u64>,
    capacities: BTreeSet<u64>,
    small_limits: BTreeSet<u64>,
    ghost_limits: BTreeSet<u64>,
}

/// Each must come up.
const EVENTS: [&str; 57] = [
    "calls",
    "calls of no request",
    "calls of one request",
    "calls of 2 to 99 requests",
    "calls of 100 requests or more",
    "calls of 32,768 request bytes",
    "requests",
    "requests GT",
    "requests PK",
    "requests RM",
    "requests IN",
    "requests EV",
    "requests CL",
    "request keys 0",
    "request keys 2^64 - 1",
    "request values 0",
    "request values 2^64 - 1",
    "GT: HI",
    "GT: MI",
    "PK: HI",
    "PK: MI",
    "RM: GO",
    "RM: MI",
    "IN: RE",
    "IN: NW 0",
    "IN: ES, NW 1",
    "IN: ES, NW 2 or more",
    "IN: EM, NW 1",
    "IN: EM, NW 2 or more",
    "IN: NW 10 or more",
    "IN: ghost hits",
    "EV: EX",
    "EV: MI",
    "EV: ES, EX",
    "EV: ES, MI",
    "EV: EM, EX",
    "EV: EM, MI",
    "CL: OK",
    "states: full",
    "states: empty",
    "states: Small above its limit",
    "states: Main empty, Small not",
    "states: ghosts full",
    "states: some frequency 3",
    "states: no ghosts allowed",
    "requests fed",
    "pieces fed",
    "pieces of no byte",
    "pieces of 32,768 bytes",
    "pieces that end in a mark",
    "pieces that end in a record",
    "pieces fed to a stopped stream",
    "streams stopped by a piece with replies",
    "streams stopped by a piece without replies",
    "streams finished, complete",
    "streams finished, cut",
    "streams finished, stopped",
];

impl Tally {
    pub fn new() -> Tally {
        Tally {
            counts: EVENTS.into_iter().map(|event| (event, 0)).collect(),
            capacities: BTreeSet::new(),
            small_limits: BTreeSet::new(),
            ghost_limits: BTreeSet::new(),
        }
    }

    pub fn call(&mut self, requests: &[Request], agreed: &Agreed) {
        self.count("calls");
        match requests.len() {
            0 => self.count("calls of no request"),
            1 => self.count("calls of one request"),
            2..=99 => self.count("calls of 2 to 99 requests"),
            _ => self.count("calls of 100 requests or more"),
        }
        if requests.iter().map(Request::bytes).sum::<usize>() == MOST_REQUEST_BYTES {
            self.count("calls of 32,768 request bytes");
        }
        let replies = Reply::read_all(agreed.replies).expect("replies equal to the original's are records");
        let mut rest = replies.as_slice();
        for request in requests {
            self.request(*request);
            let reports = rest.iter().position(|reply| !is_report(reply)).expect("each request closes with one record");
            self.replies(*request, &rest[..=reports]);
            rest = &rest[reports + 1..];
        }
        assert!(rest.is_empty(), "each reply belongs to a request");
        self.add("IN: ghost hits", agreed.ghost_hits);
        self.state(&agreed.state);
        agreed.fed.iter().for_each(|(event, times)| self.add(event, *times));
    }

    fn request(&mut self, request: Request) {
        self.count("requests");
        let guest = match request {
            Request::Get(guest) | Request::Peek(guest) | Request::Remove(guest) | Request::Insert(guest, _) => guest,
            _ => return,
        };
        match guest {
            GuestBlock(0) => self.count("request keys 0"),
            GuestBlock(u64::MAX) => self.count("request keys 2^64 - 1"),
            _ => {},
        }
        match request {
            Request::Insert(_, PhysicalBlock(0)) => self.count("request values 0"),
            Request::Insert(_, PhysicalBlock(u64::MAX)) => self.count("request values 2^64 - 1"),
            _ => {},
        }
    }

    fn replies(&mut self, request: Request, replies: &[Reply]) {
        use Reply::{Done, Gone, HandedBack, Hit, LeftMain, LeftSmall, New, Nothing, Replaced};
        let (kind, event) = match (request, replies) {
            (Request::Get(_), [Hit(_)]) => ("requests GT", "GT: HI"),
            (Request::Get(_), [Nothing]) => ("requests GT", "GT: MI"),
            (Request::Peek(_), [Hit(_)]) => ("requests PK", "PK: HI"),
            (Request::Peek(_), [Nothing]) => ("requests PK", "PK: MI"),
            (Request::Remove(_), [Gone(_)]) => ("requests RM", "RM: GO"),
            (Request::Remove(_), [Nothing]) => ("requests RM", "RM: MI"),
            (Request::Insert(..), [Replaced(_)]) => ("requests IN", "IN: RE"),
            (Request::Insert(..), [New { pops: 0 }]) => ("requests IN", "IN: NW 0"),
            (Request::Insert(..), [LeftSmall(_), New { pops: 1 }]) => ("requests IN", "IN: ES, NW 1"),
            (Request::Insert(..), [LeftSmall(_), New { .. }]) => ("requests IN", "IN: ES, NW 2 or more"),
            (Request::Insert(..), [LeftMain(_), New { pops: 1 }]) => ("requests IN", "IN: EM, NW 1"),
            (Request::Insert(..), [LeftMain(_), New { .. }]) => ("requests IN", "IN: EM, NW 2 or more"),
            (Request::Evict, [HandedBack(_)]) => ("requests EV", "EV: EX"),
            (Request::Evict, [Nothing]) => ("requests EV", "EV: MI"),
            (Request::Evict, [LeftSmall(_), HandedBack(_)]) => ("requests EV", "EV: ES, EX"),
            (Request::Evict, [LeftSmall(_), Nothing]) => ("requests EV", "EV: ES, MI"),
            (Request::Evict, [LeftMain(_), HandedBack(_)]) => ("requests EV", "EV: EM, EX"),
            (Request::Evict, [LeftMain(_), Nothing]) => ("requests EV", "EV: EM, MI"),
            (Request::Clear, [Done]) => ("requests CL", "CL: OK"),
            _ => panic!("{request} has the replies {replies:?}, which belong to no request of its kind"),
        };
        self.count(kind);
        self.count(event);
        if let Some(New { pops: 10.. }) = replies.last() {
            self.count("IN: NW 10 or more");
        }
    }

    fn state(&mut self, state: &State) {
        self.capacities.insert(state.capacity);
        self.small_limits.insert(state.small_limit);
        self.ghost_limits.insert(state.ghost_limit);
        let (small, main) = (state.small.len() as u64, state.main.len() as u64);
        self.count_if(small + main == state.capacity, "states: full");
        self.count_if(small + main == 0, "states: empty");
        self.count_if(small > state.small_limit, "states: Small above its limit");
        self.count_if(main == 0 && small > 0, "states: Main empty, Small not");
        self.count_if(state.ghost_limit > 0 && state.ghosts.len() as u64 == state.ghost_limit, "states: ghosts full");
        self.count_if(state.main.iter().chain(&state.small).any(|e| e.frequency == 3), "states: some frequency 3");
        self.count_if(state.ghost_limit == 0, "states: no ghosts allowed");
    }

    /// Prints all counts. The error names what never came up.
    pub fn report(&self) -> Result<(), String> {
        for event in EVENTS {
            println!("{:>12}  {event}", self.counts[event]);
        }
        let mut missing: Vec<String> =
            EVENTS.iter().filter(|event| self.counts[**event] == 0).map(|event| event.to_string()).collect();
        for (name, seen, wanted) in [
            ("capacities", &self.capacities, 1..=1024),
            ("Small limits", &self.small_limits, 0..=1024),
            ("ghost limits", &self.ghost_limits, 0..=1024),
        ] {
            println!("{:>12}  different {name}, of {wanted:?}", seen.len());
            missing.extend(wanted.filter(|n| !seen.contains(n)).map(|n| format!("{name}: {n}")));
        }
        match missing.is_empty() {
            true => Ok(()),
            false => Err(format!("never came up: {}", missing.join("; "))),
        }
    }

    fn count_if(&mut self, condition: bool, event: &'static str) {
        if condition {
            self.count(event);
        }
    }

    fn count(&mut self, event: &'static str) {
        self.add(event, 1);
    }

    fn add(&mut self, event: &'static str, times: u64) {
        *self.counts.get_mut(event).expect("each event that is counted is in the list") += times;
    }
}

fn is_report(reply: &Reply) -> bool {
    matches!(reply, Reply::LeftSmall(_) | Reply::LeftMain(_))
}
