//! The cache's state as plain lists, and its rules on them: slow, short, and with nothing in common with the archive.
//! Part of the judge: the types and the records are written again here on purpose, as `verdict` says.

use std::collections::VecDeque;

#[derive(Clone, Copy, Debug, PartialEq, Eq)]
pub struct Entry {
    pub key: u64,
    pub value: u64,
    pub frequency: u8,
}

/// Queues head first, ghosts newest first.
#[derive(Clone, Debug, PartialEq, Eq)]
pub struct State {
    pub capacity: u64,
    pub small_limit: u64,
    pub ghost_limit: u64,
    pub small: VecDeque<Entry>,
    pub main: VecDeque<Entry>,
    pub ghosts: VecDeque<u64>,
}

#[derive(Clone, Copy, PartialEq, Eq)]
enum Queue {
    Small,
    Main,
}

const MAX_FREQ: u8 = 3;

impl State {
    pub fn empty(capacity: u64, small_limit: u64, ghost_limit: u64) -> State {
        State {
            capacity,
            small_limit,
            ghost_limit,
            small: VecDeque::new(),
            main: VecDeque::new(),
            ghosts: VecDeque::new(),
        }
    }

    /// Runs requests that are known to be whole records, and answers the reply bytes.
    pub fn run(&mut self, requests: &[u8]) -> Vec<u8> {
        let mut replies = Vec::new();
        let mut rest = requests;
        while !rest.is_empty() {
            rest = self.request(rest, &mut replies);
        }
        replies
    }

    fn request<'a>(&mut self, record: &'a [u8], out: &mut Vec<u8>) -> &'a [u8] {
        let number = |n: usize| u64::from_le_bytes(record[2 + 8 * n..10 + 8 * n].try_into().expect("8 bytes"));
        match &record[..2] {
            b"GT" => self.get(number(0), true, out),
            b"PK" => self.get(number(0), false, out),
            b"RM" => self.remove(number(0), out),
            b"IN" => self.insert(number(0), number(1), out),
            b"EV" => self.evict_one(out),
            _ => self.clear(out),
        }
        let bytes = match &record[..2] {
            b"IN" => 18,
            b"EV" | b"CL" => 2,
            _ => 10,
        };
        &record[bytes..]
    }

    fn find(&mut self, key: u64) -> Option<&mut Entry> {
        self.small.iter_mut().chain(self.main.iter_mut()).find(|entry| entry.key == key)
    }

    fn get(&mut self, key: u64, warms: bool, out: &mut Vec<u8>) {
        match self.find(key) {
            Some(entry) => {
                reply(out, b"HI", &[entry.value]);
                if warms {
                    entry.frequency = MAX_FREQ.min(entry.frequency + 1);
                }
            },
            None => reply(out, b"MI", &[]),
        }
    }

    fn remove(&mut self, key: u64, out: &mut Vec<u8>) {
        match self.find(key).map(|entry| entry.value) {
            Some(value) => {
                self.small.retain(|entry| entry.key != key);
                self.main.retain(|entry| entry.key != key);
                reply(out, b"GO", &[value]);
            },
            None => reply(out, b"MI", &[]),
        }
    }

    fn insert(&mut self, key: u64, value: u64, out: &mut Vec<u8>) {
        if let Some(entry) = self.find(key) {
            reply(out, b"RE", &[entry.value]);
            entry.value = value;
            entry.frequency = MAX_FREQ.min(entry.frequency + 1);
            return;
        }
        let ghosts_before = self.ghosts.len();
        self.ghosts.retain(|ghost| *ghost != key);
        let was_ghost = self.ghosts.len() < ghosts_before;
        let pops = self.evict_if_full(out);
        let queue = if was_ghost { &mut self.main } else { &mut self.small };
        queue.push_front(Entry { key, value, frequency: 0 });
        reply(out, b"NW", &[pops]);
    }

    fn evict_if_full(&mut self, out: &mut Vec<u8>) -> u64 {
        let mut pops = 0;
        if ((self.small.len() + self.main.len()) as u64) < self.capacity {
            return pops;
        }
        loop {
            pops += 1;
            let from = if self.small.len() as u64 > self.small_limit || self.main.is_empty() {
                Queue::Small
            } else {
                Queue::Main
            };
            let entry = self.pop(from).expect("a full cache has a resident");
            if entry.frequency > 0 {
                self.put_back(from, entry);
                continue;
            }
            match from {
                Queue::Small => {
                    reply(out, b"ES", &[entry.key, entry.value]);
                    self.record_ghost(entry.key);
                },
                Queue::Main => reply(out, b"EM", &[entry.key, entry.value]),
            }
            return pops;
        }
    }

    fn pop(&mut self, from: Queue) -> Option<Entry> {
        match from {
            Queue::Small => self.small.pop_back(),
            Queue::Main => self.main.pop_back(),
        }
    }

    fn put_back(&mut self, from: Queue, mut entry: Entry) {
        entry.frequency = if from == Queue::Small { 0 } else { entry.frequency - 1 };
        self.main.push_front(entry);
    }

    fn record_ghost(&mut self, key: u64) {
        if self.ghost_limit == 0 {
            return;
        }
        self.ghosts.retain(|ghost| *ghost != key);
        if self.ghosts.len() as u64 >= self.ghost_limit {
            self.ghosts.pop_back();
        }
        self.ghosts.push_front(key);
    }

    fn evict_one(&mut self, out: &mut Vec<u8>) {
        self.evict_if_full(out);
        let from = if self.small.is_empty() { Queue::Main } else { Queue::Small };
        let mut popped = self.pop(from);
        if let Some(warm) = popped.filter(|entry| entry.frequency > 0) {
            self.put_back(from, warm);
            popped = self.pop(Queue::Main);
        }
        match popped {
            Some(entry) if entry.frequency > 0 => {
                self.put_back(Queue::Main, entry);
                reply(out, b"MI", &[]);
            },
            Some(entry) => reply(out, b"EX", &[entry.key, entry.value]),
            None => reply(out, b"MI", &[]),
        }
    }

    fn clear(&mut self, out: &mut Vec<u8>) {
        *self = State::empty(self.capacity, self.small_limit, self.ghost_limit);
        reply(out, b"OK", &[]);
    }
}

fn reply(out: &mut Vec<u8>, mark: &[u8; 2], numbers: &[u64]) {
    out.extend_from_slice(mark);
    for number in numbers {
        out.extend_from_slice(&number.to_le_bytes());
    }
}
