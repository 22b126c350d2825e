//! What the original's ghost list answers by itself: operations in the bytes that the program `ghosts` reads, and the lines
//! that it must print.

use common::Random;
use original::ds::GhostList;
use std::fmt;

/// The program reads no more than this.
const MOST_INPUT: usize = 65_536;

/// A ghost limit, how many lists have it, and how many random operations each of them takes.
const LISTS: [(u64, u64, u64); 7] =
    [(0, 2, 30), (1, 5, 60), (2, 5, 60), (3, 5, 60), (8, 5, 100), (100, 3, 150), (1024, 2, 520)];

#[derive(Clone, Copy)]
enum Operation {
    New(u64),
    Record(u64),
    Remove(u64),
    Oldest,
    Clear,
}

#[derive(Default)]
struct Counts {
    lists: usize,
    records: usize,
    removes: usize,
    oldest: usize,
    clears: usize,
}

/// Operations and the original's answers, a line to each.
pub struct Recorded {
    pub input: Vec<u8>,
    pub output: String,
    counts: Counts,
    list: GhostList<u64>,
}

pub fn recorded(random: &mut Random) -> Recorded {
    let mut to =
        Recorded { input: Vec::new(), output: String::new(), counts: Counts::default(), list: GhostList::new(0) };
    for (limit, times, count) in LISTS {
        (1..times).for_each(|_| add_list(&mut to, limit, false, count, random));
        add_list(&mut to, limit, true, count, random);
    }
    assert!(to.input.len() <= MOST_INPUT, "the program reads fewer operations");
    to
}

/// A list that is filled, and maybe cleared; then random operations; at the end all that is left, oldest first, and one more.
fn add_list(to: &mut Recorded, limit: u64, cleared: bool, count: u64, random: &mut Random) {
    to.add(Operation::New(limit));
    (0..limit).for_each(|key| to.add(Operation::Record(key)));
    if cleared {
        to.add(Operation::Clear);
    }
    (0..count).for_each(|_| to.add(any(limit, random)));
    (0..=to.list.len()).for_each(|_| to.add(Operation::Oldest));
}

/// Mostly keys that are recorded, so that a list stays full. A long one is seldom cleared, since it takes long to fill.
fn any(limit: u64, random: &mut Random) -> Operation {
    if random.one_in(16 * (limit + 1)) {
        return Operation::Clear;
    }
    let key = any_key(limit, random);
    match random.below(16) {
        0..=11 => Operation::Record(key),
        12..=14 => Operation::Remove(key),
        _ => Operation::Oldest,
    }
}

/// One of about twice as many keys as the list has room for: those from 0 on, and the largest.
fn any_key(limit: u64, random: &mut Random) -> u64 {
    let others = 2 * limit + 2;
    match random.between(0, others) {
        key if key == others => u64::MAX,
        key => key,
    }
}

impl Recorded {
    fn add(&mut self, operation: Operation) {
        let (letter, number) = operation.record();
        self.input.push(letter);
        self.input.extend_from_slice(&number.to_le_bytes());
        let answer = self.answer(operation);
        self.output.push_str(&answer);
        self.output.push('\n');
    }

    fn answer(&mut self, operation: Operation) -> String {
        let dropped = |key: Option<u64>| key.map_or("nothing".to_string(), |key| format!("dropped {key}"));
        match operation {
            Operation::New(limit) => {
                self.counts.lists += 1;
                self.list = GhostList::new(usize::try_from(limit).expect("a limit is small"));
                format!("new {limit}")
            },
            Operation::Record(key) => {
                self.counts.records += 1;
                dropped(self.list.record(key))
            },
            Operation::Remove(key) => {
                self.counts.removes += 1;
                if self.list.remove(&key) { "was there" } else { "was not there" }.to_string()
            },
            Operation::Oldest => {
                self.counts.oldest += 1;
                dropped(self.list.evict_lru())
            },
            Operation::Clear => {
                self.counts.clears += 1;
                self.list.clear();
                "cleared".to_string()
            },
        }
    }
}

impl fmt::Display for Recorded {
    fn fmt(&self, f: &mut fmt::Formatter<'_>) -> fmt::Result {
        let Counts { lists, records, removes, oldest, clears } = self.counts;
        let all = lists + records + removes + oldest + clears;
        write!(
            f,
            "{all} operations ({lists} new, {records} record, {removes} remove, {oldest} evict_lru, {clears} clear)"
        )
    }
}

impl Operation {
    /// A letter and a number.
    fn record(self) -> (u8, u64) {
        match self {
            Operation::New(limit) => (b'N', limit),
            Operation::Record(key) => (b'R', key),
            Operation::Remove(key) => (b'D', key),
            Operation::Oldest => (b'E', 0),
            Operation::Clear => (b'C', 0),
        }
    }
}
